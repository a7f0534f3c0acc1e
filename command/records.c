/* Files of records: written from a layout, and turned into the other kind. */
#include "command.h"

uint8_t kind_of(struct bytes file) { return file.len > 0 && (file.at[0] == 'S' || file.at[0] == 's'); }

/* A line of a file as it stands there, as far as it is shown, with what cannot be shown as ?. */
static const char *line_words(struct bytes line) {
    struct text t = {0};
    put(&t, "%s", "");
    for (size_t i = 0; i < line.len && t.len < 80; i++)
        if (line.at[i] != '\r') put(&t, "%c", line.at[i] >= ' ' && line.at[i] <= '~' ? line.at[i] : '?');
    return t.at;
}

/* What a reason adds to its words: how lines begin, or which types are read. */
static const char *reason_note(uint8_t kind, const struct dk_reason *r) {
    if (r->reason == 1) return kind ? "S" : "a colon";
    if (r->reason != 6) return "";
    return kind ? shown("S%c (there are S0, S1 with S9, and S3 with S7)", r->first < 256 && r->first >= 32 ? (int)r->first : '?')
                : shown("%02X (there are 00, 01 and 04)", (unsigned)r->first);
}

/* Why a file of records is bad: its line, one cause, the line's text, and what to do. */
static const char *reason_words(const struct source *f) {
    struct dk_reason r = proved_reason(f);
    struct said s = {.n = {(long long)r.first, (long long)r.second}, .note = reason_note(f->kind, &r)};
    const char *line = line_words(line_at(f->file, r.line));
    int is_other = r.reason == 1 && f->kind == 0 && kind_of(f->file);
    enum cause cause = has_mark(f->file) ? RECORDS_MARK : is_other ? RECORDS_SREC : (enum cause)(REASON_1 + r.reason - 1);
    if (r.reason == 2 || r.reason == 11) s.n[0]++; /* characters and lines as people count them */
    const char *words = words_with(cause, &s, *line && r.reason < 13 ? shown(": \"%s\"", line) : "");
    return shown("line %llu: %s", (unsigned long long)r.line + 1, cause == REASON_1 && !*line ? "a blank line" : words);
}

const char *unread(const struct source *f, int number, int has_line) {
    struct said s = {.n = {(long long)f->limit, (long long)f->reach, 0}};
    if (number == 4 && has_line) return reason_words(f);
    if (number != 14) return words_of(RECORDS_LONG, &s);
    uint32_t load = proved_lowest(f->file, f->kind);
    s.n[2] = load;
    return words_of(load > f->load && proved_reads(f, load) ? RECORDS_LOW : RECORDS_ROOM, &s);
}

const char *ragged(const struct layout *l) {
    const struct blocks *b = &l->built.blocks;
    long long node = 0;
    size_t at = 0;
    while (at < b->count && b->starts[at] % 8 == 0 && b->sizes[at] % 8 == 0) at++;
    if (at >= b->count) return "";
    long long first = (long long)b->starts[at], last = first + (long long)b->sizes[at] - 1;
    while (node < l->shown && !(is_written(l, node) && l->node[node].bits > 0 && l->node[node].output == first)) node++;
    const char *item = node < l->shown ? shown(", from %s on", called_node(l, node)) : "";
    return shown("block %d (output bits %lld..%lld%s)", (int)at, first, last, item);
}

/* The records of a layout: by the proved text function, or, where other room is asked for than it lends, by the proved calls one after the other. */
static int do_records(struct asked *asked, uint8_t format) {
    struct bytes file = read_input(asked->file[0], LAYOUT_MAX), text = proved_records(file, asked, format);
    struct refusal r = refusal_of(text);
    int of_records = begins(line_at(text, 1), "records");
    if (asked->given & ROOM) {
        struct built b = proved_build(file, asked);
        r = b.refusal;
        of_records = r.number == 0;
        if (of_records) text = proved_write(&b, asked, format, &r);
    }
    if (r.number == 0) return answer(text, asked->out);
    struct layout *l = open_layout(asked, 0, file);
    if (!of_records) return refuse(&r, refusal_words(l, &r, 0));
    if (r.number != 16) return refuse(&r, words_of(RECORDS_ADDRESS, &(struct said){0}));
    l->built = proved_build(file, asked);
    return refuse(&r, words_of(RECORDS_EDGES, &(struct said){.note = ragged(l)}));
}

int do_ihex(struct asked *asked) { return do_records(asked, 0); }
int do_srec(struct asked *asked) { return do_records(asked, asked->width ? asked->width : 4); }

int do_rehex(struct asked *asked) {
    if (asked->to && asked->to[0] == 'h' && asked->width) fail("--width is for S-records");
    struct source f = {read_input(asked->file[0], RECORDS_MAX), 0, asked->load, RECORDS_MAX, 1048576};
    f.kind = kind_of(f.file);
    int to_srec = asked->to ? asked->to[0] == 's' : !f.kind;
    if (!to_srec && asked->width) fail("--width is for S-records, and %s has some: Intel HEX comes out", called(asked->file[0]));
    if (!(asked->given & LOWEST)) f.load = f.file.len > RECORDS_MAX ? 0 : proved_lowest(f.file, f.kind);
    struct bytes text = proved_rehex(&f, !to_srec ? 0 : asked->width ? asked->width : 4);
    struct refusal r = refusal_of(text);
    int has_line = begins(line_at(text, 1), "line "), is_address = r.number == 4 && !has_line && f.file.len <= f.limit;
    if (r.number == 0) return answer(text, asked->out);
    return refuse(&r, is_address ? words_of(RECORDS_ADDRESS, &(struct said){0}) : unread(&f, r.number, has_line));
}
