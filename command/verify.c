/* What was flashed, read back and held against its layout: dk_verify says which bytes are not as they should be, and this file whose they are. */
#include "command.h"

/* Both sides, byte by byte from the load address on; `is_missing` where the dump gives no byte. */
struct both_sides {
    const struct asked *asked;
    struct layout *layout;
    struct bytes wanted, found;
    uint8_t *is_missing;
    struct text shown, runs, words; /* the last two as JSON */
    long long last; /* the word that was shown last, by its place in the output */
};

/* Bytes by their addresses in the device. */
static const char *device_words(const struct both_sides *b, long long first, long long last) {
    unsigned long long from = (unsigned long long)(b->asked->load + first), to = (unsigned long long)(b->asked->load + last);
    return to > from ? shown("0x%08llx..0x%08llx", from, to) : shown("0x%08llx", from);
}

static int is_missing(const struct both_sides *b, struct word w) {
    for (long long i = w.output / 8; i <= (w.output + w.bits - 1) / 8; i++)
        if (b->is_missing[i]) return 1;
    return 0;
}

/* The written item that has a bit of the output, or NONE; `next` is where it ends, or where the next one begins. */
static long long item_at(const struct layout *l, long long at, long long *next) {
    for (long long i = 0; i < l->shown; i++) {
        const struct node *n = &l->node[i];
        if (!is_written(l, i) || n->output == NONE || n->bits == 0) continue;
        int is_it = n->output <= at && at < n->output + n->bits;
        long long edge = is_it ? n->output + n->bits : n->output;
        if (edge > at && edge < *next) *next = edge;
        if (is_it) return i;
    }
    return NONE;
}

/* "curve (node 381), word 0x820" */
static void put_item(struct both_sides *b, long long node, const char *what, struct word w) {
    const char *number = has_name(b->layout, node) ? shown(" (node %lld)", node) : "";
    put(&b->shown, "%s%s, %s %s", called_node(b->layout, node), number, what, in_hex(w.address, w.past));
}

/* "curve (node 381), word 0x820: 03, should be 07 (0x00008821)"; in JSON what was found there is null where not all of it is given. */
static void put_different(struct both_sides *b, long long node, struct word w, int is_shown) {
    const char *found = is_missing(b, w) ? NULL : value(b->found, w.output, w.bits), *wanted = value(b->wanted, w.output, w.bits);
    json_node(&b->words, b->layout, node);
    json(&b->words, "'word':%lld,'past':%lld,'at':%lld,'found':%s,'wanted':'%s'}", w.address, w.past, b->asked->load + w.output / 8, quoted(found), wanted);
    if (!is_shown) return;
    put_item(b, node, "word", w);
    put(&b->shown, ": %s, should be %s (%s)\n", found ? found : "not given", wanted, device_words(b, w.output / 8, (w.output + w.bits - 1) / 8));
}

/* The words of an item between two bits of the output, each once. Of a run that is missing all but the first and the last are missing whole: one line. */
static void put_item_words(struct both_sides *b, long long node, long long from, long long to, int kind) {
    const struct node *n = &b->layout->node[node];
    struct word w = word_at(b->layout, node, 0), first = w, last = w;
    long long unit = b->layout->bank[n->bank].unit, count = 0, behind = from - n->output - w.bits;
    int is_row = kind == DK_MISSING && to - from > 2 * unit;
    for (long long done = behind < 0 ? 0 : w.bits + behind / unit * unit; n->output + done < to; done += w.bits) {
        w = word_at(b->layout, node, done);
        if (w.output <= b->last || (same_bits(b->wanted, w.output, b->found, w.output, w.bits) && !is_missing(b, w))) continue;
        put_different(b, node, w, !is_row);
        b->last = w.output;
        last = w;
        if (count++ == 0) first = w;
    }
    if (!is_row || count == 0) return;
    put_item(b, node, "words", first);
    put(&b->shown, "..%s: not given (%s)\n", in_hex(last.address, last.past), device_words(b, first.output / 8, (last.output + last.bits - 1) / 8));
}

/* Bytes that no item writes: gaps and fill, the first sixteen of them. */
static void put_gap(struct both_sides *b, long long from, long long to, int kind) {
    long long first = from / 8, last = (to - 1) / 8, count = last - first + 1, bits = 8 * (count < 16 ? count : 16);
    const char *more = count > 16 ? ".." : "", *words = "not given";
    if (kind == DK_DIFFERENT) words = shown("%s%s, should be %s%s", value(b->found, 8 * first, bits), more, value(b->wanted, 8 * first, bits), more);
    put(&b->shown, "no item, %s: %s (%s)\n", several(count, "byte"), words, device_words(b, first, last));
}

static void put_run(struct both_sides *b, long long first, long long count, int kind) {
    int is_missing_run = kind == DK_MISSING;
    long long end = 8 * (first + count);
    json(&b->runs, "{'kind':'%s','address':%lld,'count':%lld", is_missing_run ? "missing" : "different", b->asked->load + first, count);
    json(&b->runs, "'found':%s", is_missing_run ? "null" : shown("\"%s\"", value(b->found, 8 * first, 8 * count)));
    json(&b->runs, "'wanted':'%s'}", value(b->wanted, 8 * first, 8 * count));
    for (long long at = 8 * first, next; at < end; at = next) {
        next = end;
        long long node = item_at(b->layout, at, &next);
        if (node != NONE) put_item_words(b, node, at, next, kind);
        else if (is_missing_run || !same_bits(b->wanted, at, b->found, at, next - at)) put_gap(b, at, next, kind);
    }
}

/* What is not as it should be, both ways. Where the dump gives none of the image's bytes its lowest address is named: perhaps another --load was meant. It is
 * never taken by itself, since a dump that was shifted would then be the same. */
static const char *put_verified(struct both_sides *b, const struct verified *v, uint32_t lowest) {
    const char *dump = called(b->asked->file[1]);
    long long sums[3] = {0, 0, 0}, differ, missing;
    for (size_t i = 0; i < v->runs; i++) {
        sums[v->kind[i]] += (long long)v->count[i];
        if (v->kind[i] == DK_MISSING) memset(b->is_missing + v->first[i], 1, (size_t)v->count[i]);
    }
    differ = sums[DK_DIFFERENT], missing = sums[DK_MISSING];
    put(&b->shown, "%s: %s", dump, v->runs == 0 ? "the same, " : "");
    if (differ > 0) put(&b->shown, "%s %s%s", several(differ, "byte"), differ == 1 ? "differs" : "differ", missing > 0 ? ", " : ", of ");
    if (missing > 0) put(&b->shown, "%s %s not given, of ", several(missing, "byte"), missing == 1 ? "is" : "are");
    put(&b->shown, "%s\n", several(v->asked, "byte"));
    for (size_t i = 0; i < v->runs; i++) put_run(b, (long long)v->first[i], (long long)v->count[i], v->kind[i]);
    if (missing == 0 || missing < v->asked || lowest <= b->asked->load) return NULL;
    return shown("%s: its lowest address is 0x%lX: if the image begins there, say --load 0x%lX", dump, (unsigned long)lowest, (unsigned long)lowest);
}

/* Why nothing was verified: the layout's refusal, the dump's, or a block that is not of whole bytes. */
static const char *refused_words(const struct both_sides *b, const struct source *dump, const struct refusal *r) {
    if (b->layout->built.refusal.number) return refusal_words(b->layout, r, 0);
    if (r->number == 16) return words_of(VERIFY_EDGES, &(struct said){.note = ragged(b->layout)});
    return shown("%s: %s", called(b->asked->file[1]), unread(dump, r->number, r->number == 4 && dump->file.len <= dump->limit));
}

int do_verify(struct asked *asked) {
    struct bytes file = read_input(asked->file[0], LAYOUT_MAX);
    struct source dump = {read_input(asked->file[1], DUMP_MAX), 0, asked->load, DUMP_MAX, ROOM_MAX};
    struct both_sides b = {.asked = asked, .layout = open_layout(asked, 0, file), .last = NONE};
    struct built *built = &b.layout->built;
    struct verified v = {0};
    struct text object = {0};
    const char *words = NULL, *hint = NULL;
    *built = proved_build(file, asked);
    struct refusal r = built->refusal;
    dump.kind = kind_of(dump.file);
    uint32_t lowest = proved_lowest(dump.file, dump.kind);
    if (lowest < asked->load) dump.load = lowest;
    if (r.number == 0) v = proved_verify(built, &dump, asked, &r);
    b.wanted = built->image;
    b.found = v.found;
    b.is_missing = memory(b.wanted.len + 1, 1);
    json(&object, "{'layout':%s,'dump':%s,'load':%lu", quoted(called(asked->file[0])), quoted(called(asked->file[1])), (unsigned long)asked->load);
    json(&object, "'whole':%s", asked->given & WHOLE ? "true" : "false");
    if (r.number) words = refused_words(&b, &dump, &r);
    else {
        hint = put_verified(&b, &v, lowest);
        json(&object, "'bytes':%lld,'runs':[", v.asked);
        put_bytes(&object, b.runs.at, b.runs.len);
        json(&object, "],'words':[");
        put_bytes(&object, b.words.at, b.words.len);
        json(&object, "]");
    }
    int status = finish(asked, &b.shown, &object, &r, words, v.runs > 0);
    if (hint) tell_user("%s", hint);
    return status;
}
