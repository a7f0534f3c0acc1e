/* Reads a layout file of either form as far as it goes, and what the proved functions said of it. For words and tables alone: no answer stands on it. */
#include "command.h"

const char *const kind_words[11] = {"nothing",           "bank switch", "label", "constant", "instruction", "data",
                                    "data of open size", "reserve",     "align", "addr",     "assert"};

static long long word(const struct layout *l, size_t at, int count) {
    uint64_t v = 0;
    for (int i = 0; i < count; i++) v = v << 8 | l->file.at[at + (size_t)i];
    return (long long)v;
}

/* Fields in their order: 1 a bank, 2 a node, 3 a row, 4 the values, 5 the pass limit; 0 for a tag that the form does not have. */
static int order_of(const struct layout *l, size_t at) {
    int tag = l->file.at[at];
    return tag == (l->form == 2 ? 17 : 1) ? 1 : tag >= 2 && tag <= 5 ? tag : 0;
}

static struct bank bank_of(const struct layout *l, size_t at) {
    int flags = l->file.at[at + 22];
    struct bank b = {.unit = word(l, at, 2), .start = word(l, at + 2, 8), .size = NONE, .offset = NONE, .align = NONE, .fill = flags >> 3};
    if (flags & 1) b.size = word(l, at + 10, 4);
    if (flags & 2) b.offset = word(l, at + 14, 4);
    if (flags & 4) b.align = word(l, at + 18, 4);
    if (l->form == 2) b.bit = l->file.at[at + 23];
    return b;
}

static void take_field(struct layout *l, int order, size_t at, long long size) {
    if (order == 1) l->bank[l->banks++] = bank_of(l, at);
    if (order == 2) {
        l->node[l->nodes].kind = l->file.at[at];
        l->node[l->nodes++].operand = word(l, at + 1, 4);
    }
    for (long long i = 0; order == 3 && i < l->nodes; i++) {
        l->number[l->rows * l->nodes + i] = (uint32_t)word(l, at + 5 * (size_t)i, 4);
        l->state[l->rows * l->nodes + i] = l->file.at[at + 5 * (size_t)i + 4];
    }
    if (order == 3) l->rows++;
    if (order == 4) l->values = size;
    if (order == 5) l->limit = l->file.at[at];
}

/* What is wrong with the field from byte `at` on, in words behind "field N, at byte B, ", or NULL. */
static const char *fault_of(const struct layout *l, size_t at, int newest, int is_head) {
    static const char *const named[] = {"", "a bank", "a node", "a row", "the values", "the pass limit"};
    long long left = (long long)(l->file.len - at) - 3, wanted[] = {0, 22 + l->form, 5, 5 * l->nodes, 0, 1};
    const uint8_t *field = l->file.at + at;
    if (left == -3) return shown("is missing: the file ends before its %s", newest < 4 ? "values" : "pass limit");
    if (left < 0) return "is cut in its head";
    long long size = word(l, at + 1, 2);
    int order = order_of(l, at);
    if (left < size) return shown("is cut: it says %lld bytes, and %lld are left", size, left);
    if (is_head) return size == 1 && field[3] == 2 ? NULL : "is not form 2's head, one byte, 2";
    if (!order) return shown("has tag %d, which form %d does not have", field[0], l->form);
    if (newest < 4 ? order < newest || order > 4 : order != 5) return shown("is %s and out of order", named[order]);
    if (order != 4 && size != wanted[order]) return shown("is %s of %lld bytes, not %lld", named[order], size, wanted[order]);
    if (order == 1 && field[25] > 15) return shown("is a bank with flags %d, above 15", field[25]);
    if (order == 1 && l->form == 2 && field[26] > 1) return shown("is a bank with a fill bit of %d, above 1", field[26]);
    return NULL;
}

static void read_fields(struct layout *l) {
    const char *fault = NULL;
    size_t at = 0;
    int newest = 0;
    long long fields = 0;
    for (; newest != 5; fields++) {
        fault = fault_of(l, at, newest, l->form == 2 && fields == 0);
        if (fault) break;
        newest = order_of(l, at);
        take_field(l, newest, at + 3, word(l, at + 1, 2));
        at += 3 + (size_t)word(l, at + 1, 2);
    }
    if (!fault && at < l->file.len) fault = "is one too many: the pass limit ends a file";
    if (fault) l->why = shown("field %lld, at byte %lld, %s", fields, (long long)at, fault);
}

struct layout *read_layout(struct bytes file) {
    struct layout *l = memory(1, sizeof *l);
    l->file = file;
    l->form = file.len > 0 && file.at[0] == 16 ? 2 : 1;
    l->fault = NONE;
    l->room = ROOM_USUAL;
    int longest = l->form == 2 ? 65536 : 65000;
    if (file.len <= (size_t)longest) read_fields(l);
    else l->why = shown("the file is longer than %d bytes, the most that form %d allows", longest, l->form);
    return l;
}

enum { IN_A_LINE = 10 };

/* The numbers behind a line's first word, NONE for a lone -: how many there are. */
static int numbers_of(struct bytes line, long long *n) {
    int count = 0;
    for (cut(&line, ' '); line.len > 0 && count < IN_A_LINE; count++) n[count] = number_of(cut(&line, ' '), INT64_MAX / 20);
    return count;
}

struct refusal refusal_of(struct bytes text) {
    struct refusal r = {0, 0, {0, 0}};
    long long n[IN_A_LINE] = {0};
    if (!begins(text, "refused ")) return r;
    r.places = numbers_of(line_at(text, 0), n) - 1;
    r.number = (int)n[0];
    memcpy(r.place, n + 1, sizeof r.place);
    return r;
}

const char *spelled(const struct refusal *r) {
    return shown("refused %d %lld%s", r->number, r->place[0], r->places > 1 ? shown(" %lld", r->place[1]) : "");
}

static void take_line(struct layout *l, struct bytes line) {
    long long n[IN_A_LINE] = {0};
    int count = numbers_of(line, n);
    if (begins(line, "file ")) l->passes = (int)n[3], l->has_map = 1;
    if (begins(line, "fault ")) l->fault = n[0];
    if (begins(line, "refused ")) l->built.refusal = refusal_of(line);
    if (begins(line, "bank ") && count == 10) l->bank[n[0]].padding = n[8], l->bank[n[0]].units = n[9];
    if (!begins(line, "node ") || count != 7) return;
    struct node node = {(int)n[1], l->node[n[0]].operand, n[2], n[3], n[4], n[5], n[6]};
    l->node[n[0]] = node;
    l->shown = n[0] + 1;
}

struct layout *open_layout(const struct asked *asked, int i, struct bytes file) {
    struct layout *l = read_layout(file);
    struct bytes map = proved_map(file, asked);
    while (map.len > 0) take_line(l, cut(&map, '\n'));
    l->is_full = asked->fill;
    l->room = asked->room;
    l->names = find_names(asked, i, file);
    return l;
}

/* "Pass n reads row n, or the last row if there are fewer." */
long long row_of(const struct layout *l, long long pass) { return (pass < 1 ? 1 : pass > l->rows ? l->rows : pass) - 1; }

/* Kind 5's number is read in the first row. */
long long number_at(const struct layout *l, long long node, long long row) {
    if (row < 0 || row >= l->rows) return 0;
    return l->number[(l->node[node].kind == DATA ? 0 : row) * l->nodes + node];
}

/* The distance to an alignment. */
long long distance(const struct bank *b, long long position, long long alignment) {
    if (alignment <= 0) return 0;
    long long r = b->start % alignment;
    if (r < 0) r += alignment;
    r = (r * (b->unit % alignment) + position) % alignment;
    return r ? alignment - r : 0;
}

int is_written(const struct layout *l, long long node) { return l->node[node].kind >= INSTRUCTION && l->node[node].kind <= OPEN; }
int is_placed(const struct layout *l, long long node) { return l->node[node].kind >= INSTRUCTION && l->node[node].kind <= RESERVE; }
int is_symbol(const struct node *n) { return n->kind == LABEL || n->kind == CONSTANT; }
int is_filled(const struct bank *b) { return b->fill && b->size != NONE && b->offset != NONE; }
int is_beyond(const struct bank *b) { return b->start > 1099511627776 || b->start < -1099511627776; }
