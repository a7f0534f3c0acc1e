/* The map of a layout as tables and as JSON: banks, nodes, blocks. What is reckoned here beyond the proved map is held against its sums. */
#include "command.h"
#include <stdlib.h>

enum { BANKS = 16 }; /* a map has so many at most: what is reckoned is known of those alone */

/* Bits of a bank that something takes, by positions: a written item or a reserve, or padding that was skipped. */
struct box {
    long long bank, from, to;
    int is_padding;
};
struct figures {
    struct box *box;
    long long boxes, *before, *advance, used[BANKS], unused[BANKS];
};

static void put_box(struct figures *f, long long bank, long long from, long long size, int is_padding) {
    struct box b = {bank, from, from + size, is_padding};
    if (size > 0) f->box[f->boxes++] = b;
}

static int by_from(const void *a, const void *b) {
    long long x = ((const struct box *)a)->from, y = ((const struct box *)b)->from;
    return x < y ? -1 : x > y;
}

/* Where each bank stands after each node: only a symbol may be found past that, by its label alignment. 0 where that is not so. */
static int walk(struct figures *f, const struct layout *l) {
    long long at[BANKS] = {0}, row = row_of(l, l->passes);
    for (long long i = 0; i < l->shown; i++) {
        const struct node *n = &l->node[i];
        if (n->bank < 0 || n->bank >= BANKS || n->bank >= l->banks) return 0;
        long long before = f->before[i] = n->position - at[n->bank];
        if (before < 0 || (before > 0 && !is_symbol(n))) return 0;
        put_box(f, n->bank, at[n->bank], before, 1);
        f->advance[i] = n->kind == ALIGN ? distance(&l->bank[n->bank], n->position, number_at(l, i, row)) : n->bits;
        if (n->kind == ALIGN || (is_placed(l, i) && i != l->fault)) put_box(f, n->bank, n->position, f->advance[i], n->kind == ALIGN);
        at[n->bank] = n->kind == ADDR ? number_at(l, i, row) : n->position + f->advance[i];
    }
    return 1;
}

/* The bits up to `to` of a box that lie past all boxes before it. */
static long long bits_past(long long *reached, const struct box *b, long long to) {
    long long from = b->from < *reached ? *reached : b->from;
    if (to <= from) return 0;
    *reached = to;
    return to - from;
}

/* What a bank's boxes, which ascend, take, each bit once; and whether its padding is what the proved map says of it, in bits and in units. */
static int reckon_bank(struct figures *f, const struct bank *bank, long long number) {
    long long items = 0, all = 0, taken = 0, bits = 0, units = 0;
    for (const struct box *b = f->box; b < f->box + f->boxes; b++) {
        if (b->bank != number) continue;
        taken += bits_past(&all, b, b->to > bank->size ? bank->size : b->to);
        if (!b->is_padding) f->used[number] += bits_past(&items, b, b->to);
        else bits += b->to - b->from, units += (b->to - b->from) / bank->unit;
    }
    f->unused[number] = bank->size == NONE ? NONE : bank->size - taken;
    return bits == bank->padding && units == bank->units;
}

static struct figures reckon(const struct layout *l) {
    size_t nodes = (size_t)l->shown + 1;
    struct figures f = {.box = memory(2 * nodes, sizeof *f.box), .before = memory(nodes, sizeof *f.before), .advance = memory(nodes, sizeof *f.advance)};
    int is_right = walk(&f, l);
    qsort(f.box, (size_t)f.boxes, sizeof *f.box, by_from);
    for (long long i = 0; i < l->banks && i < BANKS; i++) is_right = reckon_bank(&f, &l->bank[i], i) && is_right;
    if (!is_right) fail("the figures do not agree");
    return f;
}

/* Rows of cells with tabs between, as a table: each column as wide as its widest cell; the columns of `left` are flush left. */
static void put_columns(struct text *t, const struct text *rows, unsigned left) {
    size_t widest[16] = {0}, column = 0;
    for (int is_second = 0; is_second < 2; is_second++)
        for (const char *at = rows->at, *end; *at; at = end + 1) {
            size_t wide = 0;
            for (end = at; *end != '\t' && *end != '\n'; end++) wide += ((unsigned char)*end & 0xc0) != 0x80;
            if (wide > widest[column]) widest[column] = wide;
            int blanks = (int)(widest[column] - wide), is_left = (left >> column & 1) != 0;
            if (is_second) put(t, "%s%*s%.*s%*s", column ? "  " : "", is_left ? 0 : blanks, "", (int)(end - at), at, is_left ? blanks : 0, "");
            column = *end == '\t' ? column + 1 : 0;
            if (!is_second || column) continue;
            while (t->at[t->len - 1] == ' ') t->len--;
            put(t, "\n");
        }
    put(t, "\n");
}

/* A bit of the output by its byte, with the bit from the top where it is not the byte's first or last. */
static const char *byte_words(long long at, int edge) { return at % 8 == edge ? plain(at / 8) : shown("%lld.%lld", at / 8, at % 8); }

/* Two cells, bits and bytes of the output: first to last, the first alone where there is no more, and no last one without a size. */
static const char *output_cells(long long from, long long size) {
    long long last = from + size - 1;
    if (from == NONE) return "-\t-";
    if (size == NONE) return shown("%lld..\t%s..", from, byte_words(from, 0));
    if (size == 0) return shown("%lld\t%s", from, byte_words(from, 0));
    int is_one = from / 8 == last / 8 && (from % 8 == 0 ? last % 8 == 7 : last % 8 != 7 && from == last);
    return shown("%lld..%lld\t%s%s", from, last, byte_words(from, 0), is_one ? "" : shown("..%s", byte_words(last, 7)));
}

/* Two cells, in decimal and hex; without a size there is no last one. */
static const char *address_cells(const struct bank *b) {
    long long first = b->start, last = b->unit ? first + (b->size + b->unit - 1) / b->unit - 1 : 0;
    int is_open = is_beyond(b) || b->size == NONE;
    if (!is_beyond(b) && (b->size == 0 || b->unit == 0)) return "-\t-";
    const char *decimal = is_open ? shown("%lld..", first) : shown("%lld..%lld", first, last);
    if (is_beyond(b) || first < 0) return shown("%s\t-", decimal);
    return shown("%s\t%s..%s", decimal, in_hex(first, 0), is_open ? "" : in_hex(last, 0));
}

static void put_banks(struct text *t, struct text *object, const struct layout *l, const struct figures *f) {
    struct text rows = {0};
    json(object, "'banks':[");
    put(&rows, "bank\tunit\taddresses\tin hex\toutput bits\tbytes\tsize\tused\tpadding\tin units\tfree\tfill\n");
    for (long long i = 0; i < l->banks; i++) {
        const struct bank *b = &l->bank[i];
        const char *fill = !b->fill ? NULL : !is_filled(b) ? "idle" : b->bit ? "ones" : "zeros";
        put(&rows, "%lld\t%lld\t%s\t%s\t%s\t", i, b->unit, address_cells(b), output_cells(b->offset, b->size), or_dash(b->size));
        if (i < BANKS) put(&rows, "%lld\t%lld\t%lld\t%s\t", f->used[i], b->padding, b->units, or_dash(f->unused[i]));
        else put(&rows, "0\t\t\t%s\t", or_dash(b->size));
        put(&rows, "%s\n", fill ? fill : "-");
        if (i >= BANKS) continue;
        json(object, "{'bank':%lld,'unit':%lld,'start':%lld,'size':%s,'offset':%s,'align':%s", i, b->unit, b->start, or_null(b->size), or_null(b->offset),
             or_null(b->align));
        json(object, "'used':%lld,'padding':%lld,'padding_units':%lld,'free':%s,'fill':%s}", f->used[i], b->padding, b->units, or_null(f->unused[i]),
             quoted(fill));
    }
    json(object, "]");
    if (l->banks > 0) put_columns(t, &rows, 0x83c);
}

static int is_listed(const struct layout *l, long long i) { return l->node[i].kind >= LABEL && l->node[i].kind <= ADDR; }

static const char *remark(const struct layout *l, const struct figures *f, long long i, long long to) {
    const struct node *n = &l->node[i];
    int is_fault = i == l->fault;
    const char *first = is_fault ? "at fault" : n->kind == ALIGN ? "padding" : is_placed(l, i) && n->bits == 0 ? "a mark" : "";
    if (!is_fault && n->kind == ADDR) first = shown("to bit %lld of the bank", to);
    return is_symbol(n) && f->before[i] > 0 ? shown("%s%safter padding of %lld", first, is_fault ? ", " : "", f->before[i]) : first;
}

static void put_nodes(struct text *t, struct text *object, const struct layout *l, const struct figures *f) {
    struct text rows = {0};
    int has_names = 0;
    for (long long i = 0; i < l->shown; i++) has_names |= is_listed(l, i) && has_name(l, i);
    put(&rows, "node%s\tkind\tbank\tposition\taddress\tin hex\toutput bits\tbytes\tsize\t\n", has_names ? "\tname\tsource" : "");
    json(object, "'nodes':[");
    for (long long i = 0; i < l->shown; i++) {
        const struct node *n = &l->node[i];
        if (!is_listed(l, i)) continue;
        long long past = n->position % l->bank[n->bank].unit, size = is_placed(l, i) || n->kind == ALIGN ? f->advance[i] : NONE;
        long long to = n->kind == ADDR ? number_at(l, i, row_of(l, l->passes)) : NONE;
        put(&rows, "%lld\t", i);
        if (has_names) put(&rows, "%s\t%s\t", name_of(l, i), place_of(l, i));
        put(&rows, "%s\t%lld\t%lld\t%lld%s\t", kind_words[n->kind], n->bank, n->position, n->address, past ? shown("+%lld", past) : "");
        put(&rows, "%s\t%s\t", n->address < 0 ? "-" : in_hex(n->address, past), output_cells(n->output, f->advance[i]));
        put(&rows, "%s\t%s\n", or_dash(size), remark(l, f, i, to));
        json_node(object, l, i);
        json(object, "'size':%s,'padding_before':%lld,'to':%s}", or_null(size), f->before[i], or_null(to));
    }
    json(object, "]");
    if (l->shown > 0) put_columns(t, &rows, has_names ? 0xb0e : 0x2c2);
}

static void put_blocks(struct text *t, struct text *object, const struct blocks *b) {
    struct text rows = {0};
    put(&rows, "block\toutput bits\tbytes\tsize\n");
    for (size_t i = 0; i < b->count; i++) {
        long long start = (long long)b->starts[i], size = (long long)b->sizes[i];
        put(&rows, "%d\t%s\t%lld\n", (int)i, output_cells(start, size), size);
    }
    json_blocks(object, b);
    if (b->count > 0) put_columns(t, &rows, 0x6);
}

void put_map(struct text *t, struct text *object, const char *title, const struct layout *l) {
    struct figures f = reckon(l);
    const struct built *b = &l->built;
    int is_refused = b->refusal.number != 0, k = (int)b->passes;
    put(t, "%s: form %d, %s, %s, %s, ", title, l->form, several(l->banks, "bank"), several(l->nodes, "node"), several(l->rows, "row"));
    put(t, "pass limit %d, %d %s run%s", l->limit, l->passes, l->passes == 1 ? "pass" : "passes", l->is_full ? ", full fill" : "");
    if (k > 0 && k < l->passes) put(t, " (layout's `passes %d`; pass %d confirmed it)", k, l->passes);
    put(t, "\n\n");
    json(object, "'form':%d,'node_count':%lld,'rows':%lld,'pass_limit':%d,'passes_run':%d", l->form, l->nodes, l->rows, l->limit, l->passes);
    json(object, "'passes':%s,'image_bits':%s,'fault':%s,'fill':'%s'", or_null(is_refused ? NONE : k), or_null(is_refused ? NONE : b->bits), or_null(l->fault),
         l->is_full ? "full" : "inherited");
    put_banks(t, object, l, &f);
    put_nodes(t, object, l, &f);
    put_blocks(t, object, &b->blocks);
    if (l->fault >= 0) put(t, "refused at %s, and the map ends %s\n", called_node(l, l->fault), l->fault < l->shown ? "there" : "before it");
    if (is_refused) put(t, "%s\n", spelled(&b->refusal));
    else put(t, "image of %s, %s\naccepted\n", several(b->bits, "bit"), several((b->bits + 7) / 8, "byte"));
}
