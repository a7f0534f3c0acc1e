/* Refusals in words: which cause it is, and what fills its words. The layout is one that was refused so, and its map, where there is one, of the same
 * choices. */
#include "command.h"

static const struct {
    const char *words, *remedy;
} table[CAUSES] = {
#define WORDS(cause, number, words, remedy) {words, remedy},
#include "refusals.def"
#undef WORDS
};

/* The bank that a node stands in. */
static long long bank_at(const struct layout *l, long long node) {
    long long bank = 0;
    for (long long i = 0; i <= node && i < l->nodes; i++)
        if (l->node[i].kind == SWITCH) bank = l->node[i].operand;
    return bank;
}

/* The number of a node that no pass has placed, in each row. */
static void put_numbers(struct text *t, const struct layout *l, long long node) {
    int kind = l->node[node].kind;
    long long number = number_at(l, node, l->has_map ? row_of(l, l->passes) : 0);
    put(t, ", %s%lld", kind >= ALIGN ? "to " : "", number);
    for (long long r = 1; !l->has_map && kind != DATA && r < l->rows; r++)
        if (number_at(l, node, r) != number) put(t, ", then %lld", number_at(l, node, r));
    if (kind < ALIGN) put(t, number == 1 ? " bit" : " bits");
}

/* Where a node stands as the map has it: bank, position, address, size and output. */
static void put_place(struct text *t, const struct layout *l, long long i) {
    const struct node *n = &l->node[i];
    long long unit = l->bank[n->bank].unit, past = unit ? n->position % unit : 0;
    put(t, ", bank %lld, position %lld, address %s", n->bank, n->position, both(n->address));
    if (past) put(t, " and %s", several(past, "bit"));
    if (is_placed(l, i)) put(t, ", %s", several(n->bits, "bit"));
    if (n->output != NONE) put(t, "%s at output bit %lld", is_placed(l, i) ? "" : ",", n->output);
}

static const char *node_words(const struct layout *l, long long i) {
    int kind = l->node[i].kind, is_known = kind <= ASSERT;
    struct text t = {0};
    if (i >= l->nodes) return called_node(l, i);
    put(&t, "%s (%s%s", called_node(l, i), has_name(l, i) ? shown("node %lld, ", i) : "", is_known ? kind_words[kind] : shown("kind %d", kind));
    if (kind == SWITCH) put(&t, " to %lld", l->node[i].operand);
    else if (is_known && i < l->shown) put_place(&t, l, i);
    else if (is_known) put(&t, ", bank %lld", bank_at(l, i));
    if (kind >= INSTRUCTION && kind <= ADDR && i >= l->shown) put_numbers(&t, l, i);
    put(&t, ")");
    return t.at;
}

static const char *bank_words(const struct layout *l, long long i) {
    const struct bank *b = &l->bank[i];
    if (i >= l->banks) return shown("bank %lld", i);
    const char *size = b->size == NONE ? "no size" : shown("size %lld", b->size), *from = b->offset == NONE ? "" : shown(", output from bit %lld", b->offset);
    const char *to = b->offset != NONE && b->size > 0 ? shown(" to %lld", b->offset + b->size - 1) : "", *fill = b->bit ? ", filled with ones" : ", filled";
    return shown("bank %lld (unit %lld, start %s, %s%s%s%s)", i, b->unit, is_beyond(b) ? plain(b->start) : both(b->start), size, from, to, b->fill ? fill : "");
}

/* One place of a cause's words: what stands between its braces. */
static const char *blank_words(struct bytes blank, const struct said *s) {
    if (begins(blank, "node")) return node_words(s->layout, s->node);
    if (begins(blank, "bank")) return bank_words(s->layout, s->bank);
    if (begins(blank, "second")) return bank_words(s->layout, s->second);
    if (begins(blank, "note")) return s->note ? s->note : "";
    long long number = blank.len > 0 ? s->n[blank.at[0] - '0'] : 0;
    if (blank.len < 2) return blank.len ? plain(number) : "";
    if (blank.at[3] == 'X') return shown("%0*llX", blank.at[2] - '0', (unsigned long long)number);
    return several(number, shown("%.*s", (int)blank.len - 2, blank.at + 2));
}

const char *words_with(enum cause cause, const struct said *s, const char *between) {
    struct bytes rest = bytes_in(table[cause].words);
    struct text t = {0};
    while (rest.len > 0) {
        struct bytes words = cut(&rest, '{'), blank = cut(&rest, '}');
        put(&t, "%.*s%s", PRINTED(words), blank_words(blank, s));
    }
    put(&t, "%s%s%s", between, *table[cause].remedy ? ". " : "", table[cause].remedy);
    return t.at;
}

const char *words_of(enum cause cause, const struct said *s) { return words_with(cause, s, ""); }

/* What a file that is no layout file looks like, by its first line that is neither empty nor a remark. */
static enum cause looks_like(struct bytes file) {
    static const char *const words[] = {"form ", "bank ", "rows ",   "limit ", "values ", "switch ", "label", "constant", "instruction",
                                        "data",  "open",  "reserve", "mark",   "kind ",   "align:",  "addr:", "assert",   "nothing"};
    if (has_mark(file)) file.at += 3, file.len -= 3;
    while (file.len > 0 && *file.at && strchr(" \t\r\n#", *file.at)) {
        if (*file.at == '#') cut(&file, '\n');
        else file.at++, file.len--;
    }
    int second = file.len > 2 ? file.at[1] : 0;
    if (begins(file, ":") && second && strchr("0123456789abcdefABCDEF", second)) return BROKEN_HEX;
    if (kind_of(file) && second >= '0' && second <= '9') return BROKEN_SREC;
    for (size_t i = 0; i < sizeof words / sizeof *words; i++)
        if (begins(file, words[i])) return BROKEN_WORDS;
    return BROKEN;
}

/* A cause with the numbers of its words. */
static enum cause say(struct said *s, enum cause cause, long long first, long long second, long long third) {
    s->n[0] = first, s->n[1] = second, s->n[2] = third;
    return cause;
}

static enum cause say_broken(struct said *s) {
    s->note = has_mark(s->layout->file) ? shown("%s; it begins with a byte order mark (EF BB BF)", s->layout->why) : s->layout->why;
    return looks_like(s->layout->file);
}

/* 4: the file's own fault, else the list's: node count, row count, then the lowest node, its number and state in each row. */
static enum cause say_list(struct said *s) {
    const struct layout *l = s->layout;
    const struct node *n = &l->node[s->node < l->nodes ? s->node : 0];
    if (l->why) return say_broken(s);
    if (l->nodes > 4096) return say(s, NODE_COUNT, l->nodes, 0, 0);
    if (l->rows < 1 || l->rows > 16) return say(s, ROW_COUNT, l->rows, 0, 0);
    if (s->node >= l->nodes) return say(s, MALFORMED, s->node, 0, 0);
    if (n->kind > ASSERT) return say(s, NODE_KIND, n->kind, 0, 0);
    if (n->kind == SWITCH && n->operand >= l->banks) return say(s, NODE_BANK, l->banks, 0, 0);
    for (long long r = 0; n->kind > LABEL && r < l->rows; r++) { /* kinds 0 to 2 have no state that is read */
        int state = l->state[r * l->nodes + s->node], is_read = n->kind == INSTRUCTION || n->kind == OPEN || (n->kind == DATA && r == 0);
        long long end = n->operand + l->number[r * l->nodes + s->node];
        if (state > 2) return say(s, NODE_STATE, r, state, 0);
        if (is_read && end > 8 * l->values) return say(s, NODE_VALUES, r, end, 8 * l->values);
    }
    return say(s, MALFORMED, s->node, 0, 0);
}

/* 5: where the bank stood before, as far as the nodes of the map tell it. */
static enum cause say_far(struct said *s) {
    const struct layout *l = s->layout;
    long long at = 0;
    for (long long i = 0; i < l->shown; i++) {
        const struct node *n = &l->node[i];
        if (n->bank == s->bank) at = n->kind == ALIGN ? NONE : n->kind == ADDR ? number_at(l, i, row_of(l, l->passes)) : n->position + n->bits;
    }
    if (l->has_map && l->shown == s->node) s->note = shown("%s, in pass %d", at == NONE ? "" : shown(", from %lld", at), l->passes);
    return say(s, TOO_FAR, s->bank, 0, 0);
}

/* A walk of one pass, as document 01 has it: each bank's position and whether it is known. */
struct walk {
    long long row, at[16];
    int is_unknown[16];
};

static void align_symbol(const struct layout *l, struct walk *w, long long bank, long long node) {
    if (is_symbol(&l->node[node]) && l->node[node].operand == 0) w->at[bank] += distance(&l->bank[bank], w->at[bank], l->bank[bank].align);
}

static void advance(const struct layout *l, struct walk *w, long long bank, long long node) {
    int kind = l->node[node].kind, is_open = l->state[w->row * l->nodes + node] != 0;
    long long number = number_at(l, node, w->row);
    if (is_placed(l, node)) w->at[bank] += number;
    if (kind == ALIGN) w->at[bank] += distance(&l->bank[bank], w->at[bank], number);
    if (kind == ADDR) w->at[bank] = number, w->is_unknown[bank] = is_open;
    else if ((is_placed(l, node) || kind == ALIGN) && kind != DATA) w->is_unknown[bank] |= is_open;
}

/* 8: the first node that the last pass leaves unresolved: by its own state, or a label by where it stands and stood. */
static enum cause say_unresolved(struct said *s) {
    const struct layout *l = s->layout;
    struct walk now = {.row = row_of(l, l->passes)}, old = {.row = row_of(l, l->passes - 1)};
    long long bank = 0;
    for (s->node = 0; s->node < l->nodes; s->node++) {
        const struct node *n = &l->node[s->node];
        if (n->kind == SWITCH) bank = n->operand < 16 ? n->operand : 0;
        align_symbol(l, &now, bank, s->node);
        align_symbol(l, &old, bank, s->node);
        if (n->kind > LABEL && l->state[now.row * l->nodes + s->node] == 2) break;
        long long unit = l->bank[bank].unit ? l->bank[bank].unit : 1;
        int is_open = n->kind == LABEL && (now.is_unknown[bank] || now.at[bank] % unit != 0);
        if (is_open && l->passes < 2) s->note = ", and no pass before it tells whether it stays";
        else if (is_open && now.at[bank] / unit != old.at[bank] / unit) s->note = shown(": it has moved since pass %d", l->passes - 1);
        if (s->note) break;
        advance(l, &now, bank, s->node);
        advance(l, &old, bank, s->node);
    }
    return say(s, l->passes < l->limit ? UNRESOLVED_AGAIN : UNRESOLVED, l->passes, l->limit, l->rows);
}

/* 12: the node that was offered, and the one that stands there. */
static enum cause say_clash(struct said *s, long long from, long long size) {
    const struct layout *l = s->layout;
    s->node = l->fault;
    for (long long i = 0; i < l->fault && !s->note; i++)
        if (is_placed(l, i) && l->node[i].output == from && l->node[i].bits == size) s->note = shown(": %s", node_words(l, i));
    int is_mark = l->fault >= 0 && l->node[l->fault].bits == 0;
    return say(s, size == 0 ? AROUND_MARK : is_mark ? MARK_INSIDE : OVERLAPS, from, size, 0);
}

/* 14: what reaches past the room for the image. */
static enum cause say_room(struct said *s, long long place) {
    static const char *const rooms[] = {"", "spans", "blocks", "text"};
    const struct layout *l = s->layout;
    if (place > 0) s->note = rooms[place < 4 ? place : 3];
    if (place > 0) return OTHER_ROOM;
    for (long long i = 0; i < l->shown && !s->note; i++) {
        long long end = l->node[i].output + l->node[i].bits;
        if (is_written(l, i) && end > 8 * l->room) s->note = shown(": %s ends at bit %lld", node_words(l, i), end);
    }
    for (long long i = 0; i < l->banks && !s->note; i++) {
        long long end = l->bank[i].offset + l->bank[i].size;
        if (is_filled(&l->bank[i]) && end > 8 * l->room) s->note = shown(": %s is filled to bit %lld", bank_words(l, i), end);
    }
    return say(s, IMAGE_ROOM, l->room, 8 * l->room, 0);
}

static int is_power(long long v) { return v > 0 && (v & (v - 1)) == 0; }

/* 19: a bank's, or in some row a node's, its alignment or where it goes. Rule 2 names a bank while its label alignment is at fault. */
static enum cause say_rule(struct said *s, long long rule, long long at) {
    const struct layout *l = s->layout;
    const struct bank *b = &l->bank[at < l->banks ? at : 0];
    s->bank = s->node = at;
    if (rule == 1) return PAGE_SIZE;
    if (rule == 3) return say(s, PAGE_OFFSET, b->offset, 0, 0);
    if (rule == 4) return say(s, b->size == NONE ? PAGE_NO_SIZE : PAGE_PARTS, b->size, 0, 0);
    if (rule == 5) return say(s, PAGE_UNIT, b->unit, 0, 0);
    if (rule == 2 && at < l->banks && b->align > 0 && !is_power(b->align)) return say(s, BANK_ALIGNMENT, b->align, 0, 0);
    long long bank = bank_at(l, at), unit = bank < l->banks ? l->bank[bank].unit : 0, number = 0;
    for (long long r = 0; r < l->rows; r++) {
        number = number_at(l, at, r);
        if (rule == 2 ? number != 0 && !is_power(number) : unit > 0 && number % unit != 0) break;
    }
    return say(s, rule == 2 ? NODE_ALIGNMENT : PAGE_ADDR, number, bank, unit);
}

static enum cause say_cause(struct said *s, const struct refusal *r) {
    const struct layout *l = s->layout;
    const struct node *n = &l->node[r->place[0] < l->nodes ? r->place[0] : 0];
    s->node = s->bank = s->n[0] = r->place[0];
    s->second = r->place[1];
    if (r->number >= 5) s->bank = bank_at(l, s->node);
    const struct bank *b = &l->bank[s->bank < l->banks ? s->bank : 0];
    switch (r->number) {
    case 1: return say(s, BANK_COUNT, l->banks, 0, 0);
    case 2: return b->unit == 0 ? BANK_UNIT : is_beyond(b) ? BANK_START : b->fill && b->size == 0 ? BANK_EMPTY : BANK_ONES;
    case 3: return BANKS_OVERLAP;
    case 4: return say_list(s);
    case 5: return say_far(s);
    case 6: return GONE_6;
    case 7: return say(s, OFF_BOUNDARY, b->unit, 0, 0);
    case 8: return say_unresolved(s);
    case 9: return l->banks == 1 ? BANK_0_CLOSED : BANK_0_USED;
    case 10: return say(s, PAST_END, n->position + n->bits, n->position + n->bits - b->size, 0);
    case 11: return NO_OUTPUT;
    case 12: return say_clash(s, r->place[0], r->place[1]);
    case 13: return s->node < l->shown && n->bits == 0 ? MARKS_FULL : STORE_FULL;
    case 14: return say_room(s, r->place[0]);
    case 15: return BAD_STORE;
    case 16: return BAD_PART;
    case 17: return PART_COVERED;
    default: return say_rule(s, r->place[0], r->place[1]);
    }
}

/* 4 and 18 of a conversion: the file or its form, the counts of file and result, a bank that is not there, the length; a bank with a fill bit. */
static enum cause say_conversion(struct said *s, const struct refusal *r, int to) {
    const struct layout *l = s->layout;
    const struct node *n = &l->node[r->place[0] < l->nodes ? r->place[0] : 0];
    long long most = l->banks == 1 && to == 2 ? 4095 : 4096;
    s->node = r->place[0];
    while (s->bank < l->banks && !l->bank[s->bank].bit) s->bank++;
    if (r->number == 18) return DROPS_BIT;
    if (l->file.len > 0 && l->form == to && (!l->why || l->file.at[0] < 32)) return say(s, FORM_ALREADY, l->form, 0, 0);
    if (l->why) return say_broken(s);
    if (most < 4096) s->note = ", since a switch is put ahead of them";
    if (l->nodes > most) return say(s, CONVERT_NODES, l->nodes, most, 0);
    if (l->rows > 16) return say(s, CONVERT_ROWS, l->rows, 0, 0);
    if (l->banks == 1 && s->node < l->nodes && n->kind == SWITCH && n->operand > 0) return CONVERT_BANK;
    return say(s, CONVERT_LONG, to, to == 2 ? 65536 : 65000, 0);
}

const char *refusal_words(const struct layout *l, const struct refusal *r, int to) {
    struct said s = {.layout = l};
    enum cause cause = to ? say_conversion(&s, r, to) : say_cause(&s, r);
    return words_of(cause, &s);
}
