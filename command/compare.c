/* What moved between two layouts, node by node, and what else differs. */
#include "command.h"

static const char *const differences[] = {"moved", "grown", "shrunk", "other contents", "other kind", "new", "gone"};
static const char *const count_keys[] = {"same", "moved", "grown", "shrunk", "other_contents", "other_kind", "new", "gone"};

/* Symbols, written items and reserves. */
static int is_compared(const struct node *n) { return n->kind >= LABEL && n->kind <= RESERVE; }

unsigned changes(const struct one *x, const struct one *y) {
    if (!x || !y) return x ? 1u << GONE : 1u << NEW;
    const struct node *m = x->node, *n = y->node;
    int was = is_written(x->layout, x->number), is = is_written(y->layout, y->number);
    unsigned found = m->kind != n->kind ? 1u << KIND : 0;
    if (m->bits != n->bits) found |= n->bits > m->bits ? 1u << GROWN : 1u << SHRUNK;
    else if (was != is || (was && !same_bits(x->layout->built.image, m->output, y->layout->built.image, n->output, n->bits))) found |= 1u << CONTENTS;
    if (m->bank != n->bank || m->position != n->position || m->address != n->address || m->output != n->output) found |= 1u << MOVED;
    return found;
}

const char *changes_words(unsigned found) {
    static const int order[] = {KIND, GROWN, SHRUNK, MOVED, CONTENTS, NEW, GONE};
    struct text t = {0};
    put(&t, "%s", "");
    for (size_t i = 0; i < sizeof order / sizeof *order; i++)
        if (found >> order[i] & 1) put(&t, "%s%s", t.len > 0 ? ", " : "", differences[order[i]]);
    return t.at;
}

static const char *or_none(long long n) { return n == NONE ? "none" : plain(n); }

/* "what OLD -> NEW", behind a comma where something stands there already. */
static void put_moved(struct text *t, const char *what, long long old, long long new, const char *(*show)(long long)) {
    if (old != new) put(t, "%s%s%s -> %s", t->len > 0 ? ", " : "", what, show(old), show(new));
}

/* How a node stands otherwise than before, or where it stands. */
static const char *moved_words(const struct one *x, const struct one *y) {
    const struct node *m = x ? x->node : y->node, *n = y ? y->node : m;
    struct text t = {0};
    if (m->kind != n->kind) put(&t, "%s -> %s", kind_words[m->kind], kind_words[n->kind]);
    put_moved(&t, "", m->bits, n->bits, plain);
    if (m->bits != n->bits) put(&t, " bits");
    put_moved(&t, "bank ", m->bank, n->bank, plain);
    put_moved(&t, "address ", m->address, n->address, both);
    put_moved(&t, "output bit ", m->output, n->output, or_none);
    if (m->address == n->address) put_moved(&t, "position ", m->position, n->position, plain);
    if (t.len > 0) return t.at;
    return shown("bank %lld, address %s%s", n->bank, both(n->address), n->output == NONE ? "" : shown(", output bit %lld", n->output));
}

static void json_one(struct text *t, const char *key, const struct one *o) {
    json(t, "'%s':", key);
    if (o) json_node(t, o->layout, o->number);
    if (o) json(t, "'size':%lld}", o->node->bits);
    else json(t, "null");
}

static void put_pair(struct text *t, struct text *object, const struct one *x, const struct one *y, unsigned found) {
    const struct one *o = y ? y : x;
    put(t, "%s: %s (%s", changes_words(found), called_node(o->layout, o->number), has_name(o->layout, o->number) ? shown("node %lld, ", o->number) : "");
    put(t, "%s%s", kind_words[o->node->kind], o->node->kind > CONSTANT ? shown(", %s", several(o->node->bits, "bit")) : "");
    put(t, "%s%s): %s\n", *o->behind ? ", behind " : "", o->behind, moved_words(x, y));
    json(object, "{'changes':[");
    for (int k = 0; k < DIFFERENCES; k++)
        if (found >> k & 1) json(object, "'%s'", differences[k]);
    json(object, "]");
    json_one(object, "old", x);
    json_one(object, "new", y);
}

enum { WORDS_SHOWN = 16 }; /* of a node; JSON has all */

/* The words of a node that has other contents, old and new. */
static void put_contents(struct text *t, struct text *object, const struct one *x, const struct one *y) {
    long long count = 0, moved = x->node->output - y->node->output;
    struct bytes a = x->layout->built.image, b = y->layout->built.image;
    struct word w;
    json(object, "'words':[");
    for (long long done = 0; done < y->node->bits; done += w.bits) {
        w = word_at(y->layout, y->number, done);
        if (same_bits(a, w.output + moved, b, w.output, w.bits)) continue;
        const char *old = value(a, w.output + moved, w.bits), *new = value(b, w.output, w.bits);
        json(object, "{'address':%lld,'past':%lld,'old':'%s','new':'%s'}", w.address, w.past, old, new);
        if (++count <= WORDS_SHOWN) put(t, "  word %s: %s -> %s\n", in_hex(w.address, w.past), old, new);
    }
    json(object, "]");
    if (count > WORDS_SHOWN) put(t, "  and %s more\n", several(count - WORDS_SHOWN, "word"));
}

/* Every node of either side once, in the order of the new list, those that are gone by their old numbers behind the new ones. */
static void put_pairs(struct text *t, struct text *object, const struct side *a, const struct side *b, long long *counts) {
    json(object, "'nodes':[");
    for (size_t i = 0, j = 0; i < a->count || j < b->count;) {
        while (i < a->count && a->ones[i].other) i++;
        int is_new = j < b->count && (i >= a->count || b->ones[j].number <= a->ones[i].number);
        if (!is_new && i >= a->count) break;
        const struct one *y = is_new ? &b->ones[j++] : NULL, *x = is_new ? y->other : &a->ones[i++];
        unsigned found = changes(x, y);
        for (int k = 0; k < DIFFERENCES; k++) counts[k + 1] += found >> k & 1;
        counts[0] += found == 0;
        if (!found) continue;
        put_pair(t, object, x, y, found);
        if (found >> CONTENTS & 1 && is_written(x->layout, x->number) && is_written(y->layout, y->number)) put_contents(t, object, x, y);
        json(object, "}");
    }
    json(object, "],'counts':{");
    for (int k = 0; k <= DIFFERENCES; k++) json(object, "'%s':%lld", count_keys[k], counts[k]);
    json(object, "}");
}

/* What a bank says, uses and pads. */
static const struct {
    const char *words, *key;
    int may_be_none;
} said[] = {{"unit ", "unit", 0}, {"start ", "start", 0}, {"size ", "size", 1}, {"offset ", "offset", 1}, {"label alignment ", "align", 1},
            {"fill ", "fill", 0}, {"fill bit ", "fill_bit", 0}, {"padding ", "padding", 0}, {"padding in units ", "padding_units", 0}, {"used ", "used", 0}};
enum { SAID = sizeof said / sizeof *said };

/* 0 where there is no such bank. */
static int bank_row(long long *row, const struct layout *l, long long i) {
    const struct bank *b = &l->bank[i];
    if (i >= l->banks) return 0;
    long long all[SAID] = {b->unit, b->start, b->size, b->offset, b->align, b->fill, b->bit, b->padding, b->units, 0};
    for (long long n = 0; n < l->shown; n++)
        if (l->node[n].bank == i && is_compared(&l->node[n])) all[SAID - 1] += l->node[n].bits;
    memcpy(row, all, sizeof all);
    return 1;
}

static void json_bank(struct text *t, const char *key, const long long *row) {
    json(t, "'%s':%s", key, row ? "{" : "null");
    for (int k = 0; row && k < SAID; k++) json(t, "'%s':%s", said[k].key, said[k].may_be_none ? or_null(row[k]) : plain(row[k]));
    if (row) json(t, "}");
}

static void put_banks(struct text *t, struct text *object, const struct layout *a, const struct layout *b) {
    json(object, "'banks':[");
    for (long long i = 0; i < a->banks || i < b->banks; i++) {
        long long old[SAID], now[SAID];
        struct text moved = {0};
        int was = bank_row(old, a, i), is = bank_row(now, b, i);
        for (int k = 0; was && is && k < SAID; k++) put_moved(&moved, said[k].words, old[k], now[k], said[k].may_be_none ? or_dash : plain);
        if (was && is && moved.len == 0) continue;
        put(t, "bank %lld%s\n", i, was && is ? shown(": %s", moved.at) : is ? " is new" : " is gone");
        json(object, "{'bank':%lld", i);
        json_bank(object, "old", was ? old : NULL);
        json_bank(object, "new", is ? now : NULL);
        json(object, "}");
    }
    json(object, "]");
}

/* The blocks that another layout does not have. */
static void put_others(struct text *t, struct text *object, const char *word, const struct blocks *b, const struct blocks *other) {
    for (size_t i = 0; i < b->count; i++) {
        unsigned long long start = b->starts[i], size = b->sizes[i];
        size_t k = 0;
        while (k < other->count && (other->starts[k] != start || other->sizes[k] != size)) k++;
        if (k < other->count) continue;
        put(t, "  %s bits %llu..%llu\n", word, start, start + size - 1);
        json(object, "{'start':%llu,'size':%llu}", start, size);
    }
}

static void put_blocks(struct text *t, struct text *object, const struct blocks *a, const struct blocks *b) {
    struct text others = {0};
    int was = (int)a->count, is = (int)b->count;
    json(object, "'blocks':{'old':%d,'new':%d,'gone':[", was, is);
    put_others(&others, object, "gone", a, b);
    json(object, "],'added':[");
    put_others(&others, object, "new ", b, a);
    json(object, "]}");
    if (others.len > 0) put(t, "blocks %d -> %d\n%s", was, is, others.at);
}

static const char *span(long long first, long long last) { return last > first ? shown("%lld..%lld", first, last) : plain(first); }

/* The runs of bytes that both images have and that differ, and what one of them has alone. */
static void put_image(struct text *t, struct text *object, struct bytes a, struct bytes b) {
    long long was = (long long)a.len, is = (long long)b.len, shorter = was < is ? was : is, longer = was < is ? is : was, sum = 0;
    struct text runs = {0};
    json(object, "'image':{'old_bytes':%lld,'new_bytes':%lld,'runs':[", was, is);
    for (long long i = 0, first; i < shorter; i++) {
        if (a.at[i] == b.at[i]) continue;
        for (first = i; i + 1 < shorter && a.at[i + 1] != b.at[i + 1];) i++;
        long long count = i - first + 1;
        put(&runs, "%s%s", sum > 0 ? ", " : "", span(first, i));
        json(object, "{'first':%lld,'last':%lld,'old':'%s','new':'%s'}", first, i, value(a, 8 * first, 8 * count), value(b, 8 * first, 8 * count));
        sum += count;
    }
    json(object, "],'differ':%lld}", sum);
    if (sum > 0 || was != is) put(t, "image %s%s\n", several(was, "byte"), was != is ? shown(" -> %s", several(is, "byte")) : "");
    if (sum > 0) put(t, "  %s differ%s: %s\n", several(sum, "byte"), sum == 1 ? "s" : "", runs.at);
    if (was != is) put(t, "  bytes %s are in the %s image alone\n", span(shorter, longer - 1), is > was ? "new" : "old");
}

static const char *summary(const long long *counts) {
    struct text t = {0};
    for (int k = 0; k <= DIFFERENCES; k++)
        if (counts[k] > 0) put(&t, "%s%lld %s", t.len > 0 ? ", " : "", counts[k], k ? differences[k - 1] : "the same");
    return t.len > 0 ? t.at : "no nodes";
}

static void json_files(struct text *t, const struct asked *asked) {
    json(t, "{'old':%s,'new':%s", quoted(called(asked->file[0])), quoted(called(asked->file[1])));
}

/* Nothing is compared with a layout that is refused: which of the two, and why. */
static NEVER_RETURNS void fail_refused(const struct asked *asked, int i, const struct layout *l) {
    struct text t = {0};
    const char *words = refusal_words(l, &l->built.refusal, 0);
    json_files(&t, asked);
    json(&t, "'refused_file':'%s'", i ? "new" : "old");
    json_end(&t, &l->built.refusal, words);
    if (asked->given & JSON) answer(bytes_of(&t), NULL);
    fail("%s is refused: %s", called(asked->file[i]), words);
}

static uint64_t hash_of(const struct layout *l, long long i) {
    const struct node *n = &l->node[i];
    uint64_t h = 14695981039346656037u + (uint64_t)n->kind * 31 + (uint64_t)n->bits * 1009;
    for (const char *digit = is_written(l, i) ? value(l->built.image, n->output, n->bits) : ""; *digit; digit++) h = (h ^ (uint8_t)*digit) * 1099511628211u;
    return h;
}

struct side read_side(const struct asked *asked, int i) {
    struct bytes file = read_input(asked->file[i], LAYOUT_MAX);
    struct layout *l = open_layout(asked, i, file);
    l->built = proved_build(file, asked);
    if (l->built.refusal.number) fail_refused(asked, i, l);
    struct side s = {l, memory((size_t)l->shown + 1, sizeof *s.ones), 0};
    const char *behind = "";
    for (long long k = 0; k < l->shown; k++) {
        if (!is_compared(&l->node[k])) continue;
        struct one o = {.layout = l, .node = &l->node[k], .number = k, .alike = hash_of(l, k), .name = name_of(l, k), .behind = ""};
        if (*o.name) behind = o.name;
        else o.behind = behind;
        s.ones[s.count++] = o;
    }
    return s;
}

int do_compare(struct asked *asked) {
    long long counts[1 + DIFFERENCES] = {0}; /* the same, then each difference */
    struct text t = {0}, nodes = {0}, rest = {0}, object = {0};
    struct side old = read_side(asked, 0), new = read_side(asked, 1);
    const struct built *a = &old.layout->built, *b = &new.layout->built;
    pair_all(&old, &new);
    json_files(&object, asked);
    put_pairs(&nodes, &object, &old, &new, counts);
    if (a->passes != b->passes) put(&rest, "passes %lld -> %lld\n", a->passes, b->passes);
    json(&object, "'old_passes':%lld,'new_passes':%lld", a->passes, b->passes);
    put_banks(&rest, &object, old.layout, new.layout);
    put_blocks(&rest, &object, &a->blocks, &b->blocks);
    put_image(&rest, &object, a->image, b->image);
    put(&t, "%s -> %s: %s\n", titled(asked->file[0]), titled(asked->file[1]), summary(counts));
    put_bytes(&t, nodes.at, nodes.len);
    put(&t, "%s", rest.len > 0 ? rest.at : "banks, blocks and image are the same\n");
    return finish(asked, &t, &object, &a->refusal, NULL, nodes.len + rest.len > 0);
}
