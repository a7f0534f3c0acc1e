/* Which nodes of two layouts are the same: by their names, and those without one by what is alike behind the same name. */
#include "command.h"
#include <stdlib.h>

/* Nodes without names that stand behind the same one, on both sides. */
struct span {
    struct one *a, *b;
    size_t as, bs;
};

static void pair(struct one *a, struct one *b) {
    a->other = b;
    b->other = a;
}

static void mark_common(struct span s) {
    for (size_t j = 0, n; s.bs >= 200 && s.as * s.bs > 250000 && j < s.bs; j++) {
        n = 0;
        for (size_t i = 0; i < s.bs; i++) n += s.b[i].alike == s.b[j].alike;
        s.b[j].is_common = n > s.bs / 100 + 1;
    }
}

/* The longest run that is alike on both sides, the first such; what is too common begins none. */
static struct span longest(struct span s) {
    struct span m = {s.a, s.b, 0, 0};
    size_t *runs = memory(2 * (s.bs + 1), sizeof *runs), *now = runs, *old = runs + s.bs + 1, *swap, size = 0;
    for (size_t i = 0; i < s.as; i++, swap = now, now = old, old = swap)
        for (size_t j = 0; j < s.bs; j++) {
            now[j + 1] = !s.b[j].is_common && s.a[i].alike == s.b[j].alike ? old[j] + 1 : 0;
            if (now[j + 1] <= size) continue;
            size = now[j + 1];
            m.a = s.a + (i + 1 - size), m.b = s.b + (j + 1 - size);
        }
    free(runs);
    for (; m.a > s.a && m.b > s.b && m.a[-1].alike == m.b[-1].alike; size++) m.a--, m.b--;
    while (m.a + size < s.a + s.as && m.b + size < s.b + s.bs && m.a[size].alike == m.b[size].alike) size++;
    m.as = m.bs = size;
    return m;
}

/* Where nothing is alike: kind by kind in order. */
static void pair_kinds(struct span s) {
    for (size_t i = 0, next = 0, j; i < s.as; i++) {
        for (j = next; j < s.bs && s.a[i].node->kind != s.b[j].node->kind;) j++;
        if (j >= s.bs) continue;
        pair(&s.a[i], &s.b[j]);
        next = j + 1;
    }
}

/* The longest run, then what is before it and what is behind it. */
static void pair_span(struct span s) {
    struct span m = longest(s), before = {s.a, s.b, (size_t)(m.a - s.a), (size_t)(m.b - s.b)};
    struct span behind = {m.a + m.as, m.b + m.bs, s.as - before.as - m.as, s.bs - before.bs - m.bs};
    if (m.as > 0) pair_span(before);
    for (size_t k = 0; k < m.as; k++) pair(&m.a[k], &m.b[k]);
    if (m.as > 0) pair_span(behind);
    else pair_kinds(s);
}

static size_t nameless(const struct side *s, const struct one *from) {
    size_t n = 0;
    while (from + n < s->ones + s->count && !*from[n].name) n++;
    return n;
}

static void pair_behind(const struct side *a, struct one *x, const struct side *b, struct one *y) {
    struct span s = {x, y, nameless(a, x), nameless(b, y)};
    mark_common(s);
    pair_span(s);
}

/* The first of a name that is not paired yet: so the second of a name is the other side's second. */
static struct one *find(const struct side *s, const char *name) {
    for (size_t i = 0; i < s->count; i++)
        if (!s->ones[i].other && strcmp(s->ones[i].name, name) == 0) return &s->ones[i];
    return NULL;
}

void pair_all(struct side *a, struct side *b) {
    pair_behind(a, a->ones, b, b->ones);
    for (size_t i = 0; i < a->count; i++) {
        struct one *o = &a->ones[i], *other = *o->name ? find(b, o->name) : NULL;
        if (!other) continue;
        pair(o, other);
        pair_behind(a, o + 1, b, other + 1);
    }
}
