/* Which nodes of two layouts are the same, for the page that draws both: compare's own pairs, a line each, OLD NEW CHANGES with - for a node that there is
 * not. */
#include "../command/command.h"

static const struct command pairs = {.name = "pairs", .takes = FILL | BOTH_NAMES, .least = 2, .most = 2};

static void put_pair(struct text *t, const struct one *x, const struct one *y) {
    put(t, "%s %s %s\n", or_dash(x ? x->number : NONE), or_dash(y ? y->number : NONE), changes_words(changes(x, y)));
}

int do_pairs(int argc, char **argv) {
    struct asked asked = read_words(&pairs, argc, argv);
    struct side old = read_side(&asked, 0), new = read_side(&asked, 1);
    struct text t = {0};
    pair_all(&old, &new);
    for (size_t i = 0; i < new.count; i++) put_pair(&t, new.ones[i].other, &new.ones[i]);
    for (size_t i = 0; i < old.count; i++)
        if (!old.ones[i].other) put_pair(&t, &old.ones[i], NULL);
    return answer(bytes_of(&t), NULL);
}
