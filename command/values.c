/* The words of banks, and what images hold there. */
#include "command.h"

/* 0 past its end. */
static int bit_at(struct bytes image, long long at) { return (size_t)at < 8 * image.len ? image.at[at / 8] >> (7 - at % 8) & 1 : 0; }

int same_bits(struct bytes a, long long from, struct bytes b, long long other, long long bits) {
    for (long long i = 0; i < bits; i++)
        if (bit_at(a, from + i) != bit_at(b, other + i)) return 0;
    return 1;
}

struct word word_at(const struct layout *l, long long node, long long done) {
    const struct node *n = &l->node[node];
    long long unit = l->bank[n->bank].unit, at = n->position + done, left = n->bits - done;
    struct word w = {l->bank[n->bank].start + at / unit, at % unit, n->output + done, unit - at % unit};
    if (w.bits > left) w.bits = left;
    return w;
}

const char *value(struct bytes image, long long from, long long bits) {
    struct text t = {0};
    int digit = 0;
    put_bytes(&t, "", 0);
    for (long long left = bits; left > 0; left--) {
        digit = digit << 1 | bit_at(image, from + bits - left);
        if (left % 4 != 1) continue;
        put_bytes(&t, &"0123456789abcdef"[digit], 1);
        digit = 0;
    }
    return t.at;
}
