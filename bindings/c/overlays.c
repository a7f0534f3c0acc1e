/* The bench's two functions. Without an argument: fixed cases, refusals, and lists that have to be left alone; prints what is wrong, and
 * last how many tests there were. With --batch: the cases of oracle/bench.py on standard input; a line for each. */
#include <inttypes.h>
#include <stdio.h>
#include <stdlib.h>
#include <string.h>

#include "../../include/denkumari.h"

static unsigned tests, faults;

static void expect(int holds, const char *what)
{
    tests++;
    if (!holds) {
        faults++;
        printf("wrong: %s\n", what);
    }
}

/* Bytes 1 and 2 are covered by two blocks that touch inside byte 1; byte 4 only by half. */
static const uint8_t released[] = {1, 2, 3, 4, 5, 6}, overlay[] = {9, 8, 7, 6, 5, 4, 3};
static const uint64_t offsets[] = {8, 12, 32}, sizes[] = {4, 12, 4}, touching_badly[] = {5, 12, 4};

static void expect_range(uint64_t first, uint64_t count, uint64_t refusal, uint64_t image, const char *what)
{
    struct dk_overlay r = dk_overlay_range(overlay, 7, released, 6, offsets, 3, sizes, 3, first, count);
    expect(r.refusal == refusal && r.image == image, what);
    expect(r.start == (refusal ? 0 : first) && r.length == (refusal ? 0 : count), what);
}

static void fixed(void)
{
    uint64_t firsts[2] = {70, 71}, counts[2] = {80, 81};
    expect_range(1, 2, 0, DK_OVERLAY, "touching blocks count together");
    expect_range(0, 1, 0, DK_RELEASED, "a free byte");
    expect_range(5, 1, 0, DK_RELEASED, "the last byte of the shorter image");
    expect_range(4, 1, DK_PARTLY_COVERED, 0, "half a byte");
    expect_range(0, 2, DK_PARTLY_COVERED, 0, "a free byte and a covered one");
    expect_range(1, 0, DK_BAD_PART, 0, "an empty range");
    expect_range(6, 1, DK_BAD_PART, 0, "past the shorter image");
    expect_range(UINT64_MAX, 2, DK_BAD_PART, 0, "past a number");
    expect(dk_overlay_range(overlay, 7, released, 6, offsets, 3, sizes, 2, 1, 1).refusal == DK_MALFORMED, "lists of different lengths");
    expect(dk_overlay_range(overlay, 7, released, 6, offsets, 3, touching_badly, 3, 9, 9).refusal == DK_MALFORMED, "4 comes before 16");

    struct dk_count r = dk_overlay_runs(overlay, 7, released, 6, offsets, 3, sizes, 3, firsts, 1, counts, 1);
    expect(r.refusal == 0 && r.count == 1 && firsts[0] == 1 && counts[0] == 2, "one run over two blocks");
    expect(firsts[1] == 71 && counts[1] == 81, "what stands past the runs stays");
    firsts[0] = counts[0] = 7;
    r = dk_overlay_runs(overlay, 7, released, 6, offsets, 3, sizes, 3, firsts, 1, counts, 0);
    expect(r.refusal == DK_TOO_SHORT && r.place == 2 && firsts[0] == 7 && counts[0] == 7, "a short list");
    r = dk_overlay_runs(overlay, 7, released, 6, offsets, 3, touching_badly, 3, firsts, 0, counts, 0);
    expect(r.refusal == DK_MALFORMED && r.place == 0, "4 comes before 14");
}

enum { MOST = 64 };

static int take(void *to, size_t bytes)
{
    return fread(to, 1, bytes, stdin) == bytes;
}

static void batch(void)
{
    static uint8_t images[2][MOST];
    static uint64_t blocks[2][MOST], firsts[MOST], counts[MOST];
    uint64_t n[8];
    while (take(n, sizeof n)) {
        for (int i = 0; i < 8; i++)
            if (i != 4 && i != 5 && n[i] > MOST)
                exit(2);
        if (!take(images[0], n[0]) || !take(images[1], n[1]) || !take(blocks[0], 8 * n[2]) || !take(blocks[1], 8 * n[3]))
            exit(2);
        for (int i = 0; i < MOST; i++)
            firsts[i] = counts[i] = 1000000 + (uint64_t)i;
        struct dk_overlay a = dk_overlay_range(images[0], n[0], images[1], n[1], blocks[0], n[2], blocks[1], n[3], n[4], n[5]);
        struct dk_count b = dk_overlay_runs(images[0], n[0], images[1], n[1], blocks[0], n[2], blocks[1], n[3], firsts, n[6], counts, n[7]);
        printf("%" PRIu64 " %" PRIu64 " %" PRIu64 " %" PRIu64, a.refusal, a.image, a.start, a.length);
        printf(" %" PRIu64 " %" PRIu64 " %" PRIu64, b.refusal, b.place, b.count);
        for (uint64_t i = 0; i < n[6]; i++)
            printf(" %" PRIu64, firsts[i]);
        for (uint64_t i = 0; i < n[7]; i++)
            printf(" %" PRIu64, counts[i]);
        putchar('\n');
    }
}

int main(int count, char **arguments)
{
    if (count > 1 && strcmp(arguments[1], "--batch") == 0) {
        batch();
        return 0;
    }
    fixed();
    printf("%u tests of the bench, %u wrong\n", tests, faults);
    return faults != 0;
}
