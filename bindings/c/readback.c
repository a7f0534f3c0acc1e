/* The call that holds a read-back against its image. Without an argument: fixed cases, refusals, and lists that have to be left alone; prints what is wrong,
 * and last how many tests there were. With --batch: the cases of oracle/readback.py on standard input; a line for each. */
#include <inttypes.h>
#include <stdio.h>
#include <stdlib.h>
#include <string.h>

#include "../../include/denkumari.h"

static unsigned tests, faults;

static void expect(int holds, const char *what)
{
    tests++;
    if (!holds) {
        faults++;
        printf("wrong: %s\n", what);
    }
}

enum { LISTS = 4, MOST = 64 };

/* Bytes 1, 2, 4 and 5 are asked for. */
static const uint8_t image[] = {1, 2, 3, 4, 5, 6};
static const uint64_t offsets[] = {8, 32}, sizes[] = {16, 16};
static uint64_t firsts[MOST], counts[MOST];
static uint8_t kinds[MOST];

static struct dk_count verified(const uint8_t *bytes, size_t length, uint64_t offset, uint64_t size, size_t blocks, size_t room)
{
    firsts[0] = counts[0] = firsts[LISTS - 1] = counts[LISTS - 1] = 70;
    kinds[0] = kinds[LISTS - 1] = 70;
    return dk_verify(image, 6, offsets, 2, sizes, 2, bytes, length, &offset, blocks, &size, blocks, firsts, room, counts, LISTS, kinds, LISTS);
}

static int run_is(size_t i, uint64_t first, uint64_t count, uint8_t kind)
{
    return firsts[i] == first && counts[i] == count && kinds[i] == kind;
}

static void expect_refused(struct dk_count r, uint64_t number, uint64_t place, const char *what)
{
    expect(r.refusal == number && r.place == place && r.count == 0 && run_is(0, 70, 70, 70), what);
}

static void fixed(void)
{
    static const uint8_t same[] = {9, 2, 3, 9, 5, 6, 9}, other[] = {1, 2, 9, 4, 5, 6};
    struct dk_count r = verified(same, 7, 0, 56, 1, LISTS);
    expect(r.refusal == 0 && r.count == 0 && run_is(0, 70, 70, 70), "bytes that are not asked for may differ");
    r = verified(other, 6, 0, 40, 1, LISTS);
    expect(r.refusal == 0 && r.count == 2 && run_is(0, 2, 1, DK_DIFFERENT) && run_is(1, 5, 1, DK_MISSING), "one byte differs, one is missing");
    r = verified(other, 6, 16, 8, 1, LISTS);
    expect(r.count == 3 && run_is(0, 1, 1, DK_MISSING) && run_is(1, 2, 1, DK_DIFFERENT) && run_is(2, 4, 2, DK_MISSING), "runs of two kinds touch");
    expect(run_is(LISTS - 1, 70, 70, 70), "what stands past the runs stays");
    r = verified(same, 0, 0, 8, 0, LISTS);
    expect(r.count == 2 && run_is(0, 1, 2, DK_MISSING) && run_is(1, 4, 2, DK_MISSING), "nothing was read back");

    expect_refused(verified(same, 7, 0, 0, 1, 0), DK_MALFORMED, 0, "an empty block");
    expect_refused(verified(same, 7, 3, 0, 1, 0), DK_MALFORMED, 0, "4 comes before 16");
    expect_refused(verified(same, 7, 0, 57, 1, 0), DK_BAD_PART, 0, "a block off a byte's edge, before 14");
    expect_refused(verified(same, 7, 0, 64, 1, 0), DK_BAD_PART, 0, "a block outside what was read back");
    expect_refused(verified(same, 7, 8, UINT64_MAX - 7, 1, 0), DK_BAD_PART, 0, "a block that ends past a number");
    expect_refused(verified(other, 6, 0, 40, 1, 1), DK_TOO_SHORT, 2, "a short list");
    expect(dk_verify(image, 5, offsets, 2, sizes, 2, same, 7, NULL, 0, NULL, 0, firsts, LISTS, counts, LISTS, kinds, LISTS).refusal == DK_BAD_PART,
           "a block outside the image");
    expect(dk_verify(image, 6, offsets, 2, sizes, 1, same, 7, NULL, 0, NULL, 0, firsts, LISTS, counts, LISTS, kinds, LISTS).refusal == DK_MALFORMED,
           "lists of different lengths");
}

static int take(void *to, size_t bytes)
{
    return fread(to, 1, bytes, stdin) == bytes;
}

static void batch(void)
{
    static uint8_t images[2][MOST];
    static uint64_t blocks[4][MOST];
    uint64_t n[9];
    while (take(n, sizeof n)) {
        for (int i = 0; i < 9; i++)
            if (n[i] > MOST)
                exit(2);
        if (!take(images[0], n[0]) || !take(images[1], n[1]))
            exit(2);
        for (int i = 0; i < 4; i++)
            if (!take(blocks[i], 8 * n[2 + i]))
                exit(2);
        for (int i = 0; i < MOST; i++) {
            firsts[i] = counts[i] = 100 + (uint64_t)i;
            kinds[i] = (uint8_t)(100 + i);
        }
        struct dk_count r = dk_verify(images[0], n[0], blocks[0], n[2], blocks[1], n[3], images[1], n[1], blocks[2], n[4], blocks[3], n[5],
                                      firsts, n[6], counts, n[7], kinds, n[8]);
        printf("%" PRIu64 " %" PRIu64 " %" PRIu64, r.refusal, r.place, r.count);
        for (uint64_t i = 0; i < n[6]; i++)
            printf(" %" PRIu64, firsts[i]);
        for (uint64_t i = 0; i < n[7]; i++)
            printf(" %" PRIu64, counts[i]);
        for (uint64_t i = 0; i < n[8]; i++)
            printf(" %u", kinds[i]);
        putchar('\n');
    }
}

int main(int count, char **arguments)
{
    if (count > 1 && strcmp(arguments[1], "--batch") == 0) {
        batch();
        return 0;
    }
    fixed();
    printf("%u tests of the read-back, %u wrong\n", tests, faults);
    return faults != 0;
}
