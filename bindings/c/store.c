/* Offers to the store: document 01's cases, each refusal and their order, and what is left in the arrays, held against a plain scan of all that was
 * accepted; and lists of offers, held against single ones. Prints what is wrong; the last line says how many offers there were. */
#include <stdio.h>
#include <string.h>

#include "../../include/denkumari.h"

static uint64_t positions[512], sizes[512], count, before_positions[512], before_sizes[512];
static uint64_t marks[512], mark_count, before_marks[512];
static unsigned offers, faults;

/* Makes an offer and expects its answer; refused, everything is as it was. */
static void expect(uint64_t position, uint64_t size, uint64_t refusal, uint64_t place, uint64_t second, const char *what)
{
    uint64_t before = count, before_count = mark_count;
    memcpy(before_positions, positions, sizeof positions);
    memcpy(before_sizes, sizes, sizeof sizes);
    memcpy(before_marks, marks, sizeof marks);
    struct dk_offer r = dk_offer(positions, sizes, count, marks, mark_count, position, size);
    count = r.count;
    mark_count = r.marks;
    int holds = r.refusal == refusal && r.place == place && r.second == second;
    if (refusal != DK_ACCEPTED || size == 0)
        holds = holds && count == before && memcmp(positions, before_positions, sizeof positions) == 0 && memcmp(sizes, before_sizes, sizeof sizes) == 0;
    else
        holds = holds && count == before + 1;
    if (refusal != DK_ACCEPTED || size > 0)
        holds = holds && mark_count == before_count && memcmp(marks, before_marks, sizeof marks) == 0;
    else
        holds = holds && mark_count == before_count + 1;
    offers++;
    if (!holds) {
        faults++;
        printf("wrong: %s\n", what);
    }
}

/* An empty store, its arrays full of something. */
static void begin(void)
{
    memset(positions, 0xa5, sizeof positions);
    memset(sizes, 0xa5, sizeof sizes);
    memset(marks, 0xa5, sizeof marks);
    count = mark_count = 0;
}

static void cases(void)
{
    begin();
    expect(0, 8, DK_ACCEPTED, 0, 0, "the first of all");
    expect(8, 8, DK_ACCEPTED, 0, 0, "one that touches it");
    expect(7, 1, DK_OVERLAP, 0, 8, "store (0, 8), (8, 8), offer (7, 1)");
    begin();
    expect(0, 8, DK_ACCEPTED, 0, 0, "the first of all");
    expect(0, 0, DK_ACCEPTED, 0, 0, "an empty offer on its first bit");
    expect(4, 4, DK_OVERLAP, 0, 8, "store (0, 8), offers (0, 0), (4, 4)");
    expect(4, 0, DK_OVERLAP, 0, 8, "an empty offer strictly inside");
    expect(8, 0, DK_ACCEPTED, 0, 0, "an empty offer at the end");
    expect(8589934591, 1, DK_MALFORMED, 0, 0, "a position past the limit");
    expect(0, 4294967296, DK_MALFORMED, 0, 0, "a size past the limit");
    sizes[0] = 0;
    expect(8589934591, 1, DK_BAD_STORE, 0, 0, "an empty interval, before the offer's own numbers");
    count = 513;
    expect(0, 1, DK_BAD_STORE, 512, 0, "a count of 513");
    begin();
    expect(8, 0, DK_ACCEPTED, 0, 0, "a mark");
    expect(4, 0, DK_ACCEPTED, 0, 0, "a lower mark");
    expect(8, 0, DK_ACCEPTED, 0, 0, "an equal mark");
    expect(3, 6, DK_OVERLAP, 4, 0, "a block over marks, the lowest named");
    expect(0, 4, DK_ACCEPTED, 0, 0, "a block up to a mark");
    expect(3, 6, DK_OVERLAP, 0, 4, "an interval named before a mark");
    expect(4, 4, DK_ACCEPTED, 0, 0, "a block from mark to mark");
    expect(9, 0, DK_ACCEPTED, 0, 0, "a mark past all");
    if (mark_count != 4 || marks[0] != 4 || marks[1] != 8 || marks[2] != 8 || marks[3] != 9) {
        faults++;
        printf("wrong: marks out of order\n");
    }
    marks[1] = 3;
    expect(8589934591, 1, DK_BAD_STORE, 1, 0, "marks out of order");
    marks[1] = 5;
    expect(0, 1, DK_BAD_STORE, 1, 0, "a mark strictly inside an interval");
    mark_count = 513;
    expect(0, 1, DK_BAD_STORE, 512, 0, "a count of 513 marks");
    begin();
    for (unsigned i = 0; i < 512; i++)
        expect(8, 0, DK_ACCEPTED, 0, 0, "up to 512 marks");
    expect(8, 0, DK_STORE_FULL, 0, 0, "the 513th mark");
    expect(7, 2, DK_OVERLAP, 8, 0, "12 before 13");
    expect(8, 2, DK_ACCEPTED, 0, 0, "a block beside 512 marks");
}

/* Random offers; each answer by a scan of the accepted ones in no order. */
static void scanned(uint64_t seed, uint64_t span)
{
    static uint64_t starts[512], lengths[512], kept[512];
    unsigned held = 0, keeps = 0;
    begin();
    for (unsigned i = 0; i < 2000; i++) {
        seed = seed * 6364136223846793005u + 1442695040888963407u;
        uint64_t position = (seed >> 33) % span, size = (seed >> 20) % 5, end = position + size;
        int above = -1, below = -1, inside = -1;
        for (unsigned j = 0; j < keeps; j++)
            if (position < kept[j] && kept[j] < end && (inside < 0 || kept[j] < kept[inside]))
                inside = (int)j;
        for (unsigned j = 0; j < held; j++) {
            if (starts[j] >= position && (above < 0 || starts[j] < starts[above]))
                above = (int)j;
            if (starts[j] < position && (below < 0 || starts[j] > starts[below]))
                below = (int)j;
        }
        if (above >= 0 && size > 0 && starts[above] < end)
            expect(position, size, DK_OVERLAP, starts[above], lengths[above], "a clash with the one at or above");
        else if (below >= 0 && position < starts[below] + lengths[below])
            expect(position, size, DK_OVERLAP, starts[below], lengths[below], "a clash with the one below");
        else if (inside >= 0)
            expect(position, size, DK_OVERLAP, kept[inside], 0, "a mark strictly inside");
        else if (size > 0 ? held == 512 : keeps == 512)
            expect(position, size, DK_STORE_FULL, 0, 0, "a full store");
        else {
            expect(position, size, DK_ACCEPTED, 0, 0, "an offer that shares no bit");
            if (size > 0) {
                starts[held] = position;
                lengths[held++] = size;
            } else
                kept[keeps++] = position;
        }
    }
    for (unsigned i = 1; i < held; i++)
        if (positions[i - 1] + sizes[i - 1] > positions[i]) {
            faults++;
            printf("wrong: intervals out of order\n");
        }
    for (unsigned i = 1; i < keeps; i++)
        if (marks[i - 1] > marks[i]) {
            faults++;
            printf("wrong: marks out of order\n");
        }
}

/* 512 intervals and 512 marks, offered in many orders: every order is accepted and leaves the same store, and one more of each kind is refused. */
static void shuffled(uint64_t seed)
{
    static uint64_t at[1024], size[1024], first_positions[512], first_sizes[512], first_marks[512];
    for (unsigned turn = 0; turn < 24; turn++) {
        for (unsigned i = 0; i < 512; i++) {
            at[i] = 16 * i;
            size[i] = 1 + i % 16;
            at[512 + i] = 16 * (i / 2); /* on the first bit of a block, two on each */
            size[512 + i] = 0;
        }
        for (unsigned i = 1023; turn > 0 && i > 0; i--) {
            seed = seed * 6364136223846793005u + 1442695040888963407u;
            unsigned j = (unsigned)((seed >> 33) % (i + 1));
            uint64_t a = at[i], b = size[i];
            at[i] = at[j], size[i] = size[j];
            at[j] = a, size[j] = b;
        }
        begin();
        for (unsigned i = 0; i < 1024; i++)
            expect(at[i], size[i], DK_ACCEPTED, 0, 0, "an offer of a full store, in some order");
        if (turn == 0) {
            memcpy(first_positions, positions, sizeof positions);
            memcpy(first_sizes, sizes, sizeof sizes);
            memcpy(first_marks, marks, sizeof marks);
        }
        if (memcmp(positions, first_positions, sizeof positions) != 0 || memcmp(sizes, first_sizes, sizeof sizes) != 0 ||
            memcmp(marks, first_marks, sizeof marks) != 0) {
            faults++;
            printf("wrong: another order leaves another store\n");
        }
        expect(16 * 512, 1, DK_STORE_FULL, 0, 0, "the 513th interval");
        expect(16 * 512, 0, DK_STORE_FULL, 0, 0, "the 513th mark");
    }
}

/* A list of offers against single calls on a copy: all of them, or the first that is refused, and then nothing changed. */
static void list(const uint64_t *at, size_t at_count, const uint64_t *bits, size_t bits_count, const char *what)
{
    static uint64_t one[3][512], old[3][512];
    uint64_t one_count = count, one_marks = mark_count, shorter = at_count < bits_count ? at_count : bits_count, n = at_count == bits_count ? 0 : shorter;
    struct dk_offer r = {0, 0, 0, count, mark_count}, first = dk_offer(positions, sizes, count, marks, mark_count, UINT64_MAX, 0);
    memcpy(old[0], positions, sizeof positions);
    memcpy(old[1], sizes, sizeof sizes);
    memcpy(old[2], marks, sizeof marks);
    memcpy(one, old, sizeof one);
    if (first.refusal == DK_BAD_STORE)
        r = first, n = 0;
    else if (at_count != bits_count)
        r.refusal = DK_MALFORMED;
    else
        for (; n < at_count && r.refusal == 0; n += r.refusal == 0) {
            r = dk_offer(one[0], one[1], one_count, one[2], one_marks, at[n], bits[n]);
            one_count = r.count, one_marks = r.marks;
        }
    if (r.refusal != 0)
        memcpy(one, old, sizeof one), r.count = count, r.marks = mark_count;
    struct dk_offered got = dk_offers(positions, sizes, count, marks, mark_count, at, at_count, bits, bits_count);
    offers++;
    if (got.refusal != r.refusal || got.place != r.place || got.second != r.second || got.count != r.count || got.marks != r.marks || got.offer != n ||
        memcmp(positions, one[0], sizeof positions) != 0 || memcmp(sizes, one[1], sizeof sizes) != 0 || memcmp(marks, one[2], sizeof marks) != 0) {
        faults++;
        printf("wrong: a list of offers: %s\n", what);
    }
    count = got.count;
    mark_count = got.marks;
}

static void lists(uint64_t seed)
{
    static uint64_t at[600], bits[600];
    begin();
    list(NULL, 0, NULL, 0, "none");
    for (unsigned i = 0; i < 600; i++)
        at[i] = 16 * i, bits[i] = 1 + i % 16;
    list(at, 600, bits, 600, "one more than fits");
    list(at, 512, bits, 512, "as many as fit");
    list(at, 1, bits, 0, "no size");
    list(at, 3, bits, 7, "no position");
    sizes[7] = 0;
    list(at, 1, bits, 0, "an interval of no bits, before the lists");
    count = 513;
    list(NULL, 0, NULL, 0, "a count of 513, and no offer");
    for (unsigned turn = 0; turn < 4000; turn++) {
        if (turn % 8 == 0)
            begin();
        size_t n = 0;
        for (; n < 12; n++) {
            seed = seed * 6364136223846793005u + 1442695040888963407u;
            at[n] = (seed >> 33) % 700;
            bits[n] = (seed >> 20) % 5;
            if ((seed >> 60) == 0)
                break;
        }
        if (turn % 50 == 3)
            at[n / 2] = UINT64_MAX;
        list(at, n, bits, turn % 97 == 5 ? n + 1 : n, "drawn");
    }
}

int main(void)
{
    cases();
    lists(9);
    shuffled(5);
    scanned(1, 400);
    scanned(2, 5000);
    scanned(3, 1000000);
    printf("%u offers, %u wrong\n", offers, faults);
    return faults != 0;
}
