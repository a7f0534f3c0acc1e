/* The driver's core: random numbers, buffers with guards, the sums, and what was seen. */
#include "driver.h"

#if defined(__has_feature)
#if __has_feature(address_sanitizer)
#define __SANITIZE_ADDRESS__ 1
#endif
#endif
#ifdef __SANITIZE_ADDRESS__
#include <sanitizer/asan_interface.h>
#define SHUT(at, bytes) ASAN_POISON_MEMORY_REGION(at, bytes)
#define OPEN(at, bytes) ASAN_UNPOISON_MEMORY_REGION(at, bytes)
#else
#define SHUT(at, bytes) ((void)(at), (void)(bytes))
#define OPEN(at, bytes) ((void)(at), (void)(bytes))
#endif

enum { ARENA = 640 * 1024, GUARD = 16, PAINT = 0xa7, LENT_MOST = 40 };

static uint64_t state;

uint64_t drawn(void)
{
    state ^= state >> 12;
    state ^= state << 25;
    state ^= state >> 27;
    return state * UINT64_C(2685821657736338717);
}

uint64_t below(uint64_t limit)
{
    return (drawn() >> 8) % limit;
}

int one_in(uint64_t often)
{
    return below(often) == 0;
}

uint64_t edge(void)
{
    static const uint64_t limits[] = {0, 16, 255, 512, 4096, 65535, UINT32_MAX, UINT64_C(8589934590), UINT64_C(1) << 40, UINT64_C(1) << 63, UINT64_MAX};
    uint64_t limit = limits[below(sizeof limits / sizeof limits[0])];
    return one_in(3) ? below(200) : limit + below(5) - 2;
}

/* ---- what is lent ---- */

struct lent {
    size_t first, count, width; /* bytes into the arena; elements; bytes of one */
};

static uint64_t words[ARENA / 8];
static uint8_t *const arena = (uint8_t *)words;
static struct lent lents[LENT_MOST];
static size_t lent_count, used;
static uint64_t touched; /* bytes of guards that a call changed */

static void fail(const char *why)
{
    driver_say(why);
    for (;;)
        driver_call(CALLS, 0); /* the platform ends here */
}

void lend_anew(void)
{
    lent_count = 0;
    used = 0;
    SHUT(arena, (size_t)ARENA);
}

static void paint(size_t from, size_t to)
{
    for (; from < to; from++)
        arena[from] = PAINT;
}

/* A guard, the buffer, the bytes up to the next multiple of 8, and a guard. */
static uint8_t *lend_room(size_t count, size_t width)
{
    size_t first = used + GUARD, end = first + count * width, next = (end + 7) / 8 * 8;
    if (next + GUARD > ARENA || lent_count == LENT_MOST)
        fail("the arena is too small\n");
    OPEN(arena + used, next + GUARD - used);
    paint(used, first);
    paint(end, next + GUARD);
    SHUT(arena + used, next + GUARD - used);
    OPEN(arena + first, count * width);
    lents[lent_count].first = first;
    lents[lent_count].count = count;
    lents[lent_count++].width = width;
    used = next;
    return arena + first;
}

/* Elements are set as numbers, so that they are the same whichever end a machine puts first. */
void *lend(size_t count, size_t width)
{
    uint8_t *at = lend_room(count, width);
    uint64_t number = 0;
    size_t i;
    if (count == 0 && one_in(2))
        return 0;
    for (i = 0; i < count; i++) {
        number = width == 8 || i % 8 == 0 ? drawn() : number >> 8;
        if (width == 8)
            ((uint64_t *)(void *)at)[i] = number;
        else if (width == 4)
            ((uint32_t *)(void *)at)[i] = (uint32_t)number;
        else
            at[i] = (uint8_t)number;
    }
    return at;
}

void *lend_copy(const void *from, size_t count, size_t width)
{
    uint8_t *at = lend_room(count, width);
    const uint8_t *bytes = (const uint8_t *)from;
    size_t i;
    for (i = 0; i < count * width; i++)
        at[i] = bytes[i];
    return at;
}

/* ---- sums ---- */

static uint64_t sums[CALLS], calls_made[CALLS], seen[COUNTED][20], all_calls;

/* Each step can be undone, so two runs that differ in one number differ in their sums. */
static uint64_t folded(uint64_t sum, uint64_t number)
{
    sum = (sum ^ number) * UINT64_C(0x9e3779b97f4a7c15);
    return sum ^ sum >> 32;
}

static uint64_t element(const struct lent *one, size_t i)
{
    const uint8_t *at = arena + one->first;
    switch (one->width) {
    case 1: return at[i];
    case 2: return ((const uint16_t *)(const void *)at)[i];
    case 4: return ((const uint32_t *)(const void *)at)[i];
    default: return ((const uint64_t *)(const void *)at)[i];
    }
}

/* The elements of a buffer: bytes eight to a step, others one by one. */
static uint64_t folded_lent(uint64_t sum, const struct lent *one)
{
    const uint8_t *at = arena + one->first;
    size_t i = 0;
    if (one->width == 1)
        for (; i + 8 <= one->count; i += 8) {
            uint32_t high = (uint32_t)at[i] << 24 | (uint32_t)at[i + 1] << 16 | (uint32_t)at[i + 2] << 8 | at[i + 3];
            uint32_t low = (uint32_t)at[i + 4] << 24 | (uint32_t)at[i + 5] << 16 | (uint32_t)at[i + 6] << 8 | at[i + 7];
            sum = folded(sum, (uint64_t)high << 32 | low);
        }
    for (; i < one->count; i++)
        sum = folded(sum, element(one, i));
    return sum;
}

/* Bytes of the guards before, between and behind the buffers that are not as they were painted. A sanitizer that shuts them sees every touch by itself. */
static uint64_t touched_bytes(void)
{
    uint64_t found = 0;
#ifndef __SANITIZE_ADDRESS__
    size_t i, at = 0;
    for (i = 0; i < lent_count; i++) {
        for (; at < lents[i].first; at++)
            found += arena[at] != PAINT;
        at += lents[i].count * lents[i].width;
    }
    for (; at < used + GUARD; at++)
        found += arena[at] != PAINT;
#endif
    return found;
}

void counted(enum call which, uint64_t number)
{
    seen[which][number < 20 ? number : 19]++;
}

void called(enum call which, void (*made)(void), const uint64_t *answer, size_t fields)
{
    size_t i;
    uint64_t sum = sums[which], wrong;
    driver_call(which, made);
    for (i = 0; i < fields; i++)
        sum = folded(sum, answer[i]);
    for (i = 0; i < lent_count; i++)
        sum = folded_lent(sum, &lents[i]);
    wrong = touched_bytes();
    touched += wrong;
    sums[which] = folded(sum, wrong);
    calls_made[which]++;
    all_calls++;
    counted(which, answer[0]);
}

/* ---- what must be seen, and what is said ---- */

#define N(n) (UINT32_C(1) << (n))
#define LAYOUT_REFUSALS (N(0) | N(1) | N(2) | N(3) | N(4) | N(5) | N(7) | N(8) | N(9) | N(10) | N(11) | N(12) | N(13) | N(14))

static const struct {
    const char *name;
    uint32_t must; /* the numbers that a whole run must see */
} rows[COUNTED] = {
    {"dk_build", LAYOUT_REFUSALS},
    {"dk_build_paged", LAYOUT_REFUSALS | N(19)},
    {"dk_profile", N(0) | N(1) | N(2) | N(3) | N(4) | N(19)},
    {"dk_map", N(0) | N(1) | N(2) | N(3) | N(4)},
    {"dk_form", LAYOUT_REFUSALS},
    {"dk_form_paged", LAYOUT_REFUSALS | N(19)},
    {"dk_to_form2", N(0) | N(4) | N(14)},
    {"dk_to_form1", N(0) | N(4) | N(14) | N(18)},
    {"dk_blocks", N(0) | N(4) | N(14)},
    {"dk_hex", N(0) | N(4) | N(14)},
    {"dk_offer", N(0) | N(4) | N(12) | N(13) | N(15)},
    {"dk_offers", N(0) | N(4) | N(12) | N(13) | N(15)},
    {"dk_part", N(0) | N(16)},
    {"dk_overlay_range", N(0) | N(4) | N(16) | N(17)},
    {"dk_overlay_runs", N(0) | N(4) | N(14)},
    {"dk_verify", N(0) | N(4) | N(14) | N(16)},
    {"dk_write_hex", N(0) | N(4) | N(14) | N(16)},
    {"dk_write_srec", N(0) | N(4) | N(14) | N(16)},
    {"dk_read_records", N(0) | N(4) | N(14)},
    {"dk_record_extent", N(0) | N(4)},
    {"dk_record_fault", N(0) | N(1)},
    {"dk_record_reason", N(14) - 1},
    {"rules of the profile", N(1) | N(2) | N(3) | N(4) | N(5) | N(6)},
    {"images of a range", N(1) | N(2)},
    {"kinds of a run", N(1) | N(2)},
    {"places of 14, tables", N(0) | N(1)},
    {"places of 14, records", N(0) | N(2)},
    {"forms built", N(1) | N(2)},
    {"stopped maps", N(5) | N(7) | N(8) | N(9) | N(10) | N(11) | N(12) | N(13)},
    {"formats read", N(0) | N(1)},
    {"offers kept", N(0) | N(1)}};

static void say_number(uint64_t number, unsigned base, unsigned width)
{
    char text[24];
    unsigned at = sizeof text - 1;
    text[at] = 0;
    do {
        text[--at] = "0123456789abcdef"[number % base];
        number /= base;
    } while (number != 0);
    while (sizeof text - 1 - at < width)
        text[--at] = base == 16 ? '0' : ' ';
    driver_say(text + at);
}

static void say_row(enum call which)
{
    unsigned i;
    driver_say(rows[which].name);
    driver_say(":");
    if (which < CALLS) {
        say_number(calls_made[which], 10, 8);
        driver_say(" calls, sum ");
        say_number(sums[which], 16, 16);
        driver_say(",");
    }
    for (i = 0; i < 20; i++) {
        if (seen[which][i] == 0)
            continue;
        driver_say(" ");
        say_number(i, 10, 1);
        driver_say("*");
        say_number(seen[which][i], 10, 1);
    }
    driver_say("\n");
}

/* Says what was never seen and must be. */
static int say_missing(enum call which)
{
    unsigned i;
    int missing = 0;
    for (i = 0; i < 20; i++) {
        if ((rows[which].must >> i & 1) == 0 || seen[which][i] != 0)
            continue;
        driver_say("never seen: ");
        driver_say(rows[which].name);
        driver_say(" ");
        say_number(i, 10, 1);
        driver_say("\n");
        missing = 1;
    }
    return missing;
}

static int say_all(int whole)
{
    unsigned which;
    uint64_t sum = 0;
    int bad = touched != 0;
    for (which = 0; which < COUNTED; which++) {
        say_row((enum call)which);
        sum = which < CALLS ? folded(sum, sums[which]) : sum;
    }
    driver_say("all:");
    say_number(all_calls, 10, 8);
    driver_say(" calls, sum ");
    say_number(sum, 16, 16);
    driver_say("\n");
    if (bad)
        driver_say("wrong: a call wrote outside what it was lent\n");
    for (which = 0; which < COUNTED && whole; which++)
        bad |= say_missing((enum call)which);
    return bad;
}

int driver_run(uint64_t calls, uint64_t seed, int whole)
{
    static void (*const rounds[])(void) = {round_of_tables, round_of_tables, round_of_tables, round_of_tables, round_of_files, round_of_files, round_of_files,
                                           round_of_records, round_of_records, round_of_records, round_of_overlays, round_of_readbacks, round_of_offers,
                                           round_of_spans};
    state = seed * 2 + 1;
    while (all_calls < calls) {
        lend_anew();
        rounds[below(sizeof rounds / sizeof rounds[0])]();
    }
    return say_all(whole);
}
