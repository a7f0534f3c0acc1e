/* Stores, spans, overlays and read-backs for the driver. */
#include "driver.h"

enum { STORED = DK_MAX_STORED, SPANS_MOST = 4100, IMAGE = 400, BLOCKS_MOST = 40, LIST = 60, LISTED = 7 };

#define FIELDS(answer) (const uint64_t *)(const void *)&(answer), sizeof(answer) / 8

/* ---- offers ---- */

static struct {
    uint64_t *positions, *sizes, *marks, count, mark_count, position, size;
    uint64_t *listed, *listed_sizes;
    size_t listed_count, listed_sizes_count;
} s;
static struct dk_offer offer;
static struct dk_offered offered;

static void make_offer(void) { offer = dk_offer(s.positions, s.sizes, s.count, s.marks, s.mark_count, s.position, s.size); }

static void make_offers(void)
{
    offered = dk_offers(s.positions, s.sizes, s.count, s.marks, s.mark_count, s.listed, s.listed_count, s.listed_sizes, s.listed_sizes_count);
}

/* A good store: `count` intervals of up to 6 bits, every third touching the one before, and marks between and at them. */
static void draw_store(uint64_t count, uint64_t mark_count)
{
    uint64_t i, at = below(9);
    for (i = 0; i < count; i++) {
        s.positions[i] = at + (i % 3 == 0 ? 0 : 1 + below(4));
        s.sizes[i] = 1 + below(6);
        at = s.positions[i] + s.sizes[i];
    }
    for (i = 0, at = 0; i < mark_count; i++) {
        if (count > 0 && at + 1 < count && one_in(2))
            at++;
        s.marks[i] = count > 0 ? s.positions[at] : 5;
    }
    s.count = count;
    s.mark_count = mark_count;
}

static void damage_store(void)
{
    size_t at = (size_t)below(s.count + 1 < STORED ? s.count + 1 : STORED), mark = (size_t)below(STORED);
    switch (below(6)) {
    case 0: s.positions[at] = edge(); break;
    case 1: s.sizes[at] = one_in(2) ? 0 : edge(); break;
    case 2: s.marks[mark] = one_in(2) ? edge() : below(400); break;
    case 3: s.count = one_in(2) ? edge() : 511 + below(4); break;
    case 4: s.mark_count = one_in(2) ? edge() : 511 + below(4); break;
    default: s.marks[0] = s.positions[0] + 1;
    }
}

/* An offer: anywhere among `most` intervals, or at an edge. */
static void draw_offer(uint64_t most)
{
    s.position = one_in(8) ? edge() : below(one_in(2) ? 100 : 8 * most + 20);
    s.size = one_in(12) ? edge() : below(7);
}

/* A few offers at once: some like single ones, the others one behind the other past all that is stored. */
static void offer_list(uint64_t most)
{
    size_t i, n = (size_t)below(LISTED);
    uint64_t often = one_in(2) ? 2 : 1000;
    s.listed = (uint64_t *)lend(n, 8);
    s.listed_sizes_count = one_in(16) ? (size_t)below(LISTED) : n;
    s.listed_sizes = (uint64_t *)lend(s.listed_sizes_count, 8);
    s.listed_count = n;
    for (i = 0; i < n; i++) {
        draw_offer(most);
        if (!one_in(often)) {
            s.position = 5000 + 8 * i;
            s.size = below(7);
        }
        s.listed[i] = s.position;
        if (i < s.listed_sizes_count)
            s.listed_sizes[i] = s.size;
    }
    called(OFFERS, make_offers, FIELDS(offered));
    s.count = offered.count;
    s.mark_count = offered.marks;
}

void round_of_offers(void)
{
    uint64_t turns = 1 + below(8), most = one_in(8) ? 505 + below(8) : below(20), stored = one_in(4) ? 0 : most;
    s.positions = (uint64_t *)lend(STORED, 8);
    s.sizes = (uint64_t *)lend(STORED, 8);
    s.marks = (uint64_t *)lend(STORED, 8);
    draw_store(stored, one_in(3) ? most : 0);
    if (one_in(5))
        damage_store();
    if (one_in(2))
        offer_list(most);
    for (; turns > 0; turns--) {
        draw_offer(most);
        called(OFFER, make_offer, FIELDS(offer));
        if (offer.refusal != 0)
            continue;
        counted(OFFERS_KEPT, s.size == 0);
        s.count = offer.count;
        s.mark_count = offer.marks;
    }
}

/* ---- spans ---- */

static struct {
    const uint64_t *offsets, *sizes;
    uint64_t *block_offsets, *block_sizes;
    size_t offsets_count, sizes_count, block_offsets_count, block_sizes_count;
} b;
static struct dk_count blocks;

static void make_blocks(void)
{
    blocks = dk_blocks(b.offsets, b.offsets_count, b.sizes, b.sizes_count, b.block_offsets, b.block_offsets_count, b.block_sizes, b.block_sizes_count);
}

/* Spans that mostly follow one another, sometimes jump, sometimes have no offset; in `places` of them one is at a limit. */
static void draw_spans(size_t count, uint64_t places)
{
    static uint64_t offsets[SPANS_MOST], sizes[SPANS_MOST];
    size_t i;
    uint64_t at = 0, *odd = one_in(2) ? offsets : sizes;
    for (i = 0; i < count; i++) {
        offsets[i] = one_in(4) ? below(30 * count + 1) : one_in(10) ? DK_NO_OFFSET : at;
        sizes[i] = one_in(6) ? 0 : below(40);
        if (places > 0 && one_in(count) && places-- > 0)
            odd[i] = edge();
        at = offsets[i] + sizes[i];
    }
    b.offsets_count = count;
    b.sizes_count = count - (count > 0 && one_in(60));
    b.offsets = (const uint64_t *)lend_copy(offsets, b.offsets_count, 8);
    b.sizes = (const uint64_t *)lend_copy(sizes, b.sizes_count, 8);
}

void round_of_spans(void)
{
    size_t count = one_in(300) ? 4094 + (size_t)below(5) : (size_t)below(one_in(9) ? 300 : 30);
    draw_spans(count, below(4) / 3);
    b.block_offsets_count = one_in(10) ? (size_t)below(count / 2 + 1) : count;
    b.block_sizes_count = one_in(10) ? (size_t)below(count / 2 + 1) : count;
    b.block_offsets = (uint64_t *)lend(b.block_offsets_count, 8);
    b.block_sizes = (uint64_t *)lend(b.block_sizes_count, 8);
    called(BLOCKS, make_blocks, FIELDS(blocks));
}

/* ---- overlays ---- */

static struct {
    const uint8_t *overlay, *released;
    const uint64_t *offsets, *sizes;
    uint64_t *firsts, *counts, first, count;
    size_t overlay_count, released_count, blocks, blocks_too, firsts_count, counts_count;
} o;
static struct dk_overlay range;
static struct dk_count runs;

#define LAID o.overlay, o.overlay_count, o.released, o.released_count, o.offsets, o.blocks, o.sizes, o.blocks_too
static void make_range(void) { range = dk_overlay_range(LAID, o.first, o.count); }
static void make_runs(void) { runs = dk_overlay_runs(LAID, o.firsts, o.firsts_count, o.counts, o.counts_count); }

/* Blocks that ascend, some touching, some not on byte edges, some past the images. */
static void draw_overlay(void)
{
    static uint64_t offsets[BLOCKS_MOST], sizes[BLOCKS_MOST];
    uint64_t at = 0, grain = one_in(3) ? 1 : 8, *odd = one_in(2) ? offsets : sizes;
    size_t i;
    o.blocks = (size_t)below(one_in(3) ? BLOCKS_MOST : 6);
    for (i = 0; i < o.blocks; i++) {
        offsets[i] = at + (one_in(3) ? 0 : grain * below(30));
        sizes[i] = grain * (1 + below(40));
        at = offsets[i] + sizes[i];
    }
    at = one_in(2) ? edge() : below(300);
    if (o.blocks > 0 && one_in(6))
        odd[below(o.blocks)] = at;
    o.blocks_too = o.blocks - (o.blocks > 0 && one_in(40));
    o.offsets = (const uint64_t *)lend_copy(offsets, o.blocks, 8);
    o.sizes = (const uint64_t *)lend_copy(sizes, o.blocks_too, 8);
}

/* A released image that differs from the overlay in a byte here and there. */
static void draw_images(void)
{
    static uint8_t image[IMAGE];
    size_t i;
    for (i = 0; i < IMAGE; i++)
        image[i] = (uint8_t)drawn();
    o.overlay_count = (size_t)below(IMAGE);
    o.overlay = (const uint8_t *)lend_copy(image, o.overlay_count, 1);
    for (i = 0; i < IMAGE; i++)
        image[i] ^= (uint8_t)(one_in(6) ? drawn() : 0);
    o.released_count = one_in(3) ? (size_t)below(IMAGE) : o.overlay_count;
    o.released = (const uint8_t *)lend_copy(image, o.released_count, 1);
}

void round_of_overlays(void)
{
    uint64_t turns;
    draw_overlay();
    draw_images();
    for (turns = 1 + below(3); turns > 0; turns--) {
        o.first = one_in(9) ? edge() : below(o.overlay_count + 2);
        o.count = one_in(9) ? edge() : below(12);
        called(OVERLAY_RANGE, make_range, FIELDS(range));
        if (range.refusal == 0)
            counted(IMAGES, range.image);
    }
    o.firsts_count = one_in(6) ? (size_t)below(4) : LIST;
    o.counts_count = one_in(6) ? (size_t)below(4) : LIST;
    o.firsts = (uint64_t *)lend(o.firsts_count, 8);
    o.counts = (uint64_t *)lend(o.counts_count, 8);
    called(OVERLAY_RUNS, make_runs, FIELDS(runs));
}

/* ---- read-backs ---- */

static struct {
    const uint8_t *image, *bytes;
    const uint64_t *offsets, *sizes, *given_offsets, *given_sizes;
    uint64_t *firsts, *counts;
    uint8_t *kinds;
    size_t image_count, bytes_count, blocks, blocks_too, given, given_too, firsts_count, counts_count, kinds_count;
} v;
static struct dk_count unlike;

static void make_verify(void)
{
    unlike = dk_verify(v.image, v.image_count, v.offsets, v.blocks, v.sizes, v.blocks_too, v.bytes, v.bytes_count, v.given_offsets, v.given, v.given_sizes,
                       v.given_too, v.firsts, v.firsts_count, v.counts, v.counts_count, v.kinds, v.kinds_count);
}

/* Blocks of whole bytes within `room` of them, some touching; a few that are not, and a few lists that are broken. How many, and how many sizes. */
static size_t draw_whole_blocks(size_t room, const uint64_t **offsets_lent, const uint64_t **sizes_lent, size_t *sizes_count)
{
    static uint64_t starts[BLOCKS_MOST], lengths[BLOCKS_MOST];
    uint64_t at = one_in(2) ? 0 : below(4), many, odd, *spoilt = one_in(2) ? starts : lengths;
    size_t n = 0, most = (size_t)(one_in(3) ? below(BLOCKS_MOST) : below(5));
    while (n < most && at < room) {
        many = one_in(4) ? room - at : 1 + below(room - at < 12 ? room - at : 12);
        starts[n] = 8 * at;
        lengths[n++] = 8 * many;
        at += many;
        at += one_in(2) ? 0 : below(6);
    }
    odd = one_in(2) ? edge() : below(300);
    if (n > 0 && one_in(12))
        spoilt[below(n)] = odd;
    *sizes_count = n - (n > 0 && one_in(60));
    *offsets_lent = (const uint64_t *)lend_copy(starts, n, 8);
    *sizes_lent = (const uint64_t *)lend_copy(lengths, *sizes_count, 8);
    return n;
}

void round_of_readbacks(void)
{
    static uint8_t image[IMAGE];
    size_t i;
    for (i = 0; i < IMAGE; i++)
        image[i] = (uint8_t)drawn();
    v.image_count = (size_t)below(IMAGE);
    v.image = (const uint8_t *)lend_copy(image, v.image_count, 1);
    for (i = 0; i < IMAGE; i++)
        image[i] ^= (uint8_t)(one_in(9) ? drawn() : 0);
    v.bytes_count = one_in(3) ? (size_t)below(IMAGE) : v.image_count;
    v.bytes = (const uint8_t *)lend_copy(image, v.bytes_count, 1);
    v.blocks = draw_whole_blocks(v.image_count, &v.offsets, &v.sizes, &v.blocks_too);
    v.given = draw_whole_blocks(v.bytes_count, &v.given_offsets, &v.given_sizes, &v.given_too);
    v.firsts_count = one_in(6) ? (size_t)below(4) : LIST;
    v.counts_count = one_in(6) ? (size_t)below(4) : LIST;
    v.kinds_count = one_in(6) ? (size_t)below(4) : LIST;
    v.firsts = (uint64_t *)lend(v.firsts_count, 8);
    v.counts = (uint64_t *)lend(v.counts_count, 8);
    v.kinds = (uint8_t *)lend(v.kinds_count, 1);
    called(VERIFY, make_verify, FIELDS(unlike));
    for (i = 0; unlike.refusal == 0 && i < unlike.count; i++)
        counted(KINDS, v.kinds[i]);
}
