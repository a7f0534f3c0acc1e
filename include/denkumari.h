/* Denkumari: from a table of banks and a list of nodes to an image, its spans and its blocks. Every call here is proved: its contract is what the
 * documents say of it ("document" means documents 01 and 02), and the last comment of this file names the theorems. Link with libdenkumari.a (x86-64 Linux), or
 * compile portable/denkumari.c with any C99 compiler. It calls nothing but memory functions of the C library, allocates nothing, keeps nothing between calls,
 * and may be called from any thread.
 *
 * Buffers. You own every buffer, and it is used during the call only. Each is a pointer and the number of its elements (not of its bytes), but for the store's
 * arrays of dk_offer and dk_offers (512 elements each) and the four lists of dk_map (4,096 each), which have no number. The pointers have to be good for their
 * lengths and aligned for their type; where a length is 0 any pointer will do, NULL too. A buffer that a function writes may overlap no other of the same
 * call. `scratch` is written during the call and is then as it was: it is writable memory that no two calls share. Nothing else is asked of you: every number
 * may have any value, and what is not acceptable is refused.
 *
 * Refusals. `refusal` is 0 where the call was accepted, else one of the numbers below, and `place` (and `second`) says where. An answer without `place`, of
 * dk_part and dk_overlay_range, is refused with numbers whose place is 0. A refused call leaves every buffer as it was, and every other field of its answer is
 * 0, except `passes`, the counts of dk_offer and dk_offers, which are those given, the `offer` of dk_offers, and dk_map's `node`, which is DK_NO_NODE. An
 * accepted call leaves the lists that it wrote as they were past what it wrote; the rest of the image is made zero, or takes the fill bits of filled banks. A
 * text that is written has no final zero byte.
 *
 * Stack. What a call needs, all its frames included, is said of each, with what was measured of the archive on the longest lists, rounded up. It holds for
 * the archive, and for portable/denkumari.c where gcc or clang compiles it with -O2, -O3 or -Os. Without optimisation a call takes more: up to 3 KiB where
 * 1 to 2 KiB are promised. bindings/c/stack.c measures it by painting a thread's stack, and the tests fail where a call needs more; docs/BENCHMARK.md has the
 * bytes for the archive, docs/PORTABLE.md for the portable C on x86-64, on Arm and on a Cortex-M4.
 */
#ifndef DENKUMARI_H
#define DENKUMARI_H

#include <stddef.h>
#include <stdint.h>

#ifdef __cplusplus
extern "C" {
#endif
#if defined(__cplusplus) && defined(__GNUC__)
#pragma GCC diagnostic push
#pragma GCC diagnostic ignored "-Wshadow" /* three calls have the name of their answer's struct: see dk_part_answer */
#endif

/* The version of this interface. */
#define DENKUMARI_VERSION "0.7.1"

/* Limits: what is beyond one of them is refused. */
#define DK_MAX_BANKS 16
#define DK_MAX_NODES 4096
#define DK_MAX_ROWS 16
#define DK_MAX_SPANS 4096
#define DK_MAX_STORED 512
#define DK_MAX_FILE 65536 /* of form 2; form 1 has at most 65,000 bytes */
#define DK_MAX_POSITION UINT32_MAX

/* What `refusal` says, and what stands in `place` with it. */
enum dk_refusal {
    DK_ACCEPTED = 0,           /* nothing is refused */
    DK_BANK_COUNT = 1,         /* not 1 to 16 banks; place 0 */
    DK_BANK_NUMBER = 2,        /* a bank's number is beyond its limit, a filled bank has size 0, a fill bit is above 1, or bank 0's is not 0;
                                  place: the bank */
    DK_BANKS_OVERLAP = 3,      /* two banks overlap; place and second: the first such pair */
    DK_MALFORMED = 4,          /* a count, kind, bank number, state or value range is bad; place: the node, or 0, 1 for the count of nodes,
                                  of rows, 3 for a fill that is neither 0 nor 1. Of a file that is broken: the first field that is, from 0. In
                                  dk_blocks, dk_hex and the calls about records: 0 */
    DK_POSITION_PAST = 5,      /* a position would pass 4,294,967,295; place: the node */
    DK_NEGATIVE_ALIGNMENT = 6, /* no longer given: alignments are met below address 0 too */
    DK_LABEL_OFF_BOUNDARY = 7, /* a label in the last pass is between two addresses; place: the node */
    DK_UNRESOLVED = 8,         /* the last pass ended unresolved; place 0 */
    DK_DEFAULT_BANK = 9,       /* bank 0 is used, but it is closed or not the only bank; place: the node */
    DK_PAST_BANK = 10,         /* an item ends past its bank's size; place: the node */
    DK_NO_OUTPUT = 11,         /* an item is written in a bank without output offset; place: the node */
    DK_OVERLAP = 12,           /* an item would share a bit with another, or have a mark (an item of size 0) strictly inside it, or is a mark
                                  strictly inside another; place and second: start and size of that other, in bits, of a mark its place and 0 */
    DK_STORE_FULL = 13,        /* over 512 items and reserves, or over 512 marks; place: the node, of an offer 0 */
    DK_TOO_SHORT = 14,         /* a buffer is too short; place: image, bytes or a converted file 0, spans 1, blocks or runs 2, hex or text 3 */
    DK_BAD_STORE = 15,         /* a store that was given is not one: over 512 intervals or marks, or intervals past an offer's limits, empty, not
                                  ascending or sharing a bit, or marks past an offer's limit, out of order or strictly inside an interval;
                                  place: 512 for either count, else the first interval at fault, else the first mark at fault */
    DK_BAD_PART = 16,          /* a part of an image is empty, outside it, or not on byte edges; place 0 */
    DK_PARTLY_COVERED = 17,    /* an overlay covers a range only in part; place 0 */
    DK_FILL_BIT_LOST = 18,     /* a way back to form 1 would drop a fill bit of one; place 0 */
    DK_OFF_PROFILE = 19        /* a layout breaks the profile; place: the rule, enum dk_rule; second: its bank or node, 0 for the page size */
};

/* The offset of a span that has none. */
#define DK_NO_OFFSET UINT64_MAX

/* The pages of a bank that has no offset, or that is not in the table. */
#define DK_NO_PAGES UINT64_MAX

/* The rules of the profile, in the order in which they are tried. */
enum dk_rule {
    DK_RULE_PAGE = 1,   /* the page size is a power of two */
    DK_RULE_ALIGN = 2,  /* every alignment is 0 or a power of two: label alignments, then those of nodes, in every row */
    DK_RULE_OFFSET = 3, /* a bank's offset is on a page */
    DK_RULE_SIZE = 4,   /* a bank with an offset has a size of whole pages */
    DK_RULE_UNIT = 5,   /* address units are 8 or 16 bits */
    DK_RULE_ADDR = 6    /* addr goes to a multiple of its bank's unit, in every row */
};

/* The fill's choice. */
enum dk_fill { DK_FILL_INHERITED = 0, DK_FILL_FULL = 1 };

/* What a bank has. */
enum dk_flags { DK_HAS_SIZE = 1, DK_HAS_OFFSET = 2, DK_HAS_ALIGN = 4, DK_FILL = 8 };

/* Kinds of nodes. */
enum dk_kind {
    DK_NOTHING = 0,
    DK_SWITCH = 1,
    DK_LABEL = 2,
    DK_CONSTANT = 3,
    DK_INSTRUCTION = 4,
    DK_DATA = 5,      /* of declared size: its number is the first row's */
    DK_OPEN_DATA = 6,
    DK_RESERVE = 7,
    DK_ALIGN = 8,
    DK_ADDR = 9,
    DK_ASSERT = 10
};

/* What a bank lost to DK_ALIGN and to label alignment: the bits, and the sum of the whole address units of each skip, its bits over the bank's unit, rounded
 * down; skips of parts of a unit add no unit, however many there are. */
struct dk_padding {
    uint64_t bits;
    uint64_t units;
};

/* The answer of a layout. */
struct dk_layout {
    uint64_t refusal; /* enum dk_refusal */
    uint64_t place;
    uint64_t second;  /* of refusals 3, 12 and 19, else 0 */
    uint64_t passes;  /* passes run, in a refusal from 5 on too */
    uint64_t k;       /* the first pass that was not unresolved; 0 for pass limit 0 */
    uint64_t length;  /* of the image, in bits */
    uint64_t spans;   /* how many were written */
    struct dk_padding padding[DK_MAX_BANKS]; /* of each bank, in the last pass; refused, zeros */
};

/* The answer of a call that writes a list. */
struct dk_count {
    uint64_t refusal; /* DK_ACCEPTED, DK_MALFORMED, DK_TOO_SHORT, of dk_verify and of calls that write records DK_BAD_PART, of dk_to_form1 DK_FILL_BIT_LOST */
    uint64_t place;
    uint64_t count;   /* how many elements were written */
};

/* A part of an image. */
struct dk_part {
    uint64_t refusal; /* DK_ACCEPTED or DK_BAD_PART */
    uint64_t start;   /* in bytes */
    uint64_t length;  /* in bytes */
};

/* Three answers have the name of their call. In C++ these names mean the function; use these aliases for the structs. */
typedef struct dk_part dk_part_answer;
typedef struct dk_offer dk_offer_answer;
typedef struct dk_profile dk_profile_answer;

/* The answer to an offer. */
struct dk_offer {
    uint64_t refusal; /* DK_ACCEPTED, DK_BAD_STORE, DK_MALFORMED, DK_OVERLAP or DK_STORE_FULL, tried in this order */
    uint64_t place;
    uint64_t second;  /* of refusal 12, else 0 */
    uint64_t count;   /* how many intervals are stored afterwards; refused, the count given */
    uint64_t marks;   /* how many marks are kept afterwards; refused, the count given */
};

/* The answer to a list of offers. */
struct dk_offered {
    uint64_t refusal; /* as in struct dk_offer, of the offer that was refused */
    uint64_t place;
    uint64_t second;
    uint64_t count;   /* how many intervals are stored afterwards; refused, the count given */
    uint64_t marks;   /* how many marks are kept afterwards; refused, the count given */
    uint64_t offer;   /* which offer was refused, from 0; all accepted, how many there are; 0 for DK_BAD_STORE */
};

/* Lays tables out. Bank i, from 0, has units[i] bits to an address, starts[i], and, where its flag is set, bank_sizes[i] (in bits),
 * bank_offsets[i] (the place of its first bit in the image, in bits) and aligns[i] (label alignment); flags[i] is a sum of
 * DK_HAS_SIZE, DK_HAS_OFFSET, DK_HAS_ALIGN and DK_FILL; fill_bits[i], 0 or 1, is what a filled bank with size and offset has where no item is
 * written, up to the image's length. The seven lists are equally long, else 1; other flags and fill bits are 2, and so is 1 for bank 0.
 *
 * Node j has kinds[j], and operands[j], a bank for DK_SWITCH, a depth for DK_LABEL and DK_CONSTANT, the first bit in `values` for items. There are
 * `rows` rows, 1 to 16; row r gives node j numbers[r * nodes + j] and states[r * nodes + j] (0 resolved, 1 stable, 2 unresolved). `limit` is
 * the pass limit. `fill` is DK_FILL_INHERITED, customasm's rule (if the image ends just before a filled bank's last bit, that bit is left out), or DK_FILL_FULL, by which the
 * image reaches the end of every filled bank. `closed` says whether bank 0 may hold labels, written items and reserves where it is the only bank: 0, as in form 1,
 * that it may; any other number, as in form 2, that it may not.
 *
 * Writes the image, bits from the top of each byte, and the spans, labels and written items in the order of the nodes: span i has addresses[i],
 * offsets[i] (in bits, or DK_NO_OFFSET) and sizes[i] (in bits, 0 for a label). The shortest of the three lists counts.
 *
 * It needs less than 24 KiB of stack (21.5 KiB). */
struct dk_layout dk_build(const uint16_t *units, size_t units_len,
                          const int64_t *starts, size_t starts_len,
                          const uint32_t *bank_sizes, size_t bank_sizes_len,
                          const uint32_t *bank_offsets, size_t bank_offsets_len,
                          const uint32_t *aligns, size_t aligns_len,
                          const uint8_t *flags, size_t flags_len,
                          const uint8_t *fill_bits, size_t fill_bits_len,
                          const uint8_t *kinds, size_t kinds_len,
                          const uint32_t *operands, size_t operands_len,
                          const uint32_t *numbers, size_t numbers_len,
                          const uint8_t *states, size_t states_len,
                          uint64_t rows,
                          const uint8_t *values, size_t values_len,
                          uint8_t limit, uint8_t fill, uint8_t closed,
                          uint8_t *image, size_t image_len,
                          int64_t *addresses, size_t addresses_len,
                          uint64_t *offsets, size_t offsets_len,
                          uint64_t *sizes, size_t sizes_len);

/* The same for a file of form 1, at most 65,000 bytes, or of form 2, at most 65,536: image and spans as above. Bank 0 is closed in form 2, open in form 1.
 * It needs less than 136 KiB of stack (128.9 KiB), most of it for the lists of the file. */
struct dk_layout dk_form(const uint8_t *file, size_t file_len, uint8_t fill,
                         uint8_t *image, size_t image_len,
                         int64_t *addresses, size_t addresses_len,
                         uint64_t *offsets, size_t offsets_len,
                         uint64_t *sizes, size_t sizes_len);

/* What the profile says of a layout. */
struct dk_profile {
    uint64_t refusal; /* DK_ACCEPTED, or the number of a refusal: 1 to 4, then DK_OFF_PROFILE */
    uint64_t place;
    uint64_t second;
    uint64_t pages[DK_MAX_BANKS]; /* of each bank: its size over the page size, or DK_NO_PAGES; refused, zeros */
};

/* Whether tables, as in dk_build, keep the profile of a device with pages of `page` bits: refused 1, 2, 3 and 4 as dk_build refuses them before its first
 * pass, then 19 with the first rule that is broken. It needs less than 8 KiB of stack (5.3 KiB). */
struct dk_profile dk_profile(uint32_t page,
                             const uint16_t *units, size_t units_len,
                             const int64_t *starts, size_t starts_len,
                             const uint32_t *bank_sizes, size_t bank_sizes_len,
                             const uint32_t *bank_offsets, size_t bank_offsets_len,
                             const uint32_t *aligns, size_t aligns_len,
                             const uint8_t *flags, size_t flags_len,
                             const uint8_t *fill_bits, size_t fill_bits_len,
                             const uint8_t *kinds, size_t kinds_len,
                             const uint32_t *operands, size_t operands_len,
                             const uint32_t *numbers, size_t numbers_len,
                             const uint8_t *states, size_t states_len,
                             uint64_t rows,
                             const uint8_t *values, size_t values_len,
                             uint8_t fill);

/* dk_build and dk_form in the profile of a device with pages of `page` bits: what dk_profile refuses is refused so, with no pass run; everything else is as
 * without a profile. They need less than 28 KiB and 136 KiB of stack (23.9 and 128.9 KiB). */
struct dk_layout dk_build_paged(uint32_t page,
                                const uint16_t *units, size_t units_len,
                                const int64_t *starts, size_t starts_len,
                                const uint32_t *bank_sizes, size_t bank_sizes_len,
                                const uint32_t *bank_offsets, size_t bank_offsets_len,
                                const uint32_t *aligns, size_t aligns_len,
                                const uint8_t *flags, size_t flags_len,
                                const uint8_t *fill_bits, size_t fill_bits_len,
                                const uint8_t *kinds, size_t kinds_len,
                                const uint32_t *operands, size_t operands_len,
                                const uint32_t *numbers, size_t numbers_len,
                                const uint8_t *states, size_t states_len,
                                uint64_t rows,
                                const uint8_t *values, size_t values_len,
                                uint8_t limit, uint8_t fill, uint8_t closed,
                                uint8_t *image, size_t image_len,
                                int64_t *addresses, size_t addresses_len,
                                uint64_t *offsets, size_t offsets_len,
                                uint64_t *sizes, size_t sizes_len);

struct dk_layout dk_form_paged(const uint8_t *file, size_t file_len, uint8_t fill, uint32_t page,
                               uint8_t *image, size_t image_len,
                               int64_t *addresses, size_t addresses_len,
                               uint64_t *offsets, size_t offsets_len,
                               uint64_t *sizes, size_t sizes_len);

/* The node of a map that is at fault, where there is none. */
#define DK_NO_NODE UINT64_MAX

/* The map of a layout. */
struct dk_mapped {
    uint64_t refusal; /* 1 to 4 where the call is refused, as dk_build refuses before its first pass; else 0 */
    uint64_t stopped; /* 5 to 13 where the layout is refused and the map is not; else 0 */
    uint64_t place;   /* of whichever of the two is not 0 */
    uint64_t second;  /* of 3 and 12, else 0 */
    uint64_t node;    /* the node at fault of 5, 7 and 9 to 13, else DK_NO_NODE */
    uint64_t passes;  /* passes run */
    uint64_t nodes;   /* how many nodes are shown, from node 0 on: all of them, or up to the one at fault, which is shown too except in 5 */
    struct dk_padding padding[DK_MAX_BANKS]; /* of each bank, what the nodes shown lost */
};

/* The map of tables, given as in dk_build: where each node stands in the row of the last pass, as far as the layout goes. The four lists have DK_MAX_NODES
 * elements each. Node i stands in bank banks_of[i], sees the position positions[i] (in bits of its bank), has its place in the output at bit outputs[i], or
 * DK_NO_OFFSET, and takes sizes[i] bits if it is an item or a reserve. Elements past `nodes` stay. The call is refused 1, 2, 3 and 4 in this order, and then
 * changes nothing; there is no 14, since the lists have a place for every node that a layout can have. Where dk_build refuses from 5 to 13 the map is the
 * answer, and says it in `stopped`, with its place and the node: so the node at fault of 12 is learnt, whose own place is the interval that it meets. Time
 * grows with passes times nodes, and with the nodes times those stored before them. It needs less than 24 KiB of stack (17.0 KiB). */
struct dk_mapped dk_map(const uint16_t *units, size_t units_len,
                        const int64_t *starts, size_t starts_len,
                        const uint32_t *bank_sizes, size_t bank_sizes_len,
                        const uint32_t *bank_offsets, size_t bank_offsets_len,
                        const uint32_t *aligns, size_t aligns_len,
                        const uint8_t *flags, size_t flags_len,
                        const uint8_t *fill_bits, size_t fill_bits_len,
                        const uint8_t *kinds, size_t kinds_len,
                        const uint32_t *operands, size_t operands_len,
                        const uint32_t *numbers, size_t numbers_len,
                        const uint8_t *states, size_t states_len,
                        uint64_t rows,
                        const uint8_t *values, size_t values_len,
                        uint8_t limit, uint8_t fill, uint8_t closed,
                        uint64_t *banks_of, uint32_t *positions, uint64_t *outputs, uint32_t *sizes);

/* A layout file in the other form: `count` is the length of the result, which stands at the front of `out`, and what is behind it stays. On the way to form 2
 * fill bits are zero, and a file of one bank gets a bank 1 with bank 0's record, a switch to it ahead of the first node, and every switch to bank 0 turned
 * into one to bank 1; the way back takes exactly that shape to one bank. Refused 4 for a broken file or one of the other form (place: the first broken
 * field), over 4,096 nodes in file or result (0), over 16 rows (1), a one-bank file that names another bank (the node), or a result past its form's
 * length (0); then, on the way to form 1, 18 for a fill bit of one; then 14 (place 0) where `out` is too short. They need less than 1 KiB of stack. */
struct dk_count dk_to_form2(const uint8_t *file, size_t file_len, uint8_t *out, size_t out_len);
struct dk_count dk_to_form1(const uint8_t *file, size_t file_len, uint8_t *out, size_t out_len);

/* The blocks that spans make: taken by offset, a span that starts at the end of those before it joins them; a span whose offset is DK_NO_OFFSET is passed over,
 * and blocks of size 0 are dropped. Refused 4 (place 0) unless there are as many offsets as sizes, at most 4,096, no offset but DK_NO_OFFSET above 8,589,934,590 and
 * no size above 4,294,967,295; then 14 (place 2). Block i starts at bit block_offsets[i] and has block_sizes[i] bits. It needs less than 12 KiB of stack (10.5 KiB), 8 KiB
 * of it for the spans' numbers. */
struct dk_count dk_blocks(const uint64_t *offsets, size_t offsets_len,
                          const uint64_t *sizes, size_t sizes_len,
                          uint64_t *block_offsets, size_t block_offsets_len,
                          uint64_t *block_sizes, size_t block_sizes_len);

/* The first `bits` bits of `bytes` in hex: four bits a digit, lower case, the last digit padded with zero bits, no final zero byte. Refused 4
 * where there are fewer bits, then 14 (place 3) where `hex` is too short. It needs less than 1 KiB of stack (at most 128 bytes). */
struct dk_count dk_hex(const uint8_t *bytes, size_t bytes_len, uint64_t bits, uint8_t *hex, size_t hex_len);

/* Offers `size` bits from bit `position` on to a store that you keep between calls: `count` intervals, ascending, no two sharing a bit, interval i
 * being sizes[i] bits from positions[i] on; and `mark_count` marks, the accepted offers of size 0, ascending, equal ones each, none strictly inside an
 * interval. All three arrays have 512 elements; with counts of 0 they may hold anything. Accepted, an offer is put in at its place, with bits among the
 * intervals, without among the marks. Elements past the counts stay. Refused 15 where the store is no such store, 4 (place 0) where position is above
 * 8,589,934,590 or size above 4,294,967,295, 12 where a bit is shared or a mark would be strictly inside an interval (place and second: start and
 * size of the lowest interval at or above the offer if those two share a bit, otherwise of the one below; where no interval is to be named, the lowest
 * mark strictly inside the offer and 0), 13 (place 0) where 512 intervals, or for a mark 512 marks, are stored. It needs less than 1 KiB of stack. */
struct dk_offer dk_offer(uint64_t *positions, uint64_t *sizes, uint64_t count, uint64_t *marks, uint64_t mark_count, uint64_t position, uint64_t size);

/* Many offers to such a store, all or none: offer i has offer_sizes[i] bits from bit offer_positions[i] on. The store is looked at once, 15 with offer 0; then
 * the lists, 4 (place 0) where they are not equally long, with the number of the first offer that lacks a position or a size; then each offer in turn, as
 * dk_offer does. Where all are accepted the store is what so many calls of dk_offer leave; where one is refused nothing that you lent has changed. There may be
 * any number of offers. It needs less than 14 KiB of stack, 12 KiB of it for a copy of the store. */
struct dk_offered dk_offers(uint64_t *positions, uint64_t *sizes, uint64_t count, uint64_t *marks, uint64_t mark_count,
                            const uint64_t *offer_positions, size_t offer_positions_len,
                            const uint64_t *offer_sizes, size_t offer_sizes_len);

/* Where in an image the block of `size` bits from bit `offset` on stands, in bytes: image + start, length bytes. Reads nothing of the image. It
 * needs less than 1 KiB of stack (at most 128 bytes). */
struct dk_part dk_part(const uint8_t *image, size_t image_len, uint64_t offset, uint64_t size);

/* Which image a range comes from. */
enum dk_image { DK_NO_IMAGE = 0, DK_OVERLAY = 1, DK_RELEASED = 2 };

/* A range of bytes, from one of two images. */
struct dk_overlay {
    uint64_t refusal; /* DK_ACCEPTED, DK_MALFORMED, DK_BAD_PART or DK_PARTLY_COVERED */
    uint64_t image;   /* enum dk_image */
    uint64_t start;   /* in bytes */
    uint64_t length;  /* in bytes */
};

/* On the bench: a released image and an overlay of curves under trial, both at the same offsets. Block i of the overlay starts at bit offsets[i] and
 * has sizes[i] bits; as many offsets as sizes, no block empty, ascending, no bit in two of them, else 4. Blocks may touch, and may end past the
 * images. Says which image the `count` bytes from byte `first` on come from: the overlay where its blocks cover every bit of them, the released image
 * where they cover none, else 17; 16 where the range is empty or outside either image. Reads neither image. It needs less than 1 KiB of stack. */
struct dk_overlay dk_overlay_range(const uint8_t *overlay, size_t overlay_len,
                                   const uint8_t *released, size_t released_len,
                                   const uint64_t *offsets, size_t offsets_len,
                                   const uint64_t *sizes, size_t sizes_len,
                                   uint64_t first, uint64_t count);

/* The same overlay: each longest run of bytes that its blocks cover whole, inside both images, and that differ between the two, ascending. Run i is the
 * counts[i] bytes from byte firsts[i] on. Refused 4 as above, then 14 (place 2) where a list is too short. It needs less than 1 KiB of stack. */
struct dk_count dk_overlay_runs(const uint8_t *overlay, size_t overlay_len,
                                const uint8_t *released, size_t released_len,
                                const uint64_t *offsets, size_t offsets_len,
                                const uint64_t *sizes, size_t sizes_len,
                                uint64_t *firsts, size_t firsts_len,
                                uint64_t *counts, size_t counts_len);

/* What the bytes of a run of a read-back are: not given, or given with another value. */
enum dk_unlike { DK_MISSING = 1, DK_DIFFERENT = 2 };

/* What was flashed, read back and held against the image. Block i of the image is sizes[i] bits from bit offsets[i] on; the whole image is one block, from
 * bit 0 on of 8 bits for each byte. `bytes` is what was read back, from the same address on, with the blocks that are given there, as dk_read_records leaves
 * them. A byte is asked for where a block of the image has it, and given where a given block has it. Lists, ascending, each longest run of bytes of one kind:
 * counts[i] bytes from byte firsts[i] on are asked for and not given where kinds[i] is DK_MISSING, and given with another value where it is DK_DIFFERENT.
 * `count` is how many runs there are: 0 where, and only where, every byte that is asked for is given with its value. What is given and not asked for is not
 * looked at. Never more runs than bytes of the image. Refused 4 (place 0) where blocks of either list are not as above, 16 (place 0) where one is not on byte
 * edges or outside its bytes, then 14 (place 2) where one of the three lists is too short. It needs less than 1 KiB of stack. */
struct dk_count dk_verify(const uint8_t *image, size_t image_len,
                          const uint64_t *offsets, size_t offsets_len,
                          const uint64_t *sizes, size_t sizes_len,
                          const uint8_t *bytes, size_t bytes_len,
                          const uint64_t *given_offsets, size_t given_offsets_len,
                          const uint64_t *given_sizes, size_t given_sizes_len,
                          uint64_t *firsts, size_t firsts_len,
                          uint64_t *counts, size_t counts_len,
                          uint8_t *kinds, size_t kinds_len);

/* Files of records. `load` is the address of the image's first byte.
 *
 * Writes the blocks of an image, block i being sizes[i] bits from bit offsets[i] on, as Intel HEX: data records of at most 16 bytes that stay within a block
 * and within 64 KiB, a type 04 record where the upper half of the address changes, an end record; upper case, lines end in LF. `count` is the length of the
 * text. Refused 16 (place 0) where a block is empty, outside the image or not on byte edges, 4 (place 0) where the blocks don't ascend or share a bit, the
 * lists differ in length, or an address is past 4,294,967,295, then 14 (place 3) where `text` is too short. It needs less than 1 KiB of stack. */
struct dk_count dk_write_hex(const uint8_t *image, size_t image_len,
                             const uint64_t *offsets, size_t offsets_len,
                             const uint64_t *sizes, size_t sizes_len,
                             uint32_t load, uint8_t *text, size_t text_len);

/* The same as S-records, with addresses of `width` bytes: 2 (S1 and S9) or 4 (S3 and S7), cut as above, end address 0. 4 also where the width is neither, or an
 * address does not fit it. It needs less than 1 KiB of stack. */
struct dk_count dk_write_srec(const uint8_t *image, size_t image_len,
                              const uint64_t *offsets, size_t offsets_len,
                              const uint64_t *sizes, size_t sizes_len,
                              uint32_t load, uint8_t width, uint8_t *text, size_t text_len);

/* Which records a file is read as. */
enum dk_format { DK_INTEL_HEX = 0, DK_S_RECORDS = 1 };

/* Reads a file of records: the byte at address a goes to bytes[a - load], and every other byte stays as it was. Data records may stand in any order, in Intel
 * HEX each under the type 04 record that makes its address; type 04 and S0 records stand anywhere before the end record. Block i is the sizes[i] bits from bit
 * offsets[i] on, ascending, touching ones joined; `count` is how many there are. S-records may have either width. Refused 4 (place 0) where the format is
 * neither of the two or the file bad: a line, a byte given twice or below `load`; then 14 where `bytes` (place 0) or a list (place 2) is too short. Of `bytes`
 * those up to the end of the last block matter, (offsets[count - 1] + sizes[count - 1]) / 8 of them, none where count is 0.
 * The call answers the same whatever `scratch` is, and leaves it as it was; it may be empty. Time grows with the text where records ascend, descend or stand in
 * a few blocks in any order. Where many records jump it grows with the text too if `scratch` is all zeros and has a byte for every 8 addresses from the lowest
 * that is given to the highest. With less, the text is read again for each 8 * scratch_len of those addresses that has a byte. With none, with more than 2^29
 * bytes, or with a byte in it that is not zero, time grows with the square of the number of lines. It needs less than 2 KiB of stack
 * (1.5 KiB). */
struct dk_count dk_read_records(uint8_t format, const uint8_t *text, size_t text_len, uint32_t load,
                                uint8_t *bytes, size_t bytes_len,
                                uint64_t *offsets, size_t offsets_len,
                                uint64_t *sizes, size_t sizes_len,
                                uint8_t *scratch, size_t scratch_len);

/* Where the bytes of a file of records stand. */
struct dk_extent {
    uint64_t refusal; /* enum dk_refusal */
    uint64_t lowest;  /* the lowest address that the file gives a byte to */
    uint64_t end;     /* the address behind the highest, 2^32 at most */
};

/* The lowest address that the same file gives a byte to and the one behind the highest, in the same time, with `scratch` as above; both are 0 where it gives
 * none, and only then is `end` 0. Refused 4 (place 0) where the format is neither of the two or the file bad, whatever the load address. dk_read_records with
 * `load` no higher than `lowest` then needs end - load bytes, and refuses nothing but lists that are too short. It needs less than 2 KiB of stack
 * (1.1 KiB). */
struct dk_extent dk_record_extent(uint8_t format, const uint8_t *text, size_t text_len, uint8_t *scratch, size_t scratch_len);

/* Where a file of records is bad. */
struct dk_fault {
    uint64_t fault; /* 1 where it is, else 0 */
    uint64_t line;  /* the first line at which no good file can go on, from 0 */
};

/* At which line the same file is bad, in the same time, with `scratch` as above. Unknown format: fault 1, line 0. It needs less
 * than 1.5 KiB of stack. */
struct dk_fault dk_record_fault(uint8_t format, const uint8_t *text, size_t text_len, uint32_t load,
                                uint8_t *scratch, size_t scratch_len);

/* Why a file of records is bad, in the order in which a line is looked at: the first of these that there is. `first` and `second` with it. */
enum dk_cause {
    DK_GOOD_FILE = 0,       /* nothing is wrong */
    DK_NO_START = 1,        /* a line that does not begin with a colon or, in S-records, with S; a blank line too */
    DK_NO_DIGIT = 2,        /* a character that should be a digit: its place in the line, from 0, and the character */
    DK_LINE_LENGTH = 3,     /* the line's length: its characters, and those that its count asks for; the shortest record's where it has no count */
    DK_RECORD_COUNT = 4,    /* the count, and what it should be: 0 in type 01, 2 in type 04. In S-records 3 where the count is below 3, in every type and
                               before the checksum is looked at; else, behind the width, 3 in S9, 5 in S7, at least 5 in S3 */
    DK_CHECKSUM = 5,        /* the checksum: what it is, and what it should be */
    DK_RECORD_TYPE = 6,     /* a type other than 00, 01 and 04, or S0, S1, S3, S7 and S9: the type, in S-records its character; 0 */
    DK_ADDRESS_WIDTH = 7,   /* another width than the file's: the bytes of its address, and those of the lines before it */
    DK_ADDRESS_FIELD = 8,   /* an address field that is not 0000, in types 01 and 04: the field; 0 */
    DK_PAST_LAST = 9,       /* past the last address: that of the line's last byte, and the last that there is */
    DK_BELOW_LOAD = 10,     /* below `load`: the address of the line's first byte, and the lowest that a line of the file gives a byte at */
    DK_GIVEN_TWICE = 11,    /* a byte that is given already: the first line that gives one of this line's, from 0, and the lowest address that both give */
    DK_BEHIND_END = 12,     /* a line behind the end record; 0, 0 */
    DK_NO_END_RECORD = 13   /* the text ends without an end record: `line` is the number of its lines; 0, 0 */
};

/* The line at fault of a file of records, and why. */
struct dk_reason {
    uint64_t reason; /* enum dk_cause */
    uint64_t line;   /* as dk_record_fault tells it; 0 of a good file */
    uint64_t first;  /* see enum dk_cause */
    uint64_t second;
};

/* The same file, asked what is wrong with the line at fault. Nothing is refused: every text has an answer, 0 where the file is good. Ask with the format that
 * dk_read_records was given. A format that is neither of the two, which that call refuses with 4, is read as S-records here, so that 0 then only says that the
 * text would be good as S-records. With `scratch` as above, it takes the time of
 * dk_record_fault and of reading the lines before the one at fault once or twice more, and where a line is below `load` those of the whole text. It needs less
 * than 2 KiB of stack (1.4 KiB). */
struct dk_reason dk_record_reason(uint8_t format, const uint8_t *text, size_t text_len, uint32_t load,
                                  uint8_t *scratch, size_t scratch_len);

/* A reason in words, without its numbers. */
static inline const char *dk_reason_words(uint64_t reason)
{
    switch (reason) {
    case DK_GOOD_FILE: return "nothing is wrong";
    case DK_NO_START: return "the line does not begin with its format's character, a colon or S";
    case DK_NO_DIGIT: return "a character of the line is no hex digit";
    case DK_LINE_LENGTH: return "the line is not as long as its count says";
    case DK_RECORD_COUNT: return "the count is not one that records of this type have";
    case DK_CHECKSUM: return "the checksum is wrong";
    case DK_RECORD_TYPE: return "records of this type are not read";
    case DK_ADDRESS_WIDTH: return "the address has another width than those before it";
    case DK_ADDRESS_FIELD: return "the address field is not 0000";
    case DK_PAST_LAST: return "the line's bytes pass the last address";
    case DK_BELOW_LOAD: return "the line's bytes begin below the load address";
    case DK_GIVEN_TWICE: return "the line gives a byte that another line gave";
    case DK_BEHIND_END: return "a line stands behind the end record";
    case DK_NO_END_RECORD: return "the end record is missing";
    default: return "a reason that this header has no words for";
    }
}

/* Characters in which every file of records fits that `blocks` blocks of an image of `image_len` bytes make, in either format: with so much room dk_write_hex
 * and dk_write_srec never answer DK_TOO_SHORT. It is what the theorem records-length of crates/thm_record_room says of every file that is not refused 16 or 4:
 * 16 times its length is at most 47 for each byte, 225 for each block, and 496 for each 64 KiB begun and one more. */
static inline uint64_t dk_record_room(uint64_t image_len, uint64_t blocks)
{
    if (image_len > UINT64_MAX / 128 || blocks > UINT64_MAX / 512)
        return UINT64_MAX;
    return (47 * image_len + 225 * blocks + 496 * (image_len / 65536 + 2)) / 16;
}

/* A refusal in words, without its place. */
static inline const char *dk_words(uint64_t refusal)
{
    switch (refusal) {
    case DK_ACCEPTED: return "accepted";
    case DK_BANK_COUNT: return "there are not 1 to 16 banks";
    case DK_BANK_NUMBER: return "a bank's number or fill bit is beyond its limit, or a filled bank has size 0";
    case DK_BANKS_OVERLAP: return "two banks overlap in the output";
    case DK_MALFORMED: return "a count, kind, bank number, state, value range, choice or file is malformed";
    case DK_POSITION_PAST: return "a position would pass 4,294,967,295";
    case DK_LABEL_OFF_BOUNDARY: return "a label in the last pass is between two addresses";
    case DK_UNRESOLVED: return "the last pass ended unresolved";
    case DK_DEFAULT_BANK: return "bank 0 is used, but it is closed or not the only bank";
    case DK_PAST_BANK: return "an item ends past its bank's size";
    case DK_NO_OUTPUT: return "an item is written in a bank that has no place in the output";
    case DK_OVERLAP: return "a placement would share a bit with another, or have a mark strictly inside it, or is a mark strictly inside another";
    case DK_STORE_FULL: return "512 placements, or for a mark 512 marks, are stored already";
    case DK_TOO_SHORT: return "a lent buffer is too short";
    case DK_BAD_STORE: return "a store that was given is not one";
    case DK_BAD_PART: return "a part of an image is empty, outside it, or not on byte edges";
    case DK_PARTLY_COVERED: return "an overlay covers a range only in part";
    case DK_FILL_BIT_LOST: return "the way back to form 1 would drop a fill bit of one";
    case DK_OFF_PROFILE: return "the layout breaks a rule of the paged device's profile";
    default: return "a refusal that this header has no words for";
    }
}

#if defined(__cplusplus) && defined(__GNUC__)
#pragma GCC diagnostic pop
#endif
#ifdef __cplusplus
}
#endif

/* Statements. What a call promises is a sentence over its own parameters, before and after, written from the documents and in their numerals: it is the
 * function's `ensures` in crates/denkumari/src, and each function is proved to keep it. Proved besides are that the sentence allows no second outcome, everything
 * lent included (`.. decides`), and from it what people look for. crate/File.name is a name of a file in crates/crate/specs; docs/STATEMENTS.md has each beside
 * the document's words, and docs/READING.md says how to read them. In brackets stands what a theorem asks besides its calls being accepted. Those that join
 * reading, faults and reasons speak of the formats 0 and 1 (`format < 2`).
 *
 * dk_build          sentence `says/Build.BuildSays`; `meets_sentences/Decides.build-decides`. Refused, nothing has changed:
 *                   `meets_sentences/Outcomes.refused-changes-nothing`. No shared bit: `meets_sentences/Image.accepted-offers-apart`; the item's own bit:
 *                   `meets_sentences/Image.item-own-bit`; every other: `meets_sentences/Image.other-bit-fill`, `meets_sentences/Image.other-bit-zero`.
 *                   Padding: `meets_sentences/Padding.padding-is-the-sum`, `meets_sentences/Padding.units-within-bits`. A raised limit:
 *                   `meets_build/RaisedLimit.raised-limit-is-harmless` (K below the limit)
 * dk_form           sentence `says/Form.FormSays`; `meets_form/FormDecides.form-decides`. A broken file: `meets_form/Forms.broken-file`; bank 0:
 *                   `meets_form/Forms.form-2-closes-bank-0`, `meets_form/Forms.form-1-opens-bank-0`
 * dk_profile        sentence `says/Profile.ProfileSays`; `meets_profile/Decides.profile-decides`. Yes and 19: `meets_profile/Ticket9.yes-exactly`,
 *                   `meets_profile/Ticket9.nineteen-exactly`
 * dk_build_paged    sentence `says/Paged.PagedSays`; `meets_profile/Decides.paged-decides`. After a yes the ordinary build:
 *                   `meets_profile/Meets.paged-is-build`
 * dk_form_paged     sentence `says/FormPaged.FormPagedSays`; `meets_form_paged/Decides.form-paged-decides`
 * dk_map            sentence `says/Map.MapSays`; `meets_map/Decides.map-decides`. Refused as the build is but for 14:
 *                   `meets_map/AsBuilt.map-agrees-with-build`; the node at fault: `meets_map/Fault.fault-is-first-refused`
 * dk_to_form2       sentence `says/Convert.ConvertSays`; `meets_convert/Decides.to-form2-decides`. There and back: `meets_convert/Trips.form-1-and-back`
 *                   (not already the shape of a converted one-bank file); the same build: `meets_convert/SameBuild.other-banks-same-build` (not one bank),
 *                   `meets_convert/SameBuild.one-bank-same-build` (one bank: nodes in places rise by one)
 * dk_to_form1       the same sentence; `meets_convert/Decides.to-form1-decides`. And again: `meets_convert/Trips.form-2-and-again` (not one bank); the same
 *                   build: `meets_convert/SameBuild.plain-same-build` (neither one bank nor the shape), `meets_convert/SameBuild.shape-same-build` (the shape)
 * dk_blocks         sentence `says/Blocks.DkBlocksSay`; `meets_bits/Blocks.dk-blocks-decides`
 * dk_hex            sentence `says/Hex.HexSays`; `meets_bits/Hex.hex-decides`
 * dk_offer          sentence `says/Store.OfferSays`; `meets_store/Decides.offer-decides`. Calls one after the other, from an empty store:
 *                   `meets_store/Demand3.stored-exactly`, `meets_store/Demand3.marked-exactly`; in any order: `meets_store/Order.reordered-accepted`
 *                   (offers within the limits)
 * dk_offers         sentence `says/Offers.OffersSay`; `meets_store/Offers.offers-decide`. All accepted, so many calls of dk_offer:
 *                   `meets_store/Offers.all-are-calls`; refused, nothing has changed: `meets_store/Offers.refused-changes-none`
 * dk_part           sentence `says/Part.PartSays`; `meets_bits/Part.part-decides`
 * dk_overlay_range  sentence `says/Overlay.RangeSays`; `meets_overlay/Range.range-decides`
 * dk_overlay_runs   sentence `says/Overlay.RunsSay`; `meets_overlay/Runs.runs-decide`
 * dk_verify         sentence `says/Verify.VerifySays`; `meets_verify/Verify.verify-decides`. Count 0 exactly where all is given as it should be:
 *                   `meets_verify/Same.same-exactly`
 * dk_write_hex      sentence `says/Write.HexSays`; `meets_records/WriteDecides.write-hex-decides`. Read back: `meets_records/ReadBack.hex-comes-back`
 *                   (`Room` for the blocks); every line sums to zero: `meets_records/Checksums.hex-written-sums`
 * dk_write_srec     sentence `says/Write.SrecSays`; `meets_records/WriteDecides.write-srec-decides`. Read back: `meets_records/ReadBack.srec-comes-back`
 *                   (`Room`); checksums: `meets_records/Checksums.srec-written-sums`
 * dk_read_records   sentence `says/Read.ReadSays`; `meets_records/ReadDecides.read-decides`. Records in any order: `meets_records/SameReading.order-free`
 *                   (the same data records with the same whole addresses); LF or CR LF: `meets_records/SameReading.cr-lf-free`
 * dk_record_extent  sentence `says/Extent.ExtentSays`; `meets_records/Extent.extent-decides`. Refused, no load address makes the file good:
 *                   `meets_records/Extent.no-load`; accepted, every one up to the lowest address does: `meets_records/Extent.any-load`
 * dk_record_fault   sentence `says/Read.FaultSays`; `meets_records/FaultDecides.fault-decides`
 * dk_record_reason  sentence `says/Reason.DkReasonSays`; `meets_reason/Decides.dk-reason-decides`. A reason exactly where dk_read_records refuses 4:
 *                   `meets_reason/Told.refused-4-exactly`; dk_record_fault's line: `meets_reason/Told.line-is-faults`
 */

#endif
