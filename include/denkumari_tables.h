/* Denkumari's calls over two structs: the tables of a layout, each list under its name, and what is lent to the call. denkumari.h's own calls take the same
 * lists as up to 37 parameters, among them several pointers of one type, and no compiler sees two of them exchanged; here every list is assigned by name, a
 * bank is a record, and no length is given twice. Behind them stand the bench, whose two images must not be exchanged, and files of records. For C from C99 on and C++ from C++11 on; nothing here is linked, and nothing is proved beyond the calls
 * below it: the inline functions put the fields in the places of the parameters, and bindings/c/structs.c tests that.
 *
 *     struct dk_bank banks[] = {dk_bank_of(8), dk_bank_of(10)};
 *     dk_bank_size(&banks[1], 40);
 *     dk_bank_offset(&banks[1], 0);
 *     banks[1].start = 64;
 *     struct dk_tables tables = dk_no_tables();
 *     tables.banks = banks;
 *     tables.bank_count = 2;
 *     tables.kinds = kinds; ..
 *     struct dk_room room = dk_no_room();
 *     room.image = image;
 *     room.image_len = sizeof image; ..
 *     struct dk_layout r = dk_build_tables(&tables, &room); */
#ifndef DENKUMARI_TABLES_H
#define DENKUMARI_TABLES_H

#include "denkumari.h"

/* A bank. Zeros everywhere but in `unit` are a bank from address 0 on without size, offset and label alignment, not filled. */
struct dk_bank {
    int64_t start;    /* address of its first bit */
    uint32_t size;    /* in bits; read where flags has DK_HAS_SIZE */
    uint32_t offset;  /* of its first bit in the image, in bits; read where flags has DK_HAS_OFFSET */
    uint32_t align;   /* label alignment; read where flags has DK_HAS_ALIGN */
    uint16_t unit;    /* bits to an address */
    uint8_t flags;    /* a sum of enum dk_flags */
    uint8_t fill_bit; /* 0 or 1 */
};

/* A layout: banks, nodes, rows, values and choices. Where a count is 0 its pointers may be NULL. */
struct dk_tables {
    const struct dk_bank *banks;
    size_t bank_count;
    const uint8_t *kinds;     /* of each node: enum dk_kind */
    const uint32_t *operands; /* of each node */
    size_t node_count;
    const uint32_t *numbers;  /* of each node in each row: that of node j in row r is numbers[r * node_count + j] */
    const uint8_t *states;    /* the same */
    size_t row_count;
    const uint8_t *values;
    size_t values_len;        /* in bytes */
    uint8_t limit;            /* the pass limit */
    uint8_t fill;             /* enum dk_fill */
    uint8_t closed;           /* whether bank 0 is closed where it is the only one, as in form 2 */
};

/* What a layout is written into: the image, and for each span an address, an offset and a size, three lists of `span_count` elements. */
struct dk_room {
    uint8_t *image;
    size_t image_len;    /* in bytes */
    int64_t *addresses;
    uint64_t *offsets;
    uint64_t *sizes;
    size_t span_count;
};

static inline struct dk_bank dk_bank_of(uint16_t unit)
{
    struct dk_bank bank = {0, 0, 0, 0, 0, 0, 0};
    bank.unit = unit;
    return bank;
}

/* Sets a number of a bank together with its flag. */
static inline void dk_bank_size(struct dk_bank *bank, uint32_t bits)
{
    bank->size = bits;
    bank->flags |= DK_HAS_SIZE;
}

static inline void dk_bank_offset(struct dk_bank *bank, uint32_t bits)
{
    bank->offset = bits;
    bank->flags |= DK_HAS_OFFSET;
}

static inline void dk_bank_align(struct dk_bank *bank, uint32_t bits)
{
    bank->align = bits;
    bank->flags |= DK_HAS_ALIGN;
}

static inline void dk_bank_fill(struct dk_bank *bank, uint8_t bit)
{
    bank->fill_bit = bit;
    bank->flags |= DK_FILL;
}

static inline struct dk_tables dk_no_tables(void)
{
    struct dk_tables tables = {NULL, 0, NULL, NULL, 0, NULL, NULL, 0, NULL, 0, 0, 0, 0};
    return tables;
}

static inline struct dk_room dk_no_room(void)
{
    struct dk_room room = {NULL, 0, NULL, NULL, NULL, 0};
    return room;
}

/* The banks as the lists that the calls take, one more than there may be, so that 17 are refused as more are. */
struct dk_bank_lists {
    size_t count;
    int64_t starts[DK_MAX_BANKS + 1];
    uint32_t sizes[DK_MAX_BANKS + 1], offsets[DK_MAX_BANKS + 1], aligns[DK_MAX_BANKS + 1];
    uint16_t units[DK_MAX_BANKS + 1];
    uint8_t flags[DK_MAX_BANKS + 1], fill_bits[DK_MAX_BANKS + 1];
};

static inline void dk_list_banks(struct dk_bank_lists *lists, const struct dk_tables *tables)
{
    size_t i;
    lists->count = tables->bank_count > DK_MAX_BANKS ? DK_MAX_BANKS + 1 : tables->bank_count;
    for (i = 0; i < lists->count; i++) {
        lists->starts[i] = tables->banks[i].start;
        lists->sizes[i] = tables->banks[i].size;
        lists->offsets[i] = tables->banks[i].offset;
        lists->aligns[i] = tables->banks[i].align;
        lists->units[i] = tables->banks[i].unit;
        lists->flags[i] = tables->banks[i].flags;
        lists->fill_bits[i] = tables->banks[i].fill_bit;
    }
}

/* How many cells the rows have: none where there are more nodes or rows than are read, which is refused whatever they hold, so that no product wraps. */
static inline size_t dk_cell_count(const struct dk_tables *tables)
{
    return tables->node_count > DK_MAX_NODES || tables->row_count > DK_MAX_ROWS ? 0 : tables->node_count * tables->row_count;
}

/* dk_build over the structs. The banks' lists take 512 bytes of stack more than that call's own. */
static inline struct dk_layout dk_build_tables(const struct dk_tables *tables, const struct dk_room *room)
{
    struct dk_bank_lists b;
    const size_t nodes = tables->node_count, cells = dk_cell_count(tables), spans = room->span_count;
    dk_list_banks(&b, tables);
    return dk_build(b.units, b.count, b.starts, b.count, b.sizes, b.count, b.offsets, b.count, b.aligns, b.count, b.flags, b.count, b.fill_bits, b.count,
                    tables->kinds, nodes, tables->operands, nodes, tables->numbers, cells, tables->states, cells, tables->row_count,
                    tables->values, tables->values_len, tables->limit, tables->fill, tables->closed,
                    room->image, room->image_len, room->addresses, spans, room->offsets, spans, room->sizes, spans);
}

/* dk_build_paged over the structs. */
static inline struct dk_layout dk_build_tables_paged(uint32_t page, const struct dk_tables *tables, const struct dk_room *room)
{
    struct dk_bank_lists b;
    const size_t nodes = tables->node_count, cells = dk_cell_count(tables), spans = room->span_count;
    dk_list_banks(&b, tables);
    return dk_build_paged(page, b.units, b.count, b.starts, b.count, b.sizes, b.count, b.offsets, b.count, b.aligns, b.count, b.flags, b.count,
                          b.fill_bits, b.count, tables->kinds, nodes, tables->operands, nodes, tables->numbers, cells, tables->states, cells,
                          tables->row_count, tables->values, tables->values_len, tables->limit, tables->fill, tables->closed,
                          room->image, room->image_len, room->addresses, spans, room->offsets, spans, room->sizes, spans);
}

/* dk_profile over the tables. */
static inline dk_profile_answer dk_profile_tables(uint32_t page, const struct dk_tables *tables)
{
    struct dk_bank_lists b;
    const size_t nodes = tables->node_count, cells = dk_cell_count(tables);
    dk_list_banks(&b, tables);
    return dk_profile(page, b.units, b.count, b.starts, b.count, b.sizes, b.count, b.offsets, b.count, b.aligns, b.count, b.flags, b.count,
                      b.fill_bits, b.count, tables->kinds, nodes, tables->operands, nodes, tables->numbers, cells, tables->states, cells,
                      tables->row_count, tables->values, tables->values_len, tables->fill);
}

/* dk_form and dk_form_paged into a struct. */
static inline struct dk_layout dk_form_into(const uint8_t *file, size_t file_len, uint8_t fill, const struct dk_room *room)
{
    return dk_form(file, file_len, fill, room->image, room->image_len, room->addresses, room->span_count, room->offsets, room->span_count,
                   room->sizes, room->span_count);
}

static inline struct dk_layout dk_form_into_paged(const uint8_t *file, size_t file_len, uint8_t fill, uint32_t page, const struct dk_room *room)
{
    return dk_form_paged(file, file_len, fill, page, room->image, room->image_len, room->addresses, room->span_count, room->offsets, room->span_count,
                         room->sizes, room->span_count);
}

/* Blocks of an image: block i is sizes[i] bits from bit offsets[i] on; `count` of them, in lists of `room` elements. */
struct dk_block_list {
    uint64_t *offsets;
    uint64_t *sizes;
    size_t room;
    size_t count;
};

/* dk_blocks of the spans of an accepted layout; accepted, it sets the list's count. */
static inline struct dk_count dk_blocks_into(const struct dk_layout *layout, const struct dk_room *room, struct dk_block_list *blocks)
{
    const size_t spans = (size_t)layout->spans;
    struct dk_count r = dk_blocks(room->offsets, spans, room->sizes, spans, blocks->offsets, blocks->room, blocks->sizes, blocks->room);
    if (r.refusal == DK_ACCEPTED)
        blocks->count = (size_t)r.count;
    return r;
}

/* The whole image of an accepted layout as one block in the place of its blocks, gaps and fill too: for words that do not begin and end on whole bytes, whose
 * blocks are refused with 16. An empty image has none. The list needs room for one. */
static inline struct dk_count dk_whole_into(const struct dk_layout *layout, struct dk_block_list *blocks)
{
    struct dk_count r = {DK_ACCEPTED, 0, layout->length > 0};
    if (r.count > blocks->room) {
        struct dk_count refused = {DK_TOO_SHORT, 2, 0};
        return refused;
    }
    blocks->count = (size_t)r.count;
    if (r.count == 1) {
        blocks->offsets[0] = 0;
        blocks->sizes[0] = (layout->length + 7) / 8 * 8;
    }
    return r;
}

/* dk_write_hex and dk_write_srec of a layout's image and its blocks. */
static inline struct dk_count dk_write_hex_of(const struct dk_room *room, const struct dk_block_list *blocks, uint32_t load, uint8_t *text, size_t text_len)
{
    return dk_write_hex(room->image, room->image_len, blocks->offsets, blocks->count, blocks->sizes, blocks->count, load, text, text_len);
}

static inline struct dk_count dk_write_srec_of(const struct dk_room *room, const struct dk_block_list *blocks, uint32_t load, uint8_t width,
                                               uint8_t *text, size_t text_len)
{
    return dk_write_srec(room->image, room->image_len, blocks->offsets, blocks->count, blocks->sizes, blocks->count, load, width, text, text_len);
}

/* On the bench: the released image, the overlay of curves under trial at the same offsets, and the overlay's blocks, of which `count` are read. */
struct dk_bench {
    const uint8_t *overlay;
    size_t overlay_len;  /* in bytes */
    const uint8_t *released;
    size_t released_len; /* in bytes */
    const struct dk_block_list *blocks;
};

/* Runs of bytes: run i is the counts[i] bytes from byte firsts[i] on; `count` of them, in lists of `room` elements. */
struct dk_run_list {
    uint64_t *firsts;
    uint64_t *counts;
    size_t room;
    size_t count;
};

/* dk_overlay_range: which image the `count` bytes from byte `first` on come from. */
static inline struct dk_overlay dk_overlay_range_of(const struct dk_bench *bench, uint64_t first, uint64_t count)
{
    return dk_overlay_range(bench->overlay, bench->overlay_len, bench->released, bench->released_len, bench->blocks->offsets, bench->blocks->count,
                            bench->blocks->sizes, bench->blocks->count, first, count);
}

/* The bytes themselves of such an answer, from the image that it names; NULL where it was refused. */
static inline const uint8_t *dk_overlay_bytes(const struct dk_bench *bench, const struct dk_overlay *range)
{
    if (range->refusal != DK_ACCEPTED)
        return NULL;
    return (range->image == DK_OVERLAY ? bench->overlay : bench->released) + range->start;
}

/* dk_overlay_runs: where the two images differ; accepted, it sets the list's count. */
static inline struct dk_count dk_overlay_runs_into(const struct dk_bench *bench, struct dk_run_list *runs)
{
    struct dk_count r = dk_overlay_runs(bench->overlay, bench->overlay_len, bench->released, bench->released_len, bench->blocks->offsets,
                                        bench->blocks->count, bench->blocks->sizes, bench->blocks->count, runs->firsts, runs->room, runs->counts,
                                        runs->room);
    if (r.refusal == DK_ACCEPTED)
        runs->count = (size_t)r.count;
    return r;
}

/* A file of records to be read, and what it is read into. `scratch` is for speed alone, is as it was behind the call and may be empty; no two calls share it. */
struct dk_reading {
    const uint8_t *text;
    size_t text_len;
    uint8_t *bytes;     /* the byte at address a goes to bytes[a - load] */
    size_t bytes_len;
    uint8_t *scratch;
    size_t scratch_len;
    uint32_t load;
    uint8_t format;     /* enum dk_format */
};

static inline struct dk_reading dk_no_reading(void)
{
    struct dk_reading reading = {NULL, 0, NULL, 0, NULL, 0, 0, 0};
    return reading;
}

/* dk_read_records; accepted, it sets the list's count. */
static inline struct dk_count dk_read_records_into(const struct dk_reading *reading, struct dk_block_list *blocks)
{
    struct dk_count r = dk_read_records(reading->format, reading->text, reading->text_len, reading->load, reading->bytes, reading->bytes_len,
                                        blocks->offsets, blocks->room, blocks->sizes, blocks->room, reading->scratch, reading->scratch_len);
    if (r.refusal == DK_ACCEPTED)
        blocks->count = (size_t)r.count;
    return r;
}

/* How many of the bytes that were read into matter: up to the end of the last block. */
static inline uint64_t dk_bytes_read(const struct dk_block_list *blocks)
{
    return blocks->count == 0 ? 0 : (blocks->offsets[blocks->count - 1] + blocks->sizes[blocks->count - 1]) / 8;
}

/* Runs of bytes that are not as they should be: run i is the counts[i] bytes from byte firsts[i] on, DK_MISSING or DK_DIFFERENT by kinds[i]; `count` of them,
 * in lists of `room` elements. */
struct dk_unlike_list {
    uint64_t *firsts;
    uint64_t *counts;
    uint8_t *kinds;
    size_t room;
    size_t count;
};

/* dk_verify of a layout's image and its blocks against a file that was read from the same load address, with the blocks that it gives; accepted, it sets the
 * list's count, which is 0 where, and only where, every byte is given with its value. */
static inline struct dk_count dk_verify_of(const struct dk_room *room, const struct dk_block_list *blocks, const struct dk_reading *reading,
                                           const struct dk_block_list *given, struct dk_unlike_list *unlike)
{
    struct dk_count r = dk_verify(room->image, room->image_len, blocks->offsets, blocks->count, blocks->sizes, blocks->count, reading->bytes,
                                  reading->bytes_len, given->offsets, given->count, given->sizes, given->count, unlike->firsts, unlike->room,
                                  unlike->counts, unlike->room, unlike->kinds, unlike->room);
    if (r.refusal == DK_ACCEPTED)
        unlike->count = (size_t)r.count;
    return r;
}

/* dk_record_extent, dk_record_fault and dk_record_reason of the same file. */
static inline struct dk_extent dk_record_extent_of(const struct dk_reading *reading)
{
    return dk_record_extent(reading->format, reading->text, reading->text_len, reading->scratch, reading->scratch_len);
}

static inline struct dk_fault dk_record_fault_of(const struct dk_reading *reading)
{
    return dk_record_fault(reading->format, reading->text, reading->text_len, reading->load, reading->scratch, reading->scratch_len);
}

static inline struct dk_reason dk_record_reason_of(const struct dk_reading *reading)
{
    return dk_record_reason(reading->format, reading->text, reading->text_len, reading->load, reading->scratch, reading->scratch_len);
}

#endif
