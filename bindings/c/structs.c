/* The structs of denkumari_tables.h, in C and, compiled as it is, in C++: document 01's worked example, a byte from tables to Intel HEX, ten-bit words as records
 * and read back, what is refused before a list is read, the bench, a file of records, and the answers that have their call's name. That each field stands in
 * its place is tested on random layouts by `batch --structs`; here, of every struct that denkumari.h declares, by calls whose fields differ from each other: a
 * field that had another offset in C than in the archive would have another's number. Prints what is wrong; the last line says how many tests there were. */
#include <stdio.h>
#include <string.h>

#include "../../include/denkumari_tables.h"

static unsigned tests, faults;

static void expect(int holds, const char *what)
{
    tests++;
    if (!holds) {
        faults++;
        printf("wrong: %s\n", what);
    }
}

static const uint8_t kinds[] = {DK_SWITCH, DK_LABEL, DK_DATA, DK_RESERVE, DK_INSTRUCTION};
static const uint32_t operands[] = {1, 0, 0, 0, 16}, numbers[] = {0, 0, 10, 10, 10};
static const uint8_t states[5] = {0}, values[] = {0xff, 0xc0, 0x2a, 0x80};
static struct dk_bank banks[DK_MAX_BANKS + 1];
static uint8_t image[8];
static int64_t addresses[4];
static uint64_t offsets[4], sizes[4], block_offsets[4], block_sizes[4];

static struct dk_tables worked_tables(void)
{
    struct dk_tables tables = dk_no_tables();
    size_t i;
    for (i = 0; i <= DK_MAX_BANKS; i++)
        banks[i] = dk_bank_of(8);
    banks[1] = dk_bank_of(10);
    banks[1].start = 64;
    dk_bank_size(&banks[1], 40);
    dk_bank_offset(&banks[1], 0);
    dk_bank_fill(&banks[1], 0);
    tables.banks = banks;
    tables.bank_count = 2;
    tables.kinds = kinds;
    tables.operands = operands;
    tables.node_count = 5;
    tables.numbers = numbers;
    tables.states = states;
    tables.row_count = 1;
    tables.values = values;
    tables.values_len = sizeof values;
    tables.limit = 10;
    return tables;
}

static struct dk_room lent(void)
{
    struct dk_room room = dk_no_room();
    room.image = image;
    room.image_len = sizeof image;
    room.addresses = addresses;
    room.offsets = offsets;
    room.sizes = sizes;
    room.span_count = 4;
    return room;
}

static void worked_example(void)
{
    static const uint8_t expected[] = {0xff, 0xc0, 0x02, 0xa8, 0x00, 0, 0, 0};
    struct dk_tables tables = worked_tables();
    struct dk_room room = lent();
    struct dk_block_list blocks = {block_offsets, block_sizes, 4, 0};
    struct dk_layout r = dk_build_tables(&tables, &room);
    expect(r.refusal == DK_ACCEPTED && r.length == 40 && r.spans == 3 && memcmp(image, expected, sizeof expected) == 0, "the worked example");
    expect(addresses[2] == 66 && offsets[2] == 20 && sizes[2] == 10, "its last span");
    expect(dk_blocks_into(&r, &room, &blocks).refusal == DK_ACCEPTED && blocks.count == 2, "its blocks");
    expect(block_offsets[1] == 20 && block_sizes[1] == 10, "its second block");
    blocks.room = 1;
    expect(dk_blocks_into(&r, &room, &blocks).refusal == DK_TOO_SHORT && blocks.count == 2, "room for one block");
    dk_bank_align(&banks[1], 40);
    expect(banks[1].flags == (DK_HAS_SIZE | DK_HAS_OFFSET | DK_HAS_ALIGN | DK_FILL) && banks[1].align == 40, "flags");
    r = dk_build_tables_paged(8, &tables, &room);
    expect(r.refusal == DK_OFF_PROFILE && r.place == DK_RULE_ALIGN && r.second == 1, "in the profile");
    banks[1].flags = 0;
    dk_profile_answer said = dk_profile_tables(8, &tables);
    expect(said.refusal == DK_OFF_PROFILE && said.place == DK_RULE_UNIT && said.second == 1, "a unit of ten bits in the profile");
}

/* A byte in a bank of bytes, as records. */
static void to_records(void)
{
    static const char hex[] = ":018000002A55\n:00000001FF\n";
    static const char srec[] = "S306000080002A4F\nS70500000000FA\n";
    static uint8_t text[128];
    static const uint8_t kind[] = {DK_DATA}, state[] = {0}, value[] = {0x2a};
    static const uint32_t operand[] = {0}, number[] = {8};
    struct dk_bank bank = dk_bank_of(8);
    struct dk_tables tables = dk_no_tables();
    struct dk_room room = lent();
    struct dk_block_list blocks = {block_offsets, block_sizes, 4, 0};
    dk_bank_offset(&bank, 0);
    tables.banks = &bank;
    tables.bank_count = 1;
    tables.kinds = kind;
    tables.operands = operand;
    tables.node_count = 1;
    tables.numbers = number;
    tables.states = state;
    tables.row_count = 1;
    tables.values = value;
    tables.values_len = 1;
    tables.limit = 1;
    struct dk_layout r = dk_build_tables(&tables, &room);
    expect(r.refusal == DK_ACCEPTED && dk_blocks_into(&r, &room, &blocks).refusal == DK_ACCEPTED && blocks.count == 1, "a byte");
    struct dk_count n = dk_write_hex_of(&room, &blocks, 0x8000, text, sizeof text);
    expect(n.refusal == DK_ACCEPTED && n.count == sizeof hex - 1 && memcmp(text, hex, sizeof hex - 1) == 0, "as Intel HEX");
    n = dk_write_srec_of(&room, &blocks, 0x8000, 4, text, sizeof text);
    expect(n.refusal == DK_ACCEPTED && n.count == sizeof srec - 1 && memcmp(text, srec, sizeof srec - 1) == 0, "as S-records");
}

/* Counts beyond the limits are refused, and nothing is read for them. */
static void counts(void)
{
    struct dk_tables tables = worked_tables(), none = dk_no_tables();
    struct dk_room room = lent();
    tables.bank_count = SIZE_MAX;
    expect(dk_build_tables(&tables, &room).refusal == DK_BANK_COUNT, "more banks than there may be");
    expect(dk_build_tables(&none, &room).refusal == DK_BANK_COUNT, "no tables");
    tables = worked_tables();
    tables.row_count = SIZE_MAX / 4;
    struct dk_layout r = dk_build_tables(&tables, &room);
    expect(r.refusal == DK_MALFORMED && r.place == 1, "more rows than there may be");
    tables.row_count = 0;
    r = dk_build_tables(&tables, &room);
    expect(r.refusal == DK_MALFORMED && r.place == 1, "no row");
    tables = worked_tables();
    room = dk_no_room();
    r = dk_build_tables(&tables, &room);
    expect(r.refusal == DK_TOO_SHORT && r.place == 0, "nothing lent");
}

/* A file, and the answers that have the name of their call. */
static void other_calls(void)
{
    static const uint8_t broken[] = {7};
    static uint64_t positions[DK_MAX_STORED], lengths[DK_MAX_STORED], marks[DK_MAX_STORED];
    struct dk_room room = lent();
    struct dk_layout r = dk_form_into(broken, sizeof broken, DK_FILL_INHERITED, &room);
    expect(r.refusal == DK_MALFORMED && r.place == 0, "a broken file");
    r = dk_form_into_paged(broken, sizeof broken, DK_FILL_INHERITED, 8, &room);
    expect(r.refusal == DK_MALFORMED && r.place == 0, "a broken file, paged");
    dk_part_answer part = dk_part(values, sizeof values, 8, 16);
    expect(part.refusal == DK_ACCEPTED && part.start == 1 && part.length == 2, "a part");
    dk_offer_answer offer = dk_offer(positions, lengths, 0, marks, 0, 3, 5);
    expect(offer.refusal == DK_ACCEPTED && offer.count == 1 && positions[0] == 3 && lengths[0] == 5, "an offer");
#ifdef __cplusplus
    auto again = dk_offer(positions, lengths, 1, marks, 0, 4, 1);
    expect(again.refusal == DK_OVERLAP && again.place == 3, "an offer from C++");
    expect(dk_words(again.refusal)[0] == 'a', "its words");
#endif
}

/* A reserve of 16 bits, three bytes, a skip to bit 128 or back to bit 16, and a byte: built, or refused for what it overlaps. */
static const uint8_t ahead_kinds[] = {DK_CONSTANT, DK_RESERVE, DK_OPEN_DATA, DK_ALIGN, DK_OPEN_DATA, DK_LABEL, DK_LABEL};
static const uint8_t back_kinds[] = {DK_CONSTANT, DK_RESERVE, DK_OPEN_DATA, DK_ADDR, DK_OPEN_DATA, DK_LABEL, DK_LABEL};
static const uint32_t ahead_numbers[] = {0, 16, 24, 128, 8, 0, 0, 0, 16, 24, 128, 8, 0, 0};
static const uint32_t back_numbers[] = {0, 16, 24, 16, 8, 0, 0, 0, 16, 24, 16, 8, 0, 0};
static const uint32_t no_operands[7] = {0};
static const uint8_t late_states[14] = {2};
static uint8_t longer_image[17];

static struct dk_tables tables_of(const struct dk_bank *bank, size_t count, const uint8_t *kind, const uint32_t *number)
{
    struct dk_tables tables = dk_no_tables();
    tables.banks = bank;
    tables.bank_count = count;
    tables.kinds = kind;
    tables.operands = no_operands;
    tables.node_count = 7;
    tables.numbers = number;
    tables.states = late_states;
    tables.row_count = 2;
    tables.values = values;
    tables.values_len = sizeof values;
    tables.limit = 10;
    return tables;
}

static struct dk_mapped map_of(const struct dk_tables *tables)
{
    static uint64_t banks_of[DK_MAX_NODES], outputs[DK_MAX_NODES];
    static uint32_t seen[DK_MAX_NODES], taken[DK_MAX_NODES];
    struct dk_bank_lists b;
    dk_list_banks(&b, tables);
    return dk_map(b.units, b.count, b.starts, b.count, b.sizes, b.count, b.offsets, b.count, b.aligns, b.count, b.flags, b.count, b.fill_bits, b.count,
                  tables->kinds, 7, tables->operands, 7, tables->numbers, 14, tables->states, 14, 2, tables->values, tables->values_len, tables->limit,
                  tables->fill, tables->closed, banks_of, seen, outputs, taken);
}

static void fields_of_layouts(void)
{
    struct dk_bank bank[3] = {dk_bank_of(8), dk_bank_of(8), dk_bank_of(8)};
    struct dk_tables ahead = tables_of(bank, 1, ahead_kinds, ahead_numbers), back = tables_of(bank, 1, back_kinds, back_numbers);
    struct dk_tables three = tables_of(bank, 3, ahead_kinds, ahead_numbers);
    struct dk_room room = lent();
    room.image = longer_image;
    room.image_len = sizeof longer_image;
    dk_bank_offset(&bank[0], 0);
    struct dk_layout r = dk_build_tables(&ahead, &room);
    expect(r.refusal == 0 && r.passes == 3 && r.k == 2 && r.length == 136 && r.spans == 4, "the fields of a layout that is built");
    expect(r.padding[0].bits == 88 && r.padding[0].units == 11 && r.padding[1].bits == 0, "what it loses");
    r = dk_build_tables(&back, &room);
    expect(r.refusal == DK_OVERLAP && r.place == 16 && r.second == 24 && r.passes == 3 && r.k == 0 && r.length == 0, "the fields of one that is refused");
    struct dk_mapped m = map_of(&ahead);
    expect(m.refusal == 0 && m.stopped == 0 && m.node == DK_NO_NODE && m.passes == 3 && m.nodes == 7, "the fields of a map");
    expect(m.padding[0].bits == 88 && m.padding[0].units == 11 && m.padding[1].bits == 0, "what its nodes lose");
    m = map_of(&back);
    expect(m.refusal == 0 && m.stopped == DK_OVERLAP && m.place == 16 && m.second == 24 && m.node == 4 && m.passes == 3 && m.nodes == 5, "of a map that stops");
    dk_bank_offset(&bank[1], 0);
    dk_bank_offset(&bank[2], 0);
    m = map_of(&three);
    expect(m.refusal == DK_BANKS_OVERLAP && m.stopped == 0 && m.place == 1 && m.second == 2 && m.passes == 0, "of a map that is refused");
    bank[0].flags = 0;
    dk_bank_size(&bank[1], 16);
    dk_bank_offset(&bank[2], 16);
    dk_bank_size(&bank[2], 24);
    dk_profile_answer said = dk_profile_tables(8, &three);
    expect(said.refusal == 0 && said.pages[1] == 2 && said.pages[2] == 3 && said.pages[3] == DK_NO_PAGES, "the fields of a profile");
    bank[2].unit = 9;
    said = dk_profile_tables(8, &three);
    expect(said.refusal == DK_OFF_PROFILE && said.place == DK_RULE_UNIT && said.second == 2 && said.pages[1] == 0, "of a profile that is broken");
}

static void fields_of_others(void)
{
    static uint64_t positions[DK_MAX_STORED] = {3, 20}, lengths[DK_MAX_STORED] = {5, 4}, marks[DK_MAX_STORED] = {40};
    static const char text[] = ":018000002A55\n:018001002B53\n:00000001FF\n";
    static const uint64_t starts[] = {8}, longs[] = {40};
    static uint8_t scratch[1], digits[1];
    dk_offer_answer o = dk_offer(positions, lengths, 2, marks, 1, 30, 1);
    expect(o.refusal == 0 && o.count == 3 && o.marks == 1, "the fields of an offer");
    o = dk_offer(positions, lengths, 3, marks, 1, 21, 1);
    expect(o.refusal == DK_OVERLAP && o.place == 20 && o.second == 4 && o.count == 3 && o.marks == 1, "of an offer that is refused");
    struct dk_count n = dk_hex(values, sizeof values, 8, digits, 1);
    expect(n.refusal == DK_TOO_SHORT && n.place == 3 && n.count == 0, "the fields of a count that is refused");
    dk_part_answer p = dk_part(values, sizeof values, 8, 16);
    expect(p.refusal == 0 && p.start == 1 && p.length == 2, "the fields of a part");
    expect(dk_part(values, sizeof values, 8, 1).refusal == DK_BAD_PART, "of a part that is refused");
    struct dk_overlay v = dk_overlay_range(longer_image, 17, longer_image, 17, starts, 1, longs, 1, 3, 2);
    expect(v.refusal == 0 && v.image == DK_OVERLAY && v.start == 3 && v.length == 2, "the fields of a range");
    expect(dk_overlay_range(longer_image, 17, longer_image, 17, starts, 1, longs, 1, 5, 2).refusal == DK_PARTLY_COVERED, "of a range that is refused");
    struct dk_fault f = dk_record_fault(0, (const uint8_t *)text, sizeof text - 13, 0, scratch, 0);
    expect(f.fault == 1 && f.line == 2, "the fields of a fault");
    struct dk_reason w = dk_record_reason(0, (const uint8_t *)text, sizeof text - 3, 0, scratch, 0);
    expect(w.reason == DK_LINE_LENGTH && w.line == 2 && w.first == 10 && w.second == 11, "the fields of a reason");
}

/* Four bytes in either image, the middle two under trial. The call reads no byte: what an exchange of the images would change is the bytes handed back. */
static void bench_by_name(void)
{
    static const uint8_t curves[] = {1, 2, 3, 4, 5}, released[] = {9, 2, 8, 7};
    static uint64_t firsts[2], counts_of[2];
    struct dk_block_list blocks = {block_offsets, block_sizes, 4, 1};
    struct dk_bench bench = {curves, sizeof curves, released, sizeof released, &blocks};
    struct dk_run_list runs = {firsts, counts_of, 2, 0};
    block_offsets[0] = 8;
    block_sizes[0] = 16;
    struct dk_overlay r = dk_overlay_range_of(&bench, 1, 2);
    expect(r.refusal == 0 && r.image == DK_OVERLAY && r.length == 2 && dk_overlay_bytes(&bench, &r) == curves + 1, "bytes of the overlay");
    r = dk_overlay_range_of(&bench, 3, 1);
    expect(r.refusal == 0 && r.image == DK_RELEASED && r.length == 1 && dk_overlay_bytes(&bench, &r) == released + 3, "bytes of the released image");
    r = dk_overlay_range_of(&bench, 2, 2);
    expect(r.refusal == DK_PARTLY_COVERED && dk_overlay_bytes(&bench, &r) == NULL, "a range that is covered in part");
    expect(dk_overlay_range_of(&bench, 4, 1).refusal == DK_BAD_PART, "a range outside the released image");
    struct dk_count n = dk_overlay_runs_into(&bench, &runs);
    expect(n.refusal == 0 && runs.count == 1 && firsts[0] == 2 && counts_of[0] == 1, "where they differ");
    runs.room = 0;
    n = dk_overlay_runs_into(&bench, &runs);
    expect(n.refusal == DK_TOO_SHORT && n.place == 2 && runs.count == 1, "no room for the runs");
}

static void records_by_name(void)
{
    static const char text[] = ":018002002A53\n:018000002B54\n:00000001FF\n", bad[] = ":018000002B55\n:00000001FF\n";
    static uint8_t bytes[4] = {0xff, 0xff, 0xff, 0xff}, scratch[1];
    struct dk_block_list blocks = {block_offsets, block_sizes, 4, 0};
    struct dk_reading reading = dk_no_reading();
    reading.text = (const uint8_t *)text;
    reading.text_len = sizeof text - 1;
    reading.load = 0x8000;
    reading.bytes = bytes;
    reading.bytes_len = sizeof bytes;
    reading.scratch = scratch;
    reading.scratch_len = sizeof scratch;
    expect(dk_bytes_read(&blocks) == 0, "nothing is read yet");
    struct dk_count n = dk_read_records_into(&reading, &blocks);
    expect(n.refusal == 0 && blocks.count == 2 && block_offsets[1] == 16 && block_sizes[1] == 8, "the blocks of a file");
    expect(dk_bytes_read(&blocks) == 3 && bytes[0] == 0x2b && bytes[1] == 0xff && bytes[2] == 0x2a && bytes[3] == 0xff, "its bytes");
    struct dk_extent extent = dk_record_extent_of(&reading);
    expect(extent.refusal == DK_ACCEPTED && extent.end - extent.lowest == dk_bytes_read(&blocks), "where its bytes stand");
    expect(dk_record_fault_of(&reading).fault == 0 && dk_record_reason_of(&reading).reason == DK_GOOD_FILE, "nothing is wrong with it");
    reading.text = (const uint8_t *)bad;
    reading.text_len = sizeof bad - 1;
    n = dk_read_records_into(&reading, &blocks);
    expect(n.refusal == DK_MALFORMED && blocks.count == 2 && bytes[0] == 0x2b, "a bad file leaves everything");
    struct dk_reason why = dk_record_reason_of(&reading);
    expect(dk_record_fault_of(&reading).line == 0 && why.reason == DK_CHECKSUM && why.first == 0x55 && why.second == 0x54, "where and why");
    reading.format = DK_S_RECORDS;
    expect(dk_record_reason_of(&reading).reason == DK_NO_START, "the same as S-records");
}

/* From a layout of ten-bit words to records, and what was read back held against it: the same, a byte turned, a byte not given. */
static void read_back(void)
{
    static const char turned[] = ":05800000FFC042A800D2\n:00000001FF\n", cut[] = ":04800000FFC002A813\n:00000001FF\n";
    static uint8_t text[128], bytes[8], scratch[1], kinds_of[4];
    static uint64_t given_offsets[4], given_sizes[4], firsts[4], counts_of[4];
    struct dk_tables tables = worked_tables();
    struct dk_room room = lent();
    struct dk_block_list blocks = {block_offsets, block_sizes, 4, 0}, given = {given_offsets, given_sizes, 4, 0}, no_room = {NULL, NULL, 0, 7};
    struct dk_unlike_list unlike = {firsts, counts_of, kinds_of, 4, 9};
    struct dk_reading reading = dk_no_reading();
    struct dk_layout r = dk_build_tables(&tables, &room), empty;
    expect(dk_blocks_into(&r, &room, &blocks).refusal == 0 && dk_write_hex_of(&room, &blocks, 0x8000, text, sizeof text).refusal == DK_BAD_PART,
           "ten-bit blocks as records");
    expect(dk_whole_into(&r, &blocks).count == 1 && blocks.count == 1 && block_offsets[0] == 0 && block_sizes[0] == 40, "the whole image");
    expect(dk_whole_into(&r, &no_room).refusal == DK_TOO_SHORT && dk_whole_into(&r, &no_room).place == 2 && no_room.count == 7, "no room for it");
    empty = r;
    empty.length = 0;
    expect(dk_whole_into(&empty, &no_room).refusal == 0 && no_room.count == 0, "an empty image has no block");
    struct dk_count n = dk_write_hex_of(&room, &blocks, 0x8000, text, sizeof text);
    reading.text = text;
    reading.text_len = (size_t)n.count;
    reading.load = 0x8000;
    reading.bytes = bytes;
    reading.bytes_len = sizeof bytes;
    reading.scratch = scratch;
    reading.scratch_len = sizeof scratch;
    expect(n.refusal == 0 && dk_read_records_into(&reading, &given).refusal == 0, "written and read");
    expect(dk_verify_of(&room, &blocks, &reading, &given, &unlike).refusal == 0 && unlike.count == 0, "the same");
    reading.text = (const uint8_t *)turned;
    reading.text_len = sizeof turned - 1;
    expect(dk_read_records_into(&reading, &given).refusal == 0 && dk_verify_of(&room, &blocks, &reading, &given, &unlike).count == 1, "a byte turned");
    expect(unlike.count == 1 && firsts[0] == 2 && counts_of[0] == 1 && kinds_of[0] == DK_DIFFERENT, "which one");
    reading.text = (const uint8_t *)cut;
    reading.text_len = sizeof cut - 1;
    expect(dk_read_records_into(&reading, &given).refusal == 0 && dk_verify_of(&room, &blocks, &reading, &given, &unlike).count == 1, "a byte not given");
    expect(firsts[0] == 4 && counts_of[0] == 1 && kinds_of[0] == DK_MISSING, "which one is not given");
    unlike.room = 0;
    expect(dk_verify_of(&room, &blocks, &reading, &given, &unlike).refusal == DK_TOO_SHORT && unlike.count == 1, "no room for a run");
}

int main(void)
{
    read_back();
    bench_by_name();
    records_by_name();
    worked_example();
    to_records();
    counts();
    other_calls();
    fields_of_layouts();
    fields_of_others();
    printf("%u tests, %u wrong\n", tests, faults);
    return faults != 0;
}
