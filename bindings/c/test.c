/* Calls every function of the library: document 01's worked example as tables and as a file, refusals, and buffers that have to be
 * left alone. Prints what is wrong; the last line says how many tests there were. */
#include <inttypes.h>
#include <stdio.h>
#include <string.h>

#include "../../include/denkumari.h"

static unsigned tests, faults;

static void expect(int holds, const char *what)
{
    tests++;
    if (!holds) {
        faults++;
        printf("wrong: %s\n", what);
    }
}

/* The worked example's tables. */
static const uint16_t units[] = {8, 10};
static const int64_t starts[] = {0, 64};
static const uint32_t bank_sizes[] = {0, 40}, bank_offsets[] = {0, 0}, aligns[] = {0, 0};
static uint8_t flags[] = {0, DK_HAS_SIZE | DK_HAS_OFFSET | DK_FILL}, fill_bits[] = {0, 0}, fill, closed;
static const uint8_t kinds[] = {DK_SWITCH, DK_LABEL, DK_DATA, DK_RESERVE, DK_INSTRUCTION};
static uint32_t operands[] = {1, 0, 0, 0, 16};
static uint32_t numbers[] = {0, 0, 10, 10, 10};
static const uint8_t states[5];
static const uint8_t values[] = {0xff, 0xc0, 0x2a, 0x80};

/* What is lent, and what it held before the call: every byte 0xa5. */
struct lent {
    uint8_t image[8], hex[16];
    int64_t addresses[4];
    uint64_t offsets[4], sizes[4], starts[4], lengths[4];
};

static struct lent lent, fresh;

static struct dk_layout build(size_t banks, size_t image_len, size_t span_len)
{
    lent = fresh;
    return dk_build(units, banks, starts, banks, bank_sizes, banks, bank_offsets, banks, aligns, banks, flags, banks,
                    fill_bits, banks, kinds, 5, operands, 5, numbers, 5, states, 5, 1, values, sizeof values, 10, fill, closed,
                    lent.image, image_len, lent.addresses, span_len, lent.offsets, span_len, lent.sizes, span_len);
}

static int untouched(void)
{
    return memcmp(&lent, &fresh, sizeof lent) == 0;
}

static void expect_refusal(struct dk_layout r, uint64_t number, uint64_t place, uint64_t second, uint64_t passes, const char *what)
{
    expect(r.refusal == number && r.place == place && r.second == second && r.passes == passes, what);
    expect(r.k == 0 && r.length == 0 && r.spans == 0, what);
    for (size_t i = 0; i < DK_MAX_BANKS; i++)
        expect(r.padding[i].bits == 0 && r.padding[i].units == 0, what);
    expect(untouched(), what);
}

static void expect_worked(struct dk_layout r, const char *what)
{
    static const uint8_t image[] = {0xff, 0xc0, 0x02, 0xa8, 0x00, 0, 0, 0};
    expect(r.refusal == DK_ACCEPTED && r.k == 1 && r.passes == 2 && r.length == 40 && r.spans == 3, what);
    expect(memcmp(lent.image, image, sizeof image) == 0, what);
    expect(lent.addresses[0] == 64 && lent.addresses[1] == 64 && lent.addresses[2] == 66, what);
    expect(lent.offsets[0] == 0 && lent.offsets[1] == 0 && lent.offsets[2] == 20, what);
    expect(lent.sizes[0] == 0 && lent.sizes[1] == 10 && lent.sizes[2] == 10, what);
    expect(memcmp(lent.addresses + 3, fresh.addresses + 3, 8) == 0 && lent.offsets[3] == fresh.offsets[3] && lent.sizes[3] == fresh.sizes[3], what);
}

static void worked_example(void)
{
    expect_worked(build(2, 8, 4), "the worked example as tables");
    struct dk_count blocks = dk_blocks(lent.offsets, 3, lent.sizes, 3, lent.starts, 4, lent.lengths, 4);
    expect(blocks.refusal == DK_ACCEPTED && blocks.count == 2, "its blocks");
    expect(lent.starts[0] == 0 && lent.lengths[0] == 10 && lent.starts[1] == 20 && lent.lengths[1] == 10, "its blocks");
    expect(lent.starts[2] == fresh.starts[2] && lent.lengths[2] == fresh.lengths[2], "blocks past those written");
    struct dk_count digits = dk_hex(lent.image, 8, 40, lent.hex, 16);
    expect(digits.refusal == DK_ACCEPTED && digits.count == 10, "its hex");
    expect(memcmp(lent.hex, "ffc002a800", 10) == 0 && lent.hex[10] == 0xa5, "its hex");
}

static void refused_builds(void)
{
    expect_refusal(build(0, 8, 4), DK_BANK_COUNT, 0, 0, 0, "no bank");
    expect_refusal(build(2, 4, 4), DK_TOO_SHORT, 0, 0, 2, "an image of four bytes");
    expect_refusal(build(2, 8, 2), DK_TOO_SHORT, 1, 0, 2, "room for two spans");
    flags[1] = 16;
    expect_refusal(build(2, 8, 4), DK_BANK_NUMBER, 1, 0, 0, "flags that mean nothing");
    flags[1] = DK_HAS_SIZE | DK_HAS_OFFSET | DK_FILL;
    operands[4] = 23;
    expect_refusal(build(2, 8, 4), DK_MALFORMED, 4, 0, 0, "an item past the values");
    operands[4] = 16;
    numbers[3] = 21;
    expect_refusal(build(2, 8, 4), DK_PAST_BANK, 4, 0, 2, "an item past its bank");
    numbers[3] = 10;
    lent = fresh;
    struct dk_layout r = dk_build(units, 2, starts, 2, bank_sizes, 1, bank_offsets, 2, aligns, 2, flags, 2, fill_bits, 2, kinds, 5, operands, 5, numbers, 5,
                                  states, 5, 1, values, 4, 10, 0, 0, lent.image, 8, lent.addresses, 4, lent.offsets, 4, lent.sizes, 4);
    expect_refusal(r, DK_BANK_COUNT, 0, 0, 0, "lists of banks of different lengths");
}

/* Fill bits, the fill's choice, a closed bank 0, padding and the profile, on the worked example's tables. */
static void choices(void)
{
    static const uint8_t ones[] = {0xff, 0xff, 0xf2, 0xab, 0xff, 0, 0, 0};
    fill_bits[1] = 1;
    struct dk_layout r = build(2, 8, 4);
    expect(r.refusal == DK_ACCEPTED && r.length == 40 && memcmp(lent.image, ones, sizeof ones) == 0, "gaps of ones");
    fill_bits[1] = 2;
    expect_refusal(build(2, 8, 4), DK_BANK_NUMBER, 1, 0, 0, "a fill bit of two");
    fill_bits[1] = 0;
    fill_bits[0] = 1;
    expect_refusal(build(2, 8, 4), DK_BANK_NUMBER, 0, 0, 0, "a fill bit of bank 0");
    fill_bits[0] = 0;
    fill = 2;
    expect_refusal(build(2, 8, 4), DK_MALFORMED, 3, 0, 0, "an unknown fill");
    fill = DK_FILL_FULL;
    expect_worked(build(2, 8, 4), "full fill, where inherited fill reaches as far");
    fill = DK_FILL_INHERITED;
    static const uint8_t align[] = {DK_NOTHING, DK_ALIGN, DK_LABEL};
    static const uint32_t none[3], to[] = {0, 12, 0};
    r = dk_build(units, 1, starts, 1, bank_sizes, 1, bank_offsets, 1, aligns, 1, flags, 1, fill_bits, 1, align, 2, none, 2, to, 2, states, 2, 1,
                 values, 4, 10, 0, 1, lent.image, 8, lent.addresses, 4, lent.offsets, 4, lent.sizes, 4);
    expect(r.refusal == DK_ACCEPTED && r.padding[0].bits == 0 && r.padding[0].units == 0, "an align that is met costs nothing");
    static const uint8_t skips[] = {DK_RESERVE, DK_ALIGN, DK_RESERVE, DK_ALIGN, DK_RESERVE, DK_ALIGN};
    static const uint32_t every[6], by[] = {4, 8, 4, 8, 4, 16};
    static const uint8_t known[6];
    r = dk_build(units, 1, starts, 1, bank_sizes, 1, bank_offsets, 1, aligns, 1, flags, 1, fill_bits, 1, skips, 6, every, 6, by, 6, known, 6, 1,
                 values, 4, 10, 0, 0, lent.image, 8, lent.addresses, 4, lent.offsets, 4, lent.sizes, 4);
    expect(r.refusal == DK_ACCEPTED && r.padding[0].bits == 20 && r.padding[0].units == 1, "4 + 4 + 12 bits, of which one skip has a whole unit");
    r = dk_build(units, 1, starts, 1, bank_sizes, 1, bank_offsets, 1, aligns, 1, flags, 1, fill_bits, 1, align, 3, none, 3, to, 3, states, 3, 1,
                 values, 4, 10, 0, 0, lent.image, 8, lent.addresses, 4, lent.offsets, 4, lent.sizes, 4);
    expect(r.refusal == DK_ACCEPTED && r.spans == 1, "bank 0 alone, open");
    lent = fresh;
    r = dk_build(units, 1, starts, 1, bank_sizes, 1, bank_offsets, 1, aligns, 1, flags, 1, fill_bits, 1, align, 3, none, 3, to, 3, states, 3, 1,
                 values, 4, 10, 0, 7, lent.image, 8, lent.addresses, 4, lent.offsets, 4, lent.sizes, 4);
    expect_refusal(r, DK_DEFAULT_BANK, 2, 0, 2, "bank 0 alone, closed");
    struct dk_profile said = dk_profile(8, units, 2, starts, 2, bank_sizes, 2, bank_offsets, 2, aligns, 2, flags, 2, fill_bits, 2, kinds, 5, operands, 5,
                                        numbers, 5, states, 5, 1, values, sizeof values, 0);
    expect(said.refusal == DK_OFF_PROFILE && said.place == DK_RULE_UNIT && said.second == 1 && said.pages[0] == 0, "a unit of ten bits in the profile");
    lent = fresh;
    r = dk_build_paged(8, units, 2, starts, 2, bank_sizes, 2, bank_offsets, 2, aligns, 2, flags, 2, fill_bits, 2, kinds, 5, operands, 5, numbers, 5,
                       states, 5, 1, values, 4, 10, 0, 0, lent.image, 8, lent.addresses, 4, lent.offsets, 4, lent.sizes, 4);
    expect_refusal(r, DK_OFF_PROFILE, DK_RULE_UNIT, 1, 0, "the same build in the profile");
    static const uint16_t bytes[] = {8, 8};
    said = dk_profile(8, bytes, 2, starts, 2, bank_sizes, 2, bank_offsets, 2, aligns, 2, flags, 2, fill_bits, 2, kinds, 5, operands, 5, numbers, 5,
                      states, 5, 1, values, sizeof values, 0);
    expect(said.refusal == DK_ACCEPTED && said.pages[0] == DK_NO_PAGES && said.pages[1] == 5 && said.pages[15] == DK_NO_PAGES, "five pages of a byte");
    r = dk_build_paged(3, bytes, 2, starts, 2, bank_sizes, 2, bank_offsets, 2, aligns, 2, flags, 2, fill_bits, 2, kinds, 5, operands, 5, numbers, 5,
                       states, 5, 1, values, 4, 10, 0, 0, lent.image, 8, lent.addresses, 4, lent.offsets, 4, lent.sizes, 4);
    expect_refusal(r, DK_OFF_PROFILE, DK_RULE_PAGE, 0, 0, "a page of three bits");
}

/* Two blocks written and read back, as both kinds of records. */
static void records(void)
{
    static const uint8_t image[] = {1, 2, 3, 4, 5, 6, 7, 8};
    static const uint64_t at[] = {0, 40}, size[] = {16, 24};
    static uint8_t text[256], before[256];
    memset(before, 0xa5, sizeof before);
    memset(text, 0xa5, sizeof text);
    struct dk_count r = dk_write_hex(image, 8, at, 2, size, 2, 0x1fffe, text, sizeof text);
    static const char hex[] = ":020000040001F9\n:02FFFE000102FE\n:020000040002F8\n:03000300060708E5\n:00000001FF\n";
    expect(r.refusal == DK_ACCEPTED && r.count == sizeof hex - 1 && memcmp(text, hex, r.count) == 0 && text[r.count] == 0xa5, "Intel HEX");
    for (int kind = 0; kind < 2; kind++) {
        if (kind == 1)
            r = dk_write_srec(image, 8, at, 2, size, 2, 0x1fffe, 4, text, sizeof text);
        expect(r.refusal == DK_ACCEPTED, "records are written");
        lent = fresh;
        struct dk_count n = dk_read_records((uint8_t)kind, text, r.count, 0x1fffe, lent.image, 8, lent.offsets, 4, lent.sizes, 4, NULL, 0);
        expect(n.refusal == DK_ACCEPTED && n.count == 2 && lent.offsets[0] == 0 && lent.sizes[0] == 16 && lent.offsets[1] == 40 && lent.sizes[1] == 24,
               "the blocks that are read back");
        expect(lent.image[0] == 1 && lent.image[1] == 2 && lent.image[2] == 0xa5 && lent.image[4] == 0xa5 && lent.image[5] == 6 && lent.image[7] == 8,
               "the bytes that are read back, and the gap between them");
        struct dk_fault fault = dk_record_fault((uint8_t)kind, text, r.count, 0x1fffe, NULL, 0);
        expect(fault.fault == 0 && fault.line == 0, "a good file");
        struct dk_extent extent = dk_record_extent((uint8_t)kind, text, r.count, NULL, 0);
        expect(extent.refusal == DK_ACCEPTED && extent.lowest == 0x1fffe && extent.end == 0x20006, "where its bytes stand");
        lent = fresh;
        n = dk_read_records((uint8_t)kind, text, r.count, 0x1ffff, lent.image, 8, lent.offsets, 4, lent.sizes, 4, NULL, 0);
        expect(n.refusal == DK_MALFORMED && n.place == 0 && n.count == 0 && untouched(), "a byte below the load address");
        fault = dk_record_fault((uint8_t)kind, text, r.count, 0x1ffff, NULL, 0);
        expect(fault.fault == 1 && fault.line == (kind == 0), "the line with that byte");
        n = dk_read_records((uint8_t)kind, text, r.count, 0x1fffe, lent.image, 7, lent.offsets, 4, lent.sizes, 4, NULL, 0);
        expect(n.refusal == DK_TOO_SHORT && n.place == 0 && untouched(), "a byte short");
        n = dk_read_records((uint8_t)kind, text, r.count, 0x1fffe, lent.image, 8, lent.offsets, 1, lent.sizes, 4, NULL, 0);
        expect(n.refusal == DK_TOO_SHORT && n.place == 2 && untouched(), "a block short");
        for (int neither = 2; neither < 256; neither++) {
            n = dk_read_records((uint8_t)neither, text, r.count, 0x1fffe, lent.image, 8, lent.offsets, 4, lent.sizes, 4, NULL, 0);
            fault = dk_record_fault((uint8_t)neither, text, r.count, 0x1fffe, NULL, 0);
            extent = dk_record_extent((uint8_t)neither, text, r.count, NULL, 0);
            expect(n.refusal == DK_MALFORMED && n.place == 0 && n.count == 0 && untouched() && fault.fault == 1 && fault.line == 0,
                   "a format that is neither");
            expect(extent.refusal == DK_MALFORMED && extent.lowest == 0 && extent.end == 0, "where bytes stand in such a format");
        }
    }
    memset(text, 0xa5, sizeof text);
    r = dk_write_srec(image, 8, at, 2, size, 2, 0x1fffe, 2, text, sizeof text);
    expect(r.refusal == DK_MALFORMED && memcmp(text, before, sizeof text) == 0, "addresses past 16 bits");
    r = dk_write_hex(image, 7, at, 2, size, 2, 0, text, sizeof text);
    expect(r.refusal == DK_BAD_PART && memcmp(text, before, sizeof text) == 0, "a block past the image");
    r = dk_write_hex(image, 8, at, 2, size, 2, 0x1fffe, text, sizeof hex - 2);
    expect(r.refusal == DK_TOO_SHORT && r.place == 3 && memcmp(text, before, sizeof text) == 0, "a character short");
}

/* A thousand records of a byte, each 387 addresses behind the one before it, of a thousand, and, if asked for, the first of them again.
 * Without scratch, with scratch that is zeros, in one window and in many, and with a byte that is not: the answer is one, and the scratch is as it was. */
static void jumping(void)
{
    static char text[20000];
    static uint8_t bytes[1000], scratch[125], before[125];
    static const size_t lengths[] = {0, 125, 124, 7, 1};
    for (int twice = 0; twice < 2; twice++) {
        size_t length = 0;
        for (unsigned i = 0; i < 1000u + (unsigned)twice; i++) {
            unsigned at = i * 387 % 1000, sum = 1 + (at >> 8) + (at & 255) + 65;
            length += (size_t)sprintf(text + length, ":01%04X0041%02X\n", at, (0u - sum) & 255);
        }
        length += (size_t)sprintf(text + length, ":00000001FF\n");
        for (size_t i = 0; i < 6; i++) {
            uint64_t at = 0xa5, size = 0xa5;
            size_t many = i < 5 ? lengths[i] : sizeof scratch;
            memset(scratch, 0, sizeof scratch);
            scratch[124] = i == 5;
            memcpy(before, scratch, sizeof scratch);
            memset(bytes, 0xa5, sizeof bytes);
            struct dk_fault fault = dk_record_fault(DK_INTEL_HEX, (const uint8_t *)text, length, 0, scratch, many);
            struct dk_reason reason = dk_record_reason(DK_INTEL_HEX, (const uint8_t *)text, length, 0, scratch, many);
            struct dk_extent extent = dk_record_extent(DK_INTEL_HEX, (const uint8_t *)text, length, scratch, many);
            struct dk_count n = dk_read_records(DK_INTEL_HEX, (const uint8_t *)text, length, 0, bytes, sizeof bytes, &at, 1, &size, 1, scratch, many);
            if (twice)
                expect(n.refusal == DK_MALFORMED && at == 0xa5 && bytes[0] == 0xa5 && fault.fault == 1 && fault.line == 1000 && reason.line == 1000
                           && reason.reason == DK_GIVEN_TWICE && reason.first == 0 && reason.second == 0, "a byte again, in records that jump");
            else
                expect(n.refusal == DK_ACCEPTED && n.count == 1 && at == 0 && size == 8000 && bytes[0] == 65 && bytes[999] == 65 && fault.fault == 0
                           && reason.reason == DK_GOOD_FILE, "records that jump");
            expect(extent.refusal == (twice ? DK_MALFORMED : DK_ACCEPTED) && extent.lowest == 0 && extent.end == (twice ? 0 : 1000), "where they stand");
            expect(memcmp(scratch, before, sizeof scratch) == 0, "the scratch as it was");
        }
    }
}

static struct dk_layout lay_out(const uint8_t *file, size_t size)
{
    lent = fresh;
    return dk_form(file, size, fill, lent.image, 8, lent.addresses, 4, lent.offsets, 4, lent.sizes, 4);
}

static void files(const char *path)
{
    static uint8_t file[1024];
    FILE *in = fopen(path, "rb");
    size_t size = in ? fread(file, 1, sizeof file, in) : 0;
    expect(size > 0, "the worked example's file can be read");
    if (in)
        fclose(in);
    expect_worked(lay_out(file, size), "the worked example as a file");
    expect_refusal(lay_out(file, 0), DK_MALFORMED, 0, 0, 0, "an empty file");
    expect_refusal(lay_out(file, size - 1), DK_MALFORMED, 9, 0, 0, "a file that is cut in its last field");
    fill = 2;
    expect_refusal(lay_out(file, size), DK_MALFORMED, 3, 0, 0, "a file and an unknown fill");
    fill = 0;
    lent = fresh;
    expect_refusal(dk_form_paged(file, size, 0, 8, lent.image, 8, lent.addresses, 4, lent.offsets, 4, lent.sizes, 4), DK_OFF_PROFILE, DK_RULE_UNIT, 1, 0,
                   "a file in the profile");
    file[0] = 7;
    expect_refusal(lay_out(file, size), DK_MALFORMED, 0, 0, 0, "a first field that is unknown");
}

static void other_refusals(void)
{
    lent = fresh;
    struct dk_count r = dk_hex(values, 4, 33, lent.hex, 16);
    expect(r.refusal == DK_MALFORMED && r.place == 0 && r.count == 0 && untouched(), "hex of more bits than there are");
    r = dk_hex(values, 4, 32, lent.hex, 7);
    expect(r.refusal == DK_TOO_SHORT && r.place == 3 && r.count == 0 && untouched(), "hex into seven digits");
    static const uint64_t at[] = {0, DK_NO_OFFSET, 20}, size[] = {10, 5, 10};
    r = dk_blocks(at, 3, size, 2, lent.starts, 4, lent.lengths, 4);
    expect(r.refusal == DK_MALFORMED && r.place == 0 && untouched(), "blocks of two sizes for three offsets");
    r = dk_blocks(at, 3, size, 3, lent.starts, 1, lent.lengths, 4);
    expect(r.refusal == DK_TOO_SHORT && r.place == 2 && untouched(), "room for one of two blocks");
    r = dk_blocks(at, 3, size, 3, lent.starts, 2, lent.lengths, 2);
    expect(r.refusal == DK_ACCEPTED && r.count == 2 && lent.starts[1] == 20 && lent.lengths[1] == 10, "a span without offset is passed over");
    struct dk_part part = dk_part(values, 4, 8, 16);
    expect(part.refusal == DK_ACCEPTED && part.start == 1 && part.length == 2, "a part on byte edges");
    part = dk_part(values, 4, 8, 12);
    expect(part.refusal == DK_BAD_PART && part.start == 0 && part.length == 0, "a part off a byte edge");
    part = dk_part(values, 4, UINT64_MAX - 7, 8);
    expect(part.refusal == DK_BAD_PART, "a part outside");
}

/* "where a length is 0 any pointer will do, NULL too" */
static void null_with_length_0(void)
{
    struct dk_layout r = dk_build(NULL, 0, NULL, 0, NULL, 0, NULL, 0, NULL, 0, NULL, 0, NULL, 0, NULL, 0, NULL, 0, NULL, 0, NULL, 0, 1, NULL, 0,
                                  10, 0, 0, NULL, 0, NULL, 0, NULL, 0, NULL, 0);
    expect(r.refusal == DK_BANK_COUNT, "no bank and nothing lent");
    r = dk_build(units, 1, starts, 1, bank_sizes, 1, bank_offsets, 1, aligns, 1, flags, 1, fill_bits, 1, NULL, 0, NULL, 0, NULL, 0, NULL, 0, 1, NULL, 0,
                 10, 0, 0, NULL, 0, NULL, 0, NULL, 0, NULL, 0);
    expect(r.refusal == DK_ACCEPTED && r.length == 0 && r.spans == 0, "no node and nothing lent");
    expect(dk_form(NULL, 0, 0, NULL, 0, NULL, 0, NULL, 0, NULL, 0).refusal == DK_MALFORMED, "no file and nothing lent");
    expect(dk_blocks(NULL, 0, NULL, 0, NULL, 0, NULL, 0).refusal == DK_ACCEPTED, "no span and nothing lent");
    expect(dk_hex(NULL, 0, 0, NULL, 0).refusal == DK_ACCEPTED, "hex of nothing");
    expect(dk_part(NULL, 0, 0, 8).refusal == DK_BAD_PART, "a part of no image");
}

static void words(void)
{
    for (uint64_t number = 0; number <= DK_OFF_PROFILE; number++)
        expect(number == 6 || strcmp(dk_words(number), dk_words(UINT64_MAX)) != 0, "a refusal that is given has words");
    expect(strstr(dk_words(DK_OVERLAP), "share a bit") != NULL, "the words of 12");
}

int main(int argc, char **argv)
{
    memset(&fresh, 0xa5, sizeof fresh);
    worked_example();
    refused_builds();
    other_refusals();
    choices();
    records();
    jumping();
    null_with_length_0();
    words();
    files(argc > 1 ? argv[1] : "examples/worked.form");
    printf("%u tests, %u wrong\n", tests, faults);
    return faults != 0;
}
