/* Files of records for the driver: written by the calls and read back, good and damaged, and files made line by line with a fault of each kind. */
#include "driver.h"

enum { TEXT = 9000, IMAGE = 600, BLOCKS_MOST = 8, LIST = 60 };

static struct {
    const uint8_t *image, *text;
    uint8_t *hex, *out, *bytes, *scratch;
    uint64_t *offsets, *sizes;
    const uint64_t *block_offsets, *block_sizes;
    size_t image_count, text_count, hex_count, out_count, bytes_count, scratch_count, offsets_count, sizes_count, blocks, blocks_too;
    uint64_t bits, first, size;
    uint32_t load;
    uint8_t format, width;
} r;
static struct dk_count counts;
static struct dk_extent extent;
static struct dk_fault fault;
static struct dk_reason reason;
static struct dk_part part;

#define FIELDS(answer) (const uint64_t *)(const void *)&(answer), sizeof(answer) / 8
#define WRITTEN r.image, r.image_count, r.block_offsets, r.blocks, r.block_sizes, r.blocks_too, r.load
#define READ r.format, r.text, r.text_count, r.load

static void make_hex(void) { counts = dk_hex(r.image, r.image_count, r.bits, r.hex, r.hex_count); }
static void make_part(void) { part = dk_part(r.image, r.image_count, r.first, r.size); }
static void make_write_hex(void) { counts = dk_write_hex(WRITTEN, r.out, r.out_count); }
static void make_write_srec(void) { counts = dk_write_srec(WRITTEN, r.width, r.out, r.out_count); }
static void make_read(void)
{
    counts = dk_read_records(READ, r.bytes, r.bytes_count, r.offsets, r.offsets_count, r.sizes, r.sizes_count, r.scratch, r.scratch_count);
}
static void make_extent(void) { extent = dk_record_extent(r.format, r.text, r.text_count, r.scratch, r.scratch_count); }
static void make_fault(void) { fault = dk_record_fault(READ, r.scratch, r.scratch_count); }
static void make_reason(void) { reason = dk_record_reason(READ, r.scratch, r.scratch_count); }

/* ---- a text, made line by line ---- */

static uint8_t text[TEXT];
static size_t text_length;
static int lower_case, with_cr, more; /* `more`: this line's count says one more or less than it has */

static void put_digits(uint64_t number, unsigned digits)
{
    while (digits-- > 0 && text_length < TEXT) {
        uint8_t digit = (uint8_t)(number >> 4 * digits & 15);
        text[text_length++] = (uint8_t)(digit < 10 ? '0' + digit : (lower_case && one_in(2) ? 'a' : 'A') + digit - 10);
    }
}

static void put_char(uint8_t character)
{
    if (text_length < TEXT)
        text[text_length++] = character;
}

/* Bytes with their sum, which the line ends with: its complement and one in Intel HEX, its complement in S-records. */
static void put_body(const uint8_t *body, size_t length, int srec)
{
    size_t i;
    unsigned sum = 0;
    for (i = 0; i < length; i++) {
        put_digits(body[i], 2);
        sum += body[i];
    }
    put_digits((srec ? ~sum : 0u - sum) & 255, 2);
    if (with_cr && !one_in(20))
        put_char('\r');
    if (!one_in(400))
        put_char('\n');
}

static void put_hex_line(uint8_t type, uint32_t address, size_t length)
{
    uint8_t body[40];
    size_t i;
    body[0] = (uint8_t)((int)length + more);
    body[1] = (uint8_t)(address >> 8);
    body[2] = (uint8_t)address;
    body[3] = type;
    for (i = 0; i < length; i++)
        body[4 + i] = (uint8_t)drawn();
    put_char(':');
    put_body(body, length + 4, 0);
}

/* A type 04 record, whose bytes are the upper half. */
static void put_upper(uint32_t upper, uint32_t address)
{
    uint8_t body[6] = {2, 0, 0, 4, 0, 0};
    body[2] = (uint8_t)address;
    body[4] = (uint8_t)(upper >> 8);
    body[5] = (uint8_t)upper;
    put_char(':');
    put_body(body, 6, 0);
}

static void put_srec_line(uint8_t type, unsigned width, uint32_t address, size_t length)
{
    uint8_t body[48];
    size_t i;
    body[0] = (uint8_t)((int)(length + width + 1) + more);
    for (i = 0; i < width; i++)
        body[1 + i] = (uint8_t)(address >> 8 * (width - 1 - i));
    for (i = 0; i < length; i++)
        body[1 + width + i] = (uint8_t)drawn();
    put_char('S');
    put_char(type);
    put_body(body, 1 + width + length, 1);
}

/* ---- lines with a fault of each kind ---- */

static void put_bad_hex(uint32_t address)
{
    size_t length = (size_t)below(5);
    switch (below(7)) {
    case 0: put_hex_line((uint8_t)(2 + below(4)), address, length); break;
    case 1: put_hex_line(1, 0, 1 + (size_t)below(3)); break;
    case 2: put_hex_line(1, 1 + (uint32_t)below(300), 0); break;
    case 3: put_hex_line(4, 0, one_in(2) ? 1 : 3); break;
    case 4: put_upper(0, 1 + (uint32_t)below(200)); break;
    case 5: put_upper(0xffff, 0); put_hex_line(0, 0xfff8 + (uint32_t)below(8), 9); break;
    default: more = one_in(2) ? 1 : -1; put_hex_line(0, address, 1 + length); more = 0;
    }
}

static void put_bad_srec(unsigned width, uint32_t address)
{
    uint8_t type = (uint8_t)"24568a"[below(6)];
    switch (below(8)) {
    case 0: put_srec_line(type, 2 + (unsigned)below(3), address, 3); break;
    case 1: put_srec_line((uint8_t)(width == 4 ? '7' : '9'), width, 0, 1); break;
    case 2: put_srec_line((uint8_t)(width == 4 ? '1' : '3'), 6 - width, address, 3); break;
    case 3: put_srec_line((uint8_t)(width == 4 ? '3' : '1'), width, UINT32_MAX - 2, 5); break;
    case 4: put_srec_line((uint8_t)(width == 4 ? '3' : '1'), width - 1 - (unsigned)below(2), 0, 0); break;
    case 5: put_srec_line('0', 1, 0, 0); break;
    case 6: put_srec_line((uint8_t)(width == 4 ? '9' : '7'), 6 - width, 0, 0); break;
    default: more = one_in(2) ? 1 : -1; put_srec_line((uint8_t)(width == 4 ? '3' : '1'), width, address, 1 + (size_t)below(5)); more = 0;
    }
}

static void damage_text(void)
{
    size_t at, i;
    if (text_length == 0)
        return;
    at = (size_t)below(text_length);
    switch (below(6)) {
    case 0: text[at] = (uint8_t)drawn(); break;
    case 1: text[at] = (uint8_t)"0123456789ABCDEFabcdefgG:S\n\r"[below(28)]; break;
    case 2: text_length = at; break;
    case 3:
        for (i = at; i + 1 < text_length; i++)
            text[i] = text[i + 1];
        text_length--;
        break;
    case 4: text[0] = (uint8_t)(one_in(2) ? '\n' : drawn()); break;
    default: put_char((uint8_t)"0:S\n\r"[below(5)]);
    }
}

/* Lines that ascend, jump or meet, with a bad one here and there. */
static void make_text(int srec)
{
    unsigned width = one_in(2) ? 2 : 4;
    uint32_t upper = one_in(3) ? (uint32_t)below(3) : 0, at = r.load;
    size_t lines = (size_t)below(one_in(10) ? 80 : 9), bad = one_in(2) ? (size_t)below(lines + 1) : lines + 9, i;
    text_length = 0;
    lower_case = one_in(3);
    with_cr = one_in(3);
    if (srec && one_in(2))
        put_srec_line('0', 2, 0, (size_t)below(9));
    if (!srec && (upper != 0 || r.load > 0xffff))
        put_upper((r.load >> 16) + upper, 0);
    for (i = 0; i < lines; i++) {
        size_t length = (size_t)below(one_in(5) ? 30 : 6);
        if (i == bad && srec)
            put_bad_srec(width, at);
        else if (i == bad)
            put_bad_hex(at);
        if (srec)
            put_srec_line((uint8_t)(width == 4 ? '3' : '1'), width, at, length);
        else
            put_hex_line(0, at & 0xffff, length);
        at = one_in(4) ? r.load + (uint32_t)below(900) : at + (uint32_t)length - (one_in(60) ? 3 : 0);
        at += one_in(3) ? (uint32_t)below(40) : 0;
    }
    if (srec && !one_in(12))
        put_srec_line((uint8_t)(width == 4 ? '7' : '9'), width, (uint32_t)(one_in(3) ? drawn() : 0), 0);
    else if (!one_in(12))
        put_hex_line(1, 0, 0);
    if (one_in(20))
        put_char('\n');
}

/* ---- rounds ---- */

static void draw_blocks(void)
{
    static uint64_t offsets[BLOCKS_MOST], sizes[BLOCKS_MOST];
    size_t i;
    uint64_t at = 0, *odd = one_in(2) ? offsets : sizes;
    r.blocks = (size_t)below(BLOCKS_MOST);
    for (i = 0; i < r.blocks; i++) {
        offsets[i] = at + 8 * below(20);
        sizes[i] = 8 * (1 + below(40));
        at = offsets[i] + sizes[i];
    }
    at = one_in(2) ? edge() : below(900);
    if (r.blocks > 0 && one_in(6))
        odd[below(r.blocks)] = at;
    r.blocks_too = r.blocks - (r.blocks > 0 && one_in(40));
    r.block_offsets = (const uint64_t *)lend_copy(offsets, r.blocks, 8);
    r.block_sizes = (const uint64_t *)lend_copy(sizes, r.blocks_too, 8);
}

/* What was written, perhaps damaged, is the text that is read; where nothing was, one made line by line. */
static void take_text(int srec)
{
    if (counts.refusal == 0 && one_in(2))
        for (text_length = 0; text_length < counts.count && text_length < TEXT; text_length++)
            text[text_length] = r.out[text_length];
    else
        make_text(srec);
    if (one_in(4))
        damage_text();
    r.text_count = text_length;
    r.text = (const uint8_t *)lend_copy(text, text_length, 1);
}

static void write_one(int srec)
{
    draw_blocks();
    r.load = (uint32_t)(one_in(4) ? edge() : one_in(2) ? below(70000) : 0);
    r.width = (uint8_t)(one_in(20) ? drawn() : one_in(2) ? 2 : 4);
    r.out_count = one_in(8) ? (size_t)below(200) : (size_t)dk_record_room(IMAGE, BLOCKS_MOST);
    r.out = (uint8_t *)lend(r.out_count, 1);
    if (srec)
        called(WRITE_SREC, make_write_srec, FIELDS(counts));
    else
        called(WRITE_HEX, make_write_hex, FIELDS(counts));
}

static void lend_to_read(int srec)
{
    static uint8_t zeros[300];
    r.format = (uint8_t)(one_in(20) ? drawn() : (uint64_t)srec);
    if (one_in(5))
        r.load += (uint32_t)below(3);
    r.bytes_count = one_in(8) ? (size_t)below(100) : 1000;
    r.offsets_count = one_in(10) ? (size_t)below(3) : LIST;
    r.sizes_count = one_in(10) ? (size_t)below(3) : LIST;
    r.bytes = (uint8_t *)lend(r.bytes_count, 1);
    r.offsets = (uint64_t *)lend(r.offsets_count, 8);
    r.sizes = (uint64_t *)lend(r.sizes_count, 8);
    r.scratch_count = one_in(2) ? 0 : (size_t)below(one_in(3) ? 300 : 12);
    r.scratch = (uint8_t *)lend_copy(zeros, r.scratch_count, 1);
    if (r.scratch_count > 0 && one_in(12))
        r.scratch[below(r.scratch_count)] = 4;
}

void round_of_records(void)
{
    int srec = (int)below(2);
    r.image_count = 1 + (size_t)below(IMAGE);
    r.image = (const uint8_t *)lend(r.image_count, 1);
    write_one(srec);
    if (one_in(2)) {
        r.bits = one_in(6) ? edge() : below(8 * r.image_count + 1);
        r.hex_count = one_in(6) ? (size_t)below(100) : 2 * r.image_count;
        r.hex = (uint8_t *)lend(r.hex_count, 1);
        called(HEX, make_hex, FIELDS(counts));
        r.first = one_in(3) ? edge() : 8 * below(r.image_count);
        r.size = one_in(3) ? edge() : 8 * below(60);
        called(PART, make_part, FIELDS(part));
        return;
    }
    take_text(srec);
    lend_to_read(srec);
    called(READ_RECORDS, make_read, FIELDS(counts));
    if (counts.refusal == DK_TOO_SHORT)
        counted(SHORT_FORMS, counts.place);
    if (counts.refusal == 0 && counts.count > 0)
        counted(FORMATS_READ, r.format);
    called(RECORD_EXTENT, make_extent, FIELDS(extent));
    called(RECORD_FAULT, make_fault, FIELDS(fault));
    called(RECORD_REASON, make_reason, FIELDS(reason));
}
