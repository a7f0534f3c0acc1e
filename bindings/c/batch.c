/* The library as a side of the comparison with the Rust: reads files of either form from standard input, each behind four bytes of
 * length, big-endian, and writes a line for each (oracle/README.md, "The lines"). It lends what the program `layout` lends.
 *
 *     batch             lays each file out with dk_form
 *     batch --tables    takes sound files apart itself and calls dk_build; broken ones still go to dk_form. With --long, files past their form's length too
 *     batch --structs   the same by way of the structs of denkumari_tables.h
 *     batch --to N      converts each file to form N, 1 or 2, into --room BYTES, and writes `ok` and the result in hex, or the refusal (oracle/convert.py)
 *     batch --spans     reads lists of spans instead, a line each, OFFSET:SIZE,.. with - for no offset, and writes their blocks
 *
 * The first three also take --fill N, the fill's choice, --page N, the page size of a device with pages, and --padding, by which each bank's padding, in bits
 * and in whole units, and with --page its pages, stand at the end of a line. */
#include <inttypes.h>
#include <stdio.h>
#include <stdlib.h>
#include <string.h>

#include "../../include/denkumari_tables.h"
#include "tables.h"

enum { IMAGE = 16384, SPANS = 4096, FILE_MOST = 1 << 20 };

static uint8_t file[FILE_MOST];
static uint8_t image[IMAGE];
static int64_t addresses[SPANS];
static uint64_t offsets[SPANS], sizes[SPANS], starts[SPANS], lengths[SPANS];

/* The line under way: every span and block with its longest numbers, and the image, have room. */
static char line[1 << 19];
static size_t written;

static void put(const char *text)
{
    while (*text)
        line[written++] = *text++;
}

static void put_number(uint64_t n)
{
    char digits[20];
    size_t at = sizeof digits;
    do
        digits[--at] = (char)('0' + n % 10);
    while (n /= 10);
    while (at < sizeof digits)
        line[written++] = digits[at++];
}

/* A number behind some text. */
static void put_with(const char *text, uint64_t n)
{
    put(text);
    put_number(n);
}

static void end_line(void)
{
    put("\n");
    fwrite(line, 1, written, stdout);
    written = 0;
}

static void put_refusal(struct dk_layout r)
{
    put_with("refused ", r.refusal);
    put_with(" ", r.place);
    if (r.refusal == DK_BANKS_OVERLAP || r.refusal == DK_OVERLAP || r.refusal == DK_OFF_PROFILE)
        put_with(" ", r.second);
    if (r.refusal > DK_MALFORMED && r.refusal != DK_OFF_PROFILE)
        put_with(" passes ", r.passes);
}

static void put_spans(uint64_t count)
{
    put(count == 0 ? "-" : "");
    for (uint64_t i = 0; i < count; i++) {
        put(i ? "," : "");
        put_with(addresses[i] < 0 ? "-" : "", addresses[i] < 0 ? -(uint64_t)addresses[i] : (uint64_t)addresses[i]);
        if (offsets[i] == DK_NO_OFFSET)
            put(":-");
        else
            put_with(":", offsets[i]);
        put_with(":", sizes[i]);
    }
}

static void put_blocks(uint64_t spans)
{
    struct dk_count r = dk_blocks(offsets, spans, sizes, spans, starts, SPANS, lengths, SPANS);
    if (r.refusal != DK_ACCEPTED) {
        put_with("blocks refused ", r.refusal);
        put_with(" ", r.place);
        return;
    }
    put(r.count == 0 ? "-" : "");
    for (uint64_t i = 0; i < r.count; i++) {
        put_with(i ? "," : "", starts[i]);
        put_with(":", lengths[i]);
    }
}

/* The digits go to the line itself. */
static void put_image(uint64_t bits)
{
    struct dk_count r = dk_hex(image, IMAGE, bits, (uint8_t *)line + written, 2 * IMAGE);
    if (r.refusal != DK_ACCEPTED) {
        put_with("hex refused ", r.refusal);
        put_with(" ", r.place);
    } else if (r.count == 0)
        put("-");
    else
        written += r.count;
}

/* What the caller chooses. */
static uint8_t fill;
static uint32_t page;
static int paged, padded, longer, structs;

#define OUTPUT image, IMAGE, addresses, SPANS, offsets, SPANS, sizes, SPANS

static struct dk_layout from_tables(size_t size)
{
    uint8_t limit = file[size - 1];
    return paged ? dk_build_paged(page, TABLES, limit, fill, form == 2, OUTPUT) : dk_build(TABLES, limit, fill, form == 2, OUTPUT);
}

/* The tables as structs. */
static struct dk_tables as_structs(size_t size)
{
    static struct dk_bank records[BANKS];
    struct dk_tables t = dk_no_tables();
    for (size_t i = 0; i < banks; i++) {
        struct dk_bank record = {bank_starts[i], bank_sizes[i], bank_offsets[i], aligns[i], units[i], flags[i], fill_bits[i]};
        records[i] = record;
    }
    t.banks = records;
    t.bank_count = banks;
    t.kinds = kinds;
    t.operands = operands;
    t.node_count = nodes;
    t.numbers = numbers;
    t.states = states;
    t.row_count = rows;
    t.values = file + values_at;
    t.values_len = values_size;
    t.limit = file[size - 1];
    t.fill = fill;
    t.closed = form == 2;
    return t;
}

static struct dk_layout from_structs(size_t size)
{
    struct dk_tables t = as_structs(size);
    struct dk_room room = {image, IMAGE, addresses, offsets, sizes, SPANS};
    return paged ? dk_build_tables_paged(page, &t, &room) : dk_build_tables(&t, &room);
}

static struct dk_layout from_file(size_t size)
{
    return paged ? dk_form_paged(file, size, fill, page, OUTPUT) : dk_form(file, size, fill, OUTPUT);
}

/* A number for each bank of the file, - for none. */
static void put_each(const char *name, const uint64_t *each)
{
    put(" | ");
    put(name);
    for (size_t i = 0; i < banks; i++) {
        put(i ? "," : " ");
        if (each[i] == DK_NO_PAGES)
            put("-");
        else
            put_number(each[i]);
    }
}

static void lay_out(size_t size, int tables)
{
    int sound = (tables || padded) && take_apart(file, size, longer);
    struct dk_layout r = tables && sound ? (structs ? from_structs(size) : from_tables(size)) : from_file(size);
    if (r.refusal != DK_ACCEPTED) {
        put_refusal(r);
        end_line();
        return;
    }
    put_with("ok ", r.k);
    put_with(" ", r.passes);
    put_with(" ", r.length);
    put(" ");
    put_image(r.length);
    put(" | spans ");
    put_spans(r.spans);
    put(" | blocks ");
    put_blocks(r.spans);
    if (padded) {
        uint64_t lost[DK_MAX_BANKS], lost_units[DK_MAX_BANKS];
        for (size_t i = 0; i < DK_MAX_BANKS; i++) {
            lost[i] = r.padding[i].bits;
            lost_units[i] = r.padding[i].units;
        }
        put_each("padding", lost);
        put_each("units", lost_units);
        struct dk_tables t = as_structs(size);
        if (paged)
            put_each("pages", (structs ? dk_profile_tables(page, &t) : dk_profile(page, TABLES, fill)).pages);
    }
    end_line();
}

/* The file in the other form, into so many bytes. */
static void convert(size_t size, int to, size_t room)
{
    static uint8_t out[DK_MAX_FILE];
    struct dk_count r = to == 2 ? dk_to_form2(file, size, out, room) : dk_to_form1(file, size, out, room);
    if (r.refusal != DK_ACCEPTED)
        printf("refused %" PRIu64 " %" PRIu64, r.refusal, r.place);
    else
        fputs("ok ", stdout);
    for (uint64_t i = 0; i < r.count; i++)
        printf("%02x", out[i]);
    putchar('\n');
}

static int print_span_lists(void)
{
    static char list[1 << 16];
    while (fgets(list, sizeof list, stdin)) {
        uint64_t n = 0;
        for (char *at = list; *at != '\n' && *at && n < SPANS; n++) {
            offsets[n] = *at == '-' ? DK_NO_OFFSET : strtoull(at, NULL, 10);
            at = strchr(at, ':') + 1;
            sizes[n] = strtoull(at, &at, 10);
            at += *at == ',';
        }
        put_blocks(n);
        end_line();
    }
    return 0;
}

int main(int argc, char **argv)
{
    int tables = 0, to = 0;
    size_t room = DK_MAX_FILE;
    for (int i = 1; i < argc; i++) {
        if (strcmp(argv[i], "--spans") == 0)
            return print_span_lists();
        structs |= strcmp(argv[i], "--structs") == 0;
        tables |= structs | (strcmp(argv[i], "--tables") == 0);
        padded |= strcmp(argv[i], "--padding") == 0;
        longer |= strcmp(argv[i], "--long") == 0;
        if (i + 1 < argc && strcmp(argv[i], "--fill") == 0)
            fill = (uint8_t)strtoul(argv[++i], NULL, 10);
        else if (i + 1 < argc && strcmp(argv[i], "--to") == 0)
            to = atoi(argv[++i]);
        else if (i + 1 < argc && strcmp(argv[i], "--room") == 0)
            room = strtoul(argv[++i], NULL, 10);
        else if (i + 1 < argc && strcmp(argv[i], "--page") == 0) {
            page = (uint32_t)strtoul(argv[++i], NULL, 10);
            paged = 1;
        }
    }
    uint8_t head[4];
    while (fread(head, 1, sizeof head, stdin) == sizeof head) {
        size_t size = (size_t)big(head, 4);
        if (size > FILE_MOST || fread(file, 1, size, stdin) != size) {
            fprintf(stderr, "batch: a file of %zu bytes is cut or too long\n", size);
            return 1;
        }
        if (to)
            convert(size, to, room < DK_MAX_FILE ? room : DK_MAX_FILE);
        else
            lay_out(size, tables);
    }
    return 0;
}
