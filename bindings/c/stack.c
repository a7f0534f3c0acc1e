/* How much stack each call takes, on its longest lists. On a thread of its own the stack below the caller is painted, the call is made, and
 * what it painted over is counted down from the caller's frame: every frame of the call, and the words that hand it its arguments. Prints a line
 * for each call, and ends with 1 where one needs as much as its limit, which is what include/denkumari.h says of it. */
#define _GNU_SOURCE
#include <pthread.h>
#include <stdint.h>
#include <stdio.h>
#include <stdlib.h>
#include <string.h>

#include "../../include/denkumari.h"

enum { STACK = 1 << 20, GAP = 128, PAINT = 0x5c, NODES = 4096, FILE_MOST = 65536, TEXT = 65536 };

static uint8_t stack[STACK] __attribute__((aligned(4096)));

/* What is lent: the longest lists. */
static uint8_t image[16384], hex[32768], values[1], flags[2], fill_bits[2], text[TEXT], kinds[NODES], states[NODES], file[FILE_MOST];
static int64_t starts[2], addresses[NODES];
static uint16_t units[2];
static uint32_t bank_sizes[2], bank_offsets[2], aligns[2], operands[NODES], numbers[NODES];
static uint64_t offsets[NODES], sizes[NODES], block_offsets[NODES], block_sizes[NODES], positions[512], extents[512], marks[512];
static size_t file_length;
static uint64_t refusal;

static void blocks(void)
{
    refusal = dk_blocks(offsets, NODES, sizes, NODES, block_offsets, NODES, block_sizes, NODES).refusal;
}

static void build(void)
{
    refusal = dk_build(units, 2, starts, 2, bank_sizes, 2, bank_offsets, 2, aligns, 2, flags, 2, fill_bits, 2, kinds, NODES, operands, NODES,
                       numbers, NODES, states, NODES, 1, values, sizeof values, 10, DK_FILL_FULL, 1, image, sizeof image, addresses, NODES,
                       offsets, NODES, sizes, NODES).refusal;
}

static uint64_t map_banks[NODES], map_outputs[NODES];
static uint32_t map_positions[NODES], map_sizes[NODES];

static void map(void)
{
    struct dk_mapped r = dk_map(units, 2, starts, 2, bank_sizes, 2, bank_offsets, 2, aligns, 2, flags, 2, fill_bits, 2, kinds, NODES, operands, NODES,
                             numbers, NODES, states, NODES, 1, values, sizeof values, 10, DK_FILL_FULL, 1, map_banks, map_positions, map_outputs, map_sizes);
    refusal = r.refusal + r.stopped;
}

static void build_paged(void)
{
    refusal = dk_build_paged(8, units, 2, starts, 2, bank_sizes, 2, bank_offsets, 2, aligns, 2, flags, 2, fill_bits, 2, kinds, NODES, operands, NODES,
                             numbers, NODES, states, NODES, 1, values, sizeof values, 10, DK_FILL_FULL, 1, image, sizeof image, addresses, NODES,
                             offsets, NODES, sizes, NODES).refusal;
}

static void profile(void)
{
    refusal = dk_profile(8, units, 2, starts, 2, bank_sizes, 2, bank_offsets, 2, aligns, 2, flags, 2, fill_bits, 2, kinds, NODES, operands, NODES,
                         numbers, NODES, states, NODES, 1, values, sizeof values, DK_FILL_FULL).refusal;
}

static void form_paged(void)
{
    refusal = dk_form_paged(file, file_length, DK_FILL_INHERITED, 8, image, sizeof image, addresses, NODES, offsets, NODES, sizes, NODES).refusal;
}

static uint64_t text_length;

static void write_hex(void)
{
    struct dk_count r = dk_write_hex(image, sizeof image, block_offsets, 1024, block_sizes, 1024, 0xfff8, text, sizeof text);
    refusal = r.refusal;
    text_length = r.count;
}

static void write_srec(void)
{
    struct dk_count r = dk_write_srec(image, sizeof image, block_offsets, 1024, block_sizes, 1024, 0xfff8, 4, text, sizeof text);
    refusal = r.refusal;
    text_length = r.count;
}

static uint8_t marked[1024];

static void read_hex(void)
{
    refusal = dk_read_records(DK_INTEL_HEX, text, text_length, 0xfff8, image, sizeof image, offsets, NODES, sizes, NODES, marked, sizeof marked).refusal;
}

static void read_srec(void)
{
    refusal = dk_read_records(DK_S_RECORDS, text, text_length, 0xfff8, image, sizeof image, offsets, NODES, sizes, NODES, marked, sizeof marked).refusal;
}

static void extent(void)
{
    refusal = dk_record_extent(DK_S_RECORDS, text, text_length, marked, sizeof marked).refusal;
}

static void fault(void)
{
    refusal = dk_record_fault(DK_S_RECORDS, text, text_length, 0xfff8, marked, sizeof marked).fault;
}

/* of a good file, of one that begins below the load address, and of one whose first line comes again; in the last two `refusal` is 0 where
 * the reason is that */
static void reason(void)
{
    refusal = dk_record_reason(DK_S_RECORDS, text, text_length, 0xfff8, marked, sizeof marked).reason;
}

static void reason_below(void)
{
    refusal = dk_record_reason(DK_S_RECORDS, text, text_length, 0xfff9, marked, sizeof marked).reason != DK_BELOW_LOAD;
}

static void reason_twice(void)
{
    static const uint8_t twice[] = "S1040000AA51\nS1040000AA51\nS9030000FC\n";
    refusal = dk_record_reason(DK_S_RECORDS, twice, sizeof twice - 1, 0, marked, sizeof marked).reason != DK_GIVEN_TWICE;
}

/* Records of a byte that jump, so that the scratch is used. */
static char jumps[2048];
static size_t jumps_length;

static void read_jumps(void)
{
    refusal = dk_read_records(DK_INTEL_HEX, (const uint8_t *)jumps, jumps_length, 0, image, sizeof image, offsets, NODES, sizes, NODES, marked,
                              sizeof marked).refusal;
}

static void extent_jumps(void)
{
    refusal = dk_record_extent(DK_INTEL_HEX, (const uint8_t *)jumps, jumps_length, marked, sizeof marked).refusal;
}

static void fault_jumps(void)
{
    refusal = dk_record_fault(DK_INTEL_HEX, (const uint8_t *)jumps, jumps_length, 0, marked, sizeof marked).fault;
}

static void reason_jumps(void)
{
    refusal = dk_record_reason(DK_INTEL_HEX, (const uint8_t *)jumps, jumps_length, 0, marked, sizeof marked).reason;
}

static uint8_t other[FILE_MOST];
static uint64_t other_length;

static void to_form1(void)
{
    struct dk_count r = dk_to_form1(file, file_length, other, sizeof other);
    refusal = r.refusal;
    other_length = r.count;
}

static void to_form2(void)
{
    refusal = dk_to_form2(other, other_length, file, sizeof file).refusal;
}

static void form(void)
{
    refusal = dk_form(file, file_length, DK_FILL_INHERITED, image, sizeof image, addresses, NODES, offsets, NODES, sizes, NODES).refusal;
}

static void digits(void)
{
    refusal = dk_hex(image, sizeof image, 8 * sizeof image - 3, hex, sizeof hex).refusal;
}

static void part(void)
{
    refusal = dk_part(image, sizeof image, 8, 16).refusal;
}

static void offer(void)
{
    refusal = dk_offer(positions, extents, 511, marks, 0, 2, 2).refusal;
}

/* Ahead of the store's 511 intervals, and a mark. */
static void offer_list(void)
{
    static const uint64_t at[] = {2, 0}, bits[] = {2, 0};
    refusal = dk_offers(positions, extents, 511, marks, 0, at, 2, bits, 2).refusal;
}

static void range(void)
{
    refusal = dk_overlay_range(image, sizeof image, image, sizeof image, block_offsets, NODES, block_sizes, NODES, 0, 1).refusal;
}

static void runs(void)
{
    refusal = dk_overlay_runs(image, sizeof image, values, sizeof values, block_offsets, NODES, block_sizes, NODES, offsets, NODES, sizes, NODES).refusal;
}

static uint8_t run_kinds[NODES];
static void verify(void)
{
    refusal = dk_verify(image, sizeof image, block_offsets, NODES, block_sizes, NODES, hex, sizeof hex, block_offsets, NODES, block_sizes, NODES,
                        offsets, NODES, sizes, NODES, run_kinds, NODES).refusal;
}

/* The call to be made, and how much it took. */
static void (*call)(void);
static size_t most;

/* Paints the stack up to the frame of this function but for GAP bytes, which hold the frame, and makes the call. */
static void *painted(void *unused)
{
    uint8_t *here = __builtin_frame_address(0);
    volatile uint8_t *low;
    for (low = stack; low < here - GAP; low++)
        *low = PAINT;
    call();
    for (low = stack; low < here - GAP && *low == PAINT; low++)
        ;
    most = (size_t)(here - low);
    return unused;
}

static void on_a_thread(void (*what)(void))
{
    pthread_attr_t attributes;
    pthread_t thread;
    call = what;
    if (pthread_attr_init(&attributes) || pthread_attr_setstack(&attributes, stack, sizeof stack)
        || pthread_create(&thread, &attributes, painted, NULL) || pthread_join(thread, NULL)) {
        puts("wrong: no thread");
        exit(1);
    }
    pthread_attr_destroy(&attributes);
}

/* 512 written items of a byte, labels for the rest: the store is full, and every list is used. The last item is stable, so that the last pass is walked. */
static void fill_tables(void)
{
    units[0] = units[1] = 8;
    flags[1] = DK_HAS_OFFSET | DK_HAS_SIZE | DK_FILL;
    bank_sizes[1] = 8192;
    fill_bits[1] = 1;
    kinds[0] = DK_SWITCH;
    operands[0] = 1;
    for (size_t i = 1; i < NODES; i++) {
        kinds[i] = i <= 512 ? DK_INSTRUCTION : DK_LABEL;
        operands[i] = i <= 512 ? 0 : 1;
        numbers[i] = i <= 512 ? 8 : 0;
    }
    states[512] = 1;
}

static void field(uint8_t tag, const uint8_t *bytes, size_t length)
{
    file[file_length++] = tag;
    file[file_length++] = (uint8_t)(length >> 8);
    file[file_length++] = (uint8_t)length;
    memcpy(file + file_length, bytes, length);
    file_length += length;
}

/* The same layout as a file of form 2. */
static void fill_file(void)
{
    static uint8_t row[5 * NODES];
    uint8_t two = 2, bank[24] = {0, 8}, node[5] = {0}, limit = 10;
    file_length = 0;
    field(16, &two, 1);
    field(17, bank, sizeof bank);
    bank[12] = 8192 >> 8;
    bank[22] = DK_HAS_OFFSET | DK_HAS_SIZE | DK_FILL;
    bank[23] = 1;
    field(17, bank, sizeof bank);
    for (size_t i = 0; i < NODES; i++) {
        node[0] = kinds[i];
        node[4] = (uint8_t)operands[i];
        field(2, node, sizeof node);
        row[5 * i + 3] = (uint8_t)numbers[i];
        row[5 * i + 4] = states[i];
    }
    field(3, row, sizeof row);
    field(4, values, sizeof values);
    field(5, &limit, 1);
}

/* 511 intervals of two bits, the first of them behind the bits that are offered. */
static void fill_store(void)
{
    for (size_t i = 0; i < 511; i++) {
        positions[i] = 4 + 2 * i;
        extents[i] = 2;
    }
}

/* Spans at offsets that neither rise nor fall, so that they are sorted. */
static void shuffle_spans(void)
{
    for (size_t i = 0; i < NODES; i++) {
        offsets[i] = 16 * (i * 2531 % NODES);
        sizes[i] = 8;
    }
}

/* As many blocks of an overlay, a byte each. */
static void fill_overlay(void)
{
    for (size_t i = 0; i < NODES; i++) {
        block_offsets[i] = 16 * i;
        block_sizes[i] = 8;
    }
}

static int measure(const char *name, void (*what)(void), size_t limit)
{
    int bad;
    on_a_thread(what);
    bad = refusal != 0 || most >= limit;
    printf("%s%s: %zu bytes of stack, below %zu%s\n", bad ? "wrong: " : "", name, most, limit, refusal ? ", refused" : "");
    return bad;
}

int main(void)
{
    int bad = 0;
    memset(values, 0xa5, sizeof values);
    shuffle_spans();
    bad |= measure("dk_blocks", blocks, 12 * 1024);
    fill_tables();
    bad |= measure("dk_build", build, 24 * 1024);
    bad |= measure("dk_map", map, 24 * 1024);
    fill_file();
    bad |= measure("dk_profile", profile, 8 * 1024);
    bad |= measure("dk_build_paged", build_paged, 28 * 1024);
    bad |= measure("dk_form", form, 136 * 1024);
    bad |= measure("dk_form_paged", form_paged, 136 * 1024);
    file[57] = 0;
    bad |= measure("dk_to_form1", to_form1, 1024);
    bad |= measure("dk_to_form2", to_form2, 1024);
    fill_store();
    bad |= measure("dk_offers", offer_list, 14 * 1024);
    fill_store();
    bad |= measure("dk_offer", offer, 1024);
    bad |= measure("dk_hex", digits, 1024);
    bad |= measure("dk_part", part, 1024);
    fill_overlay();
    bad |= measure("dk_overlay_range", range, 1024);
    bad |= measure("dk_overlay_runs", runs, 1024);
    bad |= measure("dk_verify", verify, 1024);
    bad |= measure("dk_write_hex", write_hex, 1024);
    bad |= measure("dk_read_records, Intel HEX", read_hex, 2048);
    bad |= measure("dk_write_srec", write_srec, 1024);
    bad |= measure("dk_read_records, S-records", read_srec, 2048);
    bad |= measure("dk_record_extent", extent, 2048);
    bad |= measure("dk_record_fault", fault, 1536);
    for (unsigned i = 0; i < 97; i++) {
        unsigned at = i * 41 % 97;
        jumps_length += (size_t)sprintf(jumps + jumps_length, ":0100%02X0041%02X\n", at, (0u - (1 + at + 65)) & 255);
    }
    jumps_length += (size_t)sprintf(jumps + jumps_length, ":00000001FF\n");
    bad |= measure("dk_read_records, jumps", read_jumps, 2048);
    bad |= measure("dk_record_extent, jumps", extent_jumps, 2048);
    bad |= measure("dk_record_fault, jumps", fault_jumps, 1536);
    bad |= measure("dk_record_reason, jumps", reason_jumps, 2048);
    bad |= measure("dk_record_reason", reason, 2048);
    bad |= measure("dk_record_reason, below", reason_below, 2048);
    bad |= measure("dk_record_reason, twice", reason_twice, 2048);
    return bad;
}
