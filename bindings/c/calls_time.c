/* One exported call, made again and again, to be counted or timed: calls_time CALL TIMES [FILE]. Prints a number that depends on what the call
 * gave, and ends with 1 where it was refused. CALL is NAME or NAME:ORDER of the list at the end. FILE is a layout for the calls about layouts; the calls about
 * records write to it what they made. memcmp, memcpy and memset are there for scale. With `once:` ahead of CALL the call is made one time, and what is made
 * again and again is there for scale too: every word that it must read is read once and every word that it must write is written once, eight bytes a step.
 * bindings/benchmark.py runs it once with one call and once with many: the difference is the calls'. */
#include <inttypes.h>
#include <stdio.h>
#include <stdlib.h>
#include <string.h>

#include "../../include/denkumari.h"
#include "tables.h"

enum { IMAGE = 16384, SPANS = 4096, OFFERS = 512, BENCH = 1 << 20, RUNS = 256, LOADED = 65536, TEXT = 4 * LOADED, PAGE = 8192 };

static uint8_t file[TABLES_MOST], other[TABLES_MOST];
static size_t file_length;
static uint8_t image[IMAGE], hex[2 * IMAGE];
static int64_t addresses[SPANS];
static uint64_t offsets[SPANS], sizes[SPANS], block_offsets[SPANS], block_sizes[SPANS];

/* What the last call said: its refusal, and a number for the rest. */
static uint64_t refusal, told;

/* How many spans the last layout has. */
static uint64_t spans;

#define OUTPUT image, IMAGE, addresses, SPANS, offsets, SPANS, sizes, SPANS

static void laid(struct dk_layout r)
{
    refusal = r.refusal;
    spans = r.spans;
    told = r.length + spans;
}

static void counted(struct dk_count r)
{
    refusal = r.refusal;
    told = r.count;
}

static uint8_t limit(void)
{
    return file[file_length - 1];
}

static void build(void)
{
    laid(dk_build(TABLES, limit(), DK_FILL_INHERITED, form == 2, OUTPUT));
}

static void build_paged(void)
{
    laid(dk_build_paged(PAGE, TABLES, limit(), DK_FILL_INHERITED, form == 2, OUTPUT));
}

static void profile(void)
{
    struct dk_profile r = dk_profile(PAGE, TABLES, DK_FILL_INHERITED);
    refusal = r.refusal;
    told = r.pages[1];
}

static uint64_t banks_of[DK_MAX_NODES], outputs[DK_MAX_NODES];
static uint32_t positions[DK_MAX_NODES], extents[DK_MAX_NODES];

static void mapped(void)
{
    struct dk_mapped r = dk_map(TABLES, limit(), DK_FILL_INHERITED, form == 2, banks_of, positions, outputs, extents);
    refusal = r.refusal;
    told = r.nodes;
}

static void laid_file(void)
{
    laid(dk_form(file, file_length, DK_FILL_INHERITED, OUTPUT));
}

static void laid_file_paged(void)
{
    laid(dk_form_paged(file, file_length, DK_FILL_INHERITED, PAGE, OUTPUT));
}

static void to_form1(void)
{
    counted(dk_to_form1(file, file_length, other, DK_MAX_FILE));
}

static void to_form2(void)
{
    counted(dk_to_form2(file, file_length, other, DK_MAX_FILE));
}

/* Numbers in another order, the same as in calls_time.rs. */
static void shuffle(uint64_t *list, size_t count)
{
    uint64_t seed = 88172645463325252u;
    for (size_t i = count - 1; i > 0; i--) {
        seed ^= seed << 13;
        seed ^= seed >> 7;
        seed ^= seed << 17;
        size_t j = seed % (i + 1);
        uint64_t swapped = list[i];
        list[i] = list[j];
        list[j] = swapped;
    }
}

/* Places 16 bits apart: rising, falling, shuffled, or all one. */
static void place(const char *order, uint64_t *list, size_t count)
{
    for (size_t i = 0; i < count; i++)
        list[i] = strcmp(order, "one") == 0 ? 64 : 16 * (strcmp(order, "falling") == 0 ? count - 1 - i : i);
    if (strcmp(order, "shuffled") == 0)
        shuffle(list, count);
}

static void make_spans(const char *order)
{
    place(order, offsets, SPANS);
    for (size_t i = 0; i < SPANS; i++)
        sizes[i] = 8;
}

static void blocks(void)
{
    counted(dk_blocks(offsets, SPANS, sizes, SPANS, block_offsets, SPANS, block_sizes, SPANS));
}

static void make_image(const char *order)
{
    (void)order;
    for (size_t i = 0; i < IMAGE; i++)
        image[i] = (uint8_t)(i % 251);
}

static void digits(void)
{
    struct dk_count r = dk_hex(image, IMAGE, 8 * IMAGE, hex, sizeof hex);
    refusal = r.refusal;
    told = r.count + hex[r.count / 3];
}

static void part(void)
{
    struct dk_part r = dk_part(image, IMAGE, 8 * 512, 8 * 1024);
    refusal = r.refusal;
    told = r.start + r.length;
}

/* A store, filled from empty by 512 calls. */
static uint64_t offered[OFFERS];

static void make_offers(const char *order)
{
    place(order, offered, OFFERS);
}

static void offer(void)
{
    uint64_t positions[OFFERS], extents[OFFERS], marks[OFFERS], count = 0;
    for (size_t i = 0; i < OFFERS; i++) {
        struct dk_offer r = dk_offer(positions, extents, count, marks, 0, offered[i], 8);
        refusal |= r.refusal;
        count = r.count;
    }
    told = count;
}

/* The same by one call. */
static uint64_t eights[OFFERS];

static void make_lists(const char *order)
{
    make_offers(order);
    for (size_t i = 0; i < OFFERS; i++)
        eights[i] = 8;
}

static void offer_all(void)
{
    uint64_t positions[OFFERS], extents[OFFERS], marks[OFFERS];
    struct dk_offered r = dk_offers(positions, extents, 0, marks, 0, offered, OFFERS, eights, OFFERS);
    refusal = r.refusal;
    told = r.count;
}

/* On the bench: 1 MiB, 256 blocks of 4 KiB, or of a sixteenth of it, and bytes that differ: the last, or every 4,096th. */
static uint8_t trial[BENCH], issued[BENCH], copy[BENCH];
static uint64_t firsts[BENCH], counts[BENCH];
static uint8_t unlike[BENCH];

static void make_overlay(const char *order)
{
    uint64_t every = strcmp(order, "last") == 0 ? BENCH : 4096;
    for (uint64_t i = 0; i < BENCH; i++) {
        issued[i] = copy[i] = (uint8_t)(i % 251);
        trial[i] = (uint8_t)(issued[i] ^ ((i + 1) % every == 0));
    }
    for (uint64_t i = 0; i < RUNS; i++) {
        block_offsets[i] = i * (BENCH / RUNS) * 8;
        block_sizes[i] = BENCH / RUNS * (strcmp(order, "sixteenth") == 0 ? 1 : 16) / 2;
    }
}

static void runs(void)
{
    counted(dk_overlay_runs(trial, BENCH, issued, BENCH, block_offsets, RUNS, block_sizes, RUNS, firsts, BENCH, counts, BENCH));
}

/* The image held against what was read back, in the same blocks. */
static void verify(void)
{
    counted(dk_verify(issued, BENCH, block_offsets, RUNS, block_sizes, RUNS, trial, BENCH, block_offsets, RUNS, block_sizes, RUNS, firsts, BENCH, counts, BENCH,
                      unlike, BENCH));
}

static void range(void)
{
    struct dk_overlay r = dk_overlay_range(trial, BENCH, issued, BENCH, block_offsets, RUNS, block_sizes, RUNS, BENCH / 2, 64);
    refusal = r.refusal;
    told = r.image;
}

/* Records of 64 KiB from address 0 on. */
static uint8_t loaded[LOADED], fetched[LOADED], text[TEXT];
static size_t text_length;

static void write_hex(void)
{
    uint64_t first = 0, bits = 8 * LOADED;
    counted(dk_write_hex(loaded, LOADED, &first, 1, &bits, 1, 0, text, TEXT));
}

static void write_srec(void)
{
    uint64_t first = 0, bits = 8 * LOADED;
    counted(dk_write_srec(loaded, LOADED, &first, 1, &bits, 1, 0, 4, text, TEXT));
}

static void make_text(const char *order)
{
    for (size_t i = 0; i < LOADED; i++)
        loaded[i] = (uint8_t)(i % 251);
    if (strcmp(order, "hex") == 0)
        write_hex();
    else
        write_srec();
    text_length = told;
}

/* a mark for each byte, as a caller lends who does not know in which order the records stand */
static uint8_t marked[LOADED / 8];

static void read_hex(void)
{
    counted(dk_read_records(DK_INTEL_HEX, text, text_length, 0, fetched, LOADED, offsets, SPANS, sizes, SPANS, marked, sizeof marked));
}

static void read_srec(void)
{
    counted(dk_read_records(DK_S_RECORDS, text, text_length, 0, fetched, LOADED, offsets, SPANS, sizes, SPANS, marked, sizeof marked));
}

static void extent_hex(void)
{
    refusal = dk_record_extent(DK_INTEL_HEX, text, text_length, marked, sizeof marked).refusal;
}

static void extent_srec(void)
{
    refusal = dk_record_extent(DK_S_RECORDS, text, text_length, marked, sizeof marked).refusal;
}

static void fault_hex(void)
{
    refusal = dk_record_fault(DK_INTEL_HEX, text, text_length, 0, marked, sizeof marked).fault;
}

static void fault_srec(void)
{
    refusal = dk_record_fault(DK_S_RECORDS, text, text_length, 0, marked, sizeof marked).fault;
}

/* The file's end record is missing: the whole of it is gone through. */
static void reason_hex(void)
{
    told = dk_record_reason(DK_INTEL_HEX, text, text_length - 12, 0, marked, sizeof marked).reason;
}

static void reason_srec(void)
{
    told = dk_record_reason(DK_S_RECORDS, text, text_length - 15, 0, marked, sizeof marked).reason;
}

/* What the compiler must not leave out. */
static void used(void *bytes)
{
    __asm__ volatile("" : : "r"(bytes) : "memory");
}

static void compare_bytes(void)
{
    used(copy);
    told = memcmp(copy, issued, BENCH) == 0;
}

static void copy_file(void)
{
    memcpy(other, file, file_length);
    used(other);
}

static void set_image(void)
{
    memset(image, 0xff, IMAGE);
    used(image);
}

/* What `once` goes over, each by words of eight bytes, the last of a list whole. */
static void reads(const void *from, size_t bytes)
{
    uint64_t sum = 0, word;
    for (size_t i = 0; i < (bytes + 7) / 8; i++) {
        memcpy(&word, (const uint8_t *)from + 8 * i, 8);
        sum += word;
    }
    told += sum;
}

static void writes(void *to, size_t bytes)
{
    for (size_t i = 0; i < (bytes + 7) / 8; i++)
        memcpy((uint8_t *)to + 8 * i, &told, 8);
    used(to);
}

static void reads_tables(void)
{
    reads(kinds, nodes);
    reads(operands, 4 * nodes);
    reads(numbers, 4 * rows * nodes);
    reads(states, rows * nodes);
    reads(file + values_at, values_size);
}

static void writes_layout(void)
{
    writes(image, IMAGE);
    writes(addresses, 8 * spans);
    writes(offsets, 8 * spans);
    writes(sizes, 8 * spans);
}

static void once_build(void)
{
    reads_tables();
    writes_layout();
}

static void once_form(void)
{
    reads(file, file_length);
    writes_layout();
}

static void once_map(void)
{
    reads_tables();
    writes(banks_of, 8 * nodes);
    writes(outputs, 8 * nodes);
    writes(positions, 4 * nodes);
    writes(extents, 4 * nodes);
}

static void once_convert(void)
{
    reads(file, file_length);
    writes(other, file_length);
}

static void once_blocks(void)
{
    reads(offsets, 8 * SPANS);
    reads(sizes, 8 * SPANS);
    writes(block_offsets, 8 * SPANS);
    writes(block_sizes, 8 * SPANS);
}

static void once_hex(void)
{
    reads(image, IMAGE);
    writes(hex, sizeof hex);
}

/* The covered bytes of both images. */
static void once_runs(void)
{
    reads(trial, block_sizes[0] / 8 * RUNS);
    reads(issued, block_sizes[0] / 8 * RUNS);
}

static void once_blocks_of_overlay(void)
{
    reads(block_offsets, 8 * RUNS);
    reads(block_sizes, 8 * RUNS);
}

static void once_write(void)
{
    reads(loaded, LOADED);
    writes(text, text_length);
}

static void once_read(void)
{
    reads(text, text_length);
    writes(fetched, LOADED);
}

static void once_fault(void)
{
    reads(text, text_length);
}

static const struct { const char *name, *order; void (*make)(const char *); void (*call)(void); void (*once)(void); } calls[] = {
    {"dk_build", "", NULL, build, once_build}, {"dk_form", "", NULL, laid_file, once_form}, {"dk_build_paged", "", NULL, build_paged, once_build},
    {"dk_form_paged", "", NULL, laid_file_paged, once_form}, {"dk_profile", "", NULL, profile, reads_tables},
    {"dk_to_form1", "", NULL, to_form1, once_convert}, {"dk_to_form2", "", NULL, to_form2, once_convert},
    {"dk_blocks", "rising", make_spans, blocks, once_blocks}, {"dk_blocks", "falling", make_spans, blocks, once_blocks},
    {"dk_blocks", "shuffled", make_spans, blocks, once_blocks}, {"dk_blocks", "one", make_spans, blocks, once_blocks},
    {"dk_hex", "", make_image, digits, once_hex}, {"dk_part", "", NULL, part, NULL},
    {"dk_offer", "rising", make_offers, offer, NULL}, {"dk_offer", "falling", make_offers, offer, NULL},
    {"dk_offer", "shuffled", make_offers, offer, NULL}, {"dk_offers", "rising", make_lists, offer_all, NULL},
    {"dk_offers", "falling", make_lists, offer_all, NULL}, {"dk_offers", "shuffled", make_lists, offer_all, NULL},
    {"dk_overlay_range", "last", make_overlay, range, once_blocks_of_overlay},
    {"dk_overlay_runs", "last", make_overlay, runs, once_runs}, {"dk_overlay_runs", "every", make_overlay, runs, once_runs},
    {"dk_overlay_runs", "sixteenth", make_overlay, runs, once_runs}, {"dk_verify", "last", make_overlay, verify, once_runs},
    {"dk_write_hex", "hex", make_text, write_hex, once_write}, {"dk_write_srec", "srec", make_text, write_srec, once_write},
    {"dk_read_records", "hex", make_text, read_hex, once_read}, {"dk_read_records", "srec", make_text, read_srec, once_read},
    {"dk_record_extent", "hex", make_text, extent_hex, once_fault}, {"dk_record_extent", "srec", make_text, extent_srec, once_fault},
    {"dk_record_fault", "hex", make_text, fault_hex, once_fault}, {"dk_record_fault", "srec", make_text, fault_srec, once_fault},
    {"dk_map", "", NULL, mapped, once_map}, {"dk_record_reason", "hex", make_text, reason_hex, once_fault},
    {"dk_record_reason", "srec", make_text, reason_srec, once_fault}, {"memcmp", "last", make_overlay, compare_bytes, NULL},
    {"memcpy", "", NULL, copy_file, NULL}, {"memset", "", NULL, set_image, NULL}};

static int is_about_records(size_t asked)
{
    return calls[asked].make == make_text;
}

/* The text that was written, or the bytes that were read. */
static int keep(size_t asked, const char *name)
{
    int reads = calls[asked].call == read_hex || calls[asked].call == read_srec;
    size_t length = reads ? LOADED : text_length;
    FILE *kept = fopen(name, "wb");
    return !kept || fwrite(reads ? fetched : text, 1, length, kept) != length || fclose(kept) != 0;
}

/* Takes a layout file apart. */
static int take(const char *name)
{
    FILE *given = fopen(name, "rb");
    if (!given)
        return 0;
    file_length = fread(file, 1, sizeof file, given);
    fclose(given);
    return take_apart(file, file_length, 1);
}


static size_t find(const char *asked)
{
    for (size_t i = 0; i < sizeof calls / sizeof *calls; i++) {
        size_t length = strlen(calls[i].name);
        if (strncmp(asked, calls[i].name, length) == 0
            && (asked[length] == 0 || (asked[length] == ':' && strcmp(asked + length + 1, calls[i].order) == 0)))
            return i;
    }
    fprintf(stderr, "calls_time: no call %s\n", asked);
    exit(2);
}

int main(int argc, char **argv)
{
    if (argc < 3)
        return 2;
    int once = strncmp(argv[1], "once:", 5) == 0;
    size_t asked = find(argv[1] + (once ? 5 : 0));
    if (argc > 3 && !is_about_records(asked) && !take(argv[3]))
        return 2;
    if (calls[asked].make)
        calls[asked].make(calls[asked].order);
    void (*made)(void) = calls[asked].call;
    if (once) {
        made();
        made = calls[asked].once;
        if (!made || refusal != 0)
            return 2;
    }
    for (long times = atol(argv[2]); times > 0; times--)
        made();
    if (calls[asked].call == blocks)
        for (size_t i = 0; i < SPANS; i++)
            told += block_offsets[i] * (i + 1);
    if (argc > 3 && is_about_records(asked) && keep(asked, argv[3]))
        return 2;
    printf("%" PRIu64 "\n", told);
    return refusal != 0;
}
