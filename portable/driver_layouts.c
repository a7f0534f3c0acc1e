/* Layouts for the driver: tables that are mostly good, twisted towards each refusal, lent as tables and as files of both forms, and converted. */
#include "driver.h"

enum { BANKS = 18, NODES = 4100, CELLS = 8200, VALUES = 12300, FILE_ROOM = 70000, IMAGE = 2600 };

/* A layout before it is lent. */
static struct {
    size_t banks, nodes, given_rows, values_count;
    uint64_t rows;
    uint16_t units[BANKS];
    int64_t starts[BANKS];
    uint32_t sizes[BANKS], offsets[BANKS], aligns[BANKS];
    uint8_t flags[BANKS], fill_bits[BANKS];
    uint8_t kinds[NODES], states[CELLS], values[VALUES];
    uint32_t operands[NODES], numbers[CELLS];
    uint8_t limit, fill, closed;
    uint32_t page, grain; /* sizes of a neat layout are multiples of `grain`, which is 0 in others */
} d;

/* What is lent, and the answers. */
static struct {
    const uint16_t *units;
    const int64_t *starts;
    const uint32_t *sizes, *offsets, *aligns, *operands, *numbers;
    const uint8_t *flags, *fill_bits, *kinds, *states, *values, *file;
    size_t counts[11], values_count, file_count, image_count, addresses_count, offsets_count, sizes_count, out_count;
    uint8_t *image, *out;
    int64_t *addresses;
    uint64_t *span_offsets, *span_sizes, *map_banks, *map_outputs;
    uint32_t *map_positions, *map_sizes;
} l;
static struct dk_layout layout;
static struct dk_profile profile;
static struct dk_mapped mapped;
static struct dk_count converted;

#define FIELDS(answer) (const uint64_t *)(const void *)&(answer), sizeof(answer) / 8
#define TABLES l.units, l.counts[0], l.starts, l.counts[1], l.sizes, l.counts[2], l.offsets, l.counts[3], l.aligns, l.counts[4], l.flags, l.counts[5], \
    l.fill_bits, l.counts[6], l.kinds, l.counts[7], l.operands, l.counts[8], l.numbers, l.counts[9], l.states, l.counts[10], d.rows, l.values, l.values_count
#define SPANS l.image, l.image_count, l.addresses, l.addresses_count, l.span_offsets, l.offsets_count, l.span_sizes, l.sizes_count

static void make_build(void) { layout = dk_build(TABLES, d.limit, d.fill, d.closed, SPANS); }
static void make_paged(void) { layout = dk_build_paged(d.page, TABLES, d.limit, d.fill, d.closed, SPANS); }
static void make_profile(void) { profile = dk_profile(d.page, TABLES, d.fill); }
static void make_map(void) { mapped = dk_map(TABLES, d.limit, d.fill, d.closed, l.map_banks, l.map_positions, l.map_outputs, l.map_sizes); }
static void make_form(void) { layout = dk_form(l.file, l.file_count, d.fill, SPANS); }
static void make_form_paged(void) { layout = dk_form_paged(l.file, l.file_count, d.fill, d.page, SPANS); }
static void make_to_form1(void) { converted = dk_to_form1(l.file, l.file_count, l.out, l.out_count); }
static void make_to_form2(void) { converted = dk_to_form2(l.file, l.file_count, l.out, l.out_count); }

/* ---- a good layout ---- */

static uint32_t drawn_size(void)
{
    if (d.grain != 0)
        return d.grain * (uint32_t)below(4);
    return (uint32_t)(one_in(3) ? below(20) : 8 * below(4));
}

/* Banks side by side in the output, with a gap here and there; bank 0 has nothing where there are others. */
static void draw_banks(void)
{
    size_t i;
    uint32_t at = 0;
    d.banks = one_in(8) ? 1 + (size_t)below(16) : 1 + (size_t)below(4);
    for (i = 0; i < d.banks; i++) {
        uint32_t size = d.grain != 0 ? d.page * (uint32_t)(1 + below(6)) : (uint32_t)(8 + below(500));
        d.units[i] = (uint16_t)(d.grain != 0 ? 8u << below(2) : one_in(2) ? 1 + below(12) : 8u << below(3));
        d.starts[i] = (int64_t)below(140) - 60;
        d.sizes[i] = size;
        d.offsets[i] = at;
        d.aligns[i] = (uint32_t)(d.grain != 0 ? 8u << below(3) : below(24));
        d.flags[i] = (uint8_t)(DK_HAS_SIZE | DK_HAS_OFFSET | (one_in(2) ? DK_FILL : 0));
        d.flags[i] |= (uint8_t)(one_in(4) ? DK_HAS_ALIGN : 0);
        d.fill_bits[i] = (uint8_t)(i != 0 && one_in(2));
        if (i == 0 && d.banks > 1)
            d.flags[0] = 0;
        else
            at += size + (one_in(4) ? (d.grain != 0 ? d.page : (uint32_t)below(30)) : 0);
        if (i + 1 == d.banks && one_in(d.grain != 0 ? 40 : 6))
            d.flags[i] = DK_HAS_OFFSET;
        if (one_in(30))
            d.flags[i] &= (uint8_t)~DK_HAS_OFFSET;
    }
}

static void draw_node(size_t i)
{
    static const uint8_t usual[] = {1, 2, 2, 3, 4, 4, 5, 5, 6, 6, 7, 8, 9, 10, 0, 4};
    uint8_t kind = usual[below(sizeof usual)];
    uint32_t number = 0, operand = (uint32_t)below(3);
    if (i == 0 && d.banks > 1 && !one_in(30))
        kind = DK_SWITCH;
    if (kind == DK_SWITCH)
        operand = (uint32_t)(d.banks == 1 ? 0 : 1 + below(d.banks - 1));
    if (kind >= DK_INSTRUCTION && kind <= DK_RESERVE)
        number = drawn_size();
    if (kind >= DK_INSTRUCTION && kind <= DK_OPEN_DATA)
        operand = (uint32_t)below(8 * d.values_count + 1 - (8 * d.values_count > number ? number : 8 * d.values_count));
    if (kind == DK_ALIGN)
        number = (uint32_t)(d.grain != 0 ? 8u << below(4) : below(40));
    if (kind == DK_ADDR && one_in(2))
        number = (uint32_t)(d.grain != 0 ? 16 * below(20) : below(200));
    else if (kind == DK_ADDR)
        kind = DK_NOTHING;
    d.kinds[i] = kind;
    d.operands[i] = operand;
    d.numbers[i] = number;
}

/* Rows after the first mostly repeat it; guesses stand in the rows before the last. */
static void draw_rows(void)
{
    size_t r, i, often = d.nodes < 400 ? 1 : 400;
    for (r = 0; r < d.given_rows; r++)
        for (i = 0; i < d.nodes; i++) {
            size_t at = r * d.nodes + i;
            if (r > 0)
                d.numbers[at] = d.kinds[i] == DK_INSTRUCTION && one_in(8) ? drawn_size() : d.numbers[at - d.nodes];
            d.states[at] = (uint8_t)(one_in(often * (r + 1 < d.given_rows ? 12 : 60)) ? below(3) : 0);
        }
}

/* Over 512 items or marks of one bit each, so that the store is full. */
static void draw_many(void)
{
    size_t i, mark = (size_t)below(2);
    d.page = 1024;
    d.banks = 2;
    d.units[0] = d.units[1] = 8;
    d.flags[1] = DK_HAS_OFFSET | DK_HAS_SIZE;
    d.offsets[1] = d.sizes[1] = d.page;
    d.nodes = 508 + (size_t)below(12);
    d.given_rows = 1;
    for (i = 0; i < d.nodes; i++) {
        d.kinds[i] = i == 0 ? DK_SWITCH : mark ? DK_RESERVE : DK_DATA;
        d.operands[i] = i == 0;
        d.numbers[i] = mark ? 0 : 1;
    }
}

static void draw_layout(void)
{
    size_t i;
    d.page = 8u << below(6);
    d.grain = one_in(3) ? 0 : one_in(8) ? 8 : 16;
    d.values_count = (size_t)below(40);
    for (i = 0; i < d.values_count; i++)
        d.values[i] = (uint8_t)drawn();
    d.nodes = (size_t)below(one_in(6) ? 90 : 14);
    d.given_rows = 1 + (size_t)below(3);
    draw_banks();
    for (i = 0; i < d.nodes; i++)
        draw_node(i);
    if (one_in(40)) {
        d.values_count = 8;
        draw_many();
    }
    d.rows = d.given_rows;
    draw_rows();
    d.limit = (uint8_t)(one_in(4) ? below(3) : below(12));
    d.fill = (uint8_t)below(2);
    d.closed = (uint8_t)(one_in(3) ? drawn() : 0);
}

/* ---- twists ---- */

static void twist_bank(size_t i)
{
    switch (below(9)) {
    case 0: d.units[i] = (uint16_t)(one_in(2) ? 0 : edge()); break;
    case 1: d.starts[i] = (int64_t)edge(); break;
    case 2: d.sizes[i] = (uint32_t)(one_in(2) ? 0 : edge()); break;
    case 3: d.offsets[i] = (uint32_t)(one_in(2) ? d.offsets[i] / 2 : edge()); break;
    case 4: d.aligns[i] = (uint32_t)edge(); d.flags[i] |= DK_HAS_ALIGN; break;
    case 5: d.flags[i] = (uint8_t)(one_in(2) ? drawn() : below(16)); break;
    case 6: d.fill_bits[i] = (uint8_t)below(3); break;
    case 7: d.sizes[i] = (uint32_t)below(40); break;
    default: d.starts[i] = -(int64_t)(edge() >> 1); break;
    }
}

static void twist_node(size_t i)
{
    size_t at = i + d.nodes * (size_t)below(d.given_rows);
    switch (below(7)) {
    case 0: d.kinds[i] = (uint8_t)(one_in(2) ? drawn() : below(12)); break;
    case 1: d.operands[i] = (uint32_t)edge(); break;
    case 2: d.numbers[at] = (uint32_t)edge(); break;
    case 3: d.states[at] = (uint8_t)(one_in(2) ? 2 : below(4)); break;
    case 4: d.kinds[i] = DK_RESERVE; d.numbers[at] = UINT32_MAX - (uint32_t)below(2); break;
    case 5: d.kinds[i] = DK_ADDR; d.numbers[at] = (uint32_t)below(60); break;
    default: d.kinds[i] = DK_SWITCH; d.operands[i] = (uint32_t)below(d.banks + 1); break;
    }
}

static void twist(void)
{
    size_t r;
    switch (below(12)) {
    case 0: d.banks = one_in(2) ? 0 : 17; break;
    case 1: d.rows = edge(); break;
    case 2: d.fill = (uint8_t)below(4); break;
    case 3: d.page = (uint32_t)(one_in(2) ? below(100) : edge()); break;
    case 4: d.values_count = (size_t)below(d.values_count + 1); break;
    case 5:
        for (r = 0; r < d.given_rows && d.nodes > 0; r++)
            d.states[r * d.nodes + d.nodes - 1] = 2;
        break;
    case 6: case 7: case 8:
        if (d.banks > 0)
            twist_bank((size_t)below(d.banks));
        break;
    default:
        if (d.nodes > 0)
            twist_node((size_t)below(d.nodes));
    }
}

static void draw_twisted(void)
{
    draw_layout();
    if (one_in(2))
        twist();
    if (one_in(8))
        twist();
}

/* ---- tables ---- */

static size_t list_count(size_t count, size_t shorter)
{
    return shorter && count > 0 ? count - 1 : count;
}

static void lend_tables(void)
{
    size_t i, odd = one_in(30) ? (size_t)below(11) : 11, cells = d.given_rows * d.nodes;
    for (i = 0; i < 11; i++)
        l.counts[i] = list_count(i < 7 ? d.banks : i < 9 ? d.nodes : cells, i == odd);
    if (one_in(400)) /* more nodes than there may be: what the rows hold is not looked at */
        l.counts[7] = l.counts[8] = 4095 + (size_t)below(4);
    l.units = (const uint16_t *)lend_copy(d.units, l.counts[0], 2);
    l.starts = (const int64_t *)lend_copy(d.starts, l.counts[1], 8);
    l.sizes = (const uint32_t *)lend_copy(d.sizes, l.counts[2], 4);
    l.offsets = (const uint32_t *)lend_copy(d.offsets, l.counts[3], 4);
    l.aligns = (const uint32_t *)lend_copy(d.aligns, l.counts[4], 4);
    l.flags = (const uint8_t *)lend_copy(d.flags, l.counts[5], 1);
    l.fill_bits = (const uint8_t *)lend_copy(d.fill_bits, l.counts[6], 1);
    l.kinds = (const uint8_t *)lend_copy(d.kinds, l.counts[7], 1);
    l.operands = (const uint32_t *)lend_copy(d.operands, l.counts[8], 4);
    l.numbers = (const uint32_t *)lend_copy(d.numbers, l.counts[9], 4);
    l.states = (const uint8_t *)lend_copy(d.states, l.counts[10], 1);
    l.values_count = d.values_count;
    l.values = (const uint8_t *)lend_copy(d.values, d.values_count, 1);
}

static void lend_spans(void)
{
    size_t spans = one_in(12) ? (size_t)below(d.nodes + 1) : d.nodes + (size_t)below(3);
    l.image_count = one_in(12) ? (size_t)below(60) : IMAGE;
    l.addresses_count = spans;
    l.offsets_count = one_in(30) ? (size_t)below(spans + 1) : spans;
    l.sizes_count = spans + (size_t)below(2);
    l.image = (uint8_t *)lend(l.image_count, 1);
    l.addresses = (int64_t *)lend(l.addresses_count, 8);
    l.span_offsets = (uint64_t *)lend(l.offsets_count, 8);
    l.span_sizes = (uint64_t *)lend(l.sizes_count, 8);
}

static void count_layout(void)
{
    if (layout.refusal == DK_OFF_PROFILE)
        counted(RULES, layout.place);
    if (layout.refusal == DK_TOO_SHORT)
        counted(SHORT_PLACES, layout.place);
}

void round_of_tables(void)
{
    draw_twisted();
    lend_tables();
    called(PROFILE, make_profile, FIELDS(profile));
    if (one_in(6)) {
        l.map_banks = (uint64_t *)lend(DK_MAX_NODES, 8);
        l.map_positions = (uint32_t *)lend(DK_MAX_NODES, 4);
        l.map_outputs = (uint64_t *)lend(DK_MAX_NODES, 8);
        l.map_sizes = (uint32_t *)lend(DK_MAX_NODES, 4);
        called(MAP, make_map, FIELDS(mapped));
        counted(STOPPED, mapped.stopped);
        return;
    }
    lend_spans();
    if (one_in(2))
        called(BUILD, make_build, FIELDS(layout));
    else
        called(BUILD_PAGED, make_paged, FIELDS(layout));
    count_layout();
}

/* ---- files ---- */

static uint8_t file[FILE_ROOM];
static size_t file_length;

static void put_number(uint64_t number, unsigned bytes)
{
    while (bytes-- > 0)
        file[file_length++] = (uint8_t)(number >> 8 * bytes);
}

static void put_head(uint8_t tag, size_t length)
{
    put_number(tag, 1);
    put_number(length, 2);
}

static void put_bank(size_t i, unsigned form)
{
    put_head(form == 2 ? 17 : 1, form == 2 ? 24 : 23);
    put_number(d.units[i], 2);
    put_number((uint64_t)d.starts[i], 8);
    put_number(d.sizes[i], 4);
    put_number(d.offsets[i], 4);
    put_number(d.aligns[i], 4);
    put_number(d.flags[i], 1);
    if (form == 2)
        put_number(d.fill_bits[i], 1);
}

static void put_rows(void)
{
    size_t r, i;
    for (r = 0; r < d.given_rows; r++) {
        put_head(3, 5 * d.nodes);
        for (i = 0; i < d.nodes; i++) {
            put_number(d.numbers[r * d.nodes + i], 4);
            put_number(d.states[r * d.nodes + i], 1);
        }
    }
}

static void put_file(unsigned form)
{
    size_t i;
    file_length = 0;
    if (form == 2) {
        put_head(16, 1);
        put_number(2, 1);
    }
    for (i = 0; i < d.banks; i++)
        put_bank(i, form);
    for (i = 0; i < d.nodes; i++) {
        put_head(2, 5);
        put_number(d.kinds[i], 1);
        put_number(d.operands[i], 4);
    }
    put_rows();
    put_head(4, d.values_count);
    for (i = 0; i < d.values_count; i++)
        put_number(d.values[i], 1);
    put_head(5, 1);
    put_number(d.limit, 1);
}

static void damage_file(void)
{
    size_t turns, at;
    switch (below(4)) {
    case 0: file_length = (size_t)below(file_length + 1); break;
    case 1: put_number(0, 1 + (unsigned)below(3)); break;
    default:
        for (turns = 1 + (size_t)below(3); turns > 0; turns--) {
            at = (size_t)below(file_length);
            file[at] = (uint8_t)(one_in(2) ? below(18) : drawn());
        }
    }
}

/* A file with about as many nodes as there may be, and about as many bytes as form 1 or form 2 may have. */
static void draw_long(void)
{
    size_t i;
    d.nodes = 4095 + (size_t)below(3);
    d.values_count = one_in(2) ? 11685 + (size_t)below(10) : 12215 + (size_t)below(10);
    d.given_rows = d.rows = 1;
    d.banks = 2;
    d.flags[1] = DK_HAS_OFFSET;
    for (i = 0; i < d.nodes; i++) {
        d.kinds[i] = (uint8_t)(i == 0 ? DK_SWITCH : i < 500 ? DK_DATA : DK_LABEL);
        d.operands[i] = 1;
        d.numbers[i] = i > 0 && i < 500 ? 16 : 0;
        d.states[i] = 0;
    }
}

static void convert(int back)
{
    l.out_count = one_in(8) ? (size_t)below(l.file_count + 1) : l.file_count + 80 + 5 * DK_MAX_ROWS;
    l.out = (uint8_t *)lend(l.out_count, 1);
    if (back)
        called(TO_FORM1, make_to_form1, FIELDS(converted));
    else
        called(TO_FORM2, make_to_form2, FIELDS(converted));
}

void round_of_files(void)
{
    unsigned form = 1 + (unsigned)below(2);
    int paged = one_in(2), back = one_in(4) ? (int)below(2) : form == 2;
    draw_twisted();
    if (one_in(500))
        draw_long();
    put_file(form);
    if (one_in(4))
        damage_file();
    l.file_count = file_length;
    l.file = (const uint8_t *)lend_copy(file, file_length, 1);
    convert(back);
    if (converted.refusal == 0 && one_in(2)) { /* and again, from what was written */
        l.file = l.out;
        l.file_count = (size_t)converted.count;
        convert(!back);
    }
    lend_spans();
    if (paged)
        called(FORM_PAGED, make_form_paged, FIELDS(layout));
    else
        called(FORM, make_form, FIELDS(layout));
    count_layout();
    if (layout.refusal == 0)
        counted(FORMS_BUILT, l.file[0] == 16 ? 2 : 1);
}
