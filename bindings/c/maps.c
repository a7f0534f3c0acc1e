/* The map of tables: a layout that fits, one that stops at a node, and calls that are refused and change nothing. The status is 1 where an
 * answer is another. */
#include <inttypes.h>
#include <stdio.h>
#include <string.h>

#include "../../include/denkumari.h"

static uint64_t banks_of[DK_MAX_NODES], outputs[DK_MAX_NODES];
static uint32_t positions[DK_MAX_NODES], sizes[DK_MAX_NODES];

/* two banks of 8 bits to an address, of 16 bits each, at bits 0 and 16; a switch to bank 1, a label, an item of 8 bits, a reserve, an item */
static const uint16_t units[] = {8, 8};
static const int64_t starts[] = {0, 0x8000};
static const uint32_t bank_sizes[] = {16, 16}, bank_offsets[] = {0, 16}, aligns[] = {0, 0};
static const uint8_t flags[] = {DK_HAS_SIZE | DK_HAS_OFFSET, DK_HAS_SIZE | DK_HAS_OFFSET}, fill_bits[] = {0, 0}, values[] = {0xAB, 0xCD};
static const uint8_t kinds[] = {DK_SWITCH, DK_LABEL, DK_INSTRUCTION, DK_RESERVE, DK_INSTRUCTION};
static const uint32_t operands[] = {1, 0, 0, 0, 8};

static struct dk_mapped map_of(const uint32_t *numbers, uint8_t fill, size_t banks)
{
    static const uint8_t states[5];
    memset(banks_of, 0xA5, sizeof banks_of);
    memset(outputs, 0xA5, sizeof outputs);
    memset(positions, 0xA5, sizeof positions);
    memset(sizes, 0xA5, sizeof sizes);
    return dk_map(units, banks, starts, banks, bank_sizes, banks, bank_offsets, banks, aligns, banks, flags, banks, fill_bits, banks, kinds, 5, operands, 5,
                  numbers, 5, states, 5, 1, values, sizeof values, 10, fill, 0, banks_of, positions, outputs, sizes);
}

static int failed;

static void hold(const char *what, uint64_t got, uint64_t wanted)
{
    if (got != wanted) {
        printf("%s: %" PRIu64 ", should be %" PRIu64 "\n", what, got, wanted);
        failed = 1;
    }
}

static void hold_untouched(size_t from)
{
    for (size_t i = from; i < DK_MAX_NODES; i++)
        if (banks_of[i] != 0xA5A5A5A5A5A5A5A5 || outputs[i] != 0xA5A5A5A5A5A5A5A5 || positions[i] != 0xA5A5A5A5 || sizes[i] != 0xA5A5A5A5) {
            hold("a list that should be left alone", i, DK_MAX_NODES);
            return;
        }
}

/* in bank 0, whose unit is 8: skips of 2 and of 10 bits, of which the second has a whole unit */
static void hold_padding(void)
{
    static const uint8_t skips[] = {DK_RESERVE, DK_ALIGN, DK_RESERVE, DK_ALIGN}, states[4];
    static const uint32_t none[4], by[] = {2, 4, 2, 16};
    struct dk_mapped r = dk_map(units, 1, starts, 1, bank_sizes, 1, bank_offsets, 1, aligns, 1, flags, 1, fill_bits, 1, skips, 4, none, 4, by, 4, states, 4,
                                1, values, sizeof values, 10, DK_FILL_INHERITED, 0, banks_of, positions, outputs, sizes);
    hold("refusal of a padded layout", r.refusal + r.stopped, 0);
    hold("bits of padding", r.padding[0].bits, 12);
    hold("whole units of padding", r.padding[0].units, 1);
}

int main(void)
{
    static const uint32_t fitting[] = {0, 0, 8, 0, 8}, too_long[] = {0, 0, 8, 1, 8};
    struct dk_mapped r = map_of(fitting, DK_FILL_INHERITED, 2);
    hold("refusal", r.refusal, 0);
    hold("stopped", r.stopped, 0);
    hold("node", r.node, DK_NO_NODE);
    hold("nodes", r.nodes, 5);
    hold("bank of the last item", banks_of[4], 1);
    hold("position of the last item", positions[4], 8);
    hold("output of the last item", outputs[4], 24);
    hold("size of the last item", sizes[4], 8);
    hold_untouched(5);
    r = map_of(too_long, DK_FILL_INHERITED, 2);
    hold("refusal of a layout that stops", r.refusal, 0);
    hold("stopped", r.stopped, DK_PAST_BANK);
    hold("place", r.place, r.node);
    hold("nodes up to the one at fault", r.nodes, r.node + 1);
    hold_untouched(r.nodes);
    r = map_of(fitting, 2, 2);
    hold("refusal of a bad fill", r.refusal, DK_MALFORMED);
    hold("its place", r.place, 3);
    hold("nodes", r.nodes, 0);
    hold("node", r.node, DK_NO_NODE);
    hold_untouched(0);
    r = map_of(fitting, 0, 0);
    hold("refusal of no bank", r.refusal, DK_BANK_COUNT);
    hold_untouched(0);
    hold_padding();
    if (!failed)
        puts("a map, one that stops, two that are refused, and one that is padded");
    return failed;
}
