/* The tables of a layout file of either form, taken apart for the calls that have them lent. For the programs of bindings/c. */
#ifndef BINDINGS_TABLES_H
#define BINDINGS_TABLES_H

#include <stddef.h>
#include <stdint.h>

/* What is taken apart at most: twice the longest file, for tables that no file has room for. */
enum { TABLES_MOST = 2 * 65536, BANKS = TABLES_MOST / 26 + 1, NODES = TABLES_MOST / 8 + 1, CELLS = TABLES_MOST / 5 + 1 };

static uint16_t units[BANKS];
static int64_t bank_starts[BANKS];
static uint32_t bank_sizes[BANKS], bank_offsets[BANKS], aligns[BANKS];
static uint8_t flags[BANKS], fill_bits[BANKS], kinds[NODES], states[CELLS];
static uint32_t operands[NODES], numbers[CELLS];
static size_t banks, nodes, rows, values_at, values_size;
static uint8_t form;

/* The tables of the file, with what follows them in a call. */
#define TABLES units, banks, bank_starts, banks, bank_sizes, banks, bank_offsets, banks, aligns, banks, flags, banks, fill_bits, banks, \
               kinds, nodes, operands, nodes, numbers, rows * nodes, states, rows * nodes, rows, file + values_at, values_size

static uint64_t big(const uint8_t *from, int bytes)
{
    uint64_t n = 0;
    for (int i = 0; i < bytes; i++)
        n = n << 8 | from[i];
    return n;
}

/* Whether a field with this tag and this length of payload is next. */
static int is_next(const uint8_t *file, size_t size, size_t at, int tag, size_t length)
{
    return at + 3 + length <= size && file[at] == tag && big(file + at + 1, 2) == length;
}

/* The bank fields from `at` on; where they end. */
static size_t take_banks(const uint8_t *file, size_t size, size_t at)
{
    int tag = form == 2 ? 17 : 1;
    size_t length = form == 2 ? 24 : 23;
    for (; is_next(file, size, at, tag, length) && file[at + 25] <= 15 && (form == 1 || file[at + 26] <= 1); at += 3 + length, banks++) {
        const uint8_t *p = file + at + 3;
        units[banks] = (uint16_t)big(p, 2);
        bank_starts[banks] = (int64_t)big(p + 2, 8);
        bank_sizes[banks] = (uint32_t)big(p + 10, 4);
        bank_offsets[banks] = (uint32_t)big(p + 14, 4);
        aligns[banks] = (uint32_t)big(p + 18, 4);
        flags[banks] = p[22];
        fill_bits[banks] = form == 2 ? p[23] : 0;
    }
    return at;
}

/* Takes a sound file apart; 0 where it is not sound. With `longer`, one past its form's length too. */
static int take_apart(const uint8_t *file, size_t size, int longer)
{
    size_t at = 0;
    banks = nodes = rows = 0;
    form = size > 0 && file[0] == 16 ? 2 : 1;
    if (size > (longer ? TABLES_MOST : form == 2 ? 65536 : 65000))
        return 0;
    if (form == 2) {
        if (!is_next(file, size, 0, 16, 1) || file[3] != 2)
            return 0;
        at = 4;
    }
    at = take_banks(file, size, at);
    for (; is_next(file, size, at, 2, 5); at += 8, nodes++) {
        kinds[nodes] = file[at + 3];
        operands[nodes] = (uint32_t)big(file + at + 4, 4);
    }
    for (; is_next(file, size, at, 3, 5 * nodes); at += 3 + 5 * nodes, rows++) {
        for (size_t i = 0; i < nodes; i++) {
            numbers[rows * nodes + i] = (uint32_t)big(file + at + 3 + 5 * i, 4);
            states[rows * nodes + i] = file[at + 7 + 5 * i];
        }
    }
    size_t length = at + 3 <= size ? (size_t)big(file + at + 1, 2) : 0;
    if (!is_next(file, size, at, 4, length) || !is_next(file, size, at + 3 + length, 5, 1) || at + length + 7 != size)
        return 0;
    values_at = at + 3;
    values_size = length;
    return 1;
}

#endif
