#!/usr/bin/env python3
"""Form 1 files to compare the Rust and document 01 on, from a seed.

`cases(seed, count)` gives (name, file) pairs: first the grids, which are the same for every seed and leave nothing out, then
drawn cases of several families, each from a seed of its own, so that one can be had again by its name alone.

    generate.py SEED NAME     writes one case to standard output, NAME as compare.py prints it, e.g. "near 23458"
    generate.py SEED COUNT --batch    writes many, each behind four bytes of length, big-endian
    generate.py SEED COUNT --form-2   the same as files of form 2, with fill bits
    generate.py SEED COUNT --paged    the same of layouts for the paged device, most of them in the profile, in either form"""

import sys
from itertools import count, product
from random import Random

import manners
from form1 import (ADDR, ALIGN, ASSERT, CONSTANT, DATA, INSTRUCTION, LABEL, NOTHING, OPEN_DATA, RESERVE, SWITCH, Bank, Layout,
                   encode, fields, one)

TOP = 4_294_967_295
VALUES = bytes.fromhex("ffc02a8093e1")


def laid(banks, entries, values=VALUES, limit=10):
    """A layout of one row, all resolved; an entry is kind, operand and number."""
    return Layout(banks, [(kind, operand) for kind, operand, _ in entries], [[(number, 0) for _, _, number in entries]], values, limit)


# Grids ------------------------------------------------------------------------------------------------------------------

def grid_lists():
    """Every list of up to three nodes over a small alphabet, in one bank, with and without label alignment."""
    alphabet = ((LABEL, 0, 0), (LABEL, 1, 0), (CONSTANT, 0, 0), (INSTRUCTION, 3, 1), (INSTRUCTION, 0, 2), (DATA, 7, 2),
                (OPEN_DATA, 5, 3), (RESERVE, 0, 1), (RESERVE, 0, 2), (ALIGN, 0, 4), (ADDR, 0, 0), (ADDR, 0, 1), (ADDR, 0, 2))
    for align, length in product((None, 3), range(4)):
        for entries in product(alphabet, repeat=length):
            yield laid([Bank(unit=2, size=6, offset=1, align=align)], entries)


def grid_states():
    """One node of each kind with a state, before a label, over three rows: every state, changed and unchanged numbers."""
    kinds = (CONSTANT, INSTRUCTION, DATA, OPEN_DATA, RESERVE, ALIGN, ADDR, ASSERT)
    numbers = ((2, 2, 2), (2, 4, 4), (2, 3, 4), (3, 2, 3))
    for kind, states, given, limit in product(kinds, product(range(3), repeat=3), numbers, range(5)):
        rows = [[(number, state), (0, 0), (2, 0)] for number, state in zip(given, states)]
        yield Layout([Bank(unit=2, offset=0)], [(kind, 0), (LABEL, 1), (INSTRUCTION, 4)], rows, VALUES, limit)


def grid_pairs():
    """Two banks at every small offset, or none, of every small size, or none, filled and not."""
    sides = list(product((None, 0, 1, 2, 3), (None, 0, 1, 2), (False, True)))
    for (offset, size, fill), (offset2, size2, fill2) in product(sides, repeat=2):
        banks = [Bank(), Bank(unit=1, size=size, offset=offset, fill=fill), Bank(unit=1, size=size2, offset=offset2, fill=fill2)]
        yield laid(banks, [(SWITCH, 2, 0), (INSTRUCTION, 0, 1)] if fill else [])


def grid_store():
    """Every three offers of small position and size, written and reserved in turn."""
    offers = list(product(range(5), range(4)))
    for turn, three in enumerate(product(offers, repeat=3)):
        entries = []
        for i, (position, size) in enumerate(three):
            entries += [(ADDR, 0, position), (RESERVE if (turn + i) % 3 == 0 else INSTRUCTION, 5 * i, size)]
        yield laid([Bank(offset=0)], entries)


def grid_spans():
    """Every three labels and items at small positions, in every order of offsets."""
    things = list(product(range(5), (None, 1, 2)))
    for three in product(things, repeat=3):
        entries = []
        for i, (position, size) in enumerate(three):
            entries += [(ADDR, 0, position), (LABEL, 1, 0) if size is None else (DATA, 3 * i, size)]
        yield laid([Bank(unit=1, offset=0)], entries)


def grid_known():
    """Every two nodes with states before a label: what becomes of known-ness."""
    kinds = (CONSTANT, INSTRUCTION, DATA, OPEN_DATA, RESERVE, ALIGN, ADDR, ASSERT)
    for first, second, states, limit in product(kinds, kinds, product(range(3), repeat=2), range(3)):
        row = [(2, states[0]), (4, states[1]), (0, 0)]
        yield Layout([Bank(unit=2, offset=0)], [(first, 0), (second, 0), (LABEL, 1)], [row], VALUES, limit)


def grid_distances():
    """Small units, starts, positions and alignments, by an align and by label alignment."""
    for unit, start, position, align in product((1, 2, 3), range(-1, 3), range(5), range(6)):
        mark = (RESERVE, 0, 1)
        yield laid([Bank(unit, start, offset=0)], [(ADDR, 0, position), (ALIGN, 0, align), mark, (INSTRUCTION, 0, 1)])
        yield laid([Bank(unit, start, offset=0, align=align)], [(ADDR, 0, position), (CONSTANT, 0, 0), mark, (INSTRUCTION, 0, 1)])


def grid_hex():
    """An item of every small size at every small position, from every bit of a byte."""
    for size, position, start in product(range(1, 18), range(9), range(8)):
        yield laid([Bank(offset=0)], [(ADDR, 0, position), (INSTRUCTION, start, size)])


def grid_ends():
    """Labels, items and reserves at every small position of a bank of every small size, with and without an offset."""
    things = [(LABEL, 0)] + list(product((INSTRUCTION, RESERVE), range(4)))
    for size, position, (kind, number), offset in product(range(5), range(6), things, (None, 0, 3)):
        yield laid([Bank(unit=1, size=size, offset=offset)], [(ADDR, 0, position), (kind, 0, number)])


def grid_switches():
    """Every list of up to four nodes that move between three banks."""
    alphabet = ((SWITCH, 0, 0), (SWITCH, 1, 0), (SWITCH, 2, 0), (RESERVE, 0, 1), (LABEL, 0, 0), (INSTRUCTION, 2, 2))
    banks = [Bank(), Bank(unit=1, start=-3, size=4, offset=8), Bank(unit=2, start=5, size=6, offset=2, fill=True)]
    for length in range(5):
        for entries in product(alphabet, repeat=length):
            yield laid(banks, [(SWITCH, 1, 0), *entries])


GRIDS = (grid_lists, grid_states, grid_known, grid_pairs, grid_store, grid_spans, grid_distances, grid_hex, grid_ends, grid_switches)


# Drawn cases ------------------------------------------------------------------------------------------------------------

class Draft:
    """A layout under way: nodes with one number and state for each row."""

    def __init__(self, draw, banks, row_count=1, value_bytes=None):
        self.draw, self.banks, self.row_count = draw, banks, row_count
        self.values = draw.randbytes(draw.randrange(1, 16) if value_bytes is None else value_bytes)
        self.nodes, self.rows = [], [[] for _ in range(row_count)]
        self.limit = draw.choice((0, 1, 2, 3, 10, 10, 255))

    def add(self, kind, operand=0, number=0, states=None):
        """`number` is one for all rows, or a list of one for each."""
        numbers = number if isinstance(number, list) else [number] * self.row_count
        self.nodes.append((kind, operand))
        for row, n, state in zip(self.rows, numbers, states or [0] * self.row_count):
            row.append((n, state))

    def item(self, number, states=None, kind=None):
        """A written item whose bits are in the value bytes in every row."""
        longest = max(number) if isinstance(number, list) else number
        room = 8 * len(self.values) - longest
        if room < 0:
            self.values += self.draw.randbytes((7 - room) // 8)
            room = 8 * len(self.values) - longest
        self.add(kind or self.draw.choice((INSTRUCTION, DATA, OPEN_DATA)), self.draw.randint(0, room), number, states)

    def piece(self, size, chance):
        """A written item, by this chance, or a reserve."""
        if self.draw.random() < chance:
            self.item(size)
        else:
            self.add(RESERVE, 0, size)

    def layout(self):
        return Layout(self.banks, self.nodes, self.rows, self.values, self.limit)


def some_bank(draw, offset):
    unit = draw.choice((1, 2, 3, 4, 5, 7, 8, 8, 8, 8, 10, 16))
    size = draw.choice((None, unit * draw.randint(0, 8), unit * draw.randint(4, 12), unit * draw.randint(8, 30), draw.randint(0, 60)))
    return Bank(unit, draw.choice((0, 0, 0, 1, 64, draw.randint(-9, 9), draw.randint(-300, 300))), size, offset,
                draw.choice((None, None, None, 0, 1, 2, 3, 4, 8, 12, 16, 24)), draw.random() < 0.3)


def some_banks(draw, how_many):
    """Banks one after the other, mostly; bank 0 is mostly bare where there are others."""
    if how_many == 1:
        return [some_bank(draw, draw.choice((None, 0, 0, 0, 3, 8)))]
    banks = [Bank() if draw.random() < 0.8 else some_bank(draw, draw.choice((None, 0, 5)))]
    end = 0
    for _ in range(how_many - 1):
        bank = some_bank(draw, end + draw.choice((0, 0, 0, 1, 8, -1 if draw.random() < 0.1 else 0)))
        bank.offset = max(bank.offset, 0)
        if draw.random() < 0.12:
            bank.offset = None
        elif bank.size is None and draw.random() < 0.9:
            bank.size = bank.unit * draw.randint(1, 16)
        banks.append(bank)
        if bank.offset is not None:
            end = bank.offset + (bank.size or 0)
    first = banks[0]
    draw.shuffle(banks)
    banks.remove(first)
    return [first] + banks


def some_size(draw, unit):
    return draw.choice((unit, unit, unit, 2 * unit, 3 * unit, draw.randint(1, 20), draw.randint(1, 9), 0 if draw.random() < 0.15 else unit))


def varied(draw, number, row_count, chance=0.3):
    """A number for each row: often the same, else near it, mostly settled in the last two rows."""
    numbers = [max(0, number + draw.choice((-1, 1, 8, -8, 2))) if draw.random() < chance else number for _ in range(row_count)]
    return numbers[:-2] + numbers[-1:] * min(2, row_count) if draw.random() < 0.7 else numbers


def some_states(draw, row_count, chance=0.25):
    """States that mostly settle: unresolved first, then stable or resolved."""
    states = [draw.choice((1, 2, 2)) if draw.random() < chance else 0 for _ in range(row_count)]
    if draw.random() < 0.8:
        states[-1] = draw.choice((0, 0, 0, 1))
    return states


def some_nodes(draft, how_many, addr_chance=0.1, state_chance=0.1, bank_zero_chance=0.05):
    draw, n = draft.draw, draft.row_count
    current = 0

    def switch():
        low = 0 if draw.random() < bank_zero_chance else 1
        to = draw.randrange(low, len(draft.banks))
        draft.add(SWITCH, to)
        return to

    if len(draft.banks) > 1 and draw.random() < 0.97:
        current = switch()
    for _ in range(how_many):
        unit = draft.banks[current].unit
        states = some_states(draw, n) if draw.random() < state_chance else [0] * n
        kind = draw.choice((INSTRUCTION, INSTRUCTION, DATA, OPEN_DATA, RESERVE, LABEL, LABEL, CONSTANT, ALIGN, SWITCH, NOTHING, ASSERT))
        if draw.random() < addr_chance:
            kind = ADDR
        if kind in (INSTRUCTION, DATA, OPEN_DATA):
            draft.item(varied(draw, some_size(draw, unit), n), states, kind)
        elif kind == RESERVE:
            draft.add(RESERVE, draw.randrange(3), varied(draw, some_size(draw, unit), n), states)
        elif kind == ALIGN:
            draft.add(ALIGN, 0, varied(draw, draw.choice((0, 1, 2, 3, unit, unit, 2 * unit, 8, 16)), n, 0.1), states)
        elif kind == ADDR:
            draft.add(ADDR, 0, varied(draw, draw.choice((unit * draw.randint(0, 12), draw.randint(0, 60))), n, 0.1), states)
        elif kind == SWITCH:
            if len(draft.banks) > 1:
                current = switch()
        elif kind in (LABEL, CONSTANT):
            draft.add(kind, draw.choice((0, 0, 1, 2, TOP)), draw.randrange(3), states)
        else:
            draft.add(kind, draw.randrange(4), draw.randrange(4), states)


def free(draw):
    """A little of everything."""
    draft = Draft(draw, some_banks(draw, draw.choice((1, 1, 2, 2, 2, 3, 3, 4, 6))), draw.choice((1, 1, 1, 2, 3)))
    some_nodes(draft, draw.randrange(0, 14))
    return draft.layout()


def cut_up(draw, size):
    """The range from 0 to size in pieces of start and size."""
    edges = sorted({0, size} | {draw.randrange(size) for _ in range(draw.randint(0, 5))})
    return [(a, b - a) for a, b in zip(edges, edges[1:])]


def near(draw):
    """Banks filled to the last bit by pieces in any order, then one number of the layout a bit off (or none)."""
    banks, end = [Bank()], draw.choice((0, 0, 5))
    for _ in range(draw.randint(1, 3)):
        unit = draw.choice((1, 2, 5, 8))
        banks.append(Bank(unit, draw.choice((0, 7, -5)), unit * draw.randint(1, 9), end, None, draw.random() < 0.5))
        end += banks[-1].size
    if len(banks) == 2 and draw.random() < 0.4:
        del banks[0]
    draft = Draft(draw, banks)
    for i in range(len(banks)):
        if i == 0 and len(banks) > 1:
            continue
        draft.add(SWITCH, i)
        pieces = cut_up(draw, banks[i].size)
        in_order = draw.random() < 0.4
        if not in_order:
            draw.shuffle(pieces)
        for start, size in pieces:
            if not in_order:
                draft.add(ADDR, 0, start)
            if start % banks[i].unit == 0 and draw.random() < 0.5:
                draft.add(LABEL, draw.randrange(2))
            draft.piece(size, 0.7)
    layout = draft.layout()
    return nudged(draw, layout) if draw.random() < 0.8 else layout


def nudged(draw, layout):
    """One number a step off."""
    step = draw.choice((-1, 1))
    which = draw.random()
    if which < 0.35:
        bank = draw.choice(layout.banks[-3:])
        name = draw.choice(("size", "offset", "unit", "start"))
        if getattr(bank, name) is not None:
            moved = getattr(bank, name) + step
            setattr(bank, name, moved if name == "start" else min(max(0, moved), TOP))
    elif which < 0.9 and layout.nodes:
        i = draw.randrange(len(layout.nodes))
        number, state = layout.rows[0][i]
        layout.rows[0][i] = (min(max(0, number + step), TOP), state)
    elif which < 0.96 and layout.nodes:
        i = draw.randrange(len(layout.nodes))
        kind, operand = layout.nodes[i]
        layout.nodes[i] = (kind, min(max(0, operand + step), TOP))
    else:
        layout.values = layout.values[:-1]
    return layout


def offers(draw):
    """A deep store: dozens of pieces, some with a gap before them, in any order, then perhaps one number a bit off."""
    draft = Draft(draw, [Bank(draw.choice((1, 8)), 0, None, draw.choice((0, 3)))])
    pieces, end = [], 0
    for _ in range(draw.randint(8, 60)):
        size = draw.randint(1, 12)
        end += draw.choice((0, 0, 1, draw.randint(0, 9)))
        pieces.append((end, size))
        end += size
    draw.shuffle(pieces)
    for start, size in pieces:
        draft.add(ADDR, 0, start)
        draft.piece(size, 0.6)
    layout = draft.layout()
    return nudged(draw, layout) if draw.random() < 0.7 else layout


def far(draw):
    """Reserves and labels side by side up to the greatest position, in a bank at a far offset, then one number a bit off."""
    draft = Draft(draw, [Bank(1, draw.choice((0, -2 ** 40, 2 ** 40)), draw.choice((None, TOP)), draw.choice((TOP, TOP - 3, 0)))])
    pieces = cut_up(draw, draw.randint(20, 60))
    base = TOP - pieces[-1][0] - pieces[-1][1] - draw.choice((0, 0, 1, 70))
    draw.shuffle(pieces)
    for start, size in pieces:
        draft.add(ADDR, 0, base + start)
        if draw.random() < 0.3:
            draft.add(LABEL, draw.randrange(2))
        draft.add(RESERVE, 0, size)
    layout = draft.layout()
    return nudged(draw, layout) if draw.random() < 0.8 else layout


def banks(draw):
    """Many banks, negative starts, label alignment, fills; now and then one bank too many."""
    how_many = draw.choice((2, 3, 4, 5, 8, 12, 16, 16, 17))
    draft = Draft(draw, some_banks(draw, how_many), draw.choice((1, 1, 1, 2)))
    some_nodes(draft, draw.randrange(4, 24), addr_chance=0.03, state_chance=0.03, bank_zero_chance=0.02)
    return draft.layout()


def passes(draw):
    """Several rows with states and changing numbers, labels after them, every sort of limit."""
    row_count = draw.choice((1, 2, 2, 3, 3, 4, 5, 6, 9, 16, 16 if draw.random() < 0.9 else 17))
    draft = Draft(draw, [Bank(draw.choice((1, 2, 4, 8)), draw.choice((0, 0, -4, 100)), None, 0, draw.choice((None, None, 4)))], row_count)
    if draft.banks[0].start < 0 and draw.random() < 0.9:
        draft.banks[0].align = None
    draft.limit = draw.choice((0, 1, 2, 2, 3, 4, 5, 6, 17, 255))
    chance = draw.choice((0.05, 0.2, 0.5))
    unit = draft.banks[0].unit
    for _ in range(draw.randint(1, 7)):
        states = some_states(draw, row_count, chance)
        kind = draw.choice((INSTRUCTION, DATA, OPEN_DATA, RESERVE, ALIGN, ADDR, CONSTANT, ASSERT, LABEL, LABEL, LABEL, LABEL))
        number = varied(draw, unit * draw.randint(1, 3), row_count, 0.3 if draw.random() < 0.5 else 0)
        if kind in (INSTRUCTION, DATA, OPEN_DATA):
            draft.item(number, states, kind)
        elif kind == ADDR:
            draft.add(ADDR, 0, [n + unit * 8 * len(draft.nodes) for n in number], states)
        elif kind == LABEL:
            draft.add(LABEL, draw.choice((0, 1)), 0, [draw.randrange(256) for _ in range(row_count)])
        else:
            draft.add(kind, 0, number, states)
    return draft.layout()


def limits(draw):
    """Numbers near their limits: positions, offsets, sizes, alignments, starts, units."""
    big = lambda: draw.choice((TOP, TOP - 1, TOP - draw.randrange(70), TOP // 2, TOP // 2 + 1, draw.randrange(TOP)))
    start = draw.choice((0, 0, 2 ** 40, -2 ** 40, 2 ** 40 - 1, 2 ** 40 + 1 if draw.random() < 0.2 else 5, -2 ** 40 - 1 if draw.random() < 0.2 else 9))
    unit = draw.choice((1, 8, 65_535, 65_535, 32_768, 0 if draw.random() < 0.1 else 3))
    bank = Bank(unit, start, draw.choice((None, None, big(), 8)), draw.choice((None, 0, 0, big())), draw.choice((None, None, 1, 8, big())))
    bank.fill = draw.random() < 0.1
    some = [bank] if draw.random() < 0.6 else [Bank(), bank, Bank(8, 0, big(), big())]
    draft = Draft(draw, some, draw.choice((1, 1, 2)))
    if len(some) > 1:
        draft.add(SWITCH, 1)
    for _ in range(draw.randint(1, 7)):
        kind = draw.choice((ADDR, ADDR, RESERVE, RESERVE, ALIGN, LABEL, CONSTANT, INSTRUCTION, SWITCH))
        small = draw.choice((0, 1, 1, 8, draw.randrange(100)))
        if kind == INSTRUCTION:
            draft.item(draw.randint(1, 40))
        elif kind == SWITCH:
            if len(some) > 1:
                draft.add(SWITCH, draw.randint(1, 2))
        elif kind in (LABEL, CONSTANT):
            draft.add(kind, draw.choice((0, 1)))
        elif kind == ALIGN and start < 0:
            draft.add(ALIGN, 0, 0 if draw.random() < 0.7 else big())
        else:
            draft.add(kind, 0, [big() if draw.random() < 0.5 else small for _ in range(draft.row_count)])
    return draft.layout()


def full(draw):
    """About 512 stored intervals, then one more offer, or a few, inside, beside and past them."""
    how_many = draw.choice((510, 511, 512, 512, 512, 513, 514))
    gap = draw.choice((0, 0, 1))
    draft = Draft(draw, [Bank(offset=draw.choice((0, 0, 9)))])
    draft.limit = draw.choice((0, 1, 10))
    order = list(range(how_many))
    if draw.random() < 0.5:
        draw.shuffle(order)
    for i in order:
        if gap or order[0] != 0 or order[-1] != how_many - 1:
            draft.add(ADDR, 0, i * (1 + gap))
        draft.piece(1, 0.5)
    for _ in range(draw.randrange(3)):
        draft.add(ADDR, 0, draw.choice((draw.randrange(how_many), how_many * (1 + gap), how_many * (1 + gap) + 5)))
        draft.item(draw.choice((1, 1, 2, 0)))
    return draft.layout()


def wide(draw):
    """As many nodes or rows as there may be, or one more; files at their greatest length; images at theirs."""
    which = draw.randrange(5)
    if which == 0:
        draft = Draft(draw, [Bank(), Bank(8, 0, None, 0, 8)])
        draft.add(SWITCH, 1)
        for _ in range(draw.choice((4_095, 4_095, 4_096)) - 20):
            draft.add(draw.choice((LABEL, CONSTANT, NOTHING)), draw.randrange(2))
        for _ in range(20):
            draft.item(8)
        return draft.layout()
    if which == 1:
        row_count = draw.choice((0, 15, 16, 17))
        draft = Draft(draw, [Bank(offset=0)], row_count or 1)
        some_nodes(draft, 30)
        draft.rows = draft.rows[:row_count]
        return draft.layout()
    if which == 2:
        layout = free(draw)
        layout.values = draw.randbytes(65_000 - len(encode(layout)) + len(layout.values) + draw.choice((-1, 0, 0, 1, 300)))
        return layout
    if which == 3:
        draft = Draft(draw, [Bank(offset=0)], value_bytes=2_048)
        for _ in range(8):
            draft.add(INSTRUCTION, 0, 16_384)
        draft.item(draw.choice((1, 2)))
        draft.rows[0][0] = (16_384 - draw.choice((0, 1, 2)), 0)
        return draft.layout()
    return laid([Bank(unit=1, size=131_072 + draw.choice((-1, 0, 1)), offset=draw.choice((0, 0, 1)), fill=True)], [])


def damaged(draw):
    """A sound file of another family with a piece broken."""
    layout = draw.choice((free, free, near, banks, passes))(draw)
    pieces = [one(tag, payload) for tag, payload in fields(layout, unread=draw.choice((0, 7)))]
    data = b"".join(pieces)
    which = draw.randrange(9)
    i, j = draw.randrange(len(pieces)), draw.randrange(len(pieces))
    if which == 0:
        return data[:draw.randrange(len(data) + 1)]
    if which == 1:
        return data + draw.randbytes(draw.randint(1, 4))
    if which == 2:
        del pieces[i]
    elif which == 3:
        pieces.insert(j, pieces[i])
    elif which == 4:
        pieces[i], pieces[j] = pieces[j], pieces[i]
    elif which == 5:
        at = draw.randrange(len(pieces[i]))
        pieces[i] = pieces[i][:at] + bytes([draw.choice((0, 1, 2, 3, 4, 5, 6, 11, 16, 255))]) + pieces[i][at + 1:]
    elif which == 6:
        at = draw.randrange(len(data))
        return data[:at] + bytes([data[at] ^ 1 << draw.randrange(8)]) + data[at + 1:]
    elif which == 7:
        tag, payload = draw.choice(fields(layout))
        pieces[i] = one(draw.choice((tag, 0, 6)), payload + draw.randbytes(1) if draw.random() < 0.5 else payload[:-1])
    else:
        pieces.insert(i, one(draw.randrange(8), draw.randbytes(draw.choice((0, 1, 5, 23)))))
    return b"".join(pieces)


FAMILIES = {"free": 26, "near": 22, "banks": 12, "passes": 20, "offers": 6, "far": 3, "limits": 7, "damaged": 8}
RARE = {"full": 300, "wide": 700}   # one case in so many


def family_of(draw):
    for name, in_so_many in RARE.items():
        if draw.randrange(in_so_many) == 0:
            return name
    return draw.choices(list(FAMILIES), FAMILIES.values())[0]


def drawn(seed, number):
    """Drawn case `number`: its family and its file."""
    draw = Random(f"{seed}/{number}")
    name = family_of(draw)
    made = globals()[name](draw)
    return f"{name} {number}", made if isinstance(made, bytes) else encode(made, unread=draw.choice((0, 0, TOP)))


def in_form_2(draw, file):
    """A drawn file of form 1 as one of form 2, with fill bits of any sort, now and then with a byte that breaks it or with form 1's tags."""
    whole = [one(16, bytes([draw.choice((2,) * 30 + (0, 1, 3))]))]
    at = 0
    while at + 3 <= len(file):
        tag, length = file[at], int.from_bytes(file[at + 1:at + 3], "big")
        payload = file[at + 3:at + 3 + length]
        if tag == 1 and draw.randrange(60):
            bit = draw.choice((0, 0, 1)) if len(whole) > 1 or draw.randrange(20) == 0 else 0
            whole.append(one(17, payload + bytes([bit if draw.randrange(80) else 2])))
        else:
            whole.append(file[at:at + 3 + length])
        at += 3 + length
    made = b"".join(whole) + file[at:]
    if made and draw.randrange(20) == 0:
        place = draw.randrange(min(len(made), 120))
        made = made[:place] + bytes([draw.randrange(256)]) + made[place + 1:]
    return made


def paged(draw):
    """A layout for the paged device, with a rule broken now and then."""
    page = draw.choice((16, 32, 64))
    off = lambda n: n + draw.choice((1, 3)) if draw.randrange(25) == 0 else n
    banks, end = [Bank(unit=8)], 0
    for _ in range(draw.randint(1, 4)):
        pages = draw.randint(0, 6)
        unit, align = off(draw.choice((8, 16))), draw.choice((None, None, 0, 8, 16, 32))
        if draw.randrange(6) == 0:
            banks.append(Bank(unit, draw.randint(-4, 40), draw.choice((None, 96)), None, align))
            continue
        size = None if draw.randrange(40) == 0 else off(pages * page)
        banks.append(Bank(unit, draw.randint(0, 40), size, off(end), align and off(align), bool(size) and draw.random() < 0.6))
        end += pages * page + page * draw.choice((0, 0, 1))
    row_count = draw.randint(1, 3)
    draft = Draft(draw, banks, row_count)
    draft.add(SWITCH, draw.choice((0,) + (1,) * 12))
    for _ in range(draw.randint(1, 14)):
        kind = draw.choice((SWITCH, SWITCH, LABEL, INSTRUCTION, DATA, RESERVE, ALIGN, ALIGN, ADDR, ADDR))
        if kind == SWITCH:
            draft.add(SWITCH, draw.randrange(1, len(banks)))
        elif kind == LABEL:
            draft.add(LABEL, draw.choice((0, 0, 1)))
        elif kind in (INSTRUCTION, DATA):
            draft.item(draw.choice((8, 8, 16, 24)), kind=kind)
        elif kind == RESERVE:
            draft.add(RESERVE, 0, draw.choice((0, 8, 16)))
        elif kind == ALIGN:
            draft.add(ALIGN, 0, [off(draw.choice((0, 8, 16, 64)))] * (row_count - 1) + [off(8)])
        else:
            draft.add(ADDR, 0, [16 * draw.randrange(8)] * (row_count - 1) + [off(16 * draw.randrange(8))])
    return draft.layout()


def gridded():
    for grid in GRIDS:
        for i, layout in enumerate(grid()):
            yield f"{grid.__name__} {i}", encode(layout)


def cases(seed, how_many, with_grids=True):
    """The grids, then drawn cases until there are so many."""
    made = 0
    if with_grids:
        for case in gridded():
            if made == how_many:
                return
            yield case
            made += 1
    for number in count():
        if made == how_many:
            return
        yield drawn(seed, number)
        made += 1


def drawn_spans(seed, number):
    """Spans of any sort, as a caller may lend them: (offset or None, size)."""
    draw = Random(f"{seed}/spans/{number}")
    top = draw.choice((6, 20, 60, 8_589_934_590))
    sizes = draw.choice(((0, 1, 2), (0, 4, 8), (1, 3, TOP)))
    spans, end = [], 0
    for _ in range(draw.randint(1, 12)):
        offset = draw.choice((None, end, end, draw.randint(0, top)))
        spans.append((offset, draw.choice(sizes)))
        end = min((offset or 0) + spans[-1][1], 8_589_934_590)
    draw.shuffle(spans)
    return spans


def batched(files):
    """The files as one stream, each behind its length."""
    return b"".join(len(file).to_bytes(4, "big") + file for file in files)


def cases_of_form_2(seed, how_many):
    """Files of form 2: every other one of a layout that is drawn for it, the others of any family."""
    for number in range(how_many):
        draw = Random(f"{seed}/form 2/{number}")
        yield in_form_2(draw, encode(paged(draw)) if number % 2 else drawn(seed, number)[1])


def cases_in_pages(seed, how_many):
    for number in range(how_many):
        draw = Random(f"{seed}/paged/{number}")
        file = encode(paged(draw))
        yield in_form_2(draw, file) if number % 3 == 0 else file


def main():
    parser = manners.parser(__doc__)
    parser.add_argument("seed", metavar="SEED")
    parser.add_argument("which", metavar="COUNT|NAME")
    kinds = parser.add_mutually_exclusive_group()
    for kind in ("--batch", "--form-2", "--paged"):
        kinds.add_argument(kind, action="store_true")
    asked = parser.parse_args()
    seed = asked.seed
    if asked.batch or asked.form_2 or asked.paged:
        how_many = manners.count(asked.which) if asked.which.isdigit() else parser.error(f"how many? '{asked.which}' is no number")
        made = cases_of_form_2(seed, how_many) if asked.form_2 else cases_in_pages(seed, how_many) if asked.paged else (f for _, f in cases(seed, how_many))
        sys.stdout.buffer.write(batched(made))
        return
    name, _, number = asked.which.partition(" ")
    if name.startswith("grid"):
        wanted = next((file for case, file in gridded() if case == asked.which), None)
    else:
        wanted = drawn(seed, int(number))[1] if number.isdigit() and drawn(seed, int(number))[0] == asked.which else None
    if wanted is None:
        parser.error(f"there is no case '{asked.which}' of seed {seed}")
    sys.stdout.buffer.write(wanted)


if __name__ == "__main__":
    manners.run(main)
