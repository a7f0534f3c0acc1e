"""The layouts that the benchmark lays out: some that stand by themselves, and series that grow in one number each."""

import sys
from pathlib import Path
from random import Random

sys.path.insert(0, str(Path(__file__).resolve().parent.parent / "oracle"))

import manners  # noqa: E402
from sequencer import sequencer  # noqa: E402
from form1 import (  # noqa: E402
    ALIGN, ADDR, ASSERT, CONSTANT, DATA, INSTRUCTION, LABEL, OPEN_DATA, RESERVE, SWITCH, Bank, Layout)

RESOLVED, UNRESOLVED = 0, 2
VALUES = bytes(i % 251 for i in range(16_384))


def laid(nodes, rows, values=b"", limit=10):
    """Nodes are (kind, operand), all behind a switch to a bank at offset 0."""
    return Layout([Bank(), Bank(offset=0)], [(SWITCH, 1)] + nodes, [[(0, 0)] + row for row in rows], values, limit)


def wide(nodes=4096):
    """Labels alone: what a node costs."""
    return laid([(LABEL, 1)] * (nodes - 1), [[(0, 0)] * (nodes - 1)])


def deep(rows=16):
    """Each row is unresolved but for the last: as many passes as rows, over 161 nodes."""
    sizes = [[(0, 0), (8 * (1 + n % 4), RESOLVED if n == rows - 1 else UNRESOLVED)] * 80 for n in range(rows)]
    return laid([(LABEL, 1), (INSTRUCTION, 0)] * 80, sizes, b"\xa5" * 4, 16)


def large(kib=16):
    """One item that starts inside a byte, 72 bits short of so many KiB."""
    return laid([(LABEL, 1), (DATA, 3)], [[(0, 0), (8192 * kib - 72, 0)]], VALUES)


def offers():
    """512 placements side by side, written and reserved in turn: the store is filled."""
    return laid([(INSTRUCTION, 0), (RESERVE, 0)] * 256, [[(3, 0), (5, 0)] * 256], b"\xff")


def unresolved(limit):
    """One row of 256 nodes that never resolves: as many passes as the limit, and refusal 8."""
    return laid([(LABEL, 1), (INSTRUCTION, 0)] * 128, [[(0, 0), (8, UNRESOLVED)] * 128], b"\xa5", limit)


def ordered(count, order):
    """So many items of a byte, each behind an addr: they rise, they fall, or they are shuffled."""
    places = list(range(count))
    if order == "falling":
        places.reverse()
    if order == "shuffled":
        Random(count).shuffle(places)
    row = [pair for place in places for pair in ((16 * place, 0), (8, 0))]
    return laid([(ADDR, 0), (INSTRUCTION, 0)] * count, [row], b"\xa5")


class Mix:
    """A layout under way in which a node has a number and a state for each row."""

    def __init__(self, banks, rows, seed):
        self.banks, self.draw = banks, Random(seed)
        self.nodes, self.rows = [], [[] for _ in range(rows)]

    def add(self, kind, operand=0, entries=None):
        self.nodes.append((kind, operand))
        for row, entry in zip(self.rows, entries or [(0, 0)] * len(self.rows)):
            row.append(entry)

    def item(self, unit, units):
        """A written item of some units, that in all rows but the last is unresolved and of another size."""
        last = len(self.rows) - 1
        kind = self.draw.choice((INSTRUCTION, INSTRUCTION, DATA, OPEN_DATA))
        size = unit * units
        moved = [(size + unit * ((n + 1) % 3 if kind != DATA else 0), UNRESOLVED) for n in range(last)]
        self.add(kind, self.draw.randrange(8 * 64), moved + [(size, RESOLVED)])

    def layout(self, values, limit):
        return Layout(self.banks, self.nodes, self.rows, values, limit)


def mixed_a(nodes=4096):
    """Two rows, five banks in turn, 64 nodes in each stay: seven items and one reserve, labels of two depths, constants, aligns and asserts."""
    banks = [Bank(), Bank(8, 0, 40_960, 0, None, True), Bank(16, 0x4000, 40_960, 40_960), Bank(8, 64, 40_960, 81_920, 32),
             Bank(8, 0x8000, 4_096), Bank(8, 0, 8_192, 122_880, None, True)]
    mix = Mix(banks, 2, 1)
    while len(mix.nodes) < nodes:
        bank = (1, 2, 3, 1, 2, 3, 4, 5)[len(mix.nodes) // 64 % 8]
        mix.add(SWITCH, bank)
        for i in range(min(63, nodes - len(mix.nodes))):
            if i % 8 == 7 and i < 56 and bank != 4:
                mix.item(banks[bank].unit, mix.draw.randint(1, 3))
            elif i == 60:
                mix.add(RESERVE, 0, [(16, 0)] * 2)
            elif i % 16 == 3:
                mix.add(ALIGN, 0, [(2 * banks[bank].unit, 0)] * 2)
            elif i % 8 == 5:
                mix.add(mix.draw.choice((CONSTANT, ASSERT)), 1)
            else:
                mix.add(LABEL, 0 if i % 8 == 0 else 1)
    return mix.layout(bytes(VALUES[:80]), 10)


def mixed_b():
    """Sixteen rows and passes, four banks, and an image of nearly 16 KiB, most of it items of some hundred bytes."""
    banks = [Bank(), Bank(8, 0, 65_536, 0), Bank(16, 0x100, 32_768, 65_536, None, True), Bank(8, 0, 32_704, 98_304)]
    mix = Mix(banks, 16, 2)
    for turn in range(12):
        bank = 1 + turn % 3
        mix.add(SWITCH, bank)
        for i in range(16):
            mix.add(LABEL, 0 if i % 4 == 0 else 1)
            if i % 4 == 1:
                mix.add(ALIGN, 0, [(banks[bank].unit, 0)] * 16)
            mix.item(banks[bank].unit, mix.draw.randint(60, 120) if bank == 1 else mix.draw.randint(20, 56) * 8 // banks[bank].unit)
    return mix.layout(VALUES[:600], 16)


LAYOUTS = {
    "wide": ("4,096 nodes, all but one labels; one row", wide),
    "deep": ("161 nodes, sixteen rows and passes", deep),
    "large": ("one item of 131,000 bits that starts inside a byte", large),
    "offers": ("512 placements side by side", offers),
    "mixed A": ("4,096 nodes, two rows, five banks: longer than a file may be, so its tables are lent", mixed_a),
    "mixed A, cut": ("the same with 3,580 nodes, as many as a file of two rows has room for", lambda: mixed_a(3_580)),
    "mixed B": ("sixteen rows and passes, four banks, an image of 16 KiB", mixed_b),
    "sequencer": ("examples/sequencer.form, an image of the real size", sequencer)}

# Those with placements of size 0, which are outside the domain in which the judge compares.
MARKED = ("sequencer",)

SERIES = {
    "nodes": ("labels in a row, one pass", [(f"{n:,}", wide(n)) for n in (256, 512, 1024, 2048, 4096)]),
    "nodes, mixed": ("mixed A with fewer nodes, two rows", [(f"{n:,}", mixed_a(n)) for n in (256, 512, 1024, 2048, 4096)]),
    "rows": ("rows over 161 nodes, a pass for each", [(str(n), deep(n)) for n in (1, 2, 4, 8, 16)]),
    "limit": ("pass limit over one unresolved row of 257 nodes", [(str(n), unresolved(n)) for n in (1, 2, 4, 16, 64, 255)]),
    **{f"offers, {order}": (f"items in {order} order", [(str(n), ordered(n, order)) for n in (64, 128, 256, 512)])
       for order in ("rising", "falling", "shuffled")},
    "image": ("KiB of image, one item", [(str(n), large(n)) for n in (1, 2, 4, 8, 16)])}


if __name__ == "__main__":
    manners.part(__doc__)
