#!/usr/bin/env python3
"""Writes examples/: layout files that look like real ones, of form 1 where nothing else is said. examples.py [--table] [FOLDER]

The folder is examples/ unless one is named, and is made where there is none. `--table` writes no file and prints what each prints, as examples/README.md
has it."""

from pathlib import Path
from struct import pack

import manners
import model
from form1 import (ADDR, ALIGN, ASSERT, CONSTANT, DATA, INSTRUCTION, LABEL, OPEN_DATA, RESERVE, SWITCH, Bank, Layout, encode,
                   worked_example)
from sequencer import sequencer

MARK_BEFORE, MARK_AFTER = "before", "after"

# Clamp force in daN for each of eight steps of the spindle, a word each.
CLAMP_FORCE = pack(">8H", 0, 120, 260, 420, 600, 800, 1_020, 1_260)
# Motor current limits in mA, two words.
CURRENT_LIMITS = pack(">2H", 9_500, 14_000)


def one_row(banks, entries, values, limit=10):
    return Layout(banks, [entry[:2] for entry in entries], [[(entry[2] if len(entry) > 2 else 0, 0) for entry in entries]], values, limit)


def clamp(mark, second_at=64):
    """The clamp force table in flash, a mark of zero bits on its first word, and a second table at a place of its own. With the
    second table inside the first, the Rust refuses it only if the mark comes before the table."""
    table = [(LABEL, 0), (DATA, 0, 128)]
    mark_before = [(RESERVE, 0, 0)] if mark == MARK_BEFORE else []
    mark_after = [(ADDR, 0, 0), (RESERVE, 0, 0)] if mark == MARK_AFTER else []
    second = [(ADDR, 0, second_at), (LABEL, 0), (DATA, 128, 32)]
    return one_row([Bank(), Bank(8, 0x8000, 512, 0)], [(SWITCH, 1)] + mark_before + table + mark_after + second, CLAMP_FORCE + CURRENT_LIMITS)


def mark_inside(mark_first):
    """A mark of zero bits in the middle of what becomes the clamp force table, and the table, in either order of their lines."""
    mark = [(ADDR, 0, 32), (RESERVE, 0, 0)]
    table = [(ADDR, 0, 0), (LABEL, 0), (DATA, 0, 128)]
    return one_row([Bank(), Bank(8, 0x8000, 512, 0)], [(SWITCH, 1)] + (mark + table if mark_first else table + mark), CLAMP_FORCE)


def several_banks():
    """Code and curves in flash, variables in memory without output, a stack that is numbered downwards from address 0."""
    banks = [Bank(), Bank(8, 0x0100, 256, 0, None, True), Bank(16, 0x4000, 128, 256, 32, True), Bank(8, 0x20, 64), Bank(8, -8, 64)]
    entries = [
        (SWITCH, 1), (LABEL, 0), (INSTRUCTION, 0, 24), (INSTRUCTION, 24, 16), (CONSTANT, 0),
        (SWITCH, 3), (LABEL, 0), (RESERVE, 0, 16), (LABEL, 0), (RESERVE, 0, 8),
        (SWITCH, 2), (LABEL, 0), (DATA, 40, 48), (LABEL, 0), (OPEN_DATA, 88, 16),
        (SWITCH, 4), (LABEL, 0), (RESERVE, 0, 64),
        (SWITCH, 1), (ALIGN, 0, 64), (LABEL, 0), (INSTRUCTION, 104, 24)]
    return one_row(banks, entries, bytes.fromhex("0e004012340010004600b40168aaaa7f0001"))


def stack_below_zero():
    """A stack that is numbered downwards from address 0, with its frames aligned below zero: from bit -40 the next multiple of
    32 is bit -32, eight bits on, and the last frame ends at address 0."""
    entries = [
        (SWITCH, 1), (LABEL, 0), (INSTRUCTION, 0, 16),
        (SWITCH, 2), (LABEL, 0), (DATA, 16, 8), (ALIGN, 0, 32), (LABEL, 0), (DATA, 24, 32)]
    return one_row([Bank(), Bank(8, 0x0100, 64, 0), Bank(8, -6, 48, 64)], entries, bytes.fromhex("0e4001a5deadbe"))


def several_passes():
    """A jump that is guessed long, then short: the labels behind it move, then stand still. Three passes and a last one."""
    nodes = [(SWITCH, 1), (LABEL, 0), (INSTRUCTION, 0), (LABEL, 0), (DATA, 24), (CONSTANT, 0), (LABEL, 0), (ASSERT, 0)]
    first = [(0, 0), (0, 0), (24, 2), (0, 0), (16, 0), (0, 1), (0, 0), (0, 2)]
    later = [(0, 0), (0, 0), (16, 1), (0, 0), (16, 0), (0, 0), (0, 0), (0, 0)]
    return Layout([Bank(), Bank(8, 0x100, 128, 0)], nodes, [first, later], bytes.fromhex("eb05c0beef"), 10)


def past_the_end():
    """A table that ends one bit past its bank."""
    return one_row([Bank(), Bank(8, 0, 40, 0)], [(SWITCH, 1), (LABEL, 0), (DATA, 0, 24), (DATA, 0, 17)], bytes.fromhex("123456"))


def lock():
    """A filled byte, and behind it a bank of one bit, filled too."""
    return one_row([Bank(), Bank(8, 0, 8, 0, None, True), Bank(1, 8, 1, 8, None, True)], [(SWITCH, 1), (DATA, 0, 8)], b"\xa5")


def erased():
    """Flash that reads ones when erased: gaps and reserved bits of the two filled banks are ones, those of the third stay zero."""
    banks = [Bank(), Bank(8, 0x0000, 64, 0, None, True, 1), Bank(8, 0x0100, 48, 64, None, True, 1), Bank(8, 0x0200, 32, 112)]
    entries = [(SWITCH, 1), (LABEL, 0), (DATA, 0, 16), (RESERVE, 0, 16), (DATA, 16, 12),
               (SWITCH, 2), (LABEL, 0), (DATA, 32, 8), (SWITCH, 3), (RESERVE, 0, 8), (DATA, 40, 8)]
    layout = one_row(banks, entries, bytes.fromhex("0e40a5500077"))
    layout.form = 2
    return layout


PAGE = 64


def paged(align=16, offset=128, size=128, unit=16, addr=32):
    """Two banks of whole pages of 64 bits, and memory without output. Each of the numbers can break a rule of the profile."""
    banks = [Bank(8), Bank(8, 0x0000, 128, 0, None, True), Bank(unit, 0x0100, size, offset, 32, True), Bank(8, 0x4000, 100)]
    entries = [(SWITCH, 1), (LABEL, 0), (DATA, 0, 24), (ALIGN, 0, align), (LABEL, 0), (DATA, 24, 8),
               (SWITCH, 3), (LABEL, 0), (RESERVE, 0, 20), (SWITCH, 2), (LABEL, 0), (DATA, 32, 16), (ADDR, 0, addr), (DATA, 48, 16)]
    return one_row(banks, entries, bytes.fromhex("1234567890abcdef"))


def alone():
    """A layout of form 2 that uses bank 0, its only bank."""
    layout = one_row([Bank(8, 0, 64, 0)], [(LABEL, 0), (DATA, 0, 16)], b"\x12\x34")
    layout.form = 2
    return layout


EXAMPLES = {
    "worked": ("document 01's worked example", worked_example()),
    "clamp-mark-after": (
        "the March failure: a clamp force table, then a mark of zero bits on its first word, then a second table that lands inside the first",
        clamp(MARK_AFTER),
    ),
    "clamp-mark-before": ("the same lines with the mark before the table", clamp(MARK_BEFORE)),
    "clamp-apart": ("the same with the second table behind the first, as it was meant", clamp(MARK_AFTER, 128)),
    "mark-then-table": (
        "a mark in the middle of the table, on a line before it: since marks count wherever they come, the table is refused, and the mark named with size 0",
        mark_inside(True),
    ),
    "table-then-mark": ("the same lines the other way round: the mark is refused, and the table named", mark_inside(False)),
    "banks": ("code, curves, memory without output and a stack below address 0, in four banks", several_banks()),
    "stack": ("a stack that is numbered downwards from address 0, with an alignment below zero", stack_below_zero()),
    "passes": ("a jump that turns out short, so that labels move in the second pass and stand still in the third", several_passes()),
    "past-the-end": ("a table that ends one bit past its bank", past_the_end()),
    "sequencer": (
        "an image of the real size, 40,960 bits in 10-bit words: code, curves as long literals with marks between them, two filled banks, "
        "labels that move from pass to pass",
        sequencer(),
    ),
}

EXAMPLES |= {
    "lock": ("a lock bank of one bit behind a filled byte: the inherited fill leaves it out, full fill has it", lock()),
    "erased": ("form 2: flash that is erased to ones, with gaps and a reserve", erased()),
    "alone": ("form 2 with bank 0 alone, and form 2 forbids its use", alone()),
    "paged": ("whole pages of 64 bits, for the paged device", paged()),
    "paged-alignment": ("the same with an alignment of 24, which is not a power of two", paged(align=24)),
    "paged-offset": ("the same with a bank that starts in the middle of a page", paged(offset=160)),
    "paged-size": ("the same with a bank of one page and a half", paged(size=96)),
    "paged-unit": ("the same with an address unit of 32", paged(unit=32)),
    "paged-addr": ("the same with an `addr` between two addresses of its bank", paged(addr=40)),
}

# What else is printed of an example, with the program's options: of the model, and as they are written.
WITH_OPTIONS = (
    ("lock", "--fill full", model.Choices(fill=model.FULL)),
    ("paged", "--page 64", model.Choices(page=PAGE)),
    ("paged", "--page 24", model.Choices(page=24)),
    ("paged-alignment", "--page 64", model.Choices(page=PAGE)),
    ("paged-offset", "--page 64", model.Choices(page=PAGE)),
    ("paged-size", "--page 64", model.Choices(page=PAGE)),
    ("paged-unit", "--page 64", model.Choices(page=PAGE)),
    ("paged-addr", "--page 64", model.Choices(page=PAGE)),
)


def shown(lines):
    """The lines as the page has them: of many the first and the last, of a long one its beginning."""
    few = lines if len(lines) <= 12 else lines[:3] + [".."] + lines[-3:]
    return [line if len(line) <= 140 else f"{line[:60]} .. ({len(line) - 6} digits)" for line in few]


def main():
    parser = manners.parser(__doc__)
    parser.add_argument("--table", action="store_true")
    parser.add_argument("folder", nargs="?", type=Path, default=manners.ROOT / "examples", metavar="FOLDER")
    asked = parser.parse_args()
    if asked.table:
        for name, (words, layout) in EXAMPLES.items():
            print(f"`{name}.form`: {words}.\n")
            print("".join(f"    {line}\n" for line in shown(model.printed(encode(layout)).splitlines())))
            for other, options, choices in WITH_OPTIONS:
                if other == name:
                    print(f"With `{options}`:\n")
                    print("".join(f"    {line}\n" for line in shown(model.printed(encode(layout), choices).splitlines())))
        return
    asked.folder.mkdir(exist_ok=True)
    for name, (_, layout) in EXAMPLES.items():
        (asked.folder / f"{name}.form").write_bytes(encode(layout))


if __name__ == "__main__":
    manners.run(main)
