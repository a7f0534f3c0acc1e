#!/usr/bin/env python3
"""The known departures, run on both sides: what docs/DIFFERENCES.md tells.

    differences.py [--judge COMMAND] [--other COMMAND]

For each the file in hexadecimal, what the Rust does where nothing stops it (`judge --raw`), and what document 01 says; neighbours in
which the two agree are among them, and the last line counts both. With --other, a side of the comparison, each is asked of it too,
and status 1 says that one answer is not document 01's."""

import shlex
import subprocess
import sys

import compare
import examples
import manners
import model
from examples import MARK_AFTER, MARK_BEFORE
from form1 import ADDR, ALIGN, CONSTANT, INSTRUCTION, LABEL, NOTHING, RESERVE, Bank, encode
from generate import laid


def store(*offers):
    """Offers to the store, in one bank: (position, size) written, (position, size, MARK) reserved. Each written item has the
    next byte of the values, so that one written over another shows in the image."""
    entries, here, start = [], 0, 0
    for position, size, *kind in offers:
        if position != here:
            entries.append((ADDR, 0, position))
        entries.append((kind[0] if kind else INSTRUCTION, 0 if kind else start, size))
        here, start = position + size, start + (0 if kind else 8)
    return laid([Bank(offset=0)], entries, b"\xff\x0f\x0f"[:start // 8], 1)


MARK = RESERVE
DEPARTURES = [
    ("empty-hides", "an empty reservation on the first bit of a stored item hides the item",
     store((0, 2), (0, 0, MARK), (1, 1))),
    ("empty-hides-P", "the same, as document 01's case has it: (0, 8), (0, 0), (4, 4)",
     store((0, 8), (0, 0, MARK), (4, 4))),
    ("empty-item-hides", "an empty written item does the same",
     store((0, 2), (0, 0), (1, 1))),
    ("empty-before", "the same three offers with the empty one first",
     store((0, 0, MARK), (0, 2), (1, 1))),
    ("empty-blocks", "a later item over an empty reservation",
     store((1, 0, MARK), (0, 2))),
    ("empty-two", "a later item over two empty reservations",
     store((6, 0, MARK), (4, 0, MARK), (3, 5))),
    ("empty-between", "a later item from one empty reservation to another",
     store((2, 0, MARK), (4, 0, MARK), (2, 2))),
    ("empty-and-item", "a later item over an empty reservation and an item",
     store((6, 2), (4, 0, MARK), (3, 4))),
    ("empty-inside-hidden", "an empty offer inside an item that an empty one hides",
     store((0, 2), (0, 0, MARK), (1, 0, MARK))),
    ("empty-named", "an empty reservation is named where a stored item is meant",
     store((1, 0, MARK), (1, 2), (0, 2))),
    ("empty-inside", "an empty offer strictly inside a stored item",
     store((0, 2), (1, 0, MARK))),
    ("empty-at-edges", "empty offers on the first bit of a stored item and just past its last",
     store((0, 2), (0, 0, MARK), (2, 0, MARK))),
    ("march", "the March failure: examples/clamp-mark-after.form",
     examples.clamp(MARK_AFTER)),
    ("march-before", "the same with the mark before the table: examples/clamp-mark-before.form",
     examples.clamp(MARK_BEFORE)),
    ("fill-empty-0", "a filled bank of size 0 at offset 0",
     laid([Bank(size=0, offset=0, fill=True)], [], b"", 1)),
    ("fill-empty-5", "a filled bank of size 0 at offset 5",
     laid([Bank(size=0, offset=5, fill=True)], [], b"", 1)),
    ("fill-empty-none", "a filled bank of size 0 without an offset",
     laid([Bank(size=0, fill=True)], [], b"", 1)),
    ("negative-1", "address -1 in bits, alignment 2",
     laid([Bank(unit=1, start=-1, offset=0)], [(ALIGN, 0, 2), (LABEL, 1, 0)], b"", 1)),
    ("negative-1-by-1", "address -1 in bits, alignment 1",
     laid([Bank(unit=1, start=-1, offset=0)], [(ALIGN, 0, 1), (LABEL, 1, 0)], b"", 1)),
    ("negative-3", "address -3 in bits, alignment 8",
     laid([Bank(unit=1, start=-3, offset=0)], [(ALIGN, 0, 8), (LABEL, 1, 0)], b"", 1)),
    ("negative-8", "address -8 in bits, alignment 8",
     laid([Bank(unit=1, start=-8, offset=0)], [(ALIGN, 0, 8), (LABEL, 1, 0)], b"", 1)),
    ("negative-label", "address -3 in bits, label alignment 8",
     laid([Bank(unit=1, start=-3, offset=0, align=8)], [(CONSTANT, 0, 0), (LABEL, 1, 0)], b"", 1)),
    ("negative-stack", "a stack below zero with an alignment: examples/stack.form",
     examples.stack_below_zero()),
    ("position-past", "a reservation that ends past 4,294,967,295",
     laid([Bank()], [(RESERVE, 0, 4_294_967_295), (RESERVE, 0, 1)], b"", 1)),
    ("image-long", "a filled bank one bit longer than the lent image",
     laid([Bank(size=131_073, offset=0, fill=True)], [], b"", 1)),
    ("full", "513 reservations of one bit, side by side",
     laid([Bank(offset=0)], [(RESERVE, 0, 1)] * 513, b"", 1)),
    ("full-marks", "513 empty reservations at one place",
     laid([Bank(offset=0)], [(RESERVE, 0, 0)] * 513, b"", 1)),
    ("banks-17", "17 banks",
     laid([Bank() for _ in range(17)], [], b"", 1)),
    ("nodes-4097", "4,097 nodes that do nothing",
     laid([Bank()], [(NOTHING, 0, 0)] * 4_097, b"", 1)),
    ("start-past", "a start of 2^40 + 1",
     laid([Bank(start=2 ** 40 + 1, offset=0)], [(LABEL, 1, 0)], b"", 1)),
]


def raw(judge, file):
    done = subprocess.run([*shlex.split(judge), "--raw", "--one"], input=file, stdout=subprocess.PIPE, check=True)
    return done.stdout.decode().strip()


def main():
    parser = manners.parser(__doc__)
    parser.add_argument("--judge", default=shlex.quote(str(compare.FOLDER / "judge")))
    parser.add_argument("--other")
    asked = parser.parse_args()
    depart = apart = 0
    for name, words, layout in DEPARTURES:
        file = encode(layout)
        print(f"{name}: {words}")
        print(f"  file     {file.hex() if len(file) < 400 else f'{len(file)} bytes'}")
        rust = raw(asked.judge, file)
        print(f"  Rust     {rust}")
        print(f"  document {model.line(file)}")
        depart += rust != model.line(file)
        if asked.other:
            here = compare.answers(asked.other, [file])[0]
            print(f"  here     {here}")
            apart += here != model.line(file)
    print(f"{len(DEPARTURES)} cases: {depart} in which the Rust departs, {len(DEPARTURES) - depart} in which it does not")
    if asked.other:
        print(f"{apart} in which this side is not document 01's")
        sys.exit(apart != 0)


if __name__ == "__main__":
    manners.run(main)
