#!/usr/bin/env python3
"""An example of the real size: the image of a motor sequencer, 40,960 bits in 10-bit words. sequencer.py >FILE writes it as a form 1 file.

Code in the first half, curves in the second, variables in memory that has no place in the image. The clamp force and current curves are long
literals, with marks of zero bits between them; some jumps are guessed long and turn out short, so that labels move from pass to pass; both
banks in the image are filled to their ends. Everything is reckoned here, nothing is drawn: the file is the same wherever it is made."""

import sys

import manners
from form1 import ADDR, ALIGN, ASSERT, CONSTANT, DATA, INSTRUCTION, LABEL, OPEN_DATA, RESERVE, RESOLVED, SWITCH, UNRESOLVED, Bank, Layout, encode

WORD = 10
HALF = 2_048 * WORD
CODE, CURVES, MEMORY = 1, 2, 3
BANKS = [
    Bank(),
    Bank(WORD, 0x000, HALF, 0, 4 * WORD, True),
    Bank(WORD, 0x800, HALF, HALF, None, True),
    Bank(WORD, 0x1000, 512 * WORD),
]


class Source:
    """Nodes, the rows of two passes, and the bits that the items are taken from."""

    def __init__(self):
        self.nodes, self.guess, self.found, self.bits = [], [], [], ""

    def put(self, kind, operand=0, number=0, guess=None):
        self.nodes.append((kind, operand))
        self.guess.append((number if guess is None else guess, RESOLVED if guess is None else UNRESOLVED))
        self.found.append((number, RESOLVED))

    def item(self, kind, words, guess=None):
        at = len(self.bits)
        self.bits += "".join(f"{word % 1024:010b}" for word in words)
        self.put(kind, at, len(words) * WORD, None if guess is None else guess * WORD)

    def layout(self):
        bits = self.bits + "0" * (-len(self.bits) % 8 + 24)   # a jump that is guessed long reads past the last word
        values = int(bits, 2).to_bytes(len(bits) // 8, "big")
        return Layout(BANKS, self.nodes, [self.guess, self.found], values, 10)


def code(source):
    """Forty routines of some instructions each; every fourth jump is guessed three words long and is two."""
    source.put(SWITCH, CODE)
    for routine in range(40):
        source.put(LABEL, 0)
        for step in range(6):
            source.item(INSTRUCTION, [64 + routine, step, 3 * step + routine][: 1 + (routine + step) % 3])
        source.item(INSTRUCTION, [512 + routine, (7 * routine) % 1024], guess=3 if routine % 4 == 0 else None)
        source.put(LABEL, 1)
    source.put(ALIGN, 0, 64 * WORD)
    source.put(LABEL, 0)
    source.item(DATA, [(16 * n) % 1024 for n in range(64)])
    source.put(ASSERT)


def curve(step, peak):
    """A curve of 256 points that rises with the square of the way and stays at its peak."""
    return [min(peak, step * n * n // 256) for n in range(256)]


def curves(source):
    """Three clamp force curves and two of motor current, marks between them, then limits, and a record at a place of its own."""
    source.put(SWITCH, CURVES)
    source.put(CONSTANT, 0)
    for step, peak in ((3, 900), (4, 960), (5, 1_020), (2, 640), (3, 760)):
        source.put(LABEL, 0)
        source.item(DATA, curve(step, peak))
        source.put(RESERVE, 0, 0)
    source.put(LABEL, 0)
    source.item(OPEN_DATA, [900, 960, 1_020, 640, 760])
    source.put(RESERVE, 0, 11 * WORD)
    source.put(ALIGN, 0, 128 * WORD)
    source.put(LABEL, 0)
    source.item(DATA, [n ^ (n >> 1) for n in range(128)])
    source.put(ADDR, 0, HALF - 4 * WORD)
    source.put(LABEL, 0)
    source.item(DATA, [0x2A5, 0x15A, 0x3FF, 0x001])


def memory(source):
    source.put(SWITCH, MEMORY)
    for words in (1, 1, 2, 4, 16, 64):
        source.put(LABEL, 0)
        source.put(RESERVE, 0, words * WORD)


def sequencer():
    source = Source()
    memory(source)
    code(source)
    curves(source)
    return source.layout()


def main():
    manners.parser(__doc__).parse_args()
    sys.stdout.buffer.write(encode(sequencer()))


if __name__ == "__main__":
    manners.run(main)
