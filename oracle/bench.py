#!/usr/bin/env python3
"""Document 02's Ticket 4 once more, in Python: a byte range from the overlay or the released image, and the runs that differ.

Written from the ticket and the readings settled for it (docs/DECISIONS.md), and from nothing else, so that it can stand beside the
proved library. Each part has the ticket's sentences above it. Numbers here have no width, so nothing can wrap.

    bench.py --generate SEED COUNT   random cases, as bindings/c/overlays.c reads them
    bench.py --expected              those cases on standard input; a line for each, as bindings/c/overlays.c prints it"""

import random
import struct
import sys

import manners


class Refused(Exception):
    """A refusal: its number and its place."""

    def __init__(self, number, place=0):
        self.number, self.place = number, place


# "4 for overlay blocks empty, not ascending or sharing a bit"; lists of offsets and sizes of different lengths are 4 too.
def blocks_of(offsets, sizes):
    if len(offsets) != len(sizes):
        raise Refused(4)
    blocks = list(zip(offsets, sizes))
    if any(size == 0 for _, size in blocks):
        raise Refused(4)
    for (first, size), (second, _) in zip(blocks, blocks[1:]):
        if second <= first or second < first + size:
            raise Refused(4)
    return blocks


# "A byte counts as covered only when all eight bits are."
def covered_bit(blocks, bit):
    return any(offset <= bit < offset + size for offset, size in blocks)


def bits_of(byte):
    return range(8 * byte, 8 * byte + 8)


def covered_byte(blocks, byte):
    return all(covered_bit(blocks, bit) for bit in bits_of(byte))


# "If every byte of the range is covered by overlay blocks, touching blocks counting together, it hands back that part of the overlay; if no
# bit of it is, that part of the released image." "16 for a range that is empty or outside either image, 17 (new) for a range partly covered".
def source(overlay, released, offsets, sizes, first, count):
    blocks = blocks_of(offsets, sizes)
    if count == 0 or first + count > len(overlay) or first + count > len(released):
        raise Refused(16)
    span = range(first, first + count)
    if all(covered_byte(blocks, byte) for byte in span):
        return 1
    if not any(covered_bit(blocks, bit) for byte in span for bit in bits_of(byte)):
        return 2
    raise Refused(17)


# "lists, ascending, each maximal run of covered bytes, inside both images, that differ between the two"; "14 for a short list".
def runs(overlay, released, offsets, sizes, rooms):
    blocks = blocks_of(offsets, sizes)
    listed = [byte for byte in range(min(len(overlay), len(released)))
              if overlay[byte] != released[byte] and covered_byte(blocks, byte)]
    found = []
    for byte in listed:
        if found and sum(found[-1]) == byte:
            found[-1][1] += 1
        else:
            found.append([byte, 1])
    if len(found) > min(rooms):
        raise Refused(14, 2)
    return found


# What a case is printed as: the range's refusal, image, start and length; the list's refusal, place and count; then both lent lists, which held
# 1,000,000 and its followers before the call.
def line(case):
    overlay, released, offsets, sizes, first, count, rooms = case
    try:
        answer = [0, source(overlay, released, offsets, sizes, first, count), first, count]
    except Refused as refused:
        answer = [refused.number, 0, 0, 0]
    firsts, counts = ([1_000_000 + i for i in range(room)] for room in rooms)
    try:
        found = runs(overlay, released, offsets, sizes, rooms)
        answer += [0, 0, len(found)]
        for i, (start, length) in enumerate(found):
            firsts[i], counts[i] = start, length
    except Refused as refused:
        answer += [refused.number, refused.place, 0]
    return " ".join(map(str, answer + firsts + counts))


# Cases on both sides of each rule: blocks that touch, share a bit, begin inside a byte or end past 64 bits; ranges past an image or past a number.
def generate(rng):
    length = rng.randrange(0, 14)
    released = bytes(rng.randrange(4) for _ in range(max(0, length + rng.randrange(-2, 3))))
    overlay = bytes(released[i] if i < len(released) and rng.random() < 0.4 else rng.randrange(4) for i in range(length))
    offsets, sizes, at = [], [], rng.choice((0, 0, rng.randrange(20)))
    for _ in range(rng.choice((0, 1, 1, 2, 3, 5))):
        size = rng.choice((8, 16, 24, rng.randrange(1, 30), rng.randrange(1, 8)))
        offsets.append(at)
        sizes.append(size)
        at += size + rng.choice((0, 0, 0, 1, 8, rng.randrange(12)))
    if offsets and rng.random() < 0.15:
        sizes[-1] = rng.choice((2 ** 64 - 1, 2 ** 64 - offsets[-1] - 1, 2 ** 63))
        if rng.random() < 0.3:
            offsets.append(rng.choice((2 ** 64 - 1, 5)))
            sizes.append(rng.choice((1, 2 ** 64 - 1)))
    if offsets and rng.random() < 0.12:
        fault = rng.randrange(4)
        k = rng.randrange(len(offsets))
        if fault == 0:
            sizes[k] = 0
        elif fault == 1:
            sizes[k] += 1
        elif fault == 2:
            sizes.pop()
        else:
            offsets.reverse()
    sizes = [size % 2 ** 64 for size in sizes]
    first = rng.randrange(max(1, min(len(overlay), len(released)))) if rng.random() < 0.9 else rng.randrange(length + 2)
    count = rng.choice((0, 1, 1, 1, 1, 1, 2, 2, 3, rng.randrange(length + 2)))
    if rng.random() < 0.05:
        first, count = rng.choice(((2 ** 64 - 1, 1), (2 ** 64 - 1, 2), (1, 2 ** 64 - 1), (0, 2 ** 64 - 1)))
    rooms = [rng.choice((0, 1, 2, 8, 8, 8)) for _ in range(2)]
    return overlay, released, offsets, sizes, first, count, rooms


def write(case, out):
    overlay, released, offsets, sizes, first, count, rooms = case
    out.write(struct.pack("<8Q", len(overlay), len(released), len(offsets), len(sizes), first, count, *rooms))
    out.write(overlay + released + struct.pack(f"<{len(offsets)}Q", *offsets) + struct.pack(f"<{len(sizes)}Q", *sizes))


def read(data):
    at = 0
    while at < len(data):
        lengths = struct.unpack_from("<8Q", data, at)
        at += 64
        overlay, released = data[at:at + lengths[0]], data[at + lengths[0]:at + lengths[0] + lengths[1]]
        at += lengths[0] + lengths[1]
        offsets = struct.unpack_from(f"<{lengths[2]}Q", data, at)
        at += 8 * lengths[2]
        sizes = struct.unpack_from(f"<{lengths[3]}Q", data, at)
        at += 8 * lengths[3]
        yield overlay, released, list(offsets), list(sizes), lengths[4], lengths[5], lengths[6:8]


def main():
    parser = manners.parser(__doc__)
    what = parser.add_mutually_exclusive_group(required=True)
    what.add_argument("--generate", nargs=2, type=manners.count, metavar=("SEED", "COUNT"))
    what.add_argument("--expected", action="store_true")
    asked = parser.parse_args()
    if asked.expected:
        try:
            cases = list(read(manners.given()))
        except struct.error:
            raise manners.Stop("standard input has no whole cases") from None
        for case in cases:
            print(line(case))
        return
    seed, count = asked.generate
    rng = random.Random(seed)
    for _ in range(count):
        write(generate(rng), sys.stdout.buffer)


if __name__ == "__main__":
    manners.run(main)
