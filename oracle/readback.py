#!/usr/bin/env python3
"""A read-back once more, in Python: the runs of bytes that an image's blocks ask for and that what was read back does not give, or gives with another value.

Written from the words of include/denkumari.h and document 01's rules of blocks and parts, and from nothing else, so that it can stand beside the proved
library. Numbers here have no width, so nothing can wrap.

    readback.py --generate SEED COUNT   random cases, as bindings/c/readback.c reads them
    readback.py --expected              those cases on standard input; a line for each, as bindings/c/readback.c prints it"""

import random
import struct
import sys
from itertools import groupby

import manners


class Refused(Exception):
    """A refusal: its number and its place."""

    def __init__(self, number, place=0):
        self.number, self.place = number, place


# 4: unpaired, empty, not ascending or sharing a bit
def in_order(offsets, sizes):
    if len(offsets) != len(sizes) or 0 in sizes:
        return False
    ends = [offset + size for offset, size in zip(offsets, sizes)]
    return all(end <= offset for end, offset in zip(ends, offsets[1:]))


# the bytes of the blocks; 16: "a part of an image is empty, outside it, or not on byte edges"
def bytes_of(offsets, sizes, length):
    out = set()
    for offset, size in zip(offsets, sizes):
        if offset % 8 or size % 8 or offset + size > 8 * length:
            raise Refused(16)
        out.update(range(offset // 8, (offset + size) // 8))
    return out


# each longest run of bytes of one kind: 1 asked for and not given, 2 given with another value; 14 for a short list
def runs(image, blocks, found, given_blocks, rooms):
    if not in_order(*blocks) or not in_order(*given_blocks):
        raise Refused(4)
    asked, given = bytes_of(*blocks, len(image)), bytes_of(*given_blocks, len(found))
    kinds = [(1 if b not in given else 2 if image[b] != found[b] else 0) if b in asked else 0 for b in range(len(image))]
    out, at = [], 0
    for kind, same in groupby(kinds):
        count = len(list(same))
        if kind:
            out.append((at, count, kind))
        at += count
    if len(out) > min(rooms):
        raise Refused(14, 2)
    return out


# What a case is printed as: refusal, place and count; then the three lent lists, which held 100 and its followers before the call.
def line(case):
    image, found, blocks, given_blocks, rooms = case
    lists = [[100 + i for i in range(room)] for room in rooms]
    try:
        listed = runs(image, blocks, found, given_blocks, rooms)
        answer = [0, 0, len(listed)]
        for i, run in enumerate(listed):
            for column, number in zip(lists, run):
                column[i] = number
    except Refused as refused:
        answer = [refused.number, refused.place, 0]
    return " ".join(map(str, answer + lists[0] + lists[1] + lists[2]))


# Blocks of whole bytes, most of them inside; some that touch, share a bit, are off a byte's edge or end past 64 bits.
def some_blocks(rng, length):
    if length and rng.random() < 0.3:
        return [0], [8 * length]
    offsets, sizes, at = [], [], rng.choice((0, 0, 1, 2))
    while at < length and rng.random() < 0.85:
        count = rng.randrange(1, min(length - at, 5) + 1)
        offsets.append(8 * at)
        sizes.append(8 * count)
        at += count + rng.choice((0, 0, 1, 3))
    if offsets and rng.random() < 0.15:
        k = rng.randrange(len(offsets))
        sizes[k] = rng.choice((0, 4, sizes[k] + 8, sizes[k] + 1, 2 ** 64 - 8, 2 ** 64 - offsets[k]))
        offsets[k] = rng.choice((offsets[k], offsets[k] + 1, offsets[0], 2 ** 64 - 8))
    if rng.random() < 0.03:
        sizes.append(8)
    return [x % 2 ** 64 for x in offsets], [x % 2 ** 64 for x in sizes]


def generate(rng):
    image = bytes(rng.randrange(4) for _ in range(rng.randrange(0, 20)))
    found = bytes(x if rng.random() < 0.7 else rng.randrange(4) for x in image)[:max(0, len(image) + rng.choice((0, 0, 0, -3)))]
    found += bytes(rng.choice((0, 0, 0, 4)))
    rooms = [rng.choice((1, 3, 20, 20, 20, 20)) for _ in range(3)]
    return image, found, some_blocks(rng, len(image)), some_blocks(rng, len(found)), rooms


def write(case, out):
    image, found, blocks, given_blocks, rooms = case
    lists = [*blocks, *given_blocks]
    out.write(struct.pack("<9Q", len(image), len(found), *map(len, lists), *rooms))
    out.write(image + found + b"".join(struct.pack(f"<{len(x)}Q", *x) for x in lists))


def read(data):
    at = 0
    while at < len(data):
        head = struct.unpack_from("<9Q", data, at)
        at += 72
        image, found = data[at:at + head[0]], data[at + head[0]:at + head[0] + head[1]]
        at += head[0] + head[1]
        lists = []
        for count in head[2:6]:
            lists.append(list(struct.unpack_from(f"<{count}Q", data, at)))
            at += 8 * count
        yield image, found, lists[:2], lists[2:], head[6:]


def main():
    parser = manners.parser(__doc__)
    what = parser.add_mutually_exclusive_group(required=True)
    what.add_argument("--generate", nargs=2, type=manners.count, metavar=("SEED", "COUNT"))
    what.add_argument("--expected", action="store_true")
    asked = parser.parse_args()
    if asked.expected:
        try:
            cases = list(read(manners.given()))
        except struct.error:
            raise manners.Stop("standard input has no whole cases") from None
        for case in cases:
            print(line(case))
        return
    seed, count = asked.generate
    rng = random.Random(seed)
    for _ in range(count):
        write(generate(rng), sys.stdout.buffer)


if __name__ == "__main__":
    manners.run(main)
