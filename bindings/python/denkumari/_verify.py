"""Read-back: what was flashed, held against the layout."""
from __future__ import annotations

import os
from bisect import bisect_right
from typing import Any, Iterator, List, NamedTuple, Optional, Sequence, Tuple, Union

from ._c import U8, U64, lend, lib, number, room
from ._layout import Built, Layout
from ._records import Records, Run, block_lists, records_of
from ._types import Block, Kind, Refused

MISSING, DIFFERENT = 1, 2


class Difference(NamedTuple):
    """A word that is not what the layout says. `node` is the item (or, with `whole`, the reserve) that has it, None for fill and gaps; `bank` and
    `address` are its bank's own, `past` the bits behind that address where an item begins between two; it is `bits` bits of the image from bit `offset`
    on. `read` is None where the dump does not give all of it.

    >>> print(Difference(381, "curve 381", 1, 0x820, 0, 96, 8, 0x07, 0x03))
    curve 381, word 0x820: 03, should be 07
    """

    node: Optional[int]
    name: str
    bank: Optional[int]
    address: int
    past: int
    offset: int
    bits: int
    expected: int
    read: Optional[int]

    def __str__(self) -> str:
        digits = (self.bits + 3) // 4
        who = self.name or (f"node {self.node}" if self.node is not None else "no bank" if self.bank is None else f"bank {self.bank}, no item")
        what = "byte" if self.bank is None else "word"
        stands = "not given" if self.read is None else f"{self.read:0{digits}x}"
        sign = "-" if self.address < 0 else ""
        past = f" and {self.past} bit{'' if self.past == 1 else 's'}" if self.past else ""
        return f"{who}, {what} {sign}{abs(self.address):#x}{past}: {stands}, should be {self.expected:0{digits}x}"


class Differing(NamedTuple):
    """A longest run of addresses that the dump does not give ('missing'), or gives with other bytes ('different')."""

    first: int
    length: int
    kind: str


class Verified:
    """What a dump is, beside a layout. `same` says whether every byte that was asked for is given with its value; `runs` are the addresses at which it is
    not, and `differences` the words there, which it also iterates over."""

    def __init__(self, runs: List[Differing], differences: List[Difference]):
        self.same, self.runs, self.differences = not runs, runs, differences

    def __iter__(self) -> Iterator[Difference]:
        return iter(self.differences)

    def __len__(self) -> int:
        return len(self.differences)

    def __bool__(self) -> bool:
        raise TypeError("what verify() answers is neither true nor false: ask its .same")

    def __str__(self) -> str:
        return "\n".join(map(str, self.differences)) or "the same"


class Segment(NamedTuple):
    """Bits of the image that belong to one node, or to nothing: where they stand in their bank."""

    offset: int
    bits: int
    node: Optional[int]
    name: str
    bank: Optional[int]
    position: int


def _segments(layout: Layout, fill: str, total: int) -> List[Segment]:
    """All bits of an image, in order: items, reserves, and what no node has."""
    placed = sorted((each for each in layout.map(fill) if each.kind.placed and each.bits and each.output is not None), key=lambda each: each.output or 0)
    owned = [Segment(each.output or 0, each.bits, each.node, each.name if each.kind != Kind.RESERVE else each.name or f"reserve, node {each.node}", each.bank,
                     each.position) for each in placed]
    out: List[Segment] = []
    at = 0
    for segment in [*owned, Segment(total, 0, None, "", None, 0)]:
        out.extend(_gap(layout, at, segment.offset))
        out.append(segment)
        at = max(at, segment.offset + segment.bits)
    return [segment for segment in out if segment.bits and segment.offset < total]


def _gap(layout: Layout, at: int, behind: int) -> Iterator[Segment]:
    """Bits that no node has, bank by bank."""
    for first, i, size in sorted((bank.offset, i, bank.size) for i, bank in enumerate(layout.banks) if bank.offset is not None):
        end = behind if size is None else first + size
        if at < first < behind:
            yield Segment(at, first - at, None, "", None, at)
            at = first
        if first <= at < min(end, behind):
            yield Segment(at, min(end, behind) - at, None, "", i, at - first)
            at = min(end, behind)
    if at < behind:
        yield Segment(at, behind - at, None, "", None, at)


def _words(layout: Layout, segment: Segment, load: int, low: int, high: int) -> Iterator[Difference]:
    """The words of a segment that have a bit from `low` to `high`; what stands in them is not looked at yet."""
    unit, start = (8, load) if segment.bank is None else (layout.banks[segment.bank].unit, layout.banks[segment.bank].start)
    at = max(low - segment.offset, 0)
    position = max(segment.position, (segment.position + at) // unit * unit)
    while position < segment.position + segment.bits and segment.offset + position - segment.position < high:
        take = min(unit - position % unit, segment.position + segment.bits - position)
        yield Difference(segment.node, segment.name, segment.bank, start + position // unit, position % unit,
                         segment.offset + position - segment.position, take, 0, None)
        position += take


def _bits(data: Any, offset: int, bits: int) -> int:
    behind = offset + bits
    return int.from_bytes(data[offset // 8:(behind + 7) // 8], "big") >> -behind % 8 & ((1 << bits) - 1)


def _within(segment: Segment, block: Block) -> Segment:
    """What a block has of a segment: what lies beside it was not asked for."""
    first, end = max(segment.offset, block.offset), min(segment.offset + segment.bits, sum(block))
    return segment._replace(offset=first, bits=max(end - first, 0), position=segment.position + first - segment.offset)


def _listed(layout: Layout, fill: str, load: int, image: memoryview, data: Any, blocks: Sequence[Block],
            runs: Sequence[Tuple[int, int, int]]) -> List[Difference]:
    """The words that runs of bytes touch and whose bits, as far as blocks ask for them, are not given or differ."""
    segments = _segments(layout, fill, 8 * image.nbytes) if runs else []
    starts, found, behind = [segment.offset for segment in segments], [], 0
    missing = [(8 * first, 8 * (first + count)) for first, count, kind in runs if kind == MISSING]
    ends, asked = [end for _, end in missing], [block.offset for block in blocks]
    for first, count, _ in runs:
        low, high = max(8 * first, behind), 8 * (first + count)
        for segment in segments[max(bisect_right(starts, low) - 1, 0):bisect_right(starts, high)]:
            for word in _words(layout, _within(segment, blocks[bisect_right(asked, 8 * first) - 1]), load, low, high):
                if word.offset + word.bits <= low:
                    continue
                behind = word.offset + word.bits
                near = bisect_right(ends, word.offset)
                is_missing = near < len(missing) and missing[near][0] < behind
                expected, read = _bits(image, word.offset, word.bits), None if is_missing else _bits(data, word.offset, word.bits)
                if expected != read:
                    found.append(word._replace(expected=expected, read=read))
    return found


def _runs(image: Any, blocks: Sequence[Block], data: Any, given: Sequence[Block]) -> List[Tuple[int, int, int]]:
    """First byte, count and kind of each longest run of bytes that are not given, or not the same."""
    lent, most = [*lend("the image", image), *block_lists(blocks), *lend("the dump", data), *block_lists(given)], min(len(image), 4096)
    while True:
        firsts, counts, kinds = room(U64, most), room(U64, most), room(U8, most)
        answer = lib.dk_verify(*lent, *firsts, *counts, *kinds)
        if answer.refusal != 14 or most >= len(image):
            break
        most = min(16 * most, len(image))
    if answer.refusal:
        raise Refused(answer.refusal, answer.place)
    return list(zip(firsts[0][:answer.count], counts[0][:answer.count], kinds[0][:answer.count]))


def _window(dump: Records, load: int, length: int) -> Tuple[Any, List[Block]]:
    """What a dump gives from an address on, as far as an image reaches: its bytes and blocks."""
    cut = [Run(max(run.first, load), min(sum(run), load + length) - max(run.first, load)) for run in dump.blocks]
    runs = [run for run in cut if run.length > 0]
    blocks = [Block(8 * (run.first - load), 8 * run.length) for run in runs]
    if dump.load == load and dump.data.nbytes >= length:
        return dump.data[:length], blocks
    held = bytearray(length)
    for run in runs:
        held[run.first - load:sum(run) - load] = dump.data[run.first - dump.load:sum(run) - dump.load]
    return memoryview(held), blocks


def verify(layout: Union[Layout, "os.PathLike[str]"], dump: Any, load: int = 0, whole: bool = False, fill: str = "inherited") -> Verified:
    """Holds what was read back against a layout whose image begins at address `load`: every byte that an item has a bit of, or with `whole` every byte of
    the image. `dump` is the text of Intel HEX or S-records, a pathlib.Path of such a file, `Records`, or an `IntelHex` object. What it gives outside the
    image is not looked at.

    >>> curves = Layout()
    >>> flash = curves.bank(unit=10, start=0x820, size=40, offset=0)
    >>> nodes = [curves.switch(flash)] + [curves.item(10, value, f"curve {380 + i}") for i, value in enumerate((1, 7, 2, 3))]
    >>> flashed = curves.build().to_hex(load=0x8000)
    >>> verify(curves, flashed, load=0x8000).same
    True
    >>> damaged = bytearray(curves.build().image); damaged[2] ^= 0x40
    >>> print(verify(curves, Records.from_bytes(damaged, 0x8000), load=0x8000))
    curve 381, word 0x821: 003, should be 007
    """
    made = layout if isinstance(layout, Layout) else Layout.from_file(layout)
    start, built = number("load", load, 0, 2**32 - 1), made.build(fill)
    blocks = _asked(built, whole)
    data, given = _window(records_of(dump), start, built.image.nbytes)
    runs = _runs(built.image, blocks, data, given)
    listed = _listed(made, fill, start, built.image, data, blocks, runs)
    return Verified([Differing(start + first, count, ("", "missing", "different")[kind]) for first, count, kind in runs], listed)


def _asked(built: Built, whole: bool) -> List[Block]:
    """The bytes that have to be there, as blocks: all of them, or each that an item has a bit of. Blocks off byte edges, of 10-bit words say, are widened, and
    joined where they meet then."""
    if whole:
        return [Block(0, 8 * built.image.nbytes)] if built.image.nbytes else []
    out: List[Block] = []
    for offset, bits in built.blocks:
        first, end = offset // 8 * 8, (offset + bits + 7) // 8 * 8
        if out and first <= sum(out[-1]):
            out[-1] = Block(out[-1].offset, end - out[-1].offset)
        else:
            out.append(Block(first, end - first))
    return out
