"""On the bench: a released image and curves under trial; and a store of placements."""
from __future__ import annotations

from typing import Any, Iterable, List, NamedTuple, Optional, Tuple

from ._c import NONE, U8, U64, lend, lib, number, room
from ._records import ROOM, Records, Run, block_lists, pair, records_of
from ._types import Refused, accepted
from ._words import say


class Overlay:
    r"""A released image and an overlay of curves under trial, at the same offsets; `blocks` (offset and bits) say what the overlay covers.

    >>> trial = Overlay(overlay=b"\0\7\7\0", released=b"\0\3\3\0", blocks=[(8, 16)])
    >>> trial.runs(), trial.image_of(1, 2), trial.image_of(3, 1)
    ([Run(first=1, length=2)], 'overlay', 'released')
    >>> trial.image_of(0, 2)
    Traceback (most recent call last):
    denkumari.Refused: refused 17 0: an overlay covers a range only in part
    """

    def __init__(self, overlay: Any, released: Any, blocks: Iterable[Any]):
        self._overlay, self._released, self._blocks = overlay, released, [pair(block) for block in blocks]
        self._lent()

    def _lent(self) -> List[Any]:
        return [*lend("the overlay", self._overlay), *lend("the released image", self._released), *block_lists(self._blocks)]

    def image_of(self, first: int, count: int) -> str:
        """Which image the `count` bytes from byte `first` on come from, 'overlay' or 'released'. Refused 17 where the overlay covers a part of them, 16
        where they are none or outside either image."""
        asked = number("first", first, 0, NONE), number("count", count, 0, NONE)
        return ("", "overlay", "released")[accepted(lib.dk_overlay_range(*self._lent(), *asked)).image]

    def runs(self) -> List[Run]:
        """Each longest run of bytes that the overlay covers and that differ, ascending."""
        lent = self._lent()
        most = min(lent[1], lent[3]) // 2 + 1  # runs have a byte between them
        firsts, counts = room(U64, most), room(U64, most)
        answer = accepted(lib.dk_overlay_runs(*lent, *firsts, *counts))
        return [Run(*each) for each in zip(firsts[0][:answer.count], counts[0][:answer.count])]


def bench(released: Any, overlay: Any, window: Optional[Tuple[int, int]] = None) -> Any:
    """Two files of records, each a text, a path or an `IntelHex`: the runs of addresses that both give and at which the overlay differs. With `window`,
    an address and a count, which of the two those bytes come from: 'overlay' or 'released'.

    >>> from denkumari import write_hex
    >>> bench(write_hex(bytes(8), 0x100), write_hex(bytes([1, 1]), 0x102))
    [Run(first=258, length=2)]
    """
    under, above = records_of(released), records_of(overlay)
    base = min([each.load for each in (under, above) if each.blocks], default=0)
    if window is None:
        return [Run(base + run.first, run.length) for run in _overlay(under, above, base).runs()]
    return _source(under, above, *pair(window, "a window is an address and a count"), base)


def _overlay(under: Records, above: Records, base: int) -> Overlay:
    """Two files as images from one address on, each up to its last byte. Where the released file gives no byte none differs."""
    top, bottom = (bytearray(max(sum(each.blocks[-1]) - base, 0) if each.blocks else 0) for each in (above, under))
    for run in above.blocks:
        top[run.first - base:sum(run) - base] = above.data[run.first - above.load:sum(run) - above.load]
    bottom[:len(top)] = top[:len(bottom)]
    for run in under.blocks:
        bottom[run.first - base:sum(run) - base] = under.data[run.first - under.load:sum(run) - under.load]
    return Overlay(top, bottom, [(8 * (run.first - base), 8 * run.length) for run in above.blocks])


def _first_free(file: Records, address: int) -> int:
    """The first address from here on that a file does not give."""
    return next((sum(run) for run in file.blocks if run.first <= address < sum(run)), address)


def _source(under: Records, above: Records, address: int, count: int, base: int) -> str:
    """Which file a range comes from, or Refused with the file that does not give all of it, and the first address."""
    if count == 0:
        raise Refused(16, 0, words=say("BENCH_EMPTY"))
    free, lack = _first_free(under, address), _first_free(above, address)
    is_in_released = bool(under.blocks) and address + count <= sum(under.blocks[-1])
    name, at = ("overlay", lack) if is_in_released else ("released", free)
    low = max(min(base, address), base - ROOM)
    try:
        source = _overlay(under, above, low).image_of(address - low, count) if address >= low else ""
    except Refused as refused:
        cause = "BENCH_PARTLY" if refused.number == 17 else "BENCH_OUTSIDE"
        raise Refused(refused.number, 0, words=say(cause, note=f"{name} gives no byte at {at} (0x{at:08x})")) from None
    if source == "overlay" or source == "released" and address + count <= free:
        return source
    raise Refused(16, 0, words=say("BENCH_OUTSIDE", note=f"released gives no byte at {free} (0x{free:08x})"))


class Kept(NamedTuple):
    """A placement of a store: so many bits from a bit on."""

    position: int
    bits: int


class Store:
    """Placements that share no bit: up to 512 intervals, and up to 512 marks, which no interval has strictly inside.

    >>> store = Store()
    >>> store.offer(0, 128)
    >>> store.offer(64, 32)
    Traceback (most recent call last):
    denkumari.Refused: refused 12 0 128: a placement would share a bit with another, or have a mark strictly inside it, or is a mark strictly inside another
    >>> store.offer(128, 0)
    >>> store.intervals, store.marks
    ([Kept(position=0, bits=128)], [128])
    """

    def __init__(self) -> None:
        self._positions, self._sizes, self._marks = (U64 * 512)(), (U64 * 512)(), (U64 * 512)()
        self._counts = (0, 0)

    def offer(self, position: int, bits: int) -> None:
        """Puts bits in, none of them as a mark. Refused 12 where they meet what stands (its start and size in `place` and `second`), 13 where the store
        is full."""
        asked = number("the position", position, 0, NONE), number("the bits", bits, 0, NONE)
        answer = accepted(lib.dk_offer(self._positions, self._sizes, self._counts[0], self._marks, self._counts[1], *asked))
        self._counts = (answer.count, answer.marks)

    def offer_all(self, placements: Iterable[Any]) -> None:
        """Many placements, each a position and its bits, all or none: where one is refused nothing is put in, and `node` is its number, from 0. One look at
        the store for all of them.

        >>> store = Store()
        >>> store.offer_all([(0, 8), (16, 8), (8, 0)])
        >>> store.intervals, store.marks
        ([Kept(position=0, bits=8), Kept(position=16, bits=8)], [8])
        """
        listed = [pair(each, "a placement is a position and a number of bits") for each in placements]
        answer = lib.dk_offers(self._positions, self._sizes, self._counts[0], self._marks, self._counts[1], *block_lists(listed))
        if answer.refusal:
            raise Refused(answer.refusal, answer.place, answer.second, node=answer.offer)
        self._counts = (answer.count, answer.marks)

    @property
    def intervals(self) -> List[Kept]:
        """What is stored, ascending."""
        return [Kept(*each) for each in zip(self._positions[:self._counts[0]], self._sizes[:self._counts[0]])]

    @property
    def marks(self) -> List[int]:
        """The marks, ascending."""
        return list(self._marks[:self._counts[1]])


def hex_digits(data: Any, bits: Optional[int] = None) -> str:
    r"""The first bits of some bytes in hex, four a digit, the last padded with zero bits; all of them unless said.

    >>> hex_digits(b"\xff\xc0", 10)
    'ffc'
    """
    lent = lend("the bytes", data)
    count = 8 * lent[1] if bits is None else number("bits", bits, 0, NONE)
    text = (U8 * (2 * lent[1]))()
    return bytes(text[:accepted(lib.dk_hex(*lent, count, text, len(text))).count]).decode("ascii")
