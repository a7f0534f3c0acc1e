"""Files of records: Intel HEX and S-records, written and read."""
from __future__ import annotations

import os
from bisect import bisect_right
from pathlib import Path
from typing import Any, Callable, Iterable, List, NamedTuple, Optional, Tuple, Union

from ._c import I64, MOST, NONE, U8, U64, Reason, front, given, lend, lib, number, room, room_for_bytes, view
from ._types import Block, Refused, accepted
from ._words import TABLE, reason_words, say

ROOM = 1 << 26  # bytes from the load address on, unless said
Text = Union[str, bytes, bytearray, memoryview]


class RoomFor:
    """Room for spans: their addresses, offsets and sizes."""

    def __init__(self, count: int):
        self.addresses, self.offsets, self.sizes, self.count = (I64 * count)(), (U64 * count)(), (U64 * count)(), count

    def lists(self) -> List[Any]:
        return [self.addresses, self.count, self.offsets, self.count, self.sizes, self.count]

    def blocks(self, count: int) -> List[Block]:
        """The blocks that the first so many spans make."""
        offsets, sizes = room(U64, count), room(U64, count)
        found = accepted(lib.dk_blocks(self.offsets, count, self.sizes, count, *offsets, *sizes)).count
        return [Block(*each) for each in zip(offsets[0][:found], sizes[0][:found])]


class Run(NamedTuple):
    """So many bytes from byte, or address, `first` on."""

    first: int
    length: int


class BadRecords(Refused):
    """A file of records that cannot be read: refused 4. `line` counts from 1; `reason`, `first` and `more` are those of `dk_record_reason` (enum
    dk_cause)."""

    def __init__(self, reason: int, line: int, first: int, more: int, words: str):
        self.reason, self.line, self.first, self.more = reason, line, first, more
        super().__init__(4, 0, words=words)
        self.args = (reason, line, first, more, words)


def pair(block: Any, what: str = "a block is an offset and a number of bits") -> Tuple[int, int]:
    """A block's offset and its bits, or two other numbers."""
    try:
        first, second = block
    except (TypeError, ValueError, NotImplementedError):
        raise TypeError(f"{what}, not {type(block).__name__}") from None
    return number(f"{what}: the first", first, 0, NONE), number(f"{what}: the second", second, 0, NONE)


def block_lists(blocks: Iterable[Any]) -> List[Any]:
    """Blocks as two lists that are lent: offsets and sizes, in bits."""
    pairs = [pair(each) for each in blocks]
    return [*given(U64, (offset for offset, _ in pairs)), *given(U64, (bits for _, bits in pairs))]


def _written(call: Any, image: Any, blocks: Optional[Iterable[Any]], *choices: int, called: Optional[Callable[[int], str]] = None) -> str:
    lent = lend("the image", image)
    listed = ([(0, 8 * lent[1])] if lent[1] else []) if blocks is None else [pair(each) for each in blocks]
    most = lib.dk_py_record_room(lent[1], len(listed))
    held, text = room_for_bytes(most)
    answer = call(*lent, *block_lists(listed), *choices, text, most)
    if answer.refusal in (4, 16):
        raise Refused(answer.refusal, answer.place, words=not_written(answer.refusal, listed, lent[1], choices, called))
    return front(held, accepted(answer).count).tobytes().decode("ascii")


def not_written(refusal: int, blocks: List[Any], length: int, choices: Tuple[int, ...], called: Optional[Callable[[int], str]] = None) -> str:
    """Why blocks make no records; `called` names the item that begins at a bit."""
    bad = [i for i, (offset, bits) in enumerate(blocks) if offset % 8 or bits % 8 or bits == 0 or offset + bits > 8 * length]
    if refusal == 16 and bad:
        offset, bits = blocks[bad[0]]
        cause = "RECORDS_EDGES" if offset % 8 or bits % 8 else "BAD_PART"
        name = called(offset) if called else ""
        block = f"block {bad[0]} (output bits {offset}..{offset + bits - 1}" + (f", from {name} on)" if name else ")")
        return say(cause, note=block) if "{note}" in TABLE[cause].words else f"{say(cause)} It is {block}."
    behind = 0
    for offset, bits in blocks:
        if offset < behind:
            return "the blocks do not ascend, or share a bit"
        behind = offset + bits
    return say("RECORDS_ADDRESS") if len(choices) < 2 or choices[1] in (2, 4) else "the width of an address is 2 or 4 bytes"


def write_hex(image: Any, load: int = 0, blocks: Optional[Iterable[Any]] = None, *, called: Optional[Callable[[int], str]] = None) -> str:
    r"""Intel HEX of an image whose first byte is at address `load`: of these blocks (offset and bits), of all of it where none are given. `called` names what
    begins at a bit, for a refusal's words.

    >>> write_hex(b"\xeb\x02", load=0x8000)
    ':02800000EB0291\n:00000001FF\n'
    """
    return _written(lib.dk_write_hex, image, blocks, number("load", load, 0, MOST), called=called)


def write_srec(image: Any, load: int = 0, width: int = 4, blocks: Optional[Iterable[Any]] = None, *,
               called: Optional[Callable[[int], str]] = None) -> str:
    r"""The same as S-records with addresses of `width` bytes, 2 or 4.

    >>> write_srec(b"\xeb\x02", load=0x8000, width=2)
    'S1058000EB028D\nS9030000FC\n'
    """
    return _written(lib.dk_write_srec, image, blocks, number("load", load, 0, MOST), number("width", width, 0, 255), called=called)


class Records:
    """What a file of records gives: `data` is read-only memory from address `load` on, `blocks` the runs of addresses that the file gives, ascending.

    >>> dump = read_records(":02123400ABCD40\\n:00000001FF\\n")
    >>> hex(dump.load), dump.data.hex(), dump.blocks
    ('0x1234', 'abcd', [Run(first=4660, length=2)])
    >>> dump.byte(0x1235), dump.byte(0x1236)
    (205, None)
    """

    def __init__(self, load: int, data: memoryview, blocks: List[Run]):
        self.load, self.data, self.blocks = load, data, blocks
        self._firsts = [run.first for run in blocks]

    def __repr__(self) -> str:
        return f"<Records: {sum(run.length for run in self.blocks)} bytes in {len(self.blocks)} blocks from {self.load:#x} on>"

    def byte(self, address: int) -> Optional[int]:
        """The byte at an address, None where the file gives none."""
        at = bisect_right(self._firsts, address) - 1
        return self.data[address - self.load] if at >= 0 and address < sum(self.blocks[at]) else None

    def bits(self) -> List[Block]:
        """The blocks in bits from the first byte on, as the library has them."""
        return [Block(8 * (run.first - self.load), 8 * run.length) for run in self.blocks]

    def to_hex(self) -> str:
        """The same bytes as Intel HEX."""
        return write_hex(self.data, self.load, self.bits())

    def to_srec(self, width: int = 4) -> str:
        """The same bytes as S-records."""
        return write_srec(self.data, self.load, width, self.bits())

    def to_intelhex(self) -> Any:
        """The same bytes as an `IntelHex` object of the package intelhex."""
        from intelhex import IntelHex  # type: ignore[import]

        out = IntelHex()
        for run in self.blocks:
            out.puts(run.first, self.data[run.first - self.load:sum(run) - self.load].tobytes())
        return out

    @classmethod
    def from_bytes(cls, data: Any, load: int = 0) -> "Records":
        r"""A plain dump, every byte of which is given: the contents of a .bin file, say.

        >>> Records.from_bytes(b"\xeb\x02", load=0x8000).to_hex()
        ':02800000EB0291\n:00000001FF\n'
        """
        seen = view("a dump", data)
        start = number("load", load, 0, MOST)
        if seen.nbytes > MOST + 1 - start:
            raise ValueError(f"a dump of {seen.nbytes} bytes from {start:#x} on passes the last address")
        return cls(start, seen.toreadonly(), [Run(start, seen.nbytes)] if seen.nbytes else [])

    @classmethod
    def from_intelhex(cls, given_by: Any, room: int = ROOM) -> "Records":
        """What an `IntelHex` object has."""
        runs = [Run(first, behind - first) for first, behind in given_by.segments()]
        load = runs[0].first if runs else 0
        length = sum(runs[-1]) - load if runs else 0
        if length > number("room", room, 0, 1 << 33):
            raise Refused(14, 0, words=say("RECORDS_ROOM", (0, room, load)))
        held = bytearray(length)
        for run in runs:
            held[run.first - load:sum(run) - load] = given_by.gets(run.first, run.length)
        return cls(load, memoryview(held).toreadonly(), runs)


def _text_of(text: Text) -> Any:
    """The bytes of a text; a character that is none of a byte is bad wherever it stands, and so is a question mark."""
    return text.encode("latin-1", "replace") if isinstance(text, str) else text


def _bad(reason: Reason, raw: bytes, is_srec: bool, is_str: bool) -> BadRecords:
    words = reason_words(reason, raw, is_srec)
    if reason.reason == 1 and is_str and b"\n" not in raw and len(raw) < 4096:
        words += "; a str is the text itself: for a file hand over pathlib.Path(..)"
    return BadRecords(reason.reason, reason.line + 1, reason.first, reason.second, words)


class _File:
    """A file's text, lent to the calls that read it, with their scratch."""

    def __init__(self, text: Union[Text, "os.PathLike[str]"]):
        raw = Path(text).read_bytes() if isinstance(text, os.PathLike) else _text_of(text)
        self.seen, lent = view("a file of records", raw), lend("a file of records", raw)
        scratch = (U8 * min(max(lent[1], 4096), 1 << 22))()
        self.is_str, self.is_srec, self.lines = isinstance(text, str), int(self.seen[:1].tobytes() in (b"S", b"s")), lent[1] // 10 + 1
        self.text, self.scratch = (self.is_srec, *lent), (scratch, len(scratch))

    def good(self, load: Optional[int]) -> Tuple[int, int, int]:
        """The address that it is read from, the lowest that it gives if none is said; that one, and the one behind the highest. A bad file is refused."""
        found = lib.dk_record_extent(*self.text, *self.scratch)
        start = found.lowest if load is None else load
        if found.refusal or found.end and found.lowest < start:
            raise _bad(lib.dk_record_reason(*self.text, start, *self.scratch), self.seen.tobytes(), bool(self.is_srec), self.is_str)
        return start, found.lowest, found.end


def extent(text: Union[Text, "os.PathLike[str]"]) -> Run:
    """Where the bytes of a file of records stand: the lowest address that it gives, and how many bytes there are from it up to the highest, gaps too.

    >>> extent(":02123400ABCD40\\n:0112400001AC\\n:00000001FF\\n")
    Run(first=4660, length=13)
    """
    _, lowest, end = _File(text).good(None)
    return Run(lowest, end - lowest)


def read_records(text: Union[Text, "os.PathLike[str]"], load: Optional[int] = None, room: int = ROOM) -> Records:
    """Reads Intel HEX or S-records, told apart by the first character. `text` is the file's text, or a pathlib.Path. The first byte is that at `load`,
    or, if it is not given, the lowest that the file gives; at most `room` bytes from there on are read.

    >>> read_records(":0100000001FD\\n:00000001FF\\n")
    Traceback (most recent call last):
    denkumari.BadRecords: refused 4 0: line 1: checksum is FD, should be FE: ":0100000001FD"
    """
    most = number("room", room, 0, 1 << 33)
    file = _File(text)
    start, _, end = file.good(None if load is None else number("load", load, 0, MOST))
    size = max(end - start, 0)
    if size > most:
        raise Refused(14, 0, words=say("RECORDS_ROOM", (0, most, start)))
    return _read(file, start, size)


def _read(file: _File, start: int, size: int) -> Records:
    """A good file: so many bytes from an address on. Each block has a line of data, and the shortest has 11 characters."""
    offsets, sizes = room(U64, file.lines), room(U64, file.lines)
    held, out = room_for_bytes(size)
    found = accepted(lib.dk_read_records(*file.text, start, out, size, *offsets, *sizes, *file.scratch)).count
    del out
    runs = [Run(start + offset // 8, bits // 8) for offset, bits in zip(offsets[0][:found], sizes[0][:found])]
    return Records(start, memoryview(held).toreadonly(), runs)


def records_of(given_by: Any) -> Records:
    """Whatever holds records: a text, a path, what was read already, an `IntelHex` object."""
    if isinstance(given_by, Records):
        return given_by
    if hasattr(given_by, "segments") and hasattr(given_by, "gets"):
        return Records.from_intelhex(given_by)
    return read_records(given_by)
