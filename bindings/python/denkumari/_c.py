"""The C functions with their parameters as include/denkumari.h has them, and what is lent to them.

Every pointer that a call gets comes from `lend`, `given` or `room`, together with the number of its elements as the memory itself has it, so that no
length can be wrong; every number goes through `number`, since ctypes would cut one that is too large. The library is loaded so that a call holds the
interpreter's lock: no other thread of Python can change what is lent while it runs.
"""
from __future__ import annotations

import ctypes as c
import hashlib
import operator
from pathlib import Path
from typing import Any, Iterable, List, Tuple

NONE = 2**64 - 1  # DK_NO_OFFSET, DK_NO_NODE and DK_NO_PAGES
MOST = 2**32 - 1  # the last position, and the last address of a file of records
U8, U16, U32, U64, I64, SIZE = c.c_uint8, c.c_uint16, c.c_uint32, c.c_uint64, c.c_int64, c.c_size_t
HERE = Path(__file__).resolve().parent
ROOT = HERE.parent.parent.parent  # of a checkout
SOURCES = ("portable/denkumari.c", "include/denkumari.h", "bindings/python/denkumari/_words.c")


class Padding(c.Structure):
    _fields_ = [("bits", U64), ("units", U64)]


class LayoutAnswer(c.Structure):
    _fields_ = [(name, U64) for name in "refusal place second passes k length spans".split()] + [("padding", Padding * 16)]


class Mapped(c.Structure):
    _fields_ = [(name, U64) for name in "refusal stopped place second node passes nodes".split()] + [("padding", Padding * 16)]


class Profile(c.Structure):
    _fields_ = [("refusal", U64), ("place", U64), ("second", U64), ("pages", U64 * 16)]


class Count(c.Structure):
    _fields_ = [("refusal", U64), ("place", U64), ("count", U64)]


class Offer(c.Structure):
    _fields_ = [(name, U64) for name in "refusal place second count marks".split()]


class Offered(c.Structure):
    _fields_ = [(name, U64) for name in "refusal place second count marks offer".split()]


class Part(c.Structure):
    _fields_ = [("refusal", U64), ("start", U64), ("length", U64)]


class Overlay(c.Structure):
    _fields_ = [(name, U64) for name in "refusal image start length".split()]


class Extent(c.Structure):
    _fields_ = [("refusal", U64), ("lowest", U64), ("end", U64)]


class Fault(c.Structure):
    _fields_ = [("fault", U64), ("line", U64)]


class Reason(c.Structure):
    _fields_ = [(name, U64) for name in "reason line first second".split()]


# c_void_p stands for bytes that are only read: it takes a bytes object as it is
_BYTES = [c.c_void_p, SIZE]


def _lists(*kinds: Any) -> List[Any]:
    return [each for kind in kinds for each in (c.POINTER(kind), SIZE)]


_TABLES = [*_lists(U16, I64, U32, U32, U32, U8, U8, U8, U32, U32, U8), U64, *_BYTES]
_ROOM = _lists(U8, I64, U64, U64)
FUNCTIONS = {
    "dk_build": (LayoutAnswer, [*_TABLES, U8, U8, U8, *_ROOM]),
    "dk_form": (LayoutAnswer, [*_BYTES, U8, *_ROOM]),
    "dk_profile": (Profile, [U32, *_TABLES, U8]),
    "dk_build_paged": (LayoutAnswer, [U32, *_TABLES, U8, U8, U8, *_ROOM]),
    "dk_form_paged": (LayoutAnswer, [*_BYTES, U8, U32, *_ROOM]),
    "dk_map": (Mapped, [*_TABLES, U8, U8, U8, c.POINTER(U64), c.POINTER(U32), c.POINTER(U64), c.POINTER(U32)]),
    "dk_to_form2": (Count, [*_BYTES, *_lists(U8)]),
    "dk_to_form1": (Count, [*_BYTES, *_lists(U8)]),
    "dk_blocks": (Count, _lists(U64, U64, U64, U64)),
    "dk_hex": (Count, [*_BYTES, U64, *_lists(U8)]),
    "dk_offer": (Offer, [c.POINTER(U64), c.POINTER(U64), U64, c.POINTER(U64), U64, U64, U64]),
    "dk_offers": (Offered, [c.POINTER(U64), c.POINTER(U64), U64, c.POINTER(U64), U64, *_lists(U64, U64)]),
    "dk_part": (Part, [*_BYTES, U64, U64]),
    "dk_overlay_range": (Overlay, [*_BYTES, *_BYTES, *_lists(U64, U64), U64, U64]),
    "dk_overlay_runs": (Count, [*_BYTES, *_BYTES, *_lists(U64, U64, U64, U64)]),
    "dk_write_hex": (Count, [*_BYTES, *_lists(U64, U64), U32, *_lists(U8)]),
    "dk_write_srec": (Count, [*_BYTES, *_lists(U64, U64), U32, U8, *_lists(U8)]),
    "dk_read_records": (Count, [U8, *_BYTES, U32, *_lists(U8, U64, U64, U8)]),
    "dk_record_extent": (Extent, [U8, *_BYTES, *_lists(U8)]),
    "dk_record_fault": (Fault, [U8, *_BYTES, U32, *_lists(U8)]),
    "dk_record_reason": (Reason, [U8, *_BYTES, U32, *_lists(U8)]),
    "dk_verify": (Count, [*_BYTES, *_lists(U64, U64), *_BYTES, *_lists(U64, U64, U64, U64, U8)]),
    "dk_py_version": (c.c_char_p, []),
    "dk_py_words": (c.c_char_p, [U64]),
    "dk_py_reason_words": (c.c_char_p, [U64]),
    "dk_py_record_room": (U64, [U64, U64]),
}


def _library() -> Path:
    """The library that was compiled when the package was installed; in a checkout the one that build.sh made of the very sources that are there."""
    beside = sorted(path for path in HERE.glob("_library*") if path.suffix in (".so", ".pyd", ".dylib", ".dll"))
    if beside:
        return beside[0]
    if not (ROOT / "crates.txt").is_file():
        raise ImportError(f"denkumari: the shared library is not beside {__file__}: install the package anew (pip install bindings/python)")
    total = hashlib.sha256(b"".join((ROOT / name).read_bytes() for name in SOURCES)).hexdigest()[:16]
    made = ROOT / "build" / "python" / f"library-{total}.so"
    if not made.is_file():
        raise ImportError("denkumari: the shared library is not compiled from the sources that are here: bindings/python/build.sh does that")
    return made


def beside_or(name: str, place: str) -> Path:
    """A file of the package, in a checkout one of the checkout."""
    return HERE / name if (HERE / name).is_file() else ROOT / place


lib = c.PyDLL(str(_library()))
for _name, (_result, _parameters) in FUNCTIONS.items():
    getattr(lib, _name).restype, getattr(lib, _name).argtypes = _result, _parameters


def number(what: str, value: Any, least: int, most: int) -> int:
    """A number within its limits, or TypeError, or ValueError."""
    try:
        exact = int.__pos__(operator.index(value))
    except TypeError:
        raise TypeError(f"{what} has to be a whole number, not {type(value).__name__}") from None
    if not least <= exact <= most:
        said = str(exact) if abs(exact) < 10**30 else "that"
        raise ValueError(f"{what} has to be {least} to {most}, and {said} is {'less' if exact < least else 'more'}")
    return exact


def view(what: str, data: Any) -> memoryview:
    """Bytes as a view, of whatever has them."""
    try:
        seen = memoryview(data)
    except TypeError:
        raise TypeError(f"{what} has to be bytes, a bytearray, a memoryview or another buffer, not {type(data).__name__}") from None
    if seen.itemsize != 1 or seen.ndim != 1:
        raise TypeError(f"{what} has to be a flat row of bytes, not {seen.ndim} dimensions of {seen.itemsize} bytes")
    return seen


def lend(what: str, data: Any) -> Tuple[Any, int]:
    """Bytes that a call reads, and their number. Memory is lent as it is; only of a part of read-only memory, and of one with gaps, is a copy made."""
    seen = view(what, data)
    if seen.nbytes == 0:
        return b"", 0
    if seen.readonly or not seen.c_contiguous:
        whole = seen.obj
        if isinstance(whole, bytes) and seen.c_contiguous and bytes.__len__(whole) == seen.nbytes:
            return whole, seen.nbytes
        copy = seen.tobytes()
        return copy, len(copy)
    return (U8 * seen.nbytes).from_buffer(seen), seen.nbytes


def given(kind: Any, values: Iterable[int]) -> Tuple[Any, int]:
    """A list of numbers that a call reads, and its length. A number past its type, which ctypes would cut, is told."""
    listed = list(values)
    array = (kind * len(listed))(*listed)
    if array[:] != listed:
        raise ValueError(f"a number of the layout is past its type: {[value for value, kept in zip(listed, array) if value != kept][0]}")
    return array, len(listed)


def room(kind: Any, length: int) -> Tuple[Any, int]:
    """A list that a call writes, and its length."""
    return (kind * length)(), length


def room_for_bytes(length: int) -> Tuple[bytearray, Any]:
    """Bytes that a call writes, and the same memory for ctypes."""
    held = bytearray(length)
    return held, (U8 * length).from_buffer(held) if length else (U8 * 0)()


def front(held: bytearray, length: int) -> memoryview:
    """What a call left at the front of its room, read-only and without a copy."""
    return memoryview(held).toreadonly()[:length]
