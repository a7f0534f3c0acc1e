"""What a layout is made of, and what comes back."""
from __future__ import annotations

from enum import IntEnum
from typing import Any, Dict, Iterator, List, NamedTuple, Optional, Tuple

from ._c import MOST, lib
from ._c import number as exactly


class Kind(IntEnum):
    """Kinds of nodes."""

    NOTHING = 0
    SWITCH = 1
    LABEL = 2
    CONSTANT = 3
    INSTRUCTION = 4
    DATA = 5  #: of declared size: its number is the first row's
    OPEN_DATA = 6
    RESERVE = 7
    ALIGN = 8
    ADDR = 9
    ASSERT = 10

    @property
    def written(self) -> bool:
        """Whether it is an item that is written to the image.

        >>> [kind.name for kind in Kind if kind.written]
        ['INSTRUCTION', 'DATA', 'OPEN_DATA']
        """
        return Kind.INSTRUCTION <= self <= Kind.OPEN_DATA

    @property
    def placed(self) -> bool:
        """Whether it takes bits: a written item or a reserve."""
        return Kind.INSTRUCTION <= self <= Kind.RESERVE

    @property
    def words(self) -> str:
        """What it is called.

        >>> Kind.OPEN_DATA.words
        'data of open size'
        """
        return {Kind.SWITCH: "bank switch", Kind.OPEN_DATA: "data of open size"}.get(self, self.name.lower())


class State(IntEnum):
    """What a pass knows of a node."""

    RESOLVED = 0  #: no guess is in it
    STABLE = 1  #: a guess, the same as in the pass before
    UNRESOLVED = 2


class Block(NamedTuple):
    """Bits that lie side by side in the image: `bits` of them, from bit `offset` on."""

    offset: int
    bits: int


class Padding(NamedTuple):
    """What a bank lost to alignment, in bits, and in the whole address units of each skip."""

    bits: int
    units: int


class Span(NamedTuple):
    """A label or a written item of a build: `address` in its bank's units; `offset` in the image, None where its bank has no place there; `bits` is 0 of
    a label."""

    node: int
    name: str
    address: int
    offset: Optional[int]
    bits: int


class Bank(NamedTuple):
    """A bank: `unit` bits to an address, from address `start` on. `size`, `offset` (the place of its first bit in the image) and `align` (of its labels)
    are in bits, None where there is none. A bank with `fill` is filled to its end, with one bits where `ones` is set.

    >>> Bank(unit=10, start=64).address(25)
    (66, 5)
    """

    unit: int = 8
    start: int = 0
    size: Optional[int] = None
    offset: Optional[int] = None
    align: Optional[int] = None
    fill: bool = False
    ones: bool = False

    def checked(self) -> "Bank":
        """The same with every number in its type."""
        size, offset, align = (None if value is None else exactly(f"a bank's {what}", value, 0, MOST)
                               for what, value in (("size", self.size), ("offset", self.offset), ("align", self.align)))
        return Bank(exactly("a bank's unit", self.unit, 0, 65535), exactly("a bank's start", self.start, -(2**63), 2**63 - 1), size, offset, align,
                    bool(self.fill), bool(self.ones))

    @property
    def flags(self) -> int:
        """The flags as a layout file and the C interface have them."""
        return (self.size is not None) | (self.offset is not None) << 1 | (self.align is not None) << 2 | bool(self.fill) << 3

    def address(self, position: int) -> Tuple[int, int]:
        """The address at a position, in bits of the bank, and the bits past it."""
        return self.start + position // (self.unit or 1), position % (self.unit or 1)


class Node(NamedTuple):
    """A node as the tables have it: a number and a state for each row; `operand` is a bank, a depth, or the first bit in the values."""

    kind: int
    operand: int
    numbers: Tuple[int, ...]
    states: Tuple[int, ...]


class Placed(NamedTuple):
    """Where a node stands in the last pass. `position` is in bits of its bank; `address` has `past` bits behind it where the node is between two;
    `output` is the bit of the image, None where the bank has no place there; `bits` is what an item or a reserve takes."""

    node: int
    name: str
    kind: Kind
    bank: int
    position: int
    address: int
    past: int
    output: Optional[int]
    bits: int


class Map:
    """Where everything stands, as far as the layout goes: a list of `Placed`, of a refused layout up to the node at fault. `stopped` is the number of the
    layout's refusal, 0 where it is accepted, `place` and `second` are what stands with it, and `node` is the node at fault, or None."""

    def __init__(self, placed: List[Placed], answer: Any, node: Optional[int], padding: List[Padding]):
        self.placed, self.node, self.padding = placed, node, padding
        self.stopped, self.place, self.second, self.passes = int(answer.stopped), int(answer.place), int(answer.second), int(answer.passes)

    def __iter__(self) -> Iterator[Placed]:
        return iter(self.placed)

    def __len__(self) -> int:
        return len(self.placed)

    def __getitem__(self, node: int) -> Placed:
        return self.placed[node]


class Refused(Exception):
    """A call was refused, and nothing was changed.

    `number` and `place` (and `second`, of 3, 12 and 19) are the library's, docs/USING.md has what they mean; `node` is the node at fault, or None, and
    `name` what it is called; `words` says it all, with what to do.

    >>> raise Refused(17)
    Traceback (most recent call last):
    denkumari.Refused: refused 17 0: an overlay covers a range only in part
    """

    def __init__(self, number: int, place: int = 0, second: int = 0, node: Optional[int] = None, name: str = "", words: str = ""):
        self.number, self.place, self.second = (exactly(what, value, 0, 2**64 - 1) for what, value in
                                                (("the number", number), ("the place", place), ("the second place", second)))
        self.node, self.name = node, name
        self.words = words or lib.dk_py_words(self.number).decode("ascii")
        super().__init__(number, place, second, node, name, words)

    def __str__(self) -> str:
        return f"refused {self.number} {self.place}" + (f" {self.second}" if self.number in (3, 12, 19) else "") + f": {self.words}"


Names = Dict[int, Tuple[str, str]]


def accepted(answer: Any) -> Any:
    """An answer, or Refused with the header's words."""
    if answer.refusal:
        raise Refused(answer.refusal, getattr(answer, "place", 0), getattr(answer, "second", 0))
    return answer
