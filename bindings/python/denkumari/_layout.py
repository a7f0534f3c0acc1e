"""Layouts: banks, nodes and values, and what the library says of them."""
from __future__ import annotations

import os
import warnings
from pathlib import Path
from typing import Any, Dict, List, Optional, Sequence, Tuple, Union

from ._c import I64, MOST, NONE, U8, U16, U32, U64, front, given, lend, lib, number, room_for_bytes, view
from ._form import Parts, read_form, write_form
from ._names import BadNames, called, checked, names_file, read_names, write_names
from ._records import RoomFor, pair, write_hex, write_srec
from ._types import Bank, Block, Kind, Map, Names, Node, Padding, Placed, Refused, Span, accepted
from ._words import layout_words

Numbers = Union[int, Sequence[int]]
Value = Union[int, bytes, bytearray, memoryview]
FILLS = {"inherited": 0, "full": 1}
ROOM = 1 << 26  # bytes of the longest image, unless said


class Values:
    """The bits that items are taken from, one value behind the other."""

    def __init__(self, data: bytes = b""):
        self.data, self.bits = bytearray(data), 8 * len(data)

    def append(self, value: int, bits: int) -> int:
        """Puts a number behind the others; answers its first bit."""
        first = self.bits
        number("the bits of all values", first + bits, 0, MOST)
        if first % 8:
            value |= self.data.pop() >> -first % 8 << bits
            bits += first % 8
        self.data += (value << -bits % 8).to_bytes((bits + 7) // 8, "big")
        self.bits = 8 * (first // 8) + bits
        return first


def bits_of(value: Value, bits: Optional[int]) -> Tuple[int, int]:
    """A value as a number, with the bits that it takes: all of some bytes, unless said."""
    if isinstance(value, int):
        if bits is None:
            raise TypeError("bits is missing: a number alone does not say how many it takes")
        size = number("bits", bits, 0, MOST)
        exact = int.__pos__(value)
        if exact < 0:
            raise ValueError("value has to be 0 or more: give the bits of a number below zero as they stand, value & (1 << bits) - 1")
        if exact >> size:
            raise ValueError(f"value {exact:#x} does not fit in {size} bits" if exact < 1 << 200 else f"the value does not fit in {size} bits")
        return exact, size
    seen = view("value", value)
    size = number("bits", 8 * seen.nbytes if bits is None else bits, 0, 8 * seen.nbytes)
    return int.from_bytes(seen.tobytes(), "big") >> (8 * seen.nbytes - size), size


class Built:
    """An accepted layout.

    `image` is read-only memory of the bytes that the library wrote (`bytes(built)` copies it), `length` its bits; `spans` are labels and written items in
    the order of the nodes, `blocks` what items write, `padding` what each bank lost to alignment; `passes` were run, and `k` was the first that was not
    unresolved.
    """

    def __init__(self, image: memoryview, answer: Any, spans: List[Span], blocks: List[Block], padding: List[Padding], names: Names):
        self._names, self.image, self.spans, self.blocks, self.padding = names, image, spans, blocks, padding
        self.length, self.passes, self.k = int(answer.length), int(answer.passes), int(answer.k)
        self._span_of: Dict[int, Span] = {span.node: span for span in spans}

    def __bytes__(self) -> bytes:
        return self.image.tobytes()

    def __repr__(self) -> str:
        return f"<Built: {self.length} bits, {len(self.spans)} spans, {len(self.blocks)} blocks>"

    def span(self, node: int) -> Span:
        """The span of a label or a written item; KeyError of any other node."""
        return self._span_of[node]

    def digits(self) -> str:
        """The image in hex digits, four bits each, as `denkumari layout` prints it."""
        held, text = room_for_bytes(2 * self.image.nbytes)
        answer = accepted(lib.dk_hex(*lend("the image", self._memory()), self.length, text, len(held)))
        return front(held, answer.count).tobytes().decode("ascii")

    def part(self, block: Block) -> memoryview:
        """The bytes of a block, in the image's own memory; refused 16 where it is not on byte edges."""
        part = accepted(lib.dk_part(*lend("the image", self._memory()), *pair(block)))
        return self.image[part.start:part.start + part.length]

    def to_hex(self, load: int = 0, whole: bool = False) -> str:
        """Intel HEX of the blocks, or of the whole image, whose first byte is at address `load`. Refused 16 where a block is not on byte edges."""
        return write_hex(self._memory(), load, None if whole else self.blocks, called=self._called)

    def to_srec(self, load: int = 0, width: int = 4, whole: bool = False) -> str:
        """The same as S-records with addresses of `width` bytes, 2 or 4."""
        return write_srec(self._memory(), load, width, None if whole else self.blocks, called=self._called)

    def to_intelhex(self, load: int = 0, whole: bool = False) -> Any:
        """The same as an `IntelHex` object, where that package is installed."""
        from ._records import read_records

        return read_records(self.to_hex(load, whole), load).to_intelhex()

    def _called(self, offset: int) -> str:
        """The item that begins at a bit of the image, by its name and place or its number."""
        nodes = [span.node for span in self.spans if span.offset == offset and span.bits]
        return called(self._names, nodes[0]) if nodes else ""

    def _memory(self) -> Any:
        """What can be lent without a copy: the memory that the view is of, where that is all of it."""
        memory = self.image.obj
        return memory if isinstance(memory, bytearray) and len(memory) == self.image.nbytes else self.image


class Layout:
    """Banks, nodes and values. Bank 0 is there from the beginning; nodes go where the last `switch` said.

    >>> brake = Layout()
    >>> flash = brake.bank(unit=10, start=64, size=40, offset=0, fill=True)
    >>> brake.switch(flash)
    0
    >>> table = brake.label("table")
    >>> force = brake.item(bits=10, value=0x3ff, name="clamp_force")
    >>> gap = brake.reserve(10)
    >>> last = brake.item(bits=10, value=0x0aa)
    >>> built = brake.build()
    >>> built.digits(), built.blocks
    ('ffc002a800', [Block(offset=0, bits=10), Block(offset=20, bits=10)])
    >>> built.span(force)
    Span(node=2, name='clamp_force', address=64, offset=0, bits=10)

    `limit` is the pass limit, `rows` how many rows of numbers and states there are (see `Recorder` for passes). `closed` says that bank 0 may hold
    nothing where it is the only bank, as in form 2; form 1 leaves it open.
    """

    def __init__(self, limit: int = 10, rows: int = 1, closed: bool = True, bank0: Bank = Bank()):
        self.limit, self.rows, self.closed = number("limit", limit, 0, 255), number("rows", rows, 0, 65535), bool(closed)
        if not isinstance(bank0, Bank):
            raise TypeError(f"bank0 has to be a Bank, not {type(bank0).__name__}")
        self.banks: List[Bank] = [bank0.checked()]
        self.nodes: List[Node] = []
        self.names: Names = {}
        self._values = Values()

    def __repr__(self) -> str:
        return f"<Layout: {len(self.banks)} banks, {len(self.nodes)} nodes, {self.rows} rows>"

    # -- files --

    @classmethod
    def from_form(cls, file: Any, names: Optional[str] = None) -> "Layout":
        """The layout of a layout file's bytes, of either form; `names` is the text of a names file. Refused 4 where the file is broken."""
        parts = read_form(file)
        layout = cls(parts.limit, parts.rows, parts.form == 2)
        layout.banks, layout.nodes, layout._values = parts.banks, parts.nodes, Values(parts.values)
        if names is not None:
            layout.names = read_names(names, bytes(view("a layout file", file)))
        return layout

    @classmethod
    def from_file(cls, path: Union[str, "os.PathLike[str]"], names: Union[None, str, "os.PathLike[str]"] = None) -> "Layout":
        """The layout of a file. Names come from the file `names`, else from NAME.names beside NAME.form where it is there and belongs to it: one that does not
        is left out, with a warning."""
        form = Path(os.fspath(path))
        with form.open("rb") as opened:
            file = opened.read(65537)
        layout, beside = cls.from_form(file), form.with_suffix(".names") if form.name else form
        if names is not None:
            layout.names = names_file(Path(os.fspath(names)), file)
        elif form.suffix == ".form" and beside.is_file():
            try:
                layout.names = names_file(beside, file)
            except (BadNames, OSError) as why:  # names that only lie there change nothing
                warnings.warn(f"the names of {beside} are left out: {why}", stacklevel=2)
        return layout

    def to_form(self, form: int = 2) -> bytes:
        """The layout as a file of form 1 or 2. ValueError where the form has no place for it."""
        form = number("the form", form, 1, 2)
        if len(self.banks) == 1 and self.closed != (form == 2):
            does, is_here = ("closes", "open") if form == 2 else ("leaves open", "closed")
            raise ValueError(f"form {form} {does} bank 0, which is the only bank and {is_here} here")
        return write_form(Parts(form, self.banks, self.nodes, self.rows, self.values, self.limit))

    def to_names(self, form: int = 2) -> str:
        """The names file that belongs beside `to_form(form)`."""
        return write_names(self.names, self.to_form(form))

    @property
    def values(self) -> bytes:
        """The bytes that items are taken from, bits from the top of each byte."""
        return bytes(self._values.data)

    # -- banks and nodes --

    def bank(self, unit: int = 8, start: int = 0, size: Optional[int] = None, offset: Optional[int] = None, align: Optional[int] = None,
             fill: bool = False, ones: bool = False) -> int:
        """A bank more; answers its number."""
        self.banks.append(Bank(unit, start, size, offset, align, fill, ones).checked())
        return len(self.banks) - 1

    def node(self, kind: int, operand: int = 0, numbers: Numbers = 0, states: Numbers = 0, name: str = "", place: str = "") -> int:
        """A node by its numbers: one for all rows, or one for each; answers which node it is."""
        told = Node(number("the kind", kind, 0, 255), number("the operand", operand, 0, MOST), self._spread("a number", numbers, MOST),
                    self._spread("a state", states, 255))
        called = checked(len(self.nodes), name, place)
        self.nodes.append(told)
        if any(called):
            self.names[len(self.nodes) - 1] = called
        return len(self.nodes) - 1

    def _spread(self, what: str, told: Numbers, most: int) -> Tuple[int, ...]:
        if not isinstance(told, (list, tuple, range)):
            return (number(what, told, 0, most),) * self.rows
        if len(told) != self.rows:
            raise ValueError(f"{what} for each row, which are {self.rows}, and not {len(told)}")
        return tuple(number(what, each, 0, most) for each in told)

    def switch(self, bank: int) -> int:
        """From here on the nodes stand in this bank."""
        return self.node(Kind.SWITCH, bank)

    def label(self, name: str = "", depth: int = 0, place: str = "") -> int:
        """A label, of depth 0 where it is outermost."""
        return self.node(Kind.LABEL, depth, name=name, place=place)

    def constant(self, name: str = "", depth: int = 0, states: Numbers = 0, place: str = "") -> int:
        """A constant: it takes no bits, and its state counts."""
        return self.node(Kind.CONSTANT, depth, 0, states, name, place)

    def item(self, bits: Optional[Numbers] = None, value: Value = 0, name: str = "", place: str = "", kind: int = Kind.INSTRUCTION,
             states: Numbers = 0) -> int:
        """A written item: a number in so many bits, or bytes. For several rows `bits` has one for each; the value has those of the last (of DATA, of the
        first)."""
        told = None if bits is None or isinstance(bits, int) else self._spread("bits", bits, MOST)
        size = bits if not told else told[0] if kind == Kind.DATA else told[-1]
        exact, size = bits_of(value, size)  # type: ignore[arg-type]
        numbers = told or (size,) * self.rows
        most = max((size, *numbers))
        if not Kind.INSTRUCTION <= kind <= Kind.OPEN_DATA:
            raise ValueError("an item is INSTRUCTION, DATA or OPEN_DATA")
        node = self.node(kind, 0, numbers, states, name, place)
        try:
            first = self._values.append(exact << (most - size), most)
        except ValueError:
            self.nodes.pop()
            self.names.pop(node, None)
            raise
        self.nodes[node] = self.nodes[node]._replace(operand=first)
        return node

    def data(self, bits: Optional[int] = None, value: Value = 0, name: str = "", place: str = "") -> int:
        """Data of declared size: `data(value=b"..")` is a table of bytes."""
        return self.item(bits, value, name, place, Kind.DATA)

    def reserve(self, bits: Numbers, name: str = "", place: str = "") -> int:
        """Bits that nothing else may have."""
        return self.node(Kind.RESERVE, 0, bits, 0, name, place)

    def mark(self, name: str = "", place: str = "") -> int:
        """A reserve of no bits: no item may have it strictly inside."""
        return self.reserve(0, name, place)

    def align(self, bits: Numbers) -> int:
        """Goes on at the next multiple, in bits, counted from address 0."""
        return self.node(Kind.ALIGN, 0, bits)

    def addr(self, position: Numbers) -> int:
        """Goes on at a position, in bits from the bank's start; it is no address."""
        return self.node(Kind.ADDR, 0, position)

    def called(self, node: int) -> str:
        """What a node is called, with its place in the source, else its number."""
        return called(self.names, node)

    def name(self, node: int) -> str:
        """A node's name, or nothing."""
        return self.names.get(node, ("", ""))[0]

    # -- asked of the library --

    def _tables(self) -> List[Any]:
        banks, nodes = self.banks, self.nodes
        rows = number("rows", self.rows, 0, 65535)
        for i, node in enumerate(nodes):
            if len(node.numbers) != rows or len(node.states) != rows:
                raise ValueError(f"node {i} has {len(node.numbers)} numbers and {len(node.states)} states, and there are {rows} rows")
        lists: List[Tuple[Any, List[int]]] = [
            (U16, [bank.unit for bank in banks]), (I64, [bank.start for bank in banks]), (U32, [bank.size or 0 for bank in banks]),
            (U32, [bank.offset or 0 for bank in banks]), (U32, [bank.align or 0 for bank in banks]), (U8, [bank.flags for bank in banks]),
            (U8, [int(bank.ones) for bank in banks]), (U8, [node.kind for node in nodes]), (U32, [node.operand for node in nodes]),
            (U32, [node.numbers[row] for row in range(rows) for node in nodes]), (U8, [node.states[row] for row in range(rows) for node in nodes])]
        return [each for kind, values in lists for each in given(kind, values)] + [rows, *lend("the values", self._values.data)]

    def _choices(self, fill: str) -> Tuple[int, int, int]:
        if not isinstance(fill, str) or fill not in FILLS:
            raise ValueError(f"fill is 'inherited' or 'full', and not {fill!r}")
        return number("limit", self.limit, 0, 255), FILLS[fill], int(bool(self.closed))

    def _padding(self, answer: Any) -> List[Padding]:
        return [Padding(each.bits, each.units) for each in answer.padding][:len(self.banks)]

    def map(self, fill: str = "inherited") -> Map:
        """Where every node stands, of a refused layout up to the node at fault; Refused for 1 to 4 alone.

        >>> layout = Layout()
        >>> layout.bank(unit=10, start=0x40, offset=0)
        1
        >>> nodes = layout.switch(1), layout.item(20, 5), layout.label("end")
        >>> layout.map()[2].address, layout.map().stopped
        (66, 0)
        """
        return self._map(fill, True)

    def _map(self, fill: str, has_words: bool) -> Map:
        banks, positions, outputs, sizes = (U64 * 4096)(), (U32 * 4096)(), (U64 * 4096)(), (U32 * 4096)()
        answer = lib.dk_map(*self._tables(), *self._choices(fill), banks, positions, outputs, sizes)
        if answer.refusal:
            raise self._refused(answer.refusal, answer.place, answer.second, None, 0) if has_words else Refused(answer.refusal)
        placed = [self._placed(i, banks[i], positions[i], outputs[i], sizes[i]) for i in range(answer.nodes)]
        return Map(placed, answer, None if answer.node == NONE else answer.node, self._padding(answer))

    def _placed(self, node: int, bank: int, position: int, output: int, size: int) -> Placed:
        kind = Kind(self.nodes[node].kind)
        return Placed(node, self.name(node), kind, bank, position, *self.banks[bank].address(position), None if output == NONE else output,
                      size if kind.placed else 0)

    def _refused(self, refusal: int, place: int, second: int, mapped: Optional[Map], most: int) -> Refused:
        words, node = layout_words(self, refusal, place, second, mapped, most)
        return Refused(refusal, place, second, node, self.name(node) if node is not None else "", words)

    def _map_of_refused(self, refusal: int, fill: str) -> Optional[Map]:
        return self._map(fill, False) if refusal == 14 or 5 <= refusal <= 13 else None

    def build(self, fill: str = "inherited", page: Optional[int] = None, room: int = ROOM) -> Built:
        """Lays out, or raises Refused. `fill` is 'inherited' or 'full'; with `page` the layout has to keep the profile of a device with pages of so many
        bits. The image may have `room` bytes.

        >>> Layout().build().image.nbytes
        0
        >>> Layout(closed=True).build(fill="all")
        Traceback (most recent call last):
        ValueError: fill is 'inherited' or 'full', and not 'all'
        """
        most = number("room", room, 0, 1 << 33)
        choices = self._choices(fill)
        paged = [] if page is None else [number("page", page, 0, MOST)]
        tables, call = self._tables(), lib.dk_build if page is None else lib.dk_build_paged
        spans = RoomFor(4096)
        size = min(1 << 14, most)
        while True:
            held, image = room_for_bytes(size)
            answer = call(*paged, *tables, *choices, image, size, *spans.lists())
            del image  # nothing else holds the memory now
            if answer.refusal != 14 or answer.place != 0 or size >= most:
                break
            size = min(8 * size, most)
        if answer.refusal:
            raise self._refused(answer.refusal, answer.place, answer.second, self._map_of_refused(answer.refusal, fill), most)
        return self._built(held, answer, spans)

    def _built(self, held: bytearray, answer: Any, spans: "RoomFor") -> Built:
        del held[(answer.length + 7) // 8:]
        count = answer.spans
        nodes = [i for i, node in enumerate(self.nodes) if node.kind == Kind.LABEL or Kind.INSTRUCTION <= node.kind <= Kind.OPEN_DATA]
        listed = [Span(node, self.name(node), address, None if offset == NONE else offset, size)
                  for node, address, offset, size in zip(nodes, spans.addresses[:count], spans.offsets[:count], spans.sizes[:count])]
        return Built(memoryview(held).toreadonly(), answer, listed, spans.blocks(count), self._padding(answer), dict(self.names))

    def profile(self, page: int, fill: str = "inherited") -> List[Optional[int]]:
        """The pages of each bank, None where it has no offset, for a device with pages of so many bits; Refused 19 where the layout breaks a rule of it.

        >>> layout = Layout()
        >>> layout.bank(unit=16, size=512, offset=0)
        1
        >>> layout.profile(page=128)
        [None, 4]
        """
        pages = number("page", page, 0, MOST)
        answer = lib.dk_profile(pages, *self._tables(), self._choices(fill)[1])
        if answer.refusal:
            raise self._refused(answer.refusal, answer.place, answer.second, None, 0)
        return [None if each == NONE else each for each in answer.pages][:len(self.banks)]

    def to_hex(self, load: int = 0, whole: bool = False, fill: str = "inherited") -> str:
        """`build(fill).to_hex(load, whole)`."""
        return self.build(fill).to_hex(load, whole)

    def to_srec(self, load: int = 0, width: int = 4, whole: bool = False, fill: str = "inherited") -> str:
        """`build(fill).to_srec(load, width, whole)`."""
        return self.build(fill).to_srec(load, width, whole)
