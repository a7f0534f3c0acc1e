"""Layout files of either form: taken apart, written, converted (docs/FORMAT.md)."""
from __future__ import annotations

from typing import Any, List, NamedTuple, Tuple

from ._c import U8, lend, lib, number, room, room_for_bytes, view
from ._types import Bank, Node, Refused
from ._words import looks_like, say

LONGEST = {1: 65000, 2: 65536}
HEAD = b"\x10\x00\x01\x02"


class Parts(NamedTuple):
    """What a layout file has."""

    form: int
    banks: List[Bank]
    nodes: List[Node]
    rows: int
    values: bytes
    limit: int


class _Broken(Exception):
    """A file breaks at a field, which begins at a byte."""


def _word(data: bytes, at: int, count: int, signed: bool = False) -> int:
    return int.from_bytes(data[at:at + count], "big", signed=signed)


class _Reader:
    """The fields of a file, one after the other."""

    def __init__(self, data: bytes):
        self.data, self.form = data, 2 if data[:1] == b"\x10" else 1
        self.banks: List[Bank] = []
        self.kinds: List[Tuple[int, int]] = []
        self.rows: List[bytes] = []
        self.values, self.limit, self.at, self.fields = b"", 0, 0, 0

    def read(self) -> Parts:
        if len(self.data) > LONGEST[self.form]:
            raise _Broken
        if self.form == 2:
            if self.data[:4] != HEAD:
                raise _Broken
            self.at, self.fields = 4, 1
        newest = 0
        while newest != 5:
            newest = self.field(newest)
        if self.at != len(self.data):
            raise _Broken
        return Parts(self.form, self.banks, self.nodes(), len(self.rows), self.values, self.limit)

    def field(self, newest: int) -> int:
        """One field; answers which it was, 1 to 5."""
        head, size = self.data[self.at:self.at + 3], _word(self.data, self.at + 1, 2)
        payload = self.data[self.at + 3:self.at + 3 + size]
        if len(head) < 3 or len(payload) < size:
            raise _Broken
        place = 1 if head[0] == (17 if self.form == 2 else 1) else head[0] if 2 <= head[0] <= 5 else 0
        wanted = {1: 22 + self.form, 2: 5, 3: 5 * len(self.kinds), 4: size, 5: 1}.get(place)
        in_order = place == 5 if newest == 4 else newest <= place <= 4
        if size != wanted or not in_order:
            raise _Broken
        self.take(place, payload)
        self.at, self.fields = self.at + 3 + size, self.fields + 1
        return place

    def take(self, place: int, payload: bytes) -> None:
        if place == 1:
            self.take_bank(payload)
        elif place == 2:
            self.kinds.append((payload[0], _word(payload, 1, 4)))
        elif place == 3:
            self.rows.append(payload)
        elif place == 4:
            self.values = payload
        else:
            self.limit = payload[0]

    def take_bank(self, payload: bytes) -> None:
        flags, bit = payload[22], payload[23] if self.form == 2 else 0
        if flags > 15 or bit > 1:
            raise _Broken
        size, offset, align = (_word(payload, at, 4) if flags & flag else None for at, flag in ((10, 1), (14, 2), (18, 4)))
        self.banks.append(Bank(_word(payload, 0, 2), _word(payload, 2, 8, True), size, offset, align, bool(flags & 8), bool(bit)))

    def nodes(self) -> List[Node]:
        def of(i: int) -> Node:
            cells = [row[5 * i:5 * i + 5] for row in self.rows]
            return Node(*self.kinds[i], tuple(_word(cell, 0, 4) for cell in cells), tuple(cell[4] for cell in cells))

        return [of(i) for i in range(len(self.kinds))]


def read_form(data: Any) -> Parts:
    """Takes a layout file apart. Refused 4 where it is broken, with the field as the library counts it."""
    file = bytes(view("a layout file", data)[:LONGEST[2] + 1])
    reader = _Reader(file)
    try:
        return reader.read()
    except _Broken:
        call = lib.dk_to_form1 if reader.form == 2 else lib.dk_to_form2
        place = call(*lend("a layout file", file), *room(U8, 0)).place
        most = LONGEST[reader.form]
        note = (f"the file is longer than {most} bytes, the most that form {reader.form} allows" if len(file) > most
                else f"field {reader.fields}, at byte {reader.at}, is broken")
        raise Refused(4, place, words=say(looks_like(file), note=note)) from None


def write_form(parts: Parts) -> bytes:
    """The file of a layout; ValueError where a form has no place for it."""
    out = bytearray(HEAD if parts.form == 2 else b"")

    def put(tag: int, payload: bytes) -> None:
        if len(payload) > 65535:
            raise ValueError(f"a field of {len(payload)} bytes does not go into a layout file, where fields have at most 65535")
        out.extend(bytes([tag]) + len(payload).to_bytes(2, "big") + payload)

    for bank in parts.banks:
        if bank.ones and parts.form == 1:
            raise ValueError("form 1 has no fill bits, and a bank's is one: take form 2")
        sizes = b"".join((value or 0).to_bytes(4, "big") for value in (bank.size, bank.offset, bank.align))
        bits = bytes([bank.flags, bank.ones][:parts.form])
        put(17 if parts.form == 2 else 1, bank.unit.to_bytes(2, "big") + bank.start.to_bytes(8, "big", signed=True) + sizes + bits)
    for node in parts.nodes:
        put(2, bytes([node.kind]) + node.operand.to_bytes(4, "big"))
    for row in range(parts.rows):
        put(3, b"".join(node.numbers[row].to_bytes(4, "big") + bytes([node.states[row]]) for node in parts.nodes))
    put(4, parts.values)
    put(5, bytes([parts.limit]))
    if len(out) > LONGEST[parts.form]:
        raise ValueError(f"the file would have {len(out)} bytes, and form {parts.form} has at most {LONGEST[parts.form]}")
    return bytes(out)


def convert(file: Any, to: int) -> bytes:
    """A layout file in the other form, 1 or 2: the library's conversion, which keeps the build.

    >>> from denkumari import Layout
    >>> plain = Layout(limit=3)
    >>> code = plain.bank(size=64, offset=0)
    >>> file = plain.to_form(2)
    >>> convert(convert(file, to=1), to=2) == file
    True
    >>> convert(file, to=2)
    Traceback (most recent call last):
    denkumari.Refused: refused 4 0: the file is of form 2 already, by its first byte
    """
    form = number("the form", to, 1, 2)
    lent = lend("a layout file", file)
    held, out = room_for_bytes(LONGEST[2])
    answer = (lib.dk_to_form2 if form == 2 else lib.dk_to_form1)(*lent, out, LONGEST[2])
    if answer.refusal:
        raise _not_converted(bytes(view("a layout file", file)), form, answer)
    return bytes(held[:answer.count])


def _not_converted(file: bytes, form: int, answer: Any) -> Refused:
    number, place = answer.refusal, answer.place
    if file and (2 if file[0] == 16 else 1) == form and (file[0] < 32 or not _is_broken(file)):
        return Refused(number, place, words=say("FORM_ALREADY", (form,)))
    try:
        parts = read_form(file)
    except Refused as broken:
        return Refused(number, place, words=broken.words)
    if number == 18:
        from ._layout import Layout
        from ._words import Said

        ones = [i for i, bank in enumerate(parts.banks) if bank.ones][0]
        return Refused(number, place, words=say("DROPS_BIT", bank=Said(Layout.from_form(file), None).bank(ones)))
    return _not_listed(parts, form, answer)


def _is_broken(file: bytes) -> bool:
    try:
        _Reader(file).read()
    except _Broken:
        return True
    return False


def _not_listed(parts: Parts, form: int, answer: Any) -> Refused:
    number, place = answer.refusal, answer.place
    is_one, count = len(parts.banks) == 1, len(parts.nodes)
    most, note = (4095, ", since a switch is put ahead of them") if is_one and form == 2 else (4096, "")
    if count > most:
        return Refused(number, place, words=say("CONVERT_NODES", (count, most), note=note))
    if parts.rows > 16:
        return Refused(number, place, words=say("CONVERT_ROWS", (parts.rows,)))
    if is_one and place < count and parts.nodes[place].kind == 1 and parts.nodes[place].operand > 0:
        return Refused(number, place, node=place, words=say("CONVERT_BANK", node=f"node {place} (bank switch to {parts.nodes[place].operand})"))
    return Refused(number, place, words=say("CONVERT_LONG", (form, LONGEST[form])))
