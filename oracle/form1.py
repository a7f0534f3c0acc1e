#!/usr/bin/env python3
"""Form 1 of document 01, and form 2 of document 02: layouts as values, and to and from bytes.

A layout here is what people write down, and `encode` writes any of them, wrong ones too: out-of-range numbers are the
reader's business. `decode` is for showing sound files to people; oracle/model.py has the reader that tells faults apart.

    form1.py <FILE     shows a sound file in words"""

import struct
from dataclasses import dataclass, field

import manners

NOTHING, SWITCH, LABEL, CONSTANT, INSTRUCTION, DATA, OPEN_DATA, RESERVE, ALIGN, ADDR, ASSERT = range(11)
KIND_NAMES = ("nothing", "switch", "label", "constant", "instruction", "data", "open data", "reserve", "align", "addr", "assert")
RESOLVED, STABLE, UNRESOLVED = range(3)

HAS_SIZE, HAS_OFFSET, HAS_ALIGN, FILL = 1, 2, 4, 8


@dataclass
class Bank:
    unit: int = 8
    start: int = 0
    size: int | None = None
    offset: int | None = None
    align: int | None = None
    fill: bool = False
    fill_bit: int = 0

    def flags(self):
        return (HAS_SIZE * (self.size is not None) | HAS_OFFSET * (self.offset is not None)
                | HAS_ALIGN * (self.align is not None) | FILL * self.fill)


@dataclass
class Layout:
    banks: list = field(default_factory=list)
    nodes: list = field(default_factory=list)   # (kind, operand)
    rows: list = field(default_factory=list)    # a list of (number, state), one for each node
    values: bytes = b""
    limit: int = 10
    form: int = 1


def one(tag, payload):
    return struct.pack(">BH", tag, len(payload)) + payload


def bank_payload(bank, unread=0):
    """`unread` stands in the numbers whose flag is clear."""
    number = lambda value: unread if value is None else value
    return struct.pack(">HqIIIB", bank.unit, bank.start, number(bank.size), number(bank.offset), number(bank.align), bank.flags())


def node_payload(kind, operand):
    return struct.pack(">BI", kind, operand)


def row_payload(row):
    return b"".join(struct.pack(">IB", number, state) for number, state in row)


def fields(layout, unread=0):
    """The layout's fields, each as tag and payload. Form 2 has a field ahead, and a fill bit in each bank."""
    second = layout.form == 2
    bit = lambda bank: bytes([bank.fill_bit]) if second else b""
    return ([(16, b"\x02")] * second + [(17 if second else 1, bank_payload(bank, unread) + bit(bank)) for bank in layout.banks]
            + [(2, node_payload(kind, operand)) for kind, operand in layout.nodes]
            + [(3, row_payload(row)) for row in layout.rows]
            + [(4, bytes(layout.values)), (5, bytes([layout.limit]))])


def encode(layout, unread=0):
    return b"".join(one(tag, payload) for tag, payload in fields(layout, unread))


def decode(data):
    """The layout of a sound file."""
    layout = Layout()
    at = 0
    while at < len(data):
        tag, length = struct.unpack_from(">BH", data, at)
        payload = data[at + 3:at + 3 + length]
        at += 3 + length
        if tag == 16:
            layout.form = 2
        elif tag in (1, 17):
            unit, start, size, offset, align, flags = struct.unpack(">HqIIIB", payload[:23])
            given = lambda value, flag: value if flags & flag else None
            layout.banks.append(Bank(unit, start, given(size, HAS_SIZE), given(offset, HAS_OFFSET),
                                     given(align, HAS_ALIGN), bool(flags & FILL), payload[23] if tag == 17 else 0))
        elif tag == 2:
            layout.nodes.append(struct.unpack(">BI", payload))
        elif tag == 3:
            layout.rows.append(list(struct.iter_unpack(">IB", payload)))
        elif tag == 4:
            layout.values = payload
        else:
            layout.limit = payload[0]
    return layout


def show(layout):
    """The layout in words, a line for each bank and node."""
    lines = []
    for i, bank in enumerate(layout.banks):
        said = [f"unit {bank.unit}", f"start {bank.start}"]
        said += [f"{name} {value}" for name, value in (("size", bank.size), ("offset", bank.offset), ("label alignment", bank.align))
                 if value is not None]
        said += ["fill"] * bank.fill + ["fill bit 1"] * (bank.fill_bit == 1)
        lines.append(f"bank {i}: " + ", ".join(said))
    for i, (kind, operand) in enumerate(layout.nodes):
        name = KIND_NAMES[kind] if kind < len(KIND_NAMES) else f"kind {kind}"
        entries = "; ".join(f"{row[i][0]} state {row[i][1]}" for row in layout.rows)
        lines.append(f"node {i}: {name}, operand {operand}, rows: {entries}")
    lines.append(f"values {layout.values.hex()}" if layout.values else "no values")
    lines.append(f"limit {layout.limit}")
    return "\n".join(lines)


def worked_example():
    """Document 01's worked example."""
    return Layout(
        banks=[Bank(), Bank(unit=10, start=64, size=40, offset=0, fill=True)],
        nodes=[(SWITCH, 1), (LABEL, 0), (DATA, 0), (RESERVE, 0), (INSTRUCTION, 16)],
        rows=[[(0, 0), (0, 0), (10, 0), (10, 0), (10, 0)]],
        values=bytes.fromhex("ffc02a80"),
        limit=10)


def main():
    import model
    manners.parser(__doc__).parse_args()
    data = manners.given()
    try:
        model.read_form(data)
    except model.Refused as refused:
        raise manners.Stop(f"standard input is no sound file: its field {refused.place[0]} is broken") from None
    print(show(decode(data)))


if __name__ == "__main__":
    manners.run(main)
