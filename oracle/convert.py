#!/usr/bin/env python3
"""Document 02's converter once more, in Python: a file of form 1 to form 2, and back.

Written from document 02, Tickets 7 and 13, and the readings settled for them (docs/DECISIONS.md), and from nothing else.

    convert.py --to 1|2            a file on standard input; the other form on standard output, or `refused NUMBER PLACE` with status 1
    convert.py --batch --to 1|2    many files, each behind four bytes of length, big-endian; a line for each: `ok HEX` or `refused NUMBER PLACE`
    convert.py --room N            so many bytes are lent for the result (the longest result if not given)"""

import sys
from struct import pack

import manners
import model
from form1 import one
from model import MAX_FILE, MAX_NODES, MAX_ROWS, SWITCH, Refused

NOTHING_READ = bytes(5)     # a row's number 0 and state 0
HEAD = one(16, b"\x02")


class File:
    """A sound file's fields as bytes: "Bytes are carried over, numbers whose flag is clear too.\""""

    def __init__(self, data, form):
        fields = model.fields_of(data, form)
        pick = lambda *tags: [payload for tag, payload in fields if tag in tags]
        self.banks, self.nodes, self.rows = pick(1, 17), pick(2), pick(3)
        self.values, self.limit = pick(4)[0], pick(5)[0]

    def bytes(self, form):
        tag = 1 if form == 1 else 17
        fields = ([one(tag, bank) for bank in self.banks] + [one(2, node) for node in self.nodes] + [one(3, row) for row in self.rows]
                  + [one(4, self.values), one(5, self.limit)])
        return (HEAD if form == 2 else b"") + b"".join(fields)


def switches(nodes):
    """Each switch with its node's number and the bank that it names."""
    return [(i, int.from_bytes(node[1:], "big")) for i, node in enumerate(nodes) if node[0] == SWITCH]


def switched(nodes, bank):
    """The nodes with every switch going to a bank."""
    return [pack(">BI", SWITCH, bank) if node[0] == SWITCH else node for node in nodes]


# Ticket 13: "The converter to form 2 gives every one-bank file a bank 1 with bank 0's record, leaves bank 0 only its unit and
# start (the rest zero), puts a switch to bank 1 ahead of the first node, zeros in each row, and turns every other switch to
# bank 0 into one to bank 1."
def with_bank_1(file):
    record = file.banks[0]
    file.banks = [record[:10] + bytes(13), record]
    file.nodes = [pack(">BI", SWITCH, 1)] + switched(file.nodes, 1)
    file.rows = [NOTHING_READ + row for row in file.rows]


# "The way back takes exactly that shape to the one-bank file."
def has_shape(file):
    if len(file.banks) != 2 or not file.nodes:
        return False
    first, second = file.banks
    return (first == second[:10] + bytes(14) and second[23] == 0
            and file.nodes[0] == pack(">BI", SWITCH, 1) and all(bank == 1 for _, bank in switches(file.nodes))
            and all(row[:5] == NOTHING_READ for row in file.rows))


def without_bank_1(file):
    file.banks = [file.banks[1]]
    file.nodes = switched(file.nodes[1:], 0)
    file.rows = [row[5:] for row in file.rows]


# Ticket 13: "4 past 4,096 nodes or 16 rows, in file or result, or for a one-bank file that names another bank"
def check_counts(file, more_nodes):
    if len(file.nodes) + more_nodes > MAX_NODES:
        raise Refused(4, 0)
    if len(file.rows) > MAX_ROWS:
        raise Refused(4, 1)
    if len(file.banks) == 1:
        for i, bank in switches(file.nodes):
            if bank != 0:
                raise Refused(4, i)


# Ticket 7: "4 for a broken file or a result past its form's length, then 18 (new) for a way back that would drop a fill bit of
# one, then 14."
def to_form_2(data, room=None):
    file = File(data, 1)
    is_alone = len(file.banks) == 1
    check_counts(file, is_alone)
    if is_alone:
        with_bank_1(file)
    file.banks = [bank + b"\0" for bank in file.banks]
    return fitting(file.bytes(2), 2, False, room)


def to_form_1(data, room=None):
    file = File(data, 2)
    check_counts(file, 0)
    if has_shape(file):
        without_bank_1(file)
    drops = any(bank[23] for bank in file.banks)
    file.banks = [bank[:23] for bank in file.banks]
    return fitting(file.bytes(1), 1, drops, room)


def fitting(result, form, drops, room):
    if len(result) > MAX_FILE[form]:
        raise Refused(4, 0)
    if drops:
        raise Refused(18, 0)
    if room is not None and len(result) > room:
        raise Refused(14, 0)
    return result


def line(data, to, room):
    try:
        return "ok " + ((to_form_2 if to == 2 else to_form_1)(data, room).hex() or "-")
    except Refused as refused:
        return " ".join(map(str, ("refused", refused.number, *refused.place)))


def main():
    parser = manners.parser(__doc__)
    parser.add_argument("--to", type=int, choices=(1, 2), required=True)
    parser.add_argument("--batch", action="store_true")
    parser.add_argument("--room", type=manners.count)
    asked = parser.parse_args()
    data = manners.given()
    if asked.batch:
        sys.stdout.write("".join(line(file, asked.to, asked.room) + "\n" for file in model.batch(data)))
        return
    said = line(data, asked.to, asked.room)
    if not said.startswith("ok "):
        print(said)
        sys.exit(1)
    sys.stdout.buffer.write(bytes.fromhex(said[3:]))


if __name__ == "__main__":
    manners.run(main)
