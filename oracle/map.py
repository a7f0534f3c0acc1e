#!/usr/bin/env python3
"""What the program `mapper` prints, once more: where each node of a layout stands in the row of the last pass, as far as the layout goes.

    map.py [FILL [PAGE]]    a file on standard input; FILL is the fill's choice, 0 unless said; PAGE the page size in bits of a device with pages

Over model.py's file, checks, passes and store; the walk's figures are kept here node by node, and the rules 9 to 13 are tried here once more, so that
the node at which one is met is known. A line for the file, for each bank and for each node that has a place, then the node at fault and the verdict."""

import sys

import manners
import model
from model import DATA, INSTRUCTION, LABEL, OPEN_DATA, RESERVE, Refused


class Kept(model.Pass):
    """A pass that keeps what each node has skipped, and is there for its reader also where it was refused."""
    newest = None

    def __init__(self, *given):
        Kept.newest = self
        self.skips = []         # for each skip its node, bank and bits
        super().__init__(*given)

    def pad(self, current, bits, node):
        super().pad(current, bits, node)
        self.skips.append((node, current, bits))


class KeptPasses(model.Passes):
    def one(self, layout, n, is_last):
        self.run += 1
        self.newest = Kept(layout, n, is_last, self.newest)
        return self.newest.state


# "Kind 5 takes its number from the first row"; a pass reads "row n, or the last row if there are fewer".
def size_of(layout, run, node):
    kind = layout.nodes[node][0]
    if not INSTRUCTION <= kind <= RESERVE:
        return 0
    return (layout.rows[0] if kind == DATA else model.row_of(layout, run))[node][0]


# "The build walks the nodes and tries 9, 10, 11, 12, 13 at each."
def place(layout, seen, run, store, node):
    kind = layout.nodes[node][0]
    written = kind in (INSTRUCTION, DATA, OPEN_DATA)
    if not written and kind not in (LABEL, RESERVE):
        return
    (current, position), size = seen[node], size_of(layout, run, node)
    bank = layout.banks[current]
    if current == 0 and (len(layout.banks) != 1 or layout.form == 2):
        raise Refused(9, node)
    if bank.size is not None and bank.size < position + size:
        raise Refused(10, node)
    if bank.offset is None:
        if written:
            raise Refused(11, node)
    elif kind != LABEL:
        store.offer(bank.offset + position, size, node)


def walked(layout):
    """Passes run, the last pass, how many of its nodes have a place, the node at fault and the refusal, none where there is none."""
    try:
        passes = KeptPasses(layout)
    except Refused as refused:
        fault = refused.place[0] if refused.number in (5, 7) else None
        shown = {5: fault, 7: fault if fault is None else fault + 1, 8: len(layout.nodes)}[refused.number]
        return refused.run, Kept.newest, shown, fault, refused
    store = model.Store()
    for node in range(len(layout.nodes)):
        try:
            place(layout, passes.newest.seen, passes.run, store, node)
        except Refused as refused:
            return passes.run, passes.newest, node + 1, node, refused
    return passes.run, passes.newest, len(layout.nodes), None, None


def word(number):
    return "-" if number is None else number


def bank_line(i, bank, lost):
    told = "bank", i, bank.unit, bank.start, word(bank.size), word(bank.offset), word(bank.align), int(bank.fill), bank.fill_bit
    return *told, sum(lost), sum(bits // bank.unit for bits in lost)


def node_line(layout, last, run, node):
    current, position = last.seen[node]
    bank = layout.banks[current]
    output = None if bank.offset is None else bank.offset + position
    return "node", node, layout.nodes[node][0], current, position, bank.start + position // bank.unit, word(output), size_of(layout, run, node)


def refusal_line(refused):
    return ("refused", refused.number, *refused.place)


def lines_of(data, choices):
    try:
        layout = model.read_form(data)
    except Refused as refused:
        yield refusal_line(refused)
        return
    run, last, shown, fault, refused = 0, None, 0, None, None
    try:
        model.check_banks(layout.banks)
        model.check_list(layout, choices)
        if choices.page is not None:
            model.profile(layout, choices.page)
        run, last, shown, fault, refused = walked(layout)
    except Refused as early:
        refused = early
    yield "file", layout.form, layout.limit, len(layout.rows), run, len(layout.nodes)
    for i, bank in enumerate(layout.banks[:model.MAX_BANKS]):
        yield bank_line(i, bank, [bits for node, at, bits in (last.skips if last else ()) if at == i and node < shown])
    for node in range(shown):
        yield node_line(layout, last, run, node)
    if fault is not None:
        yield "fault", fault
    yield refusal_line(refused) if refused else ("accepted",)


def printed(data, choices=model.Choices()):
    return "".join(" ".join(map(str, fields)) + "\n" for fields in lines_of(data, choices))


def main():
    parser = manners.parser(__doc__)
    parser.add_argument("fill", nargs="?", type=manners.count, default=model.INHERITED, metavar="FILL")
    parser.add_argument("page", nargs="?", type=manners.count, metavar="PAGE")
    asked = parser.parse_args()
    sys.stdout.write(printed(manners.given(), model.Choices(fill=asked.fill, page=asked.page)))


if __name__ == "__main__":
    manners.run(main)
