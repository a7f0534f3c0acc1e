#!/usr/bin/env python3
"""Documents 01 and 02 once more, in Python: from a file of form 1 or 2 to the text that `layout` prints.

Written from the documents and the readings settled for them (docs/DECISIONS.md), and from nothing else, so that it can stand
beside the Rust and beside the proved program. Each part has the document's sentences above it.

    model.py           a file on standard input; prints what `layout` prints
    model.py --line    the same file; prints one line of the comparison's protocol (oracle/README.md)
    model.py --batch   many files, each behind four bytes of length, big-endian; a line for each

    --fill N           the fill's choice: 0 inherited (the default), 1 full, any other is refused
    --page N           in the profile of the paged device, with this page size in bits
    --padding          a line of the protocol has each bank's padding too, in bits and in whole units, and in the profile its pages"""

import sys
from bisect import bisect_left, bisect_right, insort
from collections import namedtuple
from struct import error, iter_unpack, unpack, unpack_from

import manners

MAX_FILE = {1: 65_000, 2: 65_536}
MAX_BANKS, MAX_NODES, MAX_ROWS, MAX_STORED = 16, 4_096, 16, 512
MAX_START = 2 ** 40
MAX_POSITION = 4_294_967_295
LENT_IMAGE_BITS, LENT_SPANS = 16_384 * 8, 4_096

NOTHING, SWITCH, LABEL, CONSTANT, INSTRUCTION, DATA, OPEN_DATA, RESERVE, ALIGN, ADDR, ASSERT = range(11)
RESOLVED, STABLE, UNRESOLVED = range(3)

Bank = namedtuple("Bank", "unit start size offset align fill fill_bit")
Layout = namedtuple("Layout", "form banks nodes rows values limit")
Span = namedtuple("Span", "address offset size")
Answer = namedtuple("Answer", "k run length hex spans blocks padding units pages")
# What a caller chooses: the fill (Ticket 8) and, in the profile of the paged device (Ticket 9), the page size in bits.
Choices = namedtuple("Choices", "fill page", defaults=(0, None))
INHERITED, FULL = 0, 1


class Refused(Exception):
    """A refusal: its number, its place (one number or two), and from 5 on the passes run."""

    def __init__(self, number, *place):
        self.number, self.place, self.run = number, place, None


# The file ---------------------------------------------------------------------------------------------------------------
# "Fields have a one-byte tag and a two-byte length, big-endian throughout, in this order: 1 bank, 2 node, 3 row, 4 values,
# one field; 5 pass limit, 1 byte. A broken file (a field missing, unknown, out of order or extra, a wrong length, flags
# above 15) is 4 with the first such field's index, from 0."
# Document 02, Ticket 7: "Form 2 begins with a field of tag 16 holding one byte, 2. Its banks use tag 17, with a payload one
# byte longer (fill bit, 0 or 1); fields 2 to 5 stay." "Form 2 may have 65,536 bytes." First byte 16 is form 2.

def form_of(data):
    return 2 if data[:1] == b"\x10" else 1


def fields_of(data, form):
    """The fields of a sound file of a form, each as tag and payload."""
    if len(data) > MAX_FILE[form]:
        raise Refused(4, 0)
    bank_tag, bank_length = (1, 23) if form == 1 else (17, 24)
    fields, nodes = [], 0
    at = newest = 0
    while not fields or fields[-1][0] != 5:
        broken = Refused(4, len(fields))
        if at + 3 > len(data):
            raise broken
        tag, length = unpack_from(">BH", data, at)
        payload = data[at + 3:at + 3 + length]
        if len(payload) < length:
            raise broken
        if form == 2 and not fields:
            if tag != 16 or payload != b"\x02":
                raise broken
        else:
            # Banks, nodes and rows may repeat, the next kind of field may be any up to the values; after them the limit.
            place = {bank_tag: 1, 2: 2, 3: 3, 4: 4, 5: 5}.get(tag, 0)
            if not (newest <= place <= 4 and place != 0 if newest < 4 else place == 5):
                raise broken
            if place != 4 and length != (bank_length, 5, 5 * nodes, None, 1)[place - 1]:
                raise broken
            if place == 1 and (payload[22] > 15 or (form == 2 and payload[23] > 1)):
                raise broken
            nodes += place == 2
            newest = place
        at += 3 + length
        fields.append((tag, payload))
    if at < len(data):
        raise Refused(4, len(fields))
    return fields


def read_form(data):
    form = form_of(data)
    banks, nodes, rows, values, limit = [], [], [], b"", None
    for tag, payload in fields_of(data, form):
        if tag in (1, 17):
            banks.append(read_bank(payload))
        elif tag == 2:
            nodes.append(unpack(">BI", payload))
        elif tag == 3:
            rows.append(list(iter_unpack(">IB", payload)))
        elif tag == 4:
            values = payload
        elif tag == 5:
            limit = payload[0]
    return Layout(form, banks, nodes, rows, values, limit)


# "unit 2 bytes, signed start 8, size 4, offset 4, label alignment 4, flags 1: size 1, offset 2, label alignment 4, fill 8";
# in form 2 the fill bit behind the flags.
def read_bank(payload):
    unit, start, size, offset, align, flags = unpack(">HqIIIB", payload[:23])
    return Bank(unit, start, size if flags & 1 else None, offset if flags & 2 else None, align if flags & 4 else None,
                flags & 8 != 0, payload[23] if len(payload) > 23 else 0)


# Banks ------------------------------------------------------------------------------------------------------------------

def check_banks(banks):
    # 1: "the bank count is outside 1 to 16"
    if not 1 <= len(banks) <= MAX_BANKS:
        raise Refused(1, 0)
    # 2: "a bank number is beyond its limit, or a filled bank has size 0"
    # Document 02, Ticket 6: "2 also for bank 0 with fill bit one, filled or not"
    for i, bank in enumerate(banks):
        if bank.unit == 0 or abs(bank.start) > MAX_START or (bank.fill and bank.size == 0) or bank.fill_bit > (i != 0):
            raise Refused(2, i)
    # 3: "Pairs are compared in rising order; bank 0 and banks without offset never are."
    for i in range(1, len(banks)):
        for j in range(i + 1, len(banks)):
            if banks[i].offset is not None and banks[j].offset is not None and overlap(banks[i], banks[j]):
                raise Refused(3, i, j)


# "Two without size always overlap. A sized bank overlaps an unsized one when its end is past the other's offset. Two sized
# ones overlap when each end is past the other's offset."
def overlap(a, b):
    return ((a.size is None or a.offset + a.size > b.offset)
            and (b.size is None or b.offset + b.size > a.offset))


# "Fill takes every bank in order, bank 0 too. With fill, size and offset, let h = offset + size - 1; if the image length is
# below h, it becomes h + 1." Document 02, Ticket 8: "or full fill, where the fill's length is the largest offset + size
# among banks with fill, size and offset, or 0"
def fill_length(banks, choice):
    ranges = [fill_range(bank) for bank in banks if fill_range(bank)]
    if choice == FULL:
        return max((end for _, end in ranges), default=0)
    length = 0
    for offset, end in ranges:
        h = end - 1
        if length < h:
            length = h + 1
    return length


def fill_range(bank):
    """The range of a bank with fill, size and offset."""
    if bank.fill and bank.size is not None and bank.offset is not None:
        return bank.offset, bank.offset + bank.size
    return None


# The list ---------------------------------------------------------------------------------------------------------------
# "then 4: node count, row count, limit, then the lowest node, its kind, operand and rows in order." Document 02, Ticket 8:
# "4 for an unknown choice, after the limit (field 3)"

def check_list(layout, choices):
    if len(layout.nodes) > MAX_NODES:
        raise Refused(4, 0)
    if not 1 <= len(layout.rows) <= MAX_ROWS:
        raise Refused(4, 1)
    if choices.fill not in (INHERITED, FULL):
        raise Refused(4, 3)
    value_bits = 8 * len(layout.values)
    for i, (kind, operand) in enumerate(layout.nodes):
        if not sound_node(i, kind, operand, layout, value_bits):
            raise Refused(4, i)


# "Kinds 0 to 3 and 10 don't read the number; 0, 1 and 2 don't read the state. The item's starting bit plus its number must
# not pass the end of the value bytes, in any row." "Kind 5 takes its number from the first row."
def sound_node(i, kind, operand, layout, value_bits):
    if kind > ASSERT:
        return False
    if kind == SWITCH:
        return operand < len(layout.banks)
    if kind in (NOTHING, LABEL):
        return True
    for n, row in enumerate(layout.rows):
        number, state = row[i]
        reads_number = kind in (INSTRUCTION, OPEN_DATA) or (kind == DATA and n == 0)
        if state > UNRESOLVED or (reads_number and operand + number > value_bits):
            return False
    return True


# The profile ------------------------------------------------------------------------------------------------------------
# Document 02, Ticket 9: "page size in bits and every nonzero alignment must have exactly one bit set, every bank with an
# offset must have its offset on a page and a size of whole pages, address units are 8 or 16, and `addr` goes only to a
# multiple of its bank's unit, in every row. The answer names the first rule broken, 1 to 6 in this order, each ascending:
# page size (place 0), alignments (banks, then nodes in every row), offset, size (none breaks it), unit, `addr`."

def profile(layout, page):
    ragged = lambda n: bin(n).count("1") != 1
    numbers = lambda i: (row[i][0] for row in layout.rows)
    banks = list(enumerate(layout.banks))
    if ragged(page):
        raise Refused(19, 1, 0)
    for i, bank in banks:
        if bank.align and ragged(bank.align):
            raise Refused(19, 2, i)
    for i, (kind, _) in enumerate(layout.nodes):
        if kind == ALIGN and any(n and ragged(n) for n in numbers(i)):
            raise Refused(19, 2, i)
    with_offset = [(i, bank) for i, bank in banks if bank.offset is not None]
    for i, bank in with_offset:
        if bank.offset % page:
            raise Refused(19, 3, i)
    for i, bank in with_offset:
        if bank.size is None or bank.size % page:
            raise Refused(19, 4, i)
    for i, bank in banks:
        if bank.unit not in (8, 16):
            raise Refused(19, 5, i)
    current = 0
    for i, (kind, operand) in enumerate(layout.nodes):
        if kind == SWITCH:
            current = operand
        if kind == ADDR and any(n % layout.banks[current].unit for n in numbers(i)):
            raise Refused(19, 6, i)
    # "then with each bank's pages, its size over the page size, none without an offset"
    return [None if bank.offset is None else bank.size // page for bank in layout.banks]


# The walk ---------------------------------------------------------------------------------------------------------------
# "The distance to alignment A is 0 for A = 0. Otherwise, with r the remainder of start × unit + position by A, it is 0 for
# r = 0 and A - r for others." Document 02, Ticket 3: "Use the remainder from 0 to alignment - 1".

def distance(bank, position, alignment):
    if alignment == 0:
        return 0
    remainder = (bank.start * bank.unit + position) % alignment
    return 0 if remainder == 0 else alignment - remainder


def row_of(layout, n):
    """"Pass n reads row n, or the last row if there are fewer.\""""
    return layout.rows[min(n, len(layout.rows)) - 1]


class Pass:
    """One walk over the nodes with one row: what each node sees, and the pass's state."""

    def __init__(self, layout, n, is_last, before):
        # "Each bank's position starts at 0, known, and is kept through switches. The walk begins in bank 0."
        self.positions = [0] * len(layout.banks)
        self.known = [True] * len(layout.banks)
        # Document 02, Ticket 2: "the sum of bits lost to `align` and to label alignment", and "the count of whole address units it skips", skip by skip
        self.banks = layout.banks
        self.lost = [0] * len(layout.banks)
        self.lost_units = [0] * len(layout.banks)
        self.state = RESOLVED
        self.seen = []          # for each node its bank and the position that it sees
        self.addresses = {}     # for each label its address
        row, first_row, banks = row_of(layout, n), layout.rows[0], layout.banks
        current = 0
        for i, (kind, operand) in enumerate(layout.nodes):
            number, state = row[i]
            if kind == DATA:
                number = first_row[i][0]
            if kind == SWITCH:
                current = operand
            bank = banks[current]
            # "A node sees its bank's position before its own advance, except that a symbol (label or constant) of depth 0 in
            # a bank with label alignment is aligned first."
            if (kind == LABEL or kind == CONSTANT) and operand == 0 and bank.align is not None:
                self.pad(current, distance(bank, self.positions[current], bank.align), i)
            self.seen.append((current, self.positions[current]))
            if kind == LABEL:
                state = self.label_state(i, bank, current, is_last, before)
            elif kind == NOTHING or kind == SWITCH:
                state = RESOLVED
            # "A pass is unresolved if any state is 2, stable if any is 1, otherwise resolved."
            if state > self.state:
                self.state = state
            self.advance(i, kind, number, state, bank, current)

    # 5: "a position would pass 4,294,967,295"
    def move(self, current, position, node):
        if position > MAX_POSITION:
            raise Refused(5, node)
        self.positions[current] = position

    def pad(self, current, bits, node):
        self.move(current, self.positions[current] + bits, node)
        self.lost[current] += bits
        # "distance over unit, rounded down"
        self.lost_units[current] += bits // self.banks[current].unit

    # "Afterwards 4 to 7 add their number, 8 adds the distance to alignment, 9 sets the position. Known-ness: 4, 6, 7, 8 keep
    # it only if state is 0; 5 and symbols leave it; 9 makes it so exactly if state is 0."
    def advance(self, i, kind, number, state, bank, current):
        position = self.positions[current]
        if INSTRUCTION <= kind <= RESERVE:
            self.move(current, position + number, i)
        elif kind == ALIGN:
            self.pad(current, distance(bank, position, number), i)
        elif kind == ADDR:
            self.move(current, number, i)
            self.known[current] = state == RESOLVED
        if kind in (INSTRUCTION, OPEN_DATA, RESERVE, ALIGN) and state != RESOLVED:
            self.known[current] = False

    # "a label is resolved when its position is known and on a boundary, stable when its address equals that of the pass
    # before (never in pass 1), unresolved otherwise." 7: "a label in the last pass is off an address boundary"
    def label_state(self, i, bank, current, is_last, before):
        position = self.positions[current]
        on_boundary = position % bank.unit == 0
        if is_last and not on_boundary:
            raise Refused(7, i)
        address = bank.start + position // bank.unit
        self.addresses[i] = address
        if self.known[current] and on_boundary:
            return RESOLVED
        if before is not None and before.addresses[i] == address:
            return STABLE
        return UNRESOLVED


# Passes -----------------------------------------------------------------------------------------------------------------
# "With limit M, passes 1, 2, .. run until one is not unresolved, pass K. If K is M, that pass was the last. If K is below M,
# pass K + 1 runs as the last and must not be unresolved. If none is found, 8. M = 0 runs pass 1 as the last, and K is 0."

class Passes:
    def __init__(self, layout):
        self.run = 0
        self.newest = None
        try:
            self.k = self.find_k(layout)
        except Refused as refused:
            refused.run = self.run
            raise

    def find_k(self, layout):
        limit = layout.limit
        k = 0
        if limit > 0:
            k = next((n for n in range(1, limit + 1) if self.one(layout, n, n == limit) != UNRESOLVED), None)
            if k is None:
                raise Refused(8, 0)
            if k == limit:
                return k
        if self.one(layout, k + 1, True) == UNRESOLVED:
            raise Refused(8, 0)
        return k

    def one(self, layout, n, is_last):
        self.run += 1
        self.newest = Pass(layout, n, is_last, self.newest)
        return self.newest.state


# The store --------------------------------------------------------------------------------------------------------------

class Store:
    def __init__(self):
        self.starts, self.ends, self.marks = [], [], []

    # "an offer of nonzero size is kept in ascending order if it shares no bit. Refusal 12 names the lowest stored start at or
    # above the offer if those two share a bit, otherwise the one below." "an offer of size 0 is refused exactly when its
    # position is strictly inside a stored interval; otherwise it is accepted" and remembered as a mark, apart from intervals: "A block is refused
    # when a mark is strictly inside it", "naming the lowest such mark unless an interval is to be named".
    def offer(self, position, size, node):
        above = bisect_left(self.starts, position)
        end = position + size
        if size != 0 and above < len(self.starts) and self.starts[above] < end:
            raise self.names(above)
        if above > 0 and self.ends[above - 1] > position:
            raise self.names(above - 1)
        past = bisect_right(self.marks, position)
        if past < len(self.marks) and self.marks[past] < end:
            raise Refused(12, self.marks[past], 0)
        # 13: "the store holds 512 and the offer, of nonzero size, shares no bit"; "also when 512 marks are kept and another is acceptable"
        if len(self.marks if size == 0 else self.starts) == MAX_STORED:
            raise Refused(13, node)
        if size == 0:
            insort(self.marks, position)
            return
        self.starts.insert(above, position)
        self.ends.insert(above, end)

    def names(self, i):
        return Refused(12, self.starts[i], self.ends[i] - self.starts[i])


# The build --------------------------------------------------------------------------------------------------------------
# "The build walks the nodes and tries 9, 10, 11, 12, 13 at each. 14 comes last: image, then spans."

def build(layout, passes, choices):
    row, first_row = row_of(layout, passes.run), layout.rows[0]
    store, spans, written = Store(), [], []
    length = fill_length(layout.banks, choices.fill)
    for i, (kind, operand) in enumerate(layout.nodes):
        is_written = INSTRUCTION <= kind <= OPEN_DATA
        if not (is_written or kind == LABEL or kind == RESERVE):
            continue
        current, position = passes.newest.seen[i]
        bank = layout.banks[current]
        size = 0 if kind == LABEL else first_row[i][0] if kind == DATA else row[i][0]
        # 9: "bank 0 is used while other banks exist"; document 02, Ticket 13: "9 in form 2 also with one bank"
        if current == 0 and (len(layout.banks) > 1 or layout.form == 2):
            raise Refused(9, i)
        # 10: "an item ends past its bank's size"
        if bank.size is not None and position + size > bank.size:
            raise Refused(10, i)
        # 11: "an item is written in a bank without output offset"
        if is_written and bank.offset is None:
            raise Refused(11, i)
        # "the output position is offset plus position"
        offset = None if bank.offset is None else bank.offset + position
        if kind != LABEL and offset is not None:
            store.offer(offset, size, i)
        if is_written:
            written.append((offset, size, operand))
            length = max(length, offset + size)
        # "Spans are labels (size 0) and written items in node order, with address and offset or none."
        if kind != RESERVE:
            spans.append(Span(bank.start + position // bank.unit, offset, size))
    if length > LENT_IMAGE_BITS:
        raise Refused(14, 0)
    if len(spans) > LENT_SPANS:
        raise Refused(14, 1)
    return length, hex_of(length, written, layout.values, layout.banks), spans


# "Bits run from the top of each byte, value bytes too." "Hex takes four bits a digit, lower case, the last digit padded with
# zero bits." Document 02, Ticket 6: "In a bank other than bank 0 with fill, size and offset, every bit of its range inside
# the image length that belongs to no written item takes the fill bit, reserved bits too."
def hex_of(length, written, values, banks):
    digits = (length + 3) // 4
    bits = lambda offset, end: (1 << end - offset) - 1 << 4 * digits - end
    all_values, value_bits = int.from_bytes(values, "big"), 8 * len(values)
    image = 0
    for bank in banks[1:]:
        if fill_range(bank) and bank.fill_bit:
            offset, end = fill_range(bank)
            if offset < min(end, length):
                image |= bits(offset, min(end, length))
    for offset, size, start in written:
        item = all_values >> (value_bits - start - size) & (1 << size) - 1
        image &= ~bits(offset, offset + size)
        image |= item << (4 * digits - offset - size)
    return format(image, f"0{digits}x") if digits else ""


# "For blocks, spans are taken by offset, equal ones in their order; a span whose offset is none is passed over. A span
# starting exactly at the running end joins; another closes the block. Blocks of size 0 are dropped."
def blocks_of(spans):
    blocks = []
    for span in sorted((span for span in spans if span.offset is not None), key=lambda span: span.offset):
        if blocks and span.offset == blocks[-1][0] + blocks[-1][1]:
            blocks[-1][1] += span.size
        else:
            blocks.append([span.offset, span.size])
    return [(offset, size) for offset, size in blocks if size != 0]


# The program ------------------------------------------------------------------------------------------------------------
# "Order: 1, 2 by ascending bank, 3, then 4 [..]. Then each pass in node order meets 5, 6 and 7, and 8 at its end." "Refusals 5
# to 14 of a layout carry the passes run too, a refusing pass included."

# Document 02: "19 (new), after 4 and before the first pass"
def answer(data, choices=Choices()):
    layout = read_form(data)
    check_banks(layout.banks)
    check_list(layout, choices)
    pages = None if choices.page is None else profile(layout, choices.page)
    passes = Passes(layout)
    try:
        length, image, spans = build(layout, passes, choices)
    except Refused as refused:
        refused.run = passes.run
        raise
    return Answer(passes.k, passes.run, length, image, spans, blocks_of(spans), passes.newest.lost, passes.newest.lost_units, pages)


# "The first line is K. An empty image prints `image` alone. A refusal prints `refused`, number and place, one space between."
def printed(data, choices=Choices()):
    try:
        a = answer(data, choices)
    except Refused as refused:
        return " ".join(map(str, ("refused", refused.number, *refused.place))) + "\n"
    lines = [f"passes {a.k}"] + [f"block {offset} {size}" for offset, size in a.blocks] + [f"image {a.hex}".rstrip()]
    return "".join(line + "\n" for line in lines)


def line(data, choices=Choices(), with_padding=False):
    """The whole answer in one line of the comparison's protocol."""
    try:
        a = answer(data, choices)
    except Refused as refused:
        run = "" if refused.run is None else f" passes {refused.run}"
        return " ".join(map(str, ("refused", refused.number, *refused.place))) + run
    spans = ",".join(f"{s.address}:{'-' if s.offset is None else s.offset}:{s.size}" for s in a.spans)
    blocks = ",".join(f"{offset}:{size}" for offset, size in a.blocks)
    said = f"ok {a.k} {a.run} {a.length} {a.hex or '-'} | spans {spans or '-'} | blocks {blocks or '-'}"
    if with_padding:
        said += " | padding " + ",".join(map(str, a.padding)) + " | units " + ",".join(map(str, a.units))
        if a.pages is not None:
            said += " | pages " + ",".join("-" if n is None else str(n) for n in a.pages)
    return said


def batch(stream):
    """The files of a stream of the comparison."""
    at = 0
    while at < len(stream):
        try:
            length, = unpack_from(">I", stream, at)
        except error:
            length = len(stream)
        if at + 4 + length > len(stream):
            raise manners.Stop("standard input has no whole files, each behind its length")
        yield stream[at + 4:at + 4 + length]
        at += 4 + length


def main():
    parser = manners.parser(__doc__)
    parser.add_argument("--line", action="store_true")
    parser.add_argument("--batch", action="store_true")
    parser.add_argument("--padding", action="store_true")
    parser.add_argument("--fill", type=manners.count, default=INHERITED)
    parser.add_argument("--page", type=manners.count)
    asked = parser.parse_args()
    if asked.fill > 255 or asked.page is not None and asked.page >= 2 ** 32:
        parser.error("the fill's choice is a byte, the page size a number of 32 bits")
    choices = Choices(asked.fill, asked.page)
    data = manners.given()
    if asked.batch:
        sys.stdout.write("".join(line(file, choices, asked.padding) + "\n" for file in batch(data)))
    elif asked.line:
        print(line(data, choices, asked.padding))
    else:
        sys.stdout.write(printed(data, choices))


if __name__ == "__main__":
    manners.run(main)
