#!/usr/bin/env python3
"""Reads the words of tools/form, by the grammar of docs/FORMAT.md and nothing beside it.

Other scripts read it, nobody runs it. What is not in the grammar is refused with its line, its column and what was expected there."""

import difflib
import re
import struct
import sys
from pathlib import Path

sys.path.insert(0, str(Path(__file__).resolve().parent.parent / "oracle"))

import manners  # noqa: E402

KINDS = ("nothing", "switch", "label", "constant", "instruction", "data", "open", "reserve", "align", "addr", "assert")
WRITTEN, SIZED = ("instruction", "data", "open"), ("reserve", "align", "addr")
NODES = (*KINDS, "mark", "kind")
ORDER = ("form", "bank", "rows", "node", "values", "limit")
STATES = {"~": 1, "?": 2}
BRACKETED = {"size": 1, "offset": 2, "align": 4}
LONGEST = {1: 65_000, 2: 65_536}
U32, MOST_BITS = 2**32 - 1, 8 * 65_535
BANK, NODE, ROW, VALUES, LIMIT, HEAD, SECOND_BANK = 1, 2, 3, 4, 5, 16, 17
NUMBER = re.compile("0|[1-9][0-9]*|0x[0-9a-fA-F]+")
TOKEN = re.compile("(?:(?![:~?!()#])[!-~])*")
MORE = re.compile("[ \t][^ \t#]")
# what no remark holds: control characters, and what some editors show as the end of a line or in another order than it is read
HIDDEN = re.compile("[\x00-\x08\x0a-\x1f\x7f-\x9f\u2028\u2029\u202a-\u202e\u2066-\u2069\ufeff]")


class Line:
    """A line as far as it is read. Each method reads the next thing, or says what was expected and what is there."""

    def __init__(self, number, text, ended):
        self.number, self.at, self.ended = number, 0, ended
        self.text = text.removesuffix("\r") if ended else text

    def stop(self, said, at=None):
        raise manners.Stop(f"line {self.number}, column {(self.at if at is None else at) + 1}: {said}")

    def expected(self, what, hint=""):
        self.stop(f"expected {what}, found {self.found()}{hint}")

    def found(self):
        """What stands here, in words."""
        rest = self.text[self.at:]
        if not rest:
            return "the end of the line" if self.ended else "the end of the file"
        if rest[0] in " \t":
            second = "a second" if self.at and self.text[self.at - 1] in " \t" else "a"
            return f"{second} {'space' if rest[0] == ' ' else 'tab'}"
        if not "!" <= rest[0] <= "~":
            return f"the character U+{ord(rest[0]):04X}" + (" (a byte order mark)" if rest[0] == "\ufeff" else "")
        return f"'{(TOKEN.match(rest).group() or rest[0])[:40]}'"

    def next(self, size=1):
        return self.text[self.at:self.at + size]

    def goes_on(self):
        """Whether one more word follows, behind one blank."""
        return MORE.match(self.text, self.at) is not None

    def blank(self, before):
        if self.next() not in (" ", "\t"):
            self.expected(f"a space and {before}")
        self.at += 1

    def colon(self, after, hint=""):
        if self.next() != ":":
            self.expected(f"a colon after {after}", hint)
        self.at += 1

    def literal(self, *words):
        """One of some words, whole."""
        token = TOKEN.match(self.text, self.at).group()
        if token not in words:
            self.expected(" or ".join(words))
        self.at += len(token)
        return token

    def number_of(self, what, low, high, signed=False):
        start = self.at
        minus = signed and self.next() == "-"
        token = TOKEN.match(self.text, start + minus).group()
        if not NUMBER.fullmatch(token):
            self.expected(what)
        # decimal digits are not led by zeros, so that so many are past every range
        value = 2**64 if len(token) > 20 and token.isdecimal() else int(token, 0)
        value = -value if minus else value
        if not low <= value <= high:
            self.expected(f"{what}, {low} to {high}")
        self.at = start + minus + len(token)
        return value

    def end(self):
        """The end of the line, or a remark up to it."""
        rest = self.text[self.at:]
        if rest:
            blanks = len(rest) - len(rest.lstrip(" \t"))
            if rest[blanks:blanks + 1] != "#":
                self.expected("the end of the line or a remark")
            hidden = HIDDEN.search(rest, blanks)
            if hidden:
                self.stop(f"the character U+{ord(hidden.group()):04X} is not allowed in a remark", self.at + hidden.start())
        if not self.ended:
            self.stop("the last line has no line end: the file may have been cut", len(self.text))


class Words:
    """What the lines say so far."""

    def __init__(self):
        self.form, self.rows, self.limit, self.stage = 1, 1, None, 0
        self.banks, self.nodes, self.cells, self.values, self.packed, self.bits = [], [], [], b"", [], 0
        self.given = {}

    def read(self, line):
        if re.match("[ \t]*(#|$)", line.text) and not line.text.isspace():
            line.end()
            return
        word = re.match("[a-z]*", line.text).group()
        stage = "node" if word in NODES else word
        if stage not in ORDER or word == "node":
            near = difflib.get_close_matches(word, (*ORDER[:3], *NODES, *ORDER[4:]), 1)
            line.expected("form, bank, rows, a node, values or limit", f" (did you mean {near[0]}?)" if near else "")
        self.enter(line, stage, word)
        line.at = len(word)
        if stage == "node":
            self.node(line, word)
        else:
            getattr(self, f"read_{stage}")(line)
        line.end()
        self.fits(line, 0)

    def enter(self, line, stage, word):
        """Lines come in the order of the file, and form, rows and limit once."""
        if stage in self.given and stage in ("form", "rows", "limit"):
            line.stop(f"{stage} is already given in line {self.given[stage]}")
        if ORDER.index(stage) < self.stage:
            last = ORDER[self.stage]
            line.stop(f"{word} cannot come after {'a node' if last == 'node' else last} (line {self.given[last]}): "
                      "the order is form, banks, rows, nodes, values, limit")
        self.stage = ORDER.index(stage)
        self.given[stage] = line.number

    def read_form(self, line):
        line.blank("1 or 2")
        self.form = int(line.literal("1", "2"))

    def read_bank(self, line):
        line.blank("unit")
        line.literal("unit")
        line.blank("the bits of an address")
        told, flags = {"unit": line.number_of("the bits of an address", 0, 65_535), "start": 0, "size": 0, "offset": 0, "align": 0}, 0
        names = ["start", "size", "offset", "align", "fill", "ones"]
        while line.goes_on():
            line.blank("a word of the bank")
            bracket = line.next() == "("
            line.at += bracket
            name = self.bank_word(line, [one for one in names if one in BRACKETED] if bracket else names, bracket)
            names = names[names.index(name) + 1:]
            if name in ("fill", "ones"):
                told[name] = 1
            else:
                told[name] = self.bank_number(line, name, bracket)
                flags |= 0 if bracket else BRACKETED.get(name, 0)
        numbers = [told[name] for name in ("unit", "start", "size", "offset", "align")]
        payload = struct.pack(">HqIIIB", *numbers, flags | 8 * ("fill" in told))
        self.banks.append(payload + bytes([int("ones" in told)] if self.form == 2 else []))

    def bank_word(self, line, names, bracket):
        """The next of a bank's words, which stand in one order, each at most once."""
        every = ("unit", "start", "size", "offset", "align", "fill", "ones")
        token = TOKEN.match(line.text, line.at).group()
        if token == "ones" and self.form == 1:
            line.stop("ones needs form 2: put a line form 2 before the banks")
        if token in every and token not in names:
            line.stop(f"only size, offset and align may be in brackets, not {token}" if bracket and token not in BRACKETED else
                      f"{token} is given twice or out of order: the order is {', '.join(every)}")
        return line.literal(*[name for name in names if name != "ones" or self.form == 2] or ["the end of the line"])

    def bank_number(self, line, name, bracket):
        """The number behind a word of a bank, with the bracket that closes it."""
        what = "an address" if name == "start" else "a number of bits"
        line.blank(what)
        number = line.number_of(what, -2**63, 2**63 - 1, True) if name == "start" else line.number_of(what, 0, U32)
        if bracket:
            if line.next() != ")":
                line.expected(f"a closing bracket for ({name}")
            line.at += 1
        return number

    def read_rows(self, line):
        line.blank("the number of rows")
        self.rows = line.number_of("the number of rows", 0, 65_535)

    def node(self, line, word):
        """A node: its kind, its operand and a number and a state for each row."""
        kind, operand, cells = KINDS.index("reserve" if word == "mark" else word) if word != "kind" else 0, 0, [(0, 0)]
        if word == "kind":
            kind, operand, cells = self.by_numbers(line)
        elif word in WRITTEN:
            operand, cells = self.written(line, word)
        elif word in SIZED:
            cells = self.numbers(line, word, self.hint(line, word))
        elif word == "switch":
            line.blank("the number of a bank")
            operand = line.number_of("the number of a bank", 0, U32)
        elif word in ("label", "constant") and line.goes_on():
            line.blank("a depth")
            operand = line.number_of("a depth, 0 for the outermost", 0, U32)
        if word in ("constant", "assert") and line.next() == ":":
            cells = self.numbers(line, word, cell=self.state)
        self.nodes.append(struct.pack(">BI", kind, operand))
        self.cells.append(cells)

    @staticmethod
    def hint(line, word):
        """What is meant where only the colon is missing."""
        follows = re.match("[ \t]([0-9][^ \t#]*)", line.text[line.at:])
        return f" (write {word}: {follows.group(1)})" if follows else ""

    def by_numbers(self, line):
        line.blank("the number of a kind")
        kind = line.number_of("the number of a kind", 0, 255)
        line.blank("an operand")
        operand = line.number_of("an operand", 0, U32)
        return kind, operand, self.numbers(line, "the operand", cell=self.odd)

    def written(self, line, word):
        """Where a node's bits begin in the values, and how many they are: said by numbers, or by the words themselves."""
        line.blank("at or a word size in bits")
        if TOKEN.match(line.text, line.at).group() == "at":
            line.at += 2
            line.blank("a bit of the values")
            operand = line.number_of("a bit of the values", 0, U32)
            return operand, self.numbers(line, "the bit of the values")
        size, operand = line.number_of("at or a word size in bits", 1, MOST_BITS), self.bits
        line.colon(f"the word size ({word} {size}: HEX)")
        self.given.setdefault("words", line.number)
        while True:
            line.blank("a word in hex")
            self.pack(line, word, size)
            if not line.goes_on():
                break
        if line.next() == ":":
            return operand, self.numbers(line, "the words")
        return operand, [(self.bits - operand, 0)]

    def pack(self, line, word, size):
        """One word in hex, with as many digits as its bits have."""
        token, digits = TOKEN.match(line.text, line.at).group(), -(-size // 4)
        if not re.fullmatch("[0-9a-fA-F]+", token) or len(token) != digits:
            meant = f" (did you mean {word} at {size}: {token}?)" if token.isdecimal() else ""
            line.expected(f"a word of {size} bit{'s' * (size > 1)}, {digits} hex digit{'s' * (digits > 1)}", meant)
        if int(token, 16) >> size:
            line.stop(f"{token} has more than {size} bits")
        self.packed.append(f"{int(token, 16):0{size}b}")
        self.bits += size
        line.at += len(token)
        self.fits(line)

    def numbers(self, line, after, hint="", cell=None):
        """Numbers behind a colon: one for all rows, or one for each."""
        line.colon(after, hint)
        start, cells = line.at + 1, []
        while not cells or line.goes_on():
            line.blank("a number")
            cells.append((cell or self.cell)(line))
        if len(cells) not in (1, self.rows):
            remedy = "give one for all rows, or one for each" if self.rows > 1 else f"for {len(cells)} rows, put a line rows {len(cells)} before the nodes"
            line.stop(f"found {len(cells)} numbers, and there {'is 1 row' if self.rows == 1 else f'are {self.rows} rows'} ({remedy})", start)
        return cells

    @staticmethod
    def cell(line):
        number = line.number_of("a number", 0, U32)
        state = STATES.get(line.next(), 0)
        line.at += state > 0
        return number, state

    def state(self, line):
        """A constant and an assertion have a state and no number."""
        if TOKEN.match(line.text, line.at).group() != "0":
            line.expected("a state: 0, 0~ or 0?")
        return self.cell(line)

    def odd(self, line):
        number, state = self.cell(line)
        if state == 0 and line.next() == "!":
            line.at += 1
            state = line.number_of("a state", 3, 255)
        return number, state

    def read_values(self, line):
        if "words" in self.given:
            line.stop(f"the values are already given as hex words, from line {self.given['words']} on: use one or the other", 0)
        line.blank("bytes in hex")
        while True:
            token = TOKEN.match(line.text, line.at).group()
            if not re.fullmatch("([0-9a-fA-F]{2})+", token):
                line.expected("bytes in hex, two digits each")
            self.values += bytes.fromhex(token)
            line.at += len(token)
            self.fits(line)
            if not line.goes_on():
                break
            line.blank("bytes in hex")

    def read_limit(self, line):
        line.blank("the pass limit")
        self.limit = line.number_of("the pass limit", 0, 255)

    def fits(self, line, at=None):
        """No more is read than the longest file has: all that is said up to here, with the values and the limit."""
        head = 26 * len(self.banks) if self.form == 1 else 4 + 27 * len(self.banks)
        size = head + 8 * len(self.nodes) + self.rows * (3 + 5 * len(self.nodes)) + 3 + len(self.values) + -(-self.bits // 8) + 4
        if size > LONGEST[self.form]:
            line.stop(f"up to here the file has {size:,} bytes, and form {self.form} has at most {LONGEST[self.form]:,}", at)

    def make(self):
        """The bytes of the file."""
        packed = "".join(self.packed)
        values = self.values + (int(packed + "0" * (-self.bits % 8), 2).to_bytes(-(-self.bits // 8), "big") if packed else b"")
        out = [(HEAD, b"\x02")] * (self.form == 2)
        out += [(SECOND_BANK if self.form == 2 else BANK, bank) for bank in self.banks] + [(NODE, node) for node in self.nodes]
        out += [(ROW, b"".join(struct.pack(">IB", *cells[row % len(cells)]) for cells in self.cells)) for row in range(self.rows)]
        out += [(VALUES, values), (LIMIT, bytes([self.limit]))]
        return b"".join(struct.pack(">BH", tag, len(payload)) + payload for tag, payload in out)


def decoded(data):
    """The text of a file of words, which is UTF-8."""
    try:
        return data.decode("utf-8")
    except UnicodeDecodeError as error:
        ahead = data[:error.start].split(b"\n")
        raise manners.Stop(f"line {len(ahead)}, column {len(ahead[-1].decode('utf-8')) + 1}: the byte 0x{data[error.start]:02x} is not UTF-8") from None


def made(data):
    """The layout file that words say."""
    lines = decoded(data).split("\n")
    words = Words()
    for number, text in enumerate(lines[:-1], 1):
        if text not in ("", "\r"):
            words.read(Line(number, text, True))
    if lines[-1]:
        words.read(Line(len(lines), lines[-1], False))
    if words.limit is None:
        raise manners.Stop(f"line {len(lines)}, column 1: expected limit, found the end of the file")
    return words.make()


if __name__ == "__main__":
    manners.part(__doc__)
