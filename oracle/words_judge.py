#!/usr/bin/env python3
"""What words of tools/form say, by the grammar on docs/FORMAT.md and by its sentences: a second reader, written apart from tools/form_words.py.

Other scripts read it, nobody runs it. The grammar is read from the page itself and made a pattern, so that the page is what is held to; what the page says
beside it stands below, one test for each sentence."""

import re
import struct

import manners

PAGE = manners.ROOT / "docs" / "FORMAT.md"
SYMBOL = re.compile(r'\s*(?:"([^"]*)"|\?([^?]*)\?|([A-Za-z]+)|([=;,|()\[\]{}]))')
KINDS = "nothing switch label constant instruction data open reserve align addr assert".split()


def symbols(text):
    """The grammar's text as terminals, special sequences, names and signs."""
    at = 0
    while text[at:].strip():
        found = SYMBOL.match(text, at)
        if not found:
            raise manners.Stop(f"the grammar of {PAGE.name} cannot be read at: {text[at:at + 40]!r}")
        at = found.end()
        yield next((kind, part) for kind, part in zip(("terminal", "special", "name", "sign"), found.groups()) if part is not None)


def special(text):
    """'U+0009', or 'any but U+0000 to U+0008, U+000A ..': a class of characters."""
    codes = re.sub(r"U\+([0-9A-F]{4})", r"\\u\1", text.replace("any but", "").replace(" to ", "-").replace(",", "").replace(" ", ""))
    return f"[{'^' if 'any but' in text else ''}{codes}]"


class Grammar:
    """A pattern for each rule of the page; no rule goes back to itself."""

    def __init__(self, text):
        self.rules, self.patterns, parts = {}, {}, list(symbols(text))
        while parts:
            name, sign = parts[0][1], parts[1][1]
            end = parts.index(("sign", ";"))
            assert sign == "=" and name not in self.rules
            self.rules[name], parts = parts[2:end], parts[end + 1:]

    def pattern(self, name):
        if name not in self.patterns:
            left = list(self.rules[name])
            self.patterns[name] = f"(?:{self.choice(left)})"
            assert not left
        return self.patterns[name]

    def choice(self, left):
        """Alternatives, each a sequence, up to what closes them."""
        made = [self.sequence(left)]
        while left and left[0] == ("sign", "|"):
            left.pop(0)
            made.append(self.sequence(left))
        return "|".join(made)

    def sequence(self, left):
        made = self.one(left)
        while left and left[0] == ("sign", ","):
            left.pop(0)
            made += self.one(left)
        return made

    def one(self, left):
        kind, part = left.pop(0)
        if kind == "terminal":
            return re.escape(part)
        if kind == "special":
            return special(part)
        if kind == "name":
            return self.pattern(part)
        inner = self.choice(left)
        assert left.pop(0) == ("sign", {"(": ")", "[": "]", "{": "}"}[part])
        return f"(?:{inner}){ {'(': '', '[': '?', '{': '*'}[part]}"


def on_the_page():
    return Grammar(re.search(r"```ebnf\n(.*?)```", PAGE.read_text(encoding="utf-8"), re.DOTALL).group(1))


class No(Exception):
    """The words are refused."""


def need(holds):
    if not holds:
        raise No


def number(text, low=0, high=2**32 - 1):
    need("x" in text or len(text) < 40)
    value = int(text, 16) if "x" in text else int(text)
    need(low <= value <= high)
    return value


def bank(words, form):
    flags, told = 0, {}
    for i, word in enumerate(words):
        name = word.strip("(")
        if name in ("size", "offset", "align"):
            told[name] = number(words[i + 1].strip(")"))
            flags += {"size": 1, "offset": 2, "align": 4}[name] * (word == name)
    need(form == 2 or "ones" not in words)
    start = number(words[words.index("start") + 1], -2**63, 2**63 - 1) if "start" in words else 0
    payload = struct.pack(">HqIIIB", number(words[2], 0, 65_535), start, *(told.get(name, 0) for name in ("size", "offset", "align")),
                          flags + 8 * ("fill" in words))
    return payload + bytes(["ones" in words] if form == 2 else [])


def cell(text):
    if "!" in text:
        value, state = text.split("!")
        return number(value), number(state, 3, 255)
    return number(text.strip("~?")), {"~": 1, "?": 2}.get(text[-1], 0)


def node(text, rows, bits):
    """Kind, operand and cells of a node; its words in hex go behind `bits`."""
    (head, *more), (word, *rest) = text.split(": "), re.split("[ :]", text)
    operands, kind = head.split(" ")[1:], KINDS.index("reserve" if word == "mark" else word) if word != "kind" else number(rest[0], 0, 255)
    operand, cells = 0, None
    if 4 <= kind <= 6 and word != "kind" and operands[0] != "at":
        size, operand, hexes = number(operands[0], 1, 524_280), len(bits), more.pop(0).split(" ")
        need(all(len(one) == (size + 3) // 4 and int(one, 16) < 1 << size for one in hexes))
        bits += [digit for one in hexes for digit in f"{int(one, 16):0{size}b}"]
        cells = [(size * len(hexes), 0)]
    elif operands:
        operand = number(operands[-1])
    if more:
        cells = [cell(one) for one in more[0].split(" ")]
        need(len(cells) in (1, rows))
    cells = cells or [(0, 0)]
    return kind, operand, cells * rows if len(cells) == 1 else cells


def said(grammar, data):
    """The bytes that words say, or None where they are refused."""
    try:
        text = data.decode("utf-8")
        need(re.fullmatch(grammar.pattern("file"), text))
        return meant([re.sub("[ \t]*(#.*)?\r?$", "", line).replace("\t", " ") for line in text.split("\n")])
    except (UnicodeDecodeError, No):
        return None


def meant(lines):
    lines = [line for line in lines if line]
    of = lambda word: [line.split(" ")[1:] for line in lines if line.split(" ")[0] == word]
    form, rows = int(of("form")[0][0]) if of("form") else 1, number(of("rows")[0][0], 0, 65_535) if of("rows") else 1
    banks, bits = [bank(["bank", *words], form) for words in of("bank")], []
    nodes = [line for line in lines if re.match("[a-z]*", line).group() in (*KINDS, "mark", "kind")]
    # rows alone are not longer than the longest file
    need(rows * (3 + 5 * len(nodes)) <= 65_536)
    nodes = [node(line, rows, bits) for line in nodes]
    values = bytes.fromhex("".join("".join(words) for words in of("values")))
    need(not (bits and values))
    bits = "".join(bits)
    values = values or bytes(int(bits[i:i + 8].ljust(8, "0"), 2) for i in range(0, len(bits), 8))
    fields = [(16, b"\2")] * (form == 2) + [(1 if form == 1 else 17, one) for one in banks]
    fields += [(2, struct.pack(">BI", kind, operand)) for kind, operand, _ in nodes]
    fields += [(3, b"".join(struct.pack(">IB", *cells[row]) for _, _, cells in nodes)) for row in range(rows)]
    fields += [(4, values), (5, bytes([number(of("limit")[0][0], 0, 255)]))]
    need(sum(3 + len(payload) for _, payload in fields) <= {1: 65_000, 2: 65_536}[form])
    return b"".join(struct.pack(">BH", tag, len(payload)) + payload for tag, payload in fields)


if __name__ == "__main__":
    manners.part(__doc__)
