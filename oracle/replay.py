#!/usr/bin/env python3
"""Makes oracle/replay/cases.tsv: answers to replay where no Rust is at hand. replay.py [--seed S] [--judge COMMAND]

A line for each case, four columns: the file in hexadecimal; the text that `layout` prints, a line end written as \\n; `rust`
where the Rust gave the answer, or `doc` where it has no say and document 01 decides (oracle/model.py); and the whole answer,
as a line of the comparison's protocol."""

import shlex
from collections import Counter
from itertools import product

import compare
import convert
import differences
import examples
import generate
import manners
import model
from form1 import ADDR, ALIGN, DATA, INSTRUCTION, LABEL, RESERVE, SWITCH, Bank, Layout, encode, fields, one, worked_example
from generate import laid

LONGEST = 420   # bytes of a drawn file
LIST = compare.HERE / "replay" / "cases.tsv"

# So many cases of each answer.
WANTED = {
    "ok": 136, "refused 3": 25, "refused 7": 30, "refused 8": 30, "refused 9": 20, "refused 10": 30, "refused 11": 20,
    "refused 12": 50, "no say: 1": 6, "no say: 2": 14, "no say: 4": 46, "no say: 5": 14, "no say: alignment below zero": 24, "no say: 14": 6,
    "no say: empty placement, departing": 20, "no say: empty placement, the same anyway": 14}
SECOND = 8      # of form 2 so many of each answer


def documents_cases():
    """The cases of document 01, as layouts."""
    one_bank = [Bank(unit=10, offset=0)]
    for position, align in ((10, 0), (10, 16), (16, 16)):
        yield laid(one_bank, [(RESERVE, 0, position), (ALIGN, 0, align), (INSTRUCTION, 0, 1)])
    for first, second in (((0, 8), (8, 8)), ((0, 9), (8, 8)), ((8, 8), (0, None)), ((0, 8), (8, None))):
        yield laid([Bank(), Bank(size=first[1], offset=first[0]), Bank(size=second[1], offset=second[0])], [])
    yield differences.store((0, 8), (8, 8), (7, 1))
    yield differences.store((0, 8), (0, 0, RESERVE), (4, 4))
    for position in (30, 31):
        yield laid([Bank(size=40, offset=0)], [(RESERVE, 0, position), (INSTRUCTION, 0, 10)])
    for size in (1, 2):
        yield laid([Bank(size=size, offset=0, fill=True)], [])
    for middle in ([(ADDR, 0, 4), (LABEL, 1, 0), (ADDR, 0, 8)], []):
        yield laid([Bank(unit=1, offset=0)], [(INSTRUCTION, 0, 8), *middle, (INSTRUCTION, 8, 8)])
    for limit in (0, 1, 2):
        yield laid([Bank(offset=0)], [(LABEL, 0, 0), (INSTRUCTION, 0, 8)], limit=limit)
    yield laid([Bank(offset=0)], [(DATA, 0, 10)], b"\xff\xff")


def known_ness():
    """A stable node and a resolved one before a label, in one pass: is the label's position known?"""
    for first, second in product((INSTRUCTION, DATA, RESERVE, ALIGN, ADDR), repeat=2):
        row = [(2, 1), (4, 0), (0, 0)]
        yield Layout([Bank(unit=2, offset=0)], [(first, 0), (second, 8), (LABEL, 1)], [row], b"\xff\xc0", 0)


def full_stores():
    """512 intervals, and one more offer that shares a bit with one of them."""
    full = [(RESERVE, 0, 1)] * 512
    yield laid([Bank(offset=0)], full)
    yield laid([Bank(offset=0)], full + [(ADDR, 0, 511), (INSTRUCTION, 0, 2)])


def broken_files():
    """Each way to break document 01's worked example."""
    whole = [one(tag, payload) for tag, payload in fields(worked_example())]
    data = b"".join(whole)
    joined = lambda *parts: b"".join(parts)
    yield b""
    yield from (data[:n] for n in (1, 2, 3, 25, 26, 27, len(data) - 1, len(data) - 4))
    yield data + b"\0"
    yield data + whole[-1]
    yield from (b"".join(whole[:i] + whole[i + 1:]) for i in range(len(whole)))
    yield from (b"".join(whole[:i] + [one(tag, b"")] + whole[i:]) for i, tag in ((0, 0), (3, 6), (8, 4), (9, 255)))
    yield joined(whole[2], *whole)
    yield joined(*whole[:4], whole[0], *whole[4:])
    yield joined(whole[0][:-1] + b"\x10", *whole[1:])
    yield joined(*whole[:7], one(3, whole[7][3:-1]), *whole[8:])
    yield joined(*whole[:-1], one(5, b"\0\0"))
    example = worked_example()
    for banks, rows in ((0, 1), (17, 1), (2, 0), (2, 17), (1, 1)):
        changed = Layout((example.banks[:1] * 17)[:banks] if banks != 2 else example.banks, example.nodes, example.rows * rows, example.values, 10)
        yield encode(changed)


def at_the_limits():
    """Files of the longest length and one byte beyond, sound but for that, and an image that takes all that is lent."""
    short = encode(laid([Bank(offset=0)], [(DATA, 0, 8)], b"\x5a"))
    room = 65_000 - len(short)
    yield from (encode(laid([Bank(offset=0)], [(DATA, 0, 8)], b"\x5a" + bytes(room + more))) for more in (0, 1))
    full = bytes(1 + n % 255 for n in range(16_384))
    yield encode(laid([Bank(offset=0)], [(DATA, 0, 8 * 16_384)], full))
    yield encode(laid([Bank(offset=0)], [(DATA, 0, 8 * 16_384), (RESERVE, 0, 1), (INSTRUCTION, 0, 1)], full))


def limits():
    """Counts and numbers at their limits, and one beyond where no other case has it: banks, rows, nodes and spans, a bank's start."""
    for banks in (15, 16):
        yield encode(laid([Bank()] + [Bank(size=8, offset=8 * i) for i in range(banks - 1)], [(SWITCH, banks - 1, 0), (INSTRUCTION, 0, 8)]))
    example = worked_example()
    yield encode(Layout(example.banks, example.nodes, example.rows * 16, example.values, 10))
    yield from (encode(laid([Bank(offset=0)], [(LABEL, 1, 0)] * (nodes - 1) + [(INSTRUCTION, 0, 8)])) for nodes in (4_096, 4_097))
    for start in (2 ** 40, 2 ** 40 + 1, -2 ** 40, -2 ** 40 - 1):
        yield encode(laid([Bank(), Bank(start=start, offset=0)], [(SWITCH, 1, 0), (LABEL, 0, 0), (INSTRUCTION, 0, 8)]))


def broken_second():
    """Each way to break a file of form 2, and what a reader of the other form makes of it."""
    whole = [one(tag, payload) for tag, payload in fields(examples.EXAMPLES["erased"][1])]
    data, bank = b"".join(whole), whole[2]
    yield from (data[:n] for n in (1, 3, 4, 5, 31, len(data) - 1))
    yield data + b"\0"
    yield data + whole[0]
    yield b"".join([one(16, b"\x01"), *whole[1:]])
    yield b"".join([one(16, b"\x02\x02"), *whole[1:]])
    yield b"".join([one(16, b""), *whole[1:]])
    yield b"".join([*whole[:2], whole[0], *whole[2:]])
    yield b"".join(whole[1:])
    yield b"".join([*whole[:2], bank[:-1] + b"\x02", *whole[3:]])
    yield b"".join([*whole[:2], bank[:-2] + b"\x10" + bank[-1:], *whole[3:]])
    yield b"".join([*whole[:2], one(1, bank[3:-1]), *whole[3:]])
    yield b"".join([*whole[:2], one(17, bank[3:-1]), *whole[3:]])
    yield b"".join([whole[0], whole[1][:-1] + b"\x01", *whole[2:]])
    yield b"".join([whole[0], *[one(1, bank[3:-1]) for bank in whole[1:5]], *whole[5:]])


def long_second():
    """Files of form 2 of the longest length and one byte beyond, sound but for that."""
    made = lambda more: Layout([Bank(), Bank(offset=0)], [(SWITCH, 1), (DATA, 0)], [[(0, 0), (8, 0)]], b"\x5a" + bytes(more), 10, 2)
    room = 65_536 - len(encode(made(0)))
    yield from (encode(made(room + more)) for more in (0, 1))


def second_form(seed):
    """Files of form 2: the examples converted, the longest, broken ones, and drawn ones until there are some of each answer."""
    yield from long_second()
    for _, layout in examples.EXAMPLES.values():
        if layout.form == 1:
            yield convert.to_form_2(encode(layout))
    yield from broken_second()
    taken = Counter()
    for file in generate.cases_of_form_2(seed, 4_000):
        row = compare.head(model.line(file))
        if len(file) <= LONGEST and taken[row] < SECOND:
            taken[row] += 1
            yield file


def named():
    """The cases that are always in the list."""
    yield from at_the_limits()
    yield from (encode(layout) for layout in documents_cases())
    yield from (encode(layout) for _, layout in examples.EXAMPLES.values() if layout.form == 1)
    yield from (encode(layout) for _, _, layout in differences.DEPARTURES)
    yield from (encode(layout) for layout in known_ness())
    yield from (encode(layout) for layout in full_stores())
    yield from broken_files()
    yield from limits()


def drawn(seed):
    """Those from which it is made up, until there are as many of each answer as wanted."""
    for number in range(6_000):
        file = generate.drawn(seed, number)[1]
        if len(file) <= LONGEST:
            yield file
    yield from (file for i, (_, file) in enumerate(generate.gridded()) if i % 67 == 0)


def printed(line):
    """What `layout` prints for an answer of the protocol."""
    words = line.split()
    if words[0] == "refused":
        return " ".join(words[:words.index("passes")] if "passes" in words else words) + "\n"
    blocks = [] if words[-1] == "-" else words[-1].split(",")
    lines = [f"passes {words[1]}"] + ["block " + block.replace(":", " ") for block in blocks] + ["image" if words[4] == "-" else f"image {words[4]}"]
    return "".join(line + "\n" for line in lines)


def main():
    parser = manners.parser(__doc__)
    parser.add_argument("--seed", default="replay")
    parser.add_argument("--judge", default=shlex.quote(str(compare.FOLDER / "judge")))
    asked = parser.parse_args()

    always = list(dict.fromkeys(named()))
    files = list(dict.fromkeys([*always, *drawn(asked.seed)]))
    taken, lines = Counter(), []
    for i, (file, rust) in enumerate(zip(files, compare.answers(asked.judge, files))):
        row, agrees = compare.verdict(rust, model.line(file))
        if not agrees:
            raise SystemExit(f"the two sides differ on {file.hex()}")
        if i >= len(always) and taken[row] >= WANTED.get(row, 0):
            continue
        taken[row] += 1
        has_say = not rust.startswith("nosay")
        whole = rust if has_say else model.line(file)
        text = printed(whole)
        assert text == model.printed(file)
        lines.append("\t".join((file.hex(), text.replace("\n", "\\n"), "rust" if has_say else "doc", whole)))
    # form 2 has no Rust to be judged by
    second = [encode(layout) for _, layout in examples.EXAMPLES.values() if layout.form == 2] + list(second_form(asked.seed))
    for file in dict.fromkeys(second):
        taken["form 2: " + compare.head(model.line(file))] += 1
        lines.append("\t".join((file.hex(), model.printed(file).replace("\n", "\\n"), "doc", model.line(file))))

    LIST.parent.mkdir(exist_ok=True)
    LIST.write_text("".join(line + "\n" for line in lines))
    print(f"{len(lines)} cases")
    for row, n in sorted(taken.items()):
        print(f"{row:<44}{n:>5}")


if __name__ == "__main__":
    manners.run(main)
