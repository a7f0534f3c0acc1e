#!/usr/bin/env python3
"""The words of tools/form, held to their grammar: words_files.py [--cases N] [--seed N]

Every example and N random layouts of both forms, odd numbers among them, come back from their words with the same bytes, read by tools/form and by a second
reader (oracle/words_judge.py) that takes the grammar from docs/FORMAT.md; the page's own words lay out as the page says. Then N damaged files, characters and
lines changed, dropped, doubled and exchanged: each is refused by both readers or means the same to both, and a refusal names no line ahead of the damage.
Then what is said of wrong lines, and what becomes of files. N is 4,000 unless it is said."""

import os
import random
import re
import resource
import signal
import struct
import subprocess
import sys
from importlib.machinery import SourceFileLoader
from importlib.util import module_from_spec, spec_from_loader
from pathlib import Path

import manners
import model
import words_judge

ROOT = manners.ROOT
FORM = ROOT / "tools" / "form"
sys.path.insert(0, str(ROOT / "tools"))
sys.dont_write_bytecode = True

import form_words  # noqa: E402
import node_names  # noqa: E402


def loaded():
    """tools/form as a module, which has no .py behind its name."""
    spec = spec_from_loader("form", SourceFileLoader("form", str(FORM)))
    module = module_from_spec(spec)
    spec.loader.exec_module(module)
    return module


SHOWN = loaded()


def shown(data, names=()):
    return "".join(line + "\n" for line in SHOWN.show(data, dict(names))).encode("utf-8")


def read(words):
    """The bytes that tools/form makes of words, or its refusal."""
    try:
        return form_words.made(words), ""
    except manners.Stop as stop:
        return None, str(stop)


# Layouts -----------------------------------------------------------------------------------------------------------------------------------------------------

def odd_number(chance):
    return chance.choice((0, 0, 1, 7, 8, 10, 16, 32, 255, 65_535, 2**32 - 1, chance.randrange(2**32)))


def random_bank(chance, form):
    numbers = [odd_number(chance) for _ in range(3)]
    start = chance.choice((0, 0, 64, -8, 2**63 - 1, -2**63, chance.randrange(-2**40, 2**40)))
    payload = struct.pack(">HqIIIB", chance.choice((0, 8, 8, 10, 16, 65_535)), start, *numbers, chance.randrange(16))
    return payload + bytes([chance.randrange(2)] if form == 2 else [])


def random_cell(chance, kind):
    state = chance.choice((0, 0, 0, 0, 1, 2, 2, 3, 255) if chance.random() < 0.5 else (0,))
    return 0 if kind in (0, 1, 2, 3, 10) and chance.random() < 0.7 else odd_number(chance), state


def neat(chance, rows):
    """Nodes whose bits lie one behind the other in the values, as words in hex have them."""
    nodes, at = [], 0
    for _ in range(chance.randrange(6)):
        kind, size = chance.choice((1, 4, 5, 6, 7)), chance.choice((1, 3, 8, 10, 20, 32, 64, 72, 80, 130))
        cells = [(size, 0)] * rows if chance.random() < 0.5 else [(chance.choice((size, size + 8)), chance.randrange(3)) for _ in range(rows)]
        if kind in (4, 5, 6):
            nodes.append((kind, at, cells))
            at += cells[-1][0] if rows else 0
        else:
            nodes.append((kind, chance.randrange(3) * (kind == 1), cells if kind == 7 else [(0, 0)] * rows))
    bits = f"{chance.getrandbits(at) << -at % 8:0{at + -at % 8}b}" if at else ""
    return nodes, bytes(int(bits[i:i + 8], 2) for i in range(0, len(bits), 8))


def random_layout(chance):
    """A sound file of form 1 or 2: what its fields say is at random."""
    form, rows = chance.choice((1, 2)), chance.choice((0, 1, 1, 1, 2, 3))
    if chance.random() < 0.5:
        nodes, values = neat(chance, rows)
    else:
        kinds = [chance.choice((*range(11), *range(11), 11, 255)) for _ in range(chance.randrange(8))]
        nodes = [(kind, odd_number(chance), [random_cell(chance, kind) for _ in range(rows)]) for kind in kinds]
        values = chance.randbytes(chance.choice((0, 1, 5, 40)))
    fields = [(16, b"\2")] * (form == 2) + [(1 if form == 1 else 17, random_bank(chance, form)) for _ in range(chance.randrange(4))]
    fields += [(2, struct.pack(">BI", kind, operand)) for kind, operand, _ in nodes]
    fields += [(3, b"".join(struct.pack(">IB", *cells[row]) for _, _, cells in nodes)) for row in range(rows)]
    fields += [(4, values), (5, bytes([chance.randrange(256)]))]
    return b"".join(struct.pack(">BH", tag, len(payload)) + payload for tag, payload in fields)


def comes_back(grammar, data, name):
    words = shown(data)
    for reader, got in (("tools/form", read(words)[0]), ("the grammar", words_judge.said(grammar, words))):
        if got != data:
            yield f"{name} comes back changed from its words, by {reader}: {words!r}"


def layouts(grammar, cases, seed):
    for path in sorted((ROOT / "examples").glob("*.form")):
        yield from comes_back(grammar, path.read_bytes(), path.name)
    inline = 0
    for case in range(cases):
        data = random_layout(random.Random(f"layout {seed} {case}"))
        inline += re.search(rb"(?m)^(instruction|data|open) [0-9]", shown(data)) is not None
        yield from comes_back(grammar, data, f"layout {case}")
    if not inline > cases // 20:
        yield f"only {inline} of {cases} layouts are shown with words in hex"


def the_page(grammar):
    """The words on docs/FORMAT.md: what they make, and what it lays out as."""
    text = words_judge.PAGE.read_text(encoding="utf-8")
    blocks = [re.sub("(?m)^    ", "", block) for block in re.findall("(?m)(?:^    (?:form|bank) .*\n)(?:^    .*\n)+", text)]
    if len(blocks) != 3:
        yield f"{words_judge.PAGE.name} has {len(blocks)} files of words, not 3"
    made = [read(block.encode())[0] for block in blocks]
    if made != [words_judge.said(grammar, block.encode()) for block in blocks] or None in made:
        yield f"words of {words_judge.PAGE.name} are not in its grammar"
    elif made[0] != (ROOT / "examples" / "worked.form").read_bytes():
        yield "the first words of the page do not make examples/worked.form"
    else:
        for data, before in ((made[0], "Both give\n\n"), (made[1], "Both give\n\n"), (made[2], "and lays out as\n\n")):
            page = re.match("(?:    .*\n)+", text.split(before, 1)[1]).group()
            if model.printed(data) != re.sub("(?m)^    ", "", page):
                yield f"words of the page lay out as {model.printed(data)!r}"
        if f"    {node_names.first_line(made[2])}    1\tstart" not in text:
            yield f"the page's names are not of its last words: {node_names.first_line(made[2])!r}"


# Damage ------------------------------------------------------------------------------------------------------------------------------------------------------

BY_HAND = """form 2|bank unit 8|bank unit 10 start 64 size 4096 offset 0 align 40 fill ones|rows 3|switch 1|label|label 1|data 10: 3ff 155 000|\
instruction 24: eb0200: 24? 16? 16~|open 8: 61 62 63|data at 10: 20|reserve: 32|mark|align: 64|addr: 0x100|assert: 0? 0~ 0|constant 2: 0~|constant|\
kind 99 5: 1 2!3 4?|nothing|limit 10
# a remark|bank unit 8 (size 40) (offset 8)|bank unit 16 start -8 (align 3) fill # behind a bank||rows 2  # ok|switch 1|data at 0: 16|\
data at 16: 16 24?|open at 40: 8~ 8|reserve: 0 8|kind 7 32: 16|values ffc0 2a80|values 0102|limit 255|# the end"""
ALPHABET = "0123456789abcdefxX:~?!#()-+_., \t\n\r\x0b\x0c\x00\x1c\x85\u2028\u2029\u202e\ufeff\u0663\u00a0éAZ"


def sound_words(chance):
    """A sound file of words: one by hand, or that of a random layout; with tabs, CR LF and remarks here and there."""
    if chance.random() < 0.3:
        text = chance.choice(BY_HAND.split("\n")).replace("|", "\n") + "\n"
    else:
        text = shown(random_layout(chance)).decode()
    if chance.random() < 0.2:
        text = text.replace(" ", "\t")
    if chance.random() < 0.2:
        text = text.replace("\n", " # as measured\n", 3)
    return text.replace("\n", "\r\n") if chance.random() < 0.2 else text


def damaged_characters(chance, text):
    at = chance.randrange(len(text) + 1)
    how = chance.randrange(7)
    if how == 0:
        return text[:at] + chance.choice(ALPHABET) + text[at + 1:]
    if how == 6:
        return text[:at] + text[at:].swapcase()[:1] + text[at + 1:]
    if how == 1:
        return text[:at] + text[at + 1:]
    if how == 2:
        return text[:at] + text[at:at + 1] + text[at:]
    if how == 3:
        return text[:at] + chance.choice(ALPHABET) + text[at:]
    if how == 4:
        return text[:at] + text[at + 1:at + 2] + text[at:at + 1] + text[at + 2:]
    return text[:at]


def damaged_lines(chance, text):
    lines = text.split("\n")
    at, other = chance.randrange(len(lines)), chance.randrange(len(lines))
    how = chance.randrange(5)
    if how == 0:
        del lines[at]
    elif how == 1:
        lines.insert(other, lines[at])
    elif how == 2:
        lines[at], lines[other] = lines[other], lines[at]
    else:
        lines[at] = damaged_words(chance, lines[at], lines[other])
    return "\n".join(lines)


def damaged_words(chance, line, other):
    """A word, or two with the number behind it, in another's place, there twice, or gone."""
    words, others, size = re.split("([ \t])", line), re.split("([ \t])", other), chance.choice((1, 2, 2, 4, 4))
    at, source = chance.randrange(len(words)), chance.randrange(len(others))
    how = chance.randrange(3)
    if how == 0:
        words[at:at + 1] = others[source:source + 1]
    elif how == 1:
        words[at:at] = words[at:at + size]
    else:
        del words[at:at + size]
    return "".join(words)


def damaged(chance, text):
    for _ in range(chance.choice((1, 1, 1, 2, 3))):
        text = (damaged_characters if chance.random() < 0.7 else damaged_lines)(chance, text)
    data = text.encode("utf-8")
    if chance.random() < 0.03:
        at = chance.randrange(len(data) + 1)
        data = data[:at] + bytes([chance.randrange(128, 256)]) + data[at:]
    return data


def first_difference(one, other):
    """The line, from 1, in which two files differ first."""
    same = len(os.path.commonprefix([one, other]))
    return one[:same].count(b"\n") + 1


def judged(grammar, sound, words):
    """What is wrong with the reading of damaged words; and whether they were taken."""
    got, why = read(words)
    if got != words_judge.said(grammar, words):
        yield f"{words!r}: {why or 'taken'}, and the grammar {'takes' if got is None else 'refuses'} it or means something else"
    told = re.match(r"line ([0-9]+), column ([0-9]+): .", why)
    if got is None and not told:
        yield f"{words!r}: the refusal has no line and column: {why}"
    elif told:
        lines = words.decode("utf-8", "replace").split("\n")
        line, column = map(int, told.groups())
        if not first_difference(sound, words) <= line <= len(lines) or not 1 <= column <= len(lines[line - 1]) + 1:
            yield f"{words!r}: no such place, or one ahead of the damage: {why}"


def damages(grammar, cases, seed):
    counts = {"refused": 0, "the same": 0, "something else": 0}
    for case in range(cases):
        chance = random.Random(f"damage {seed} {case}")
        sound = sound_words(chance)
        words = damaged(chance, sound)
        yield from judged(grammar, sound.encode(), words)
        got = read(words)[0]
        counts["refused" if got is None else "the same" if got == read(sound.encode())[0] else "something else"] += 1
    print(f"{cases} damaged files of words: " + ", ".join(f"{count} {what}" for what, count in counts.items()))
    if min(counts.values()) < cases // 100:
        yield f"the damages do not reach everything: {counts}"


def cuts(grammar):
    """Every file that ends too early is refused."""
    for text in BY_HAND.split("\n"):
        whole = text.replace("|", "\n").encode()
        end = whole.index(b"limit")
        for size in range(end + len(b"limit 10")):
            if read(whole[:size])[0] is not None or words_judge.said(grammar, whole[:size]) is not None:
                yield f"taken, though it was cut: {whole[:size]!r}"


def characters(grammar):
    """Each character in a remark, and in a word: taken by both readers, or by neither."""
    for code in (*range(0x3000), *range(0xfe00, 0x10010)):
        for words in (f"label # {chr(code)}\nlimit 1\n", f"label{chr(code)}1\nlimit 1\n"):
            data = words.encode("utf-8", "surrogatepass")
            if read(data)[0] != words_judge.said(grammar, data):
                yield f"U+{code:04X} is read otherwise than the grammar says: {words!r}"


# What is said ------------------------------------------------------------------------------------------------------------------------------------------------

SAID = """
reserve 32|limit 1 => line 1, column 8: expected a colon after reserve, found a space (write reserve: 32)
align 16 # a remark|limit 1 => line 1, column 6: expected a colon after align, found a space (write align: 16)
reserve|limit 1 => line 1, column 8: expected a colon after reserve, found the end of the line
reserve:|limit 1 => line 1, column 9: expected a space and a number, found the end of the line
reserve:32|limit 1 => line 1, column 9: expected a space and a number, found '32'
reserve : 32|limit 1 => line 1, column 8: expected a colon after reserve, found a space
reserve: 3 2|limit 1 => line 1, column 10: found 2 numbers, and there is 1 row (for 2 rows, put a line rows 2 before the nodes)
rows 3|reserve: 3 2|limit 1 => line 2, column 10: found 2 numbers, and there are 3 rows (give one for all rows, or one for each)
reserve: 010|limit 1 => line 1, column 10: expected a number, found '010'
reserve: -1|limit 1 => line 1, column 10: expected a number, found '-1'
reserve: 4294967296|limit 1 => line 1, column 10: expected a number, 0 to 4294967295, found '4294967296'
reserve: 8!3|limit 1 => line 1, column 11: expected the end of the line or a remark, found '!'
reserve: 8~?|limit 1 => line 1, column 12: expected the end of the line or a remark, found '?'
reserve: 8 |limit 1 => line 1, column 11: expected the end of the line or a remark, found a space
 label|limit 1 => line 1, column 1: expected form, bank, rows, a node, values or limit, found a space
switch: 1|limit 1 => line 1, column 7: expected a space and the number of a bank, found ':'
switch|limit 1 => line 1, column 7: expected a space and the number of a bank, found the end of the line
switch  1|limit 1 => line 1, column 8: expected the number of a bank, found a second space
data 8|limit 1 => line 1, column 7: expected a colon after the word size (data 8: HEX), found the end of the line
data: 8|limit 1 => line 1, column 5: expected a space and at or a word size in bits, found ':'
data 24: 16|limit 1 => line 1, column 10: expected a word of 24 bits, 6 hex digits, found '16' (did you mean data at 24: 16?)
data 10: 3ff 55|limit 1 => line 1, column 14: expected a word of 10 bits, 3 hex digits, found '55' (did you mean data at 10: 55?)
data 10: 400|limit 1 => line 1, column 10: 400 has more than 10 bits
data 0: 0|limit 1 => line 1, column 6: expected at or a word size in bits, 1 to 524280, found '0'
data 8: ff|values ff|limit 1 => line 2, column 1: the values are already given as hex words, from line 1 on: use one or the other
constant: 5|limit 1 => line 1, column 11: expected a state: 0, 0~ or 0?, found '5'
label: 1|limit 1 => line 1, column 6: expected the end of the line or a remark, found ':'
mark: 0|limit 1 => line 1, column 5: expected the end of the line or a remark, found ':'
node|limit 1 => line 1, column 1: expected form, bank, rows, a node, values or limit, found 'node'
lable|limit 1 => line 1, column 1: expected form, bank, rows, a node, values or limit, found 'lable' (did you mean label?)
kind 7: 8|limit 1 => line 1, column 7: expected a space and an operand, found ':'
kind 7 32: 1!2|limit 1 => line 1, column 14: expected a state, 3 to 255, found '2'
values abc|limit 1 => line 1, column 8: expected bytes in hex, two digits each, found 'abc'
values|limit 1 => line 1, column 7: expected a space and bytes in hex, found the end of the line
limit 256 => line 1, column 7: expected the pass limit, 0 to 255, found '256'
limit 1 2 => line 1, column 8: expected the end of the line or a remark, found a space
limit 1|limit 1 => line 2, column 1: limit is already given in line 1
limit 1|label => line 2, column 1: label cannot come after limit (line 1): the order is form, banks, rows, nodes, values, limit
label|bank unit 8|limit 1 => line 2, column 1: bank cannot come after a node (line 1): the order is form, banks, rows, nodes, values, limit
label => line 2, column 1: expected limit, found the end of the file
form 3|limit 1 => line 1, column 6: expected 1 or 2, found '3'
bank unit 8 start -9223372036854775809|limit 1 => line 1, column 19: expected an address, -9223372036854775808 to 9223372036854775807, \
found '-9223372036854775809'
bank unit 8 start -999999999999999999999999|limit 1 => line 1, column 19: expected an address, -9223372036854775808 to 9223372036854775807, \
found '-999999999999999999999999'
bank unit 8 fill fill|limit 1 => line 1, column 18: fill is given twice or out of order: the order is unit, start, size, offset, align, fill, ones
bank unit 8 size 8 (size 8)|limit 1 => line 1, column 21: size is given twice or out of order: the order is unit, start, size, offset, align, fill, ones
bank unit 8 offset 0 size 8|limit 1 => line 1, column 22: size is given twice or out of order: the order is unit, start, size, offset, align, fill, ones
bank unit 0X8|limit 1 => line 1, column 11: expected the bits of an address, found '0X8'
bank unit 65536|limit 1 => line 1, column 11: expected the bits of an address, 0 to 65535, found '65536'
bank|limit 1 => line 1, column 5: expected a space and unit, found the end of the line
bank size 8|limit 1 => line 1, column 6: expected unit, found 'size'
bank unit 8 unit 8|limit 1 => line 1, column 13: unit is given twice or out of order: the order is unit, start, size, offset, align, fill, ones
bank unit 8 (size 40|limit 1 => line 1, column 21: expected a closing bracket for (size, found the end of the line
bank unit 8 size 40)|limit 1 => line 1, column 20: expected the end of the line or a remark, found ')'
bank unit 8 (start 4)|limit 1 => line 1, column 14: only size, offset and align may be in brackets, not start
bank unit 8 fill ones|limit 1 => line 1, column 18: ones needs form 2: put a line form 2 before the banks
"""
STRANGE = {"label # a\x0cdata at 0: 8\nlimit 1\n": "line 1, column 10: the character U+000C is not allowed in a remark",
           "label # a\u2028mark\nlimit 1\n": "line 1, column 10: the character U+2028 is not allowed in a remark",
           "label\rmark\nlimit 1\n": "line 1, column 6: expected the end of the line or a remark, found the character U+000D",
           "label\r\r\nlimit 1\n": "line 1, column 6: expected the end of the line or a remark, found the character U+000D",
           "\r\r\nlimit 1\n": "line 1, column 1: expected form, bank, rows, a node, values or limit, found the character U+000D",
           "label\x0b\nlimit 1\n": "line 1, column 6: expected the end of the line or a remark, found the character U+000B",
           "\ufeffform 2\nlimit 1\n": "line 1, column 1: expected form, bank, rows, a node, values or limit, found the character U+FEFF (a byte order mark)",
           "reserve: \u0663\nlimit 1\n": "line 1, column 10: expected a number, found the character U+0663",
           "label\u00a01\nlimit 1\n": "line 1, column 6: expected the end of the line or a remark, found the character U+00A0",
           "limit 1": "line 1, column 8: the last line has no line end: the file may have been cut",
           "": "line 1, column 1: expected limit, found the end of the file",
           "reserve: " + "9" * 5_000 + "\nlimit 1\n": f"line 1, column 10: expected a number, 0 to 4294967295, found '{'9' * 40}'",
           "rows 65535\nlimit 1\n": "line 1, column 1: up to here the file has 196,612 bytes, and form 1 has at most 65,000",
           "label\n" * 9_000 + "limit 1\n": "line 5000, column 1: up to here the file has 65,010 bytes, and form 1 has at most 65,000"}


def sayings(grammar):
    cases = [line.split(" => ") for line in SAID.strip("\n").split("\n")]
    for words, said in [*((words.replace("|", "\n") + "\n", said) for words, said in cases), *STRANGE.items()]:
        got, why = read(words.encode())
        if got is not None or why != said:
            yield f"{words[:80]!r} is told as {why!r}, not {said!r}"
        if words_judge.said(grammar, words.encode()) is not None:
            yield f"{words[:80]!r} is refused, and the grammar takes it"
    if read(b"label # \xff\nlimit 1\n")[1] != "line 1, column 9: the byte 0xff is not UTF-8":
        yield "a byte that is not UTF-8 is told otherwise"


# Files -------------------------------------------------------------------------------------------------------------------------------------------------------

def called(*words, given=b"", **more):
    return subprocess.run([sys.executable, FORM, *words], input=given, capture_output=True, check=False, timeout=60, **more)


def outcome(done, status, said, what):
    if done.returncode != status or said not in done.stderr.decode() or b"Traceback" in done.stderr:
        yield f"{what}: status {done.returncode}, {done.stderr.decode()!r}"


def is_file(path, data, mode, what):
    left = [one.name for one in path.parent.glob(".part.*")]
    if not path.is_file() or path.read_bytes() != data or path.stat().st_mode & 0o7777 != mode or left:
        yield f"{what}: {path.name} is not there" if not path.is_file() else \
            f"{what}: {path.stat().st_size} bytes, mode {path.stat().st_mode & 0o7777:o}, left: {left}"


def written(room):
    """-o: a whole file or the one that was there, with its mode, and never the one that is read."""
    words, out, worked = room / "brake.words", room / "brake.form", (ROOT / "examples" / "worked.form").read_bytes()
    words.write_bytes(shown(worked))
    yield from outcome(called("--make", words, "-o", out), 0, "", "a new file")
    yield from is_file(out, worked, 0o666 & ~umask(), "a new file")
    for mode in (0o600, 0o444, 0o755):
        out.write_bytes(b"old") if os.access(out, os.W_OK) else None
        out.chmod(mode)
        yield from outcome(called("-o", out, "--make", words), 0, "", "a file that is replaced")
        yield from is_file(out, worked, mode, "a file that is replaced")
    bad = b"reserve 32\nlimit 1\n"
    yield from outcome(called("--make", "-", "-o", out, given=bad), 2, "line 1, column 8", "words that are wrong")
    yield from is_file(out, worked, 0o755, "words that are wrong")
    yield from outcome(called("--make", words, "-o", words), 2, "is a file that is read", "over its input")
    (room / "link").symlink_to(words)
    yield from outcome(called("--make", words, "-o", room / "link"), 2, "is a file that is read", "over its input by a link")
    with open(words, "rb") as given:
        done = subprocess.run([sys.executable, FORM, "--make", "-", "-o", words], stdin=given, capture_output=True, check=False)
    yield from outcome(done, 2, "is a file that is read", "over standard input")
    (room / "brake.names").write_text("1\tone\t\n")
    yield from outcome(called(out, "-o", room / "brake.names"), 2, "is a file that is read", "over its names")
    (room / "brake.names").unlink()
    yield from is_file(words, shown(worked), 0o666 & ~umask(), "over its input")
    yield from outcome(called("--make", words, "-o", room), 2, "no regular file", "over a folder")
    yield from outcome(called("--make", words, "-o", "/dev/null"), 2, "no regular file", "over a device")
    yield from outcome(called("--make", words, "-o", room / "none" / "out"), 2, "could not be written", "in no folder")
    yield from outcome(called("--make", words, "-o", ""), 2, "empty", "a name that is empty")
    yield from outcome(called(out, "-o", room / "again.words"), 0, "", "words with -o")
    yield from is_file(room / "again.words", words.read_bytes(), 0o666 & ~umask(), "words with -o")


def umask():
    now = os.umask(0)
    os.umask(now)
    return now


def limited():
    """A disk that is full after 4 KiB: a limit on the length of files, whose signal is ignored."""
    signal.signal(signal.SIGXFSZ, signal.SIG_IGN)
    resource.setrlimit(resource.RLIMIT_FSIZE, (4_096, 4_096))


def faults(room):
    """A full disk, a closed output, a long file, a locale, a name that is no UTF-8: the right status, and nothing half-written."""
    big, out = ROOT / "examples" / "sequencer.form", room / "big.form"
    out.write_bytes(b"old")
    words = room / "big.words"
    words.write_bytes(shown(big.read_bytes()))
    yield from outcome(called("--make", words, "-o", out, preexec_fn=limited), 2, "could not be written", "a full disk")
    yield from is_file(out, b"old", 0o666 & ~umask(), "a full disk")
    with open("/dev/full", "wb") as full:
        done = subprocess.run([sys.executable, FORM, "--make", words], stdout=full, stderr=subprocess.PIPE, check=False)
    yield from outcome(done, 2, "could not be written", "standard output on a full disk")
    with open(room / "long", "wb") as long:
        long.truncate(5_000_000_000)
    yield from outcome(called(room / "long"), 2, "longer than 65,536 bytes", "a long layout file")
    yield from outcome(called("--make", room / "long"), 2, "longer than 4,194,304 bytes", "a long file of words")
    strange = os.fsencode(room) + b"/\xff\n.form"
    Path(os.fsdecode(strange)).write_bytes(big.read_bytes())
    for locale in ("C", "POSIX", "C.UTF-8", "en_US.ISO-8859-1", "tr_TR.UTF-8"):
        environment = {**os.environ, "LC_ALL": locale, "PYTHONIOENCODING": "ascii"}
        done = called(strange, env=environment)
        if done.stdout != words.read_bytes() or done.returncode:
            yield f"in the locale {locale}: status {done.returncode}, {done.stderr!r}"


def names(room):
    """The sum in a names file's first line: names of another layout file are told, and not used."""
    form, beside, other = room / "clamp.form", room / "clamp.names", room / "other.names"
    form.write_bytes((ROOT / "examples" / "clamp-mark-after.form").read_bytes())
    line = "2\tclamp\u2028force\ttables.asm:12\n"
    done = subprocess.run(["cksum"], input=form.read_bytes(), capture_output=True, check=True)
    if node_names.cksum(form.read_bytes()) != done.stdout.decode().strip():
        yield f"the sum is {node_names.cksum(form.read_bytes())}, and cksum says {done.stdout!r}"
    beside.write_text(node_names.first_line(form.read_bytes()) + line, encoding="utf-8")
    other.write_text(node_names.first_line(b"another") + line, encoding="utf-8")
    remark = b"  # clamp\\u2028force, tables.asm:12\n"
    for call, status, has, said in ((("clamp.form",), 0, True, ""), (("--names", "clamp.names", "-"), 0, True, ""),
                                    (("--names", "other.names", "clamp.form"), 2, False, "other.names does not belong to clamp.form: cksum ")):
        done = called(*call, given=form.read_bytes(), cwd=room)
        yield from outcome(done, status, said, f"names, {call}")
        if (remark in done.stdout) != has:
            yield f"names, {call}: {done.stdout!r}"
    if read(called(form).stdout)[0] != form.read_bytes():
        yield "words with names make another file"
    beside.write_text(other.read_text(encoding="utf-8"), encoding="utf-8")
    done = called("clamp.form", cwd=room)
    yield from outcome(done, 0, "the names of clamp.names are left out: they belong to another layout file (cksum ", "names of another file")
    if done.stdout != shown(form.read_bytes()):
        yield "names of another file are used"
    beside.write_text(line + node_names.first_line(form.read_bytes()), encoding="utf-8")
    yield from outcome(called(form), 0, "line 2 is not a number, a name and a place", "a sum behind the first line")


def main():
    parser = manners.parser(__doc__)
    parser.add_argument("--cases", type=manners.some, default=4_000, metavar="N")
    parser.add_argument("--seed", type=manners.count, default=0, metavar="N")
    asked = parser.parse_args()
    grammar = words_judge.on_the_page()
    found = [*the_page(grammar), *layouts(grammar, asked.cases, asked.seed), *cuts(grammar), *characters(grammar), *sayings(grammar)]
    found += damages(grammar, asked.cases, asked.seed)
    with manners.room() as room:
        for part in (written, faults, names):
            (room / part.__name__).mkdir()
            found += part(room / part.__name__)
    print("\n".join(found[:40]) or "words: every file is refused or means what the grammar says")
    sys.exit(1 if found else 0)


if __name__ == "__main__":
    manners.run(main)
