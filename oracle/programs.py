#!/usr/bin/env python3
"""The programs over the library beside the models: what station, rehex, bencher, converter and mapper print for good, damaged and refused files.

    programs.py [--cases N] [--seed N] [--native] [NAME ..]

With --native the command denkumari is held to the same texts (tools/denkumari): a refusal is its status 1 and words, anything else its standard output
with status 0. NAME is one of the programs, all of them unless said; one that is not built is built first (tools/run). The models are model.py, records.py,
convert.py and map.py; what the bench is to print is worked out here, byte by byte.
"""
import random
import subprocess
import sys
from pathlib import Path

import convert
import damage
import generate
import manners
import map as mapped
import model
import reasons
import records

REACH, BENCH_REACH, BLOCKS, IMAGE, LONGEST = 1_048_576, 524_288, 4_096, 16_384, 3_276_800


def written(kind, width, image, blocks, load):
    text = records.write_hex(image, blocks, load) if kind == "hex" else records.write_srec(image, blocks, load, width)
    return text if isinstance(text, bytes) else text.encode()


def some_layout(rng):
    """A layout file of either form."""
    if rng.random() < 0.3:
        return rng.choice(EXAMPLES)
    _, data = generate.drawn(rng.randrange(1000), rng.randrange(10_000))
    return generate.in_form_2(rng, data) if rng.random() < 0.3 else data


def station_case(rng):
    """A layout file, its image as records: its blocks, or the whole of it."""
    data = some_layout(rng)
    form, load = rng.choice((0, 2, 4, 4, 3)), rng.choice((0, 0x1000, 0xFFF0, 0xFFFF_FFF0))
    whole, fill, page = rng.choice((0, 1)), rng.choice((0, 0, 1, 2)), rng.choice((None, None, None, 0, 8, 64, 2048))
    arguments = [*map(str, (form, load, whole, fill)), *([] if page is None else [str(page)])]
    said = model.printed(data, model.Choices(fill=fill, page=page)).splitlines()
    if said[-1].startswith("refused"):
        return arguments, data, (said[-1] + "\n").encode()
    blocks = [tuple(map(int, line.split()[1:])) for line in said if line.startswith("block")]
    digits = said[-1][6:]
    image = bytes.fromhex(digits + "0" * (len(digits) % 2))
    if whole:
        blocks = [(0, 8 * len(image))] if image else []
    try:
        told = written("srec" if form else "hex", form, image.ljust(IMAGE, b"\0"), blocks, load)
    except records.Refused as refused:
        told = f"{refused}\nrecords\n".encode()
    return arguments, data, told


def damaged(rng, text):
    text = bytearray(text)
    for _ in range(rng.choice((0, 0, 1, 2))):
        at, way = rng.randrange(len(text) + 1), rng.randrange(3)
        if way == 0:
            text[at:at + 1] = bytes([rng.randrange(256)])
        elif way == 1:
            del text[at:at + 1]
        else:
            text.insert(at, rng.choice(b"0123456789ABCDEFabcdef:S\r\n"))
    return bytes(text)


def rehex_case(rng):
    """A file of records, good or damaged, as records of either kind."""
    kind, load, text = damage.random_good(rng)[:3]
    text, load = damaged(rng, text), rng.choice((load, load, load + 1, 0))
    width = rng.choice((0, 0, 2, 4, 4, 3))
    try:
        count, image, starts, sizes = records.read(kind, text, load, bytes(REACH), [0] * BLOCKS, [0] * BLOCKS)
        told = written("srec" if width else "hex", width, image, list(zip(starts[:count], sizes[:count])), load)
    except records.Refused as refused:
        line = records.fault(kind, text, load)
        told = (f"{refused}\n" + ("" if line is None else f"line {line}\n")).encode()
    return [str(int(kind == "srec")), str(width), str(load)], text, told


def too_long(kind, text):
    """A good file behind so many lines that give no byte that it is longer than the longest."""
    line = b"S0030000FC\n" if kind == "srec" else b":0000000000\n"
    return line * (LONGEST // len(line) + 1) + text


def reason_case(rng):
    """A file of records, good or damaged, and why it is bad."""
    kind, load, text = damage.random_good(rng)[:3]
    if rng.randrange(250) == 0:
        return [str(int(kind == "srec")), str(load)], too_long(kind, text), b"refused 4 0\n"
    text, load = damaged(rng, text), rng.choice((load, load, load + 1, 0))
    why, *rest = reasons.reason(kind, text, load)
    told = f"reason {why} {rest[0]} {rest[1]} {rest[2]}\n"
    return [str(int(kind == "srec")), str(load)], text, told.encode()


def some_bytes(rng, load, span):
    """Bytes by address, and a file that gives them."""
    image, blocks, at = bytes(rng.choice((0, 1, 255)) for _ in range(span)), [], 0
    while True:
        at += rng.choice((0, 0, 1, 3, 7))
        size = rng.choice((1, 2, 5, 9, 20))
        if at + size > span:
            break
        blocks.append((8 * at, 8 * size))
        at += size + rng.choice((0, 1, 1))
    given = {load + k: image[k] for start, size in blocks for k in range(start // 8, (start + size) // 8)}
    return given, written("hex", 0, image, blocks, load)


def bench_range(released, overlay, load, first, count):
    """What is printed for a range: an image goes from the load address to its file's last byte, and a byte that a file does not give is outside it."""
    if count == 0:
        return "refused 16 0\n"
    if first < load:
        return f"refused 16 0\nreleased {first}\n"
    span = range(first, first + count)
    absent = lambda given: next(a for a in range(first, first + count + 1) if a not in given)
    for name, given in (("released", released), ("overlay", overlay)):
        if first + count > max(given, default=load - 1) + 1:
            return f"refused 16 0\n{name} {absent(given)}\n"
    covered = {a in overlay for a in span}
    if len(covered) == 2:
        return f"refused 17 0\noverlay {absent(overlay)}\n"
    name, given = ("overlay", overlay) if covered == {True} else ("released", released)
    if not all(a in given for a in span):
        return f"refused 16 0\n{name} {absent(given)}\n"
    return f"{name} {bytes(given[a] for a in span).hex()}\n"


def bench_told(released, overlay, asked):
    """What is printed of two sound files."""
    if asked:
        return bench_range(released, overlay, *asked)
    runs = records.runs(a for a in overlay if a in released and overlay[a] != released[a])
    shown = lambda given, first, count: bytes(given[a] for a in range(first, first + count)).hex()
    alone = [f"alone {a}\n" for a in sorted(overlay) if a not in released][:1]
    return "".join([f"run {a} {n} {shown(released, a, n)} {shown(overlay, a, n)}\n" for a, n in runs] + alone) + f"runs {len(runs)}\n"


def bencher_case(rng, room):
    """Two files, and every run or a range of bytes."""
    load, span = rng.choice((0, 5, 0x10000 - 20, 0x8000_0000)), rng.choice((10, 40, 80))
    (released, first_text), (overlay, second_text) = some_bytes(rng, load, span), some_bytes(rng, load, rng.choice((span, span, 10, 30)))
    paths = room / "released.hex", room / "overlay.hex"
    lowest = rng.choice((load, load, load, max(0, load - 3), load + 1))
    asked = None
    if rng.random() < 0.5:
        asked = lowest, max(0, load + rng.randrange(-3, span)), rng.choice((0, 1, 1, 2, 4, 10, BENCH_REACH))
    told = bench_told(released, overlay, asked)
    for path, text, name in zip(paths, (first_text, second_text), ("released", "overlay")):
        path.write_bytes(text)
        line = records.fault("hex", text, lowest)
        if line is not None:
            told = f"refused 4 0\n{name}\nline {line}\n"
    spelled = lambda number: rng.choice((str, hex, "0X{:X}".format))(number)
    return [*map(str, paths), spelled(lowest), *map(spelled, asked[1:] if asked else ())], b"", told.encode()


def converter_case(rng):
    """A layout file, in the other form and back."""
    data = some_layout(rng)
    form = rng.choice((1, 2))
    if form == 1 and rng.random() < 0.5:
        try:
            data = convert.to_form_2(data)
        except model.Refused:
            pass
    try:
        told = (convert.to_form_1 if form == 1 else convert.to_form_2)(data)
    except model.Refused as refused:
        told = " ".join(map(str, ("refused", refused.number, *(refused.place or (0,))))).encode() + b"\n"
    return [str(form)], data, told


def mapper_case(rng):
    """A layout file, and where everything stands."""
    data, fill = some_layout(rng), rng.choice((None, 0, 1, 1, 2))
    page = None if fill is None else rng.choice((None, None, 0, 1, 8, 64, 96))
    arguments = [str(number) for number in (fill, page) if number is not None]
    return arguments, data, mapped.printed(data, model.Choices(fill=fill or 0, page=page)).encode()


FILLS = {"0": "inherited", "1": "full"}


def laid_out(fill, *page):
    return ["--fill", FILLS[fill], *(["--page", *page] if page else [])]


def native_words(name, arguments):
    """The command's words for a program's; none for formats and fills that its options do not have."""
    if name == "bencher":
        return ["bench", *arguments[:2], "--load", arguments[2], *(["--range", *arguments[3:]] if len(arguments) > 3 else [])]
    if name == "station" and arguments[0] in "024" and arguments[3] in FILLS:
        form, load, whole, *rest = arguments
        kind = ["ihex"] if form == "0" else ["srec", "--width", form]
        return [*kind, "--load", load, *(["--whole"] if whole == "1" else []), *laid_out(*rest), "-"]
    if name == "rehex" and arguments[1] in "024":
        return ["rehex", "--load", arguments[2], *(["--to", "srec", "--width", arguments[1]] if arguments[1] != "0" else ["--to", "hex"]), "-"]
    if name == "converter":
        return ["convert", "--to", arguments[0], "-"]
    if name == "mapper" and (not arguments or arguments[0] in FILLS):
        return ["map", "--lines", *(laid_out(*arguments) if arguments else []), "-"]
    return None


def in_hex(told):
    """The bench's runs as the command prints them: addresses in hex too, and no count of them."""
    lines = [line.split(b" ") for line in told.splitlines() if not line.startswith(b"runs ")]
    with_hex = [[*words[:2], b"0x%08x" % int(words[1]), *words[2:]] if words[0] in (b"run", b"alone") else words for words in lines]
    return b"".join(b" ".join(words) + b"\n" for words in with_hex)


def choices_of(arguments):
    return model.Choices(fill=int(arguments[0]) if arguments else 0, page=int(arguments[1]) if len(arguments) > 1 else None)


def native_differs(name, arguments, given, told):
    """What the command does otherwise than the text that a program is to print, or nothing; None where it is not asked."""
    words = native_words(name, arguments)
    if words is None or (name == "rehex" and (given[:1] in (b"S", b"s")) != (arguments[0] == "1")):
        return None
    done = subprocess.run([manners.ROOT / "tools" / "denkumari", *words], input=given, capture_output=True, check=False)
    # a map whose layout has no room for its image is shown whole, with the layout's refusal
    no_room = name == "mapper" and model.printed(given, choices_of(arguments)).startswith("refused 14 ")
    is_refused = told.startswith(b"refused ") or b"\nrefused " in told or no_room
    wanted = (1, told if name == "mapper" else b"") if is_refused else (0, in_hex(told) if name == "bencher" else told)
    if (done.returncode, done.stdout) == wanted and bool(done.stderr) == is_refused:
        return ""
    return f"denkumari {' '.join(words)} < {given.hex()}: {done.returncode}, {done.stdout!r}, {done.stderr!r} for {wanted!r}"[:900]


class Watched(model.Pass):
    """A pass that remembers its first unresolved node."""

    first, merged = None, 0

    @property
    def state(self):
        return self.merged

    @state.setter
    def state(self, state):
        if state == model.UNRESOLVED:
            self.first = len(self.seen) - 1
        self.merged = state


def unresolved(rng):
    """A layout that is refused with 8, the node that its last pass leaves unresolved first, and how many passes ran."""
    while True:
        data = some_layout(rng)
        try:
            layout = model.read_form(data)
        except model.Refused:
            continue
        rows = rng.choice((1, 2, 3)) if layout.rows else 0
        if not rows or not layout.nodes or len(layout.nodes) > 60:
            continue
        banks, at = data.index(b"\x03" + (5 * len(layout.nodes)).to_bytes(2, "big")), 3 + 5 * len(layout.nodes)
        chance = rng.choice((0.02, 0.1, 0.3))
        # reserves of another size from row to row, so that labels move
        other = lambda number, kind: number + (rng.choice((0, 8, 40)) if kind == model.RESERVE and number < 4096 else 0)
        some_state = lambda: rng.choice((1, 2, 2)) if rng.random() < chance else 0
        row = lambda: b"".join(other(number, node[0]).to_bytes(4, "big") + bytes([some_state()]) for (number, _), node in zip(layout.rows[-1], layout.nodes))
        behind = data[banks + at * len(layout.rows):]
        data = data[:banks] + b"".join(data[banks:banks + 3] + row() for _ in range(rows)) + behind[:-1] + bytes([rng.randrange(5)])
        watched, passes = [], []
        make = lambda *given: watched.append(Watched(*given)) or watched[-1]
        try:
            layout = model.read_form(data)
            model.check_banks(layout.banks)
            model.check_list(layout, model.Choices())
            model.Pass, kept = make, model.Pass
            try:
                model.Passes(layout)
            finally:
                model.Pass = kept
        except model.Refused as refused:
            passes = [refused.number]
        if passes == [8]:
            return data, watched[-1].first, len(watched)


def unresolved_differs(rng):
    """Whether the words of refusal 8 name another node or pass than the model's; what they say then."""
    data, node, passes = unresolved(rng)
    done = subprocess.run([manners.ROOT / "tools" / "denkumari", "layout", "-"], input=data, capture_output=True, check=False)
    said = done.stderr.decode()
    if done.returncode == 1 and f": node {node} (" in said and f": pass {passes}, " in said and "the first that is not resolved" in said:
        return ""
    return f"denkumari layout < {data.hex()}: {said} for node {node}, pass {passes}"[:1200]


def case_of(name, rng, room):
    makers = {"station": station_case, "rehex": rehex_case, "reason": reason_case, "bencher": bencher_case, "converter": converter_case, "mapper": mapper_case}
    return makers[name](rng, room) if name == "bencher" else makers[name](rng)


def held(name, asked, room):
    """How many cases of a program differ."""
    start, rng, refused, left, wrong = None if asked.native else manners.command(name), random.Random(asked.seed), 0, 0, 0
    for _ in range(asked.cases):
        arguments, given, told = case_of(name, rng, room)
        refused += told.startswith(b"refused") or b"\nrefused " in told
        if asked.native:
            differs = native_differs(name, arguments, given, told)
            left += differs is None
        else:
            done = subprocess.run([*start, *arguments], input=given, capture_output=True, check=False)
            differs = "" if done.stdout == told else f"{name} {' '.join(arguments)} < {given.hex()}: {done.stdout!r} for {told!r}"[:500]
        wrong += bool(differs)
        if differs:
            print(differs)
    print(f"{name}: {asked.cases} cases, {refused} of them refused" + (f", {left} that the command has no words for" if left else ""))
    return wrong


def held_unresolved(asked):
    rng = random.Random(asked.seed)
    found = [differs for differs in (unresolved_differs(rng) for _ in range(asked.cases)) if differs]
    print("\n".join([*found, f"words of refusal 8: {asked.cases} layouts"]))
    return len(found)


def main():
    parser = manners.parser(__doc__)
    parser.add_argument("names", nargs="*", metavar="NAME")
    parser.add_argument("--cases", type=manners.some, default=1000)
    parser.add_argument("--seed", type=manners.count, default=1)
    parser.add_argument("--native", action="store_true", help="the command denkumari in the programs' place")
    asked = parser.parse_args()
    names = ("station", "rehex", "reason", "bencher", "converter", "mapper")
    for name in set(asked.names) - set(names):
        parser.error(f"there is no program {name}: {', '.join(names)}")
    with manners.room() as room:
        wrong = held_unresolved(asked) if asked.native and not asked.names else 0
        wrong += sum(held(name, asked, Path(room)) for name in asked.names or names if not (asked.native and name == "reason"))
    print("no difference" if not wrong else f"{wrong} differ")
    sys.exit(wrong != 0)


EXAMPLES = [path.read_bytes() for path in sorted((manners.ROOT / "examples").glob("*.form"))]
if __name__ == "__main__":
    manners.run(main)
