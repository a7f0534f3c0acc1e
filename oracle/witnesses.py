#!/usr/bin/env python3
"""The flash station's own tools as witnesses: srec_cat, objcopy and Python's intelhex read what we write and give the same bytes, and we read what
they write where it keeps to the records that document 02 takes. A tool that is not installed is said to be skipped.

    witnesses.py [COMMAND] [--cases N] [--seed N]

COMMAND answers the requests of oracle/README.md, "Records" ("tools/run --file build/bindings/records" over the built library); without one it is the model,
records.py --batch. Debian has the tools in srecord, binutils and python3-intelhex.
"""
import random
import shlex
import shutil
import subprocess
import sys
from pathlib import Path

import manners
import records

HERE = Path(__file__).resolve().parent
READS = """from intelhex import IntelHex; import sys
print(*(f"{a}:{b}" for a, b in IntelHex(sys.argv[1]).todict().items() if a != "start_addr"))"""
WRITES = """from intelhex import IntelHex; import sys; h = IntelHex()
for word in sys.argv[2:]:
    a, b = word.split(":")
    h[int(a)] = int(b)
h.write_hex_file(sys.argv[1])"""


def run(*words):
    done = subprocess.run([str(w) for w in words], capture_output=True, text=True, check=False)
    if done.returncode:
        raise SystemExit(f"witnesses.py: {' '.join(map(str, words))}: {done.stderr.strip()}")
    return done.stdout


def pythons():
    """A Python that has intelhex, or None."""
    for python in (sys.executable, "/usr/bin/python3"):
        if subprocess.run([python, "-c", "import intelhex"], capture_output=True, check=False).returncode == 0:
            return python
    return None


class Ours:
    """The side that is looked at: a program that answers requests."""

    def __init__(self, command):
        self.command = shlex.split(command)

    def ask(self, asked):
        done = subprocess.run(self.command, input="\n".join(asked) + "\n", capture_output=True, text=True, check=True)
        return [line.split() for line in done.stdout.splitlines()]

    def write(self, cases):
        asked = []
        for kind, width, image, blocks, load in cases:
            starts, sizes = (records.shown(b[i] for b in blocks) for i in (0, 1))
            asked.append(f"write {kind} {width} {load} {image.hex() or '-'} {starts} {sizes} {40 * len(image) + 400}")
        for words, line in zip(self.ask(asked), asked):
            if words[0] != "ok":
                raise SystemExit(f"witnesses.py: {line}: {words}")
            yield records.octets(words[2])[:int(words[1])]

    def read(self, cases):
        """The bytes by address of each (kind, load, room, text)."""
        asked = [f"read {kind} {load} {'ee' * room or '-'} 64 {text.hex() or '-'}" for kind, load, room, text in cases]
        for words, (kind, load, room, text) in zip(self.ask(asked), cases):
            if words[0] != "ok":
                raise SystemExit(f"witnesses.py: {words[:3]} for what a tool wrote, load {load}:\n{text.decode()}")
            n, lent, starts, sizes = int(words[1]), records.octets(words[2]), records.listed(words[3]), records.listed(words[4])
            yield {load + a: lent[a] for s, z in list(zip(starts, sizes))[:n] for a in range(s // 8, (s + z) // 8)}


def filled(given, first, last):
    """Bytes first to last, 0 in the gaps."""
    return bytes(given.get(a, 0) for a in range(first, last + 1))


def same(tool, told, got, wanted):
    if got != wanted:
        raise SystemExit(f"witnesses.py: {tool}, {told}: {got!r}, not {wanted!r}")


class SrecCat:
    name = "srec_cat"

    def __init__(self, there):
        self.there = there if shutil.which("srec_cat") else None

    def reads(self, kind, path, given):
        first, last = min(given), max(given)
        out = self.there / "out.bin"
        run("srec_cat", path, {"hex": "-intel", "srec": "-motorola"}[kind], "-offset", f"-0x{first:x}", "-o", out, "-binary")
        same(self.name, path, out.read_bytes(), filled(given, first, last))

    def writes(self, kind, width, given):
        # with no data count record (S5), and told a start address, without which it writes no S7 or S9; one file of records for each run of bytes, put together
        words = []
        for i, (a, n) in enumerate(records.runs(given)):
            part = self.there / f"part{i}.bin"
            part.write_bytes(filled(given, a, a + n - 1))
            words += [part, "-binary", "-offset", f"0x{a:x}"]
        out = self.there / "out.txt"
        if kind == "hex":
            run("srec_cat", *words, "-o", out, "-intel")
        else:
            run("srec_cat", *words, "-disable=data-count", "-execution-start-address=0", "-o", out, "-motorola", f"-address-length={width}")
        return out.read_bytes()


class Objcopy:
    name = "objcopy"

    def __init__(self, there):
        self.there = there if shutil.which("objcopy") else None

    def reads(self, kind, path, given):
        out = self.there / "out.bin"
        run("objcopy", "-I", {"hex": "ihex", "srec": "srec"}[kind], "-O", "binary", path, out)
        same(self.name, path, out.read_bytes(), filled(given, min(given), max(given)))

    def writes(self, kind, width, given):
        # one run of bytes (--change-addresses would move the start too, and write type 03 or 05); type 02 stands where addresses pass 65,535 and stay
        # below 2^20, S2 where they pass 65,535 unless S3 is forced
        (a, n), = records.runs(given)
        if kind == "hex" and a + n > 0x10000 and a < 0x100000:
            return None
        part, out = self.there / "part.bin", self.there / "out.txt"
        part.write_bytes(filled(given, a, a + n - 1))
        force = ["--srec-forceS3"] if width == 4 else []
        run("objcopy", "-I", "binary", "-O", {"hex": "ihex", "srec": "srec"}[kind],
            "--change-section-address", f".data=0x{a:x}", *force, part, out)
        return out.read_bytes()


class IntelHex:
    name = "intelhex"

    def __init__(self, there):
        self.python = pythons()
        self.there = there if self.python else None

    def reads(self, kind, path, given):
        if kind == "hex":
            told = run(self.python, "-c", READS, path).split()
            same(self.name, path, dict(tuple(map(int, t.split(":"))) for t in told), given)

    def writes(self, kind, width, given):
        if kind != "hex":
            return None
        out = self.there / "out.txt"
        run(self.python, "-c", WRITES, out, *(f"{a}:{b}" for a, b in given.items()))
        return out.read_bytes()


def drawn(rng):
    """A kind, a width, and what every writer accepts, with some byte in it."""
    while True:
        width = rng.choice((2, 4))
        image, blocks, load = records.random_case(rng, width)
        if blocks:
            return rng.choice(("hex", "srec")), width, image, blocks, load


def given_by(image, blocks, load):
    return {load + a: image[a] for s, n in blocks for a in range(s // 8, (s + n) // 8)}


def look(tool, ours, there, cases):
    """How many files the tool read, and how many of its own were read here."""
    texts = list(ours.write(cases))
    back, read = [], 0
    for (kind, width, image, blocks, load), text in zip(cases, texts):
        given = given_by(image, blocks, load)
        path = there / f"ours.{kind}"
        path.write_bytes(text)
        tool.reads(kind, path, given)
        read += kind == "hex" or tool.name != "intelhex"
        if tool.name == "objcopy":
            a, n = records.runs(given)[0]
            given = {x: given[x] for x in range(a, a + n)}
        theirs = tool.writes(kind, width, given)
        if theirs is not None:
            back.append(((kind, min(given), max(given) - min(given) + 1, theirs), given))
    for (case, wanted), got in zip(back, ours.read([case for case, _ in back])):
        same(tool.name, case[3], got, wanted)
    return read, len(back)


def main():
    words = manners.parser(__doc__)
    words.add_argument("command", nargs="?", default=f"{shlex.quote(sys.executable)} {shlex.quote(str(HERE / 'records.py'))} --batch")
    words.add_argument("--cases", type=manners.some, default=60)
    words.add_argument("--seed", type=manners.count, default=1)
    options = words.parse_args()
    ours = Ours(options.command)
    rng = random.Random(options.seed)
    cases = [drawn(rng) for _ in range(options.cases)]
    with manners.room() as folder:
        there = Path(folder)
        for kind in (SrecCat, Objcopy, IntelHex):
            tool = kind(there)
            if tool.there is None:
                print(f"{tool.name}: skipped, not installed")
                continue
            read, back = look(tool, ours, there, cases)
            print(f"{tool.name}: read {read} of our files to the same bytes; {back} of its own were read here to the same bytes")


if __name__ == "__main__":
    manners.run(main)
