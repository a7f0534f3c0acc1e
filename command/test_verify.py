#!/usr/bin/env python3
"""Holds `denkumari verify` against a model of it in Python: command/test_verify.py [COMMAND]

COMMAND is the command denkumari, tools/denkumari unless said. The examples' images are written as records, bits are turned, records lost, bytes put beside
them, and what verify says of the dump, in text and as JSON, is held against what the bytes themselves say. Status 1 where something is not so."""

import json
import random
import re
import subprocess
import sys
from pathlib import Path

sys.path.insert(0, str(Path(__file__).resolve().parent.parent / "oracle"))

import manners  # noqa: E402

EXAMPLES = manners.ROOT / "examples"
COMMAND = [manners.ROOT / "tools" / "denkumari"]
WRITTEN = ("instruction", "data", "data of open size")


class Wrong(Exception):
    """What is not as the bytes have it."""


def run(*words):
    done = subprocess.run([*COMMAND, *map(str, words)], capture_output=True, check=False)
    return done.returncode, done.stdout.decode(), done.stderr.decode()


def held(what, found, wanted):
    if found != wanted:
        raise Wrong(f"{what}: {repr(found)[:300]} for {repr(wanted)[:300]}")


def hex_records(bytes_at, rng):
    """Intel HEX of bytes by address, in records of any length, either case."""
    lines, upper, at = [], None, sorted(bytes_at)
    while at:
        count = 1
        while count < min(len(at), rng.randrange(1, 33)) and at[count] == at[0] + count and (at[0] + count) & 65535:
            count += 1
        records = [(0, at[0] & 65535, bytes(bytes_at[a] for a in at[:count]))]
        if upper != at[0] >> 16:
            upper = at[0] >> 16
            records.insert(0, (4, 0, upper.to_bytes(2, "big")))
        for kind, address, data in records:
            body = bytes((len(data), address >> 8, address & 255, kind)) + data
            lines.append(":" + (body + bytes((-sum(body) & 255,))).hex())
        at = at[count:]
    text = "\n".join([*lines, ":00000001ff", ""])
    return text if rng.random() < 0.5 else text.upper()


def srec_records(bytes_at, rng):
    lines = []
    for a in sorted(bytes_at):
        body = bytes((6,)) + a.to_bytes(4, "big") + bytes((bytes_at[a],))
        lines.append("S3" + (body + bytes((~sum(body) & 255,))).hex().upper())
    text = "\n".join([*lines, "S70500000000FA", ""])
    return text if rng.random() < 0.5 else text.lower()


def bits_of(data, at, count):
    return (int.from_bytes(data, "big") >> (8 * len(data) - at - count)) & ((1 << count) - 1) if count else 0


class Model:
    """A layout and what a dump should give."""

    def __init__(self, file, whole, load):
        laid, mapped = (json.loads(run(name, file, "--json")[1]) for name in ("layout", "map"))
        digits = laid["image"]
        self.image, self.load, self.banks = bytes.fromhex(digits + "0" * (len(digits) % 2)), load, mapped["banks"]
        self.items = sorted((n for n in mapped["nodes"] if n["kind"] in WRITTEN and n["size"]), key=lambda n: n["output"])
        spans = [(0, 8 * len(self.image))] if whole else [(b["start"], b["size"]) for b in laid["blocks"]]
        self.ragged = any(start % 8 or size % 8 for start, size in spans)
        self.asked = [a for start, size in spans for a in range(start // 8, (start + size) // 8)]

    def runs(self, dump):
        found = []
        for a in self.asked:
            given = dump.get(self.load + a)
            kind = "missing" if given is None else "different" if given != self.image[a] else None
            if kind is None:
                continue
            if found and found[-1][0] == kind and found[-1][1] + found[-1][2] == self.load + a:
                found[-1][2] += 1
            else:
                found.append([kind, self.load + a, 1])
        return found

    def words(self, dump):
        """Every word that is not as it should be: node, address, bits past it, what is there and what should."""
        read = bytes(dump.get(self.load + a, 0) for a in range(len(self.image)))
        for n in self.items:
            unit, start = self.banks[n["bank"]]["unit"], self.banks[n["bank"]]["start"]
            done = 0
            while done < n["size"]:
                at, output = n["position"] + done, n["output"] + done
                size = min(unit - at % unit, n["size"] - done)
                missing = any(self.load + a not in dump for a in range(output // 8, (output + size - 1) // 8 + 1))
                digits = (size + 3) // 4
                found, wanted = (f"{bits_of(data, output, size):0{digits}x}" for data in (read, self.image))
                if missing or found != wanted:
                    yield n["node"], start + at // unit, at % unit, None if missing else found, wanted
                done += size

    def gaps(self, dump):
        """How many rows of bits that no item writes lie in one run and are not as they should be."""
        items = {bit for n in self.items for bit in range(n["output"], n["output"] + n["size"])}
        count = 0
        for kind, address, size in self.runs(dump):
            is_open = False
            for bit in range(8 * (address - self.load), 8 * (address - self.load + size)):
                there = kind == "missing" or (dump[self.load + bit // 8] ^ self.image[bit // 8]) >> (7 - bit % 8) & 1
                if bit in items:
                    is_open = False
                elif there and not is_open:
                    is_open, count = True, count + 1
        return count


def lines_of(text):
    """The words of a text's lines: node, address, bits past it, what is there and what should; and of rows of missing words node, first and last."""
    for line in text.splitlines()[1:]:
        one = re.search(r"(?:^|\()node (\d+)\)?, word (-?\w+)(?:\+(\d+))?: (\w+|not given), should be (\w+) \(0x", line)
        if one:
            yield int(one[1]), int(one[2], 0), int(one[3] or 0), None if one[4] == "not given" else one[4], one[5]
            continue
        if not re.match(r"(?:.*\()?node \d+\)?, words -?\w+(?:\+\d+)?\.\.-?\w+(?:\+\d+)?: not given \(0x|no item, \d+ bytes?: ", line):
            raise Wrong(f"a line that is not one: {line}")


def damaged(rng, model):
    dump = {model.load + a: b for a, b in enumerate(model.image)}
    for _ in range(rng.choice((0, 1, 1, 2, 5))):
        dump[model.load + rng.randrange(len(model.image))] ^= 1 << rng.randrange(8)
    for _ in range(rng.choice((0, 0, 1, 2))):
        first = rng.randrange(len(model.image))
        for a in range(first, min(first + rng.randrange(1, 40), len(model.image))):
            dump.pop(model.load + a, None)
    if rng.random() < 0.3 and model.load > 100:
        dump[model.load - rng.randrange(1, 100)] = 7
    if rng.random() < 0.3:
        dump[model.load + len(model.image) + rng.randrange(100)] = 9
    return dump


def hold(rng, folder, file):
    whole, load = rng.random() < 0.6, rng.choice((0, 0x8000, 0xfff0, 0x8000000))
    model = Model(file, whole, load)
    if not model.image:
        return 0
    dump = damaged(rng, model)
    (folder / "dump").write_text((srec_records if rng.random() < 0.3 else hex_records)(dump, rng))
    words = ("verify", file, folder / "dump", "--load", hex(load), *(("--whole",) if whole else ()))
    status, text, said = run(*words)
    again, printed, _ = run(*words, "--json")
    found = json.loads(printed)
    held(words, again, status)
    if model.ragged:
        held(words, (status, found["refused"]["number"], "block " in said), (1, 16, True))
        return 0
    runs, wrong = model.runs(dump), list(model.words(dump))
    held(words, [[r["kind"], r["address"], r["count"]] for r in found["runs"]], runs)
    held(words, [(w["node"], w["word"], w["past"], w["found"], w["wanted"]) for w in found["words"]], wrong)
    held(words, (status, found["bytes"], found["refused"]), (1 if runs else 0, len(model.asked), None))
    held(words, [w for w in lines_of(text) if w[3] is not None], [w for w in wrong if w[3] is not None])
    held(words, len(re.findall("^no item, ", text, re.M)), model.gaps(dump))
    for r in found["runs"]:
        wanted = model.image[r["address"] - load:][:r["count"]].hex()
        got = None if r["kind"] == "missing" else bytes(dump[a] for a in range(r["address"], r["address"] + r["count"])).hex()
        held(words, (r["found"], r["wanted"]), (got, wanted))
    return 1 if runs else 0


def main():
    parser = manners.parser(__doc__)
    parser.add_argument("command", nargs="?", metavar="COMMAND")
    asked = parser.parse_args()
    if asked.command:
        COMMAND[:] = [asked.command]
    rng = random.Random(47)
    files = [file for file in sorted(EXAMPLES.glob("*.form")) if run("layout", file)[0] == 0]
    try:
        with manners.room() as folder:
            found = sum(hold(rng, folder, rng.choice((*files, EXAMPLES / "sequencer.form"))) for _ in range(300))
        held("dumps that differ", found > 50, True)
    except Wrong as wrong:
        print(f"verify: {wrong}")
        sys.exit(1)
    print(f"verify: 300 dumps, {found} of them not the same: what the bytes say")


if __name__ == "__main__":
    manners.run(main)
