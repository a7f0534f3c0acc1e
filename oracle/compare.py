#!/usr/bin/env python3
"""Runs the Rust and another side on the same form 1 files, and compares every answer whole.

    compare.py [--seed S] [--cases N] [--other "COMMAND"] [--spans "COMMAND"] [--judge "COMMAND"] [--batch N] [--folder DIR] [--families] [--try]

Both sides are commands that read files from standard input, each behind four bytes of length, big-endian, and write a line
for each (oracle/README.md has the lines). The judge is the Rust (oracle/build.sh makes it). The other side is
oracle/model.py unless --other names a command; then the answers in which the Rust has no say are compared with model.py.
--spans names a command for lists of spans, a line each, where model.py is not to cut them into blocks.

The same seed gives the same files. The first difference is printed with its file, which is kept in the folder. Status 1 says
that there was one. --try reads the words and does nothing else."""

import shlex
import subprocess
import sys
from collections import Counter
from itertools import islice
from pathlib import Path

import generate
import manners
import model

HERE = Path(__file__).resolve().parent
FOLDER = HERE.parent / "build" / "oracle"
MODEL = f"{shlex.quote(sys.executable)} {shlex.quote(str(HERE / 'model.py'))} --batch"


def answers(command, files):
    """The command's line for each file."""
    done = subprocess.run(shlex.split(command), input=generate.batched(files), stdout=subprocess.PIPE, check=True)
    lines = done.stdout.decode().splitlines()
    if len(lines) != len(files):
        raise SystemExit(f"{command}: {len(lines)} answers to {len(files)} files")
    return lines


def head(line):
    """`ok`, or `refused` with its number."""
    words = line.split()
    return words[0] if words[0] != "refused" else " ".join(words[:2])


def verdict(rust, other, documents=None):
    """What the Rust's line says of the other side's: its row of the tally, and whether the two go together. `documents` is
    model.py's line, where the other side is not model.py itself."""
    if not rust.startswith("nosay"):
        return head(rust), rust == other
    reason, _, said = rust.removeprefix("nosay ").partition(" ; ")
    agrees = documents is None or other == documents
    if reason == "below":
        return "no say: alignment below zero", agrees
    if reason != "empty":
        return f"no say: {reason}", agrees and head(other) == f"refused {reason}"
    return f"no say: empty placement, {'the same anyway' if other == said else 'departing'}", agrees


class Tally:
    def __init__(self):
        self.same, self.different, self.families, self.parted = Counter(), Counter(), Counter(), Counter()
        self.first = None

    def take(self, name, file, rust, other, documents=None):
        row, agrees = verdict(rust, other, documents)
        (self.same if agrees else self.different)[row] += 1
        self.families[name.split()[0], row] += 1
        if not agrees:
            self.parted[name.split()[0], row] += 1
        if not agrees and self.first is None:
            self.first = (name, file, rust, other, documents)

    def show(self, with_families=False):
        rows = sorted(set(self.same) | set(self.different), key=lambda row: (row.startswith("no say"), [w.zfill(3) for w in row.split()]))
        print(f"{'the Rust':<44}{'same':>9}{'different':>11}")
        for row in rows:
            print(f"{row:<44}{self.same[row]:>9}{self.different[row]:>11}")
        no_say = sum(n for row, n in self.same.items() if row.startswith("no say"))
        total = sum(self.same.values()) + sum(self.different.values())
        print(f"{total} cases: {sum(self.same.values()) - no_say} the same, {sum(self.different.values())} different, {no_say} in which the Rust has no say")
        if with_families:
            print()
            for family in dict.fromkeys(family for family, _ in self.families):
                said = [f"{row} {self.families[family, row]}" for row in rows if self.families[family, row]]
                print(f"{family}: {', '.join(said)}")

    def show_first(self, folder):
        name, file, rust, other, documents = self.first
        kept = folder / "difference.form"
        kept.write_bytes(file)
        print(f"\nfirst difference: case {name}, kept as {kept}")
        print(f"  file  {file.hex() if len(file) <= 400 else f'{len(file)} bytes'}")
        print(f"  Rust  {rust[:2000]}")
        print(f"  other {other[:2000]}")
        if documents is not None:
            print(f"  model {documents[:2000]}")


def span_lists_apart(judge, seed, how_many, other=None):
    """How many lists of spans, which no layout need have made, the Rust's `get_blocks` and the other side, document 01's model
    unless a command is given, cut up differently."""
    lists = [generate.drawn_spans(seed, number) for number in range(how_many)]
    words = "".join(",".join(f"{'-' if offset is None else offset}:{size}" for offset, size in spans) + "\n" for spans in lists)
    done = subprocess.run([*shlex.split(judge), "--spans"], input=words.encode(), stdout=subprocess.PIPE, check=True)
    if other:
        theirs = subprocess.run(shlex.split(other), input=words.encode(), stdout=subprocess.PIPE, check=True).stdout
        return sum(rust != mine for rust, mine in zip(done.stdout.decode().splitlines(), theirs.decode().splitlines(), strict=True))
    model_lines = (",".join(f"{offset}:{size}" for offset, size in model.blocks_of([model.Span(0, *span) for span in spans])) or "-" for spans in lists)
    return sum(rust != mine for rust, mine in zip(done.stdout.decode().split("\n"), model_lines))


def main():
    parser = manners.parser(__doc__)
    parser.add_argument("--seed", default="1")
    parser.add_argument("--cases", type=manners.count, default=100_000)
    parser.add_argument("--other")
    parser.add_argument("--spans")
    parser.add_argument("--judge", default=shlex.quote(str(FOLDER / "judge")))
    parser.add_argument("--batch", type=manners.some, default=4_000)
    parser.add_argument("--folder", type=Path, default=FOLDER)
    parser.add_argument("--families", action="store_true")
    parser.add_argument("--try", action="store_true", dest="tried")
    asked = parser.parse_args()
    if asked.tried:
        return
    asked.folder.mkdir(parents=True, exist_ok=True)

    tally = Tally()
    stream = generate.cases(asked.seed, asked.cases)
    while batch := list(islice(stream, asked.batch)):
        files = [file for _, file in batch]
        rust = answers(asked.judge, files)
        other = answers(asked.other or MODEL, files)
        for (name, file), said, theirs in zip(batch, rust, other):
            needs_model = asked.other and said.startswith("nosay")
            tally.take(name, file, said, theirs, model.line(file) if needs_model else None)
    tally.show(asked.families)
    lists = asked.cases // 5
    apart = span_lists_apart(asked.judge, asked.seed, lists, asked.spans)
    print(f"{lists} lists of spans, cut into blocks by the Rust and by {'the other side' if asked.spans else 'model.py'}: {apart} different")
    if apart and not tally.first:
        sys.exit(1)
    if tally.first:
        tally.show_first(asked.folder)
        sys.exit(1)


if __name__ == "__main__":
    manners.run(main)
