#!/usr/bin/env python3
"""Shows that the comparison can see a difference: builds the Rust with one changed line after the other (oracle/mutants) and
compares each with oracle/model.py on the same files.

    mutants.py [--seed S] [--cases N] [--replay] [NAME ..]

With --replay the files are those of oracle/replay. Prints for each the first case that tells it apart. Status 1 says that one was not seen."""

import subprocess
import sys

import compare
import generate
import manners

FLAGS = "-C opt-level=1 -C overflow-checks=on"


def build(edit):
    folder = compare.FOLDER / "mutant"
    subprocess.run([compare.HERE / "build.sh", "--edit", edit, "--flags", FLAGS, folder], check=True)
    return folder / "judge"


def replayed():
    for number, line in enumerate((compare.HERE / "replay" / "cases.tsv").read_text().splitlines()):
        yield f"replay {number}", bytes.fromhex(line.split("\t")[0])


def first_seen(judge, batches, tally):
    """The first case in which the judge and the model part."""
    for batch, model_lines in batches:
        rust = compare.answers(str(judge), [file for _, file in batch])
        for (name, file), said, theirs in zip(batch, rust, model_lines):
            tally.take(name, file, said, theirs)
    return tally.first


def main():
    parser = manners.parser(__doc__)
    parser.add_argument("--seed", default="1")
    parser.add_argument("--cases", type=manners.some, default=40_000)
    parser.add_argument("--replay", action="store_true")
    parser.add_argument("names", nargs="*")
    asked = parser.parse_args()

    there = sorted((compare.HERE / "mutants").glob("*.edit"))
    for name in set(asked.names) - {edit.stem for edit in there}:
        parser.error(f"there is no changed copy {name}")
    cases = list(replayed() if asked.replay else generate.cases(asked.seed, asked.cases))
    batches = []
    for at in range(0, len(cases), 4_000):
        batch = cases[at:at + 4_000]
        batches.append((batch, compare.answers(compare.MODEL, [file for _, file in batch])))

    unseen = 0
    for edit in there:
        if asked.names and edit.stem not in asked.names:
            continue
        tally = compare.Tally()
        first = first_seen(build(edit), batches, tally)
        what = edit.read_text().splitlines()[0].removeprefix("# ")
        if first is None:
            unseen += 1
            print(f"NOT SEEN  {edit.stem}: {what}")
            continue
        families = sorted({family for family, row in tally.parted})
        print(f"seen      {edit.stem}: {what}")
        seen = f"first {first[0]}: Rust {first[2][:60]}, document {first[3][:60]}"
        print(f"          {sum(tally.different.values())} of {len(cases)} cases, {seen}; {' '.join(families)}", flush=True)
    sys.exit(1 if unseen else 0)


if __name__ == "__main__":
    manners.run(main)
