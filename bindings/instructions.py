#!/usr/bin/env python3
"""The instructions of each exported call, held to what is on record: bindings/instructions.py [--write] [--ours FOLDER]

Counts, by callgrind, what each call of bindings/benchmark_calls.py takes in the proved archive (bindings/build.sh builds the program calls_time over it), and
holds it to bindings/instructions.tsv. Ends with 1 where a call takes a twentieth more than it says there, where a call is not there, or where a line is of no
call. What takes a twentieth less is told, so that the record can follow. --write makes the record anew. The counts are those of one kit and one compiler: they
are the same on a busy machine."""

import shutil
import sys
from pathlib import Path

from benchmark_calls import ROWS, layouts
from benchmark_count import instructions, manners, native

RECORD = Path(__file__).parent / "instructions.tsv"
KIT = (manners.ROOT / "KIT").read_text().strip()
MORE = 1.05


def counted(program, room):
    """What each call takes, by its name and what it is made on."""
    files = {name: room / f"layout {i}" for i, name in enumerate(layouts())}
    for name, file in layouts().items():
        files[name].write_bytes(file)
    found = {}
    for row in ROWS:
        key = (row.call, row.given)
        if key not in found:
            found[key] = cost(row.call, lambda n, row=row: [str(program), row.call, n] + ([str(files[row.layout])] if row.layout else []))
    return found


def cost(call, words):
    """The instructions of one more call than one, within it alone."""
    one, two = (instructions(words(n), within=[call.split(":")[0]])[0] for n in "12")
    return two - one


def recorded_kit():
    """The kit whose archive the record is of: its first line."""
    return RECORD.read_text().splitlines()[0].removeprefix("# ")


def recorded():
    lines = RECORD.read_text().splitlines()[1:]
    return {(call, given): int(number) for call, given, number in (line.split("\t") for line in lines)}


def faults(found, record):
    """What is not as the record has it, in words."""
    for key in sorted(found.keys() - record.keys()):
        yield f"{' on '.join(key)}: not on record"
    for key in sorted(record.keys() - found.keys()):
        yield f"{' on '.join(key)}: on record, and no such call is made"
    for key in sorted(found.keys() & record.keys()):
        if found[key] > record[key] * MORE:
            yield f"{' on '.join(key)}: {found[key]:,} instructions, and on record are {record[key]:,}"


def main():
    words = manners.parser(__doc__)
    words.add_argument("--write", action="store_true")
    words.add_argument("--ours", type=Path, default=manners.ROOT / "build" / "bindings")
    said = words.parse_args()
    if not native() or not shutil.which("valgrind"):
        print("left out: the instructions of the calls: valgrind counts them, on x86-64 (Debian: valgrind)")
        return
    program = said.ours / "calls_time"
    if not program.exists():
        raise manners.Stop(f"there is no {program}: bindings/build.sh builds it")
    with manners.room() as room:
        found = counted(program, room)
    if said.write:
        RECORD.write_text(f"# {KIT}\n" + "".join(f"{call}\t{given}\t{number}\n" for (call, given), number in sorted(found.items())))
        return
    if recorded_kit() != KIT:
        print(f"left out: the instructions of the calls: on record are those of {recorded_kit()}, and this archive is of {KIT}: --write makes the record anew")
        return
    record = recorded()
    less = [key for key in found.keys() & record.keys() if found[key] * MORE < record[key]]
    for key in sorted(less):
        print(f"{' on '.join(key)}: {found[key]:,} instructions, less than the {record[key]:,} on record: --write makes it anew")
    wrong = list(faults(found, record))
    print("\n".join(wrong + [f"{len(found)} calls counted, {len(wrong)} not as on record"]))
    sys.exit(1 if wrong else 0)


if __name__ == "__main__":
    manners.run(main)
