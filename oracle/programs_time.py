#!/usr/bin/env python3
"""The command behind tools/rehex beside srec_cat and objcopy, on the same files, in one run: instructions, and processor time.

    programs_time.py [--turns N]

Whole processes are counted, from start to end, S-records to Intel HEX; a time is the least of the turns, in which the three
alternate. What comes out is compared byte for byte, as srec_cat reads it. Debian has the tools in srecord, binutils and valgrind.
"""
import random
import subprocess
import sys
from pathlib import Path

sys.path.insert(0, str(Path(__file__).resolve().parent.parent / "bindings"))

import manners  # noqa: E402
from benchmark_count import Differ, instructions, seconds  # noqa: E402

SIZES = (16_384, 1_048_576)


def compiled():
    """The command itself, behind the script that compiles it: the newest that stands in build/."""
    subprocess.run([manners.ROOT / "tools" / "denkumari", "--version"], stdout=subprocess.DEVNULL, check=True)
    return max((manners.ROOT / "build").glob("denkumari-*"), key=lambda file: file.stat().st_mtime)


def commands(program, room):
    """The three: S-records in a file, Intel HEX to standard output or to a file."""
    source = room / "in.s37"
    return [([program, "rehex", source], b""),
            (["srec_cat", source, "-motorola", "-o", room / "srec_cat.hex", "-intel", "-address-length=4", "-output_block_size=16"], b""),
            (["objcopy", "-I", "srec", "-O", "ihex", source, room / "objcopy.hex"], b"")]


def measured(program, size, turns, room):
    """Instructions and least seconds of the three, which must have made the same bytes."""
    binary = room / "in.bin"
    binary.write_bytes(random.Random(size).randbytes(size))
    subprocess.run(["objcopy", "-I", "binary", "-O", "srec", "--srec-forceS3", binary, room / "in.s37"], check=True)
    three = commands(program, room)
    counted = [instructions(*one) for one in three]
    (room / "ours.hex").write_bytes(counted[0][1])
    for name in ("ours.hex", "srec_cat.hex", "objcopy.hex"):
        back = room / "back.bin"
        subprocess.run(["srec_cat", room / name, "-intel", "-o", back, "-binary"], check=True, stderr=subprocess.DEVNULL)
        if back.read_bytes() != binary.read_bytes():
            raise Differ(f"{name} of {size} bytes gives other bytes")
    least = [min(each) for each in zip(*([seconds(*one) for one in three] for _ in range(turns)))]
    return [cost for cost, _ in counted], least


def program_rows(program, turns):
    yield "| bytes | rehex | srec_cat | ratio | objcopy | ratio | rehex, ms | srec_cat, ms | ratio | objcopy, ms | ratio |"
    yield "|---|---|---|---|---|---|---|---|---|---|---|"
    with manners.room() as room:
        for size in SIZES:
            cells = [f"{size:,}"]
            costs, spent = measured(program, size, turns, Path(room))
            for figures, form in ((costs, "{:,.0f}"), ([1000 * t for t in spent], "{:.1f}")):
                ours, theirs, third = figures
                cells += [form.format(ours), form.format(theirs), f"{ours / theirs:.2f}", form.format(third), f"{ours / third:.2f}"]
            yield f"| {' | '.join(cells)} |"


def main():
    parser = manners.parser(__doc__)
    parser.add_argument("--turns", type=manners.some, default=10)
    asked = parser.parse_args()
    for row in program_rows(compiled(), asked.turns):
        print(row, flush=True)


if __name__ == "__main__":
    manners.run(main)
