"""The calls of portable/denkumari.c, compiled by gcc and by clang, beside those of the proved archive: x86-64 instructions, counted in one run."""

import shutil
import subprocess

from benchmark_calls import layouts, ratio
from benchmark_count import Differ, each, manners, native

ROOT = manners.ROOT
# The calls, as bindings/c/calls_time.c has them, on what, and the layout that they are given.
ROWS = ([("dk_build", name, name) for name in ("wide", "offers", "mixed A", "mixed B")]
        + [("dk_form", name, name) for name in ("wide", "offers", "mixed A, cut", "mixed B")]
        + [("dk_map", "mixed A", "mixed A"), ("dk_to_form2", "mixed A, cut", "mixed A, cut"), ("dk_blocks:rising", "4,096 spans in order", ""),
           ("dk_blocks:shuffled", "4,096 spans shuffled", ""), ("dk_offer:shuffled", "512 calls, shuffled", ""), ("dk_hex", "131,072 bits", ""),
           ("dk_write_hex", "64 KiB", ""), ("dk_write_srec", "64 KiB", ""), ("dk_read_records:hex", "64 KiB, Intel HEX", ""),
           ("dk_read_records:srec", "64 KiB, S-records", ""), ("dk_record_fault:hex", "64 KiB, Intel HEX", ""),
           ("dk_record_reason:hex", "64 KiB, Intel HEX, no end record", "")])


def gcc():
    return "gcc" if native() else "x86_64-linux-gnu-gcc"


def linked(room, name, library):
    program = room / f"calls_time_{name}"
    subprocess.run([gcc(), "-std=c11", "-O2", "-static", "-pthread", ROOT / "bindings" / "c" / "calls_time.c", library, "-o", program], check=True)
    return program


def programs(ours, room):
    """The program that makes the calls, over the archive and over the C as each compiler that is there makes it."""
    yield "the archive", linked(room, "archive", ours / "libdenkumari.a")
    ways = {"gcc -O2": [gcc(), "-O2"], "gcc -O3": [gcc(), "-O3"], "clang -O2": ["clang", "--target=x86_64-linux-gnu", "-ffreestanding", "-O2"]}
    for name, words in ways.items():
        if shutil.which(words[0]):
            made = room / f"{name}.o"
            subprocess.run([*words, "-std=c99", f"-I{ROOT / 'include'}", "-c", ROOT / "portable" / "denkumari.c", "-o", made], check=True)
            yield name, linked(room, name.replace(" ", ""), made)


def measured(program, call, layout):
    return each(lambda n: ([str(program), call, str(n)] + ([str(layout)] if layout else []), b""))


def portable_rows(ours):
    with manners.room() as room:
        made = dict(programs(ours, room))
        heads = [f"{name} | ratio" if name != "the archive" else name for name in made]
        yield f"| call | on | {' | '.join(heads)} |"
        yield "|---|---|---|" + "---|---|" * (len(made) - 1)
        files = {name: room / f"layout {i}" for i, name in enumerate(layouts())}
        for name, file in layouts().items():
            files[name].write_bytes(file)
        for call, given, layout in ROWS:
            found = [measured(program, call, files.get(layout)) for program in made.values()]
            if len({said for _, said in found}) > 1:
                raise Differ(f"{call} on {given}: the sides give {[said.decode().strip() for _, said in found]}")
            first = found[0][0]
            cells = [f"{first:,.0f}"] + [f"{cost:,.0f} | {ratio(cost, first)}" for cost, _ in found[1:]]
            yield f"| {call.split(':')[0]} | {given} | {' | '.join(cells)} |"


if __name__ == "__main__":
    manners.part(__doc__)
