"""For portable/matrix: the stack that each call of the portable C takes, painted by bindings/c/stack.c, and the code's size."""

import re
import shutil
import subprocess
import sys
from pathlib import Path

sys.path.insert(0, str(Path(__file__).resolve().parent.parent / "oracle"))

import manners  # noqa: E402
from matrix_tools import HOST, emulated, launched, want  # noqa: E402

ROOT = manners.ROOT
STACK = ROOT / "bindings" / "c" / "stack.c"
INCLUDED = f"-I{ROOT / 'include'}"
# By machine: the compiler that links for it, and clang's name for it.
MACHINES = {"x86_64": ("x86_64-linux-gnu-gcc", "x86_64-linux-gnu"), "aarch64": ("aarch64-linux-gnu-gcc", "aarch64-linux-gnu"),
            "armhf": ("arm-linux-gnueabihf-gcc", "arm-linux-gnueabihf")}
BARE = ["arm-none-eabi-gcc", "-mcpu=cortex-m4", "-mthumb", "-mfloat-abi=soft", "-ffreestanding"]
# The two memory functions, and a start that does nothing: what stands beside the calls whose size is told.
STUB = """#include <stddef.h>
void *memcpy(void *a, const void *b, size_t n) { char *d = a; const char *s = b; while (n--) *d++ = *s++; return a; }
void *memset(void *a, int c, size_t n) { char *d = a; while (n--) *d++ = (char)c; return a; }
void start(void) {}
"""
LOADER = ("dk_read_records", "dk_record_extent", "dk_record_fault", "dk_record_reason", "dk_blocks", "dk_offer", "dk_part", "dk_overlay_range",
          "dk_overlay_runs", "dk_write_hex", "dk_hex")


class TooMuch(manners.Stop):
    """A call takes more stack than the header says."""


def linker(arch):
    return "cc" if arch == HOST else MACHINES[arch][0]


def compiled_by(compiler, arch, source, room):
    """The portable C as an object for a machine, -O2."""
    made = room / "portable.o"
    words = [linker(arch)] if compiler == "gcc" else ["clang", f"--target={MACHINES[arch][1]}", "-ffreestanding"]
    subprocess.run([*words, "-std=c99", "-O2", INCLUDED, "-c", str(source), "-o", str(made)], check=True)
    return made


def most_of(lines):
    """By call the most that it took, of the ways in which it was made; what the header promises is held."""
    most = {}
    for line in lines.splitlines():
        found = re.match(r"(wrong: )?(dk_\w+)[^:]*: (\d+) (?:bytes of stack, below |of )(\d+)", line.removeprefix("stack of "))
        if found:
            most[found[2]] = max(int(found[3]), most.get(found[2], (0, 0))[0]), int(found[4])
        if found and found[1]:
            raise TooMuch(line)
    return most


def painted(arch, library):
    """bindings/c/stack.c over a library, on a machine."""
    with manners.room() as room:
        program = room / "stack"
        subprocess.run([linker(arch), "-std=c11", "-O2", "-static", "-pthread", str(STACK), str(library), "-o", str(program)], check=True)
        return most_of(launched([*emulated(arch), str(program)]).stdout.decode())


def columns(source, bare, archive):
    """A name and the figures of every way to build that this machine has the tools for."""
    if archive.exists() and shutil.which(linker("x86_64")):
        yield "proved archive, x86-64", painted("x86_64", archive)
    for arch in MACHINES:
        if not want(linker(arch), f"the stack on {arch}") or not all(want(tool, f"the stack on {arch}") for tool in emulated(arch)):
            continue
        for compiler in ("gcc", "clang"):
            if want(compiler, f"the stack by {compiler}"):
                with manners.room() as room:
                    yield f"{compiler} -O2, {arch}", painted(arch, compiled_by(compiler, arch, source, room))
    if bare:
        yield "gcc -Os, Cortex-M4", most_of(bare)


def stack_rows(source, bare, archive):
    names, figures = zip(*columns(source, bare, archive))
    limits = {call: limit for call, (_, limit) in figures[0].items()}
    for name, column in zip(names, figures):
        for call, (most, _) in column.items():
            if most >= limits[call]:
                raise TooMuch(f"{call} takes {most} bytes of stack, {name}, and the header says less than {limits[call]}")
    yield f"| call | less than | {' | '.join(names)} |"
    yield "|---|---|" + "---|" * len(names)
    for call, limit in limits.items():
        cells = [f"{column[call][0]:,}" if column[call][0] > 128 else "at most 128" for column in figures]
        yield f"| {call} | {limit:,} | {' | '.join(cells)} |"


def bare_size(source, room, calls):
    """Bytes of code and constants that a program with these calls, and nothing else, has on a Cortex-M4."""
    stub, program = room / "stub.c", room / "alone.elf"
    stub.write_text(STUB)
    kept = [f"-Wl,-u,{call}" for call in calls]
    subprocess.run([*BARE, "-Os", "-nostdlib", "-ffunction-sections", "-fno-tree-loop-distribute-patterns", "-Wl,--gc-sections", "-Wl,-e,start", INCLUDED,
                    *kept, str(source), str(stub), "-lgcc", "-o", str(program)], check=True)
    said = subprocess.run(["arm-none-eabi-size", str(program)], stdout=subprocess.PIPE, check=True).stdout.decode().splitlines()[1]
    return int(said.split()[0])


def size_rows(source):
    yield "| code and constants, bytes | |"
    yield "|---|---|"
    header = (ROOT / "include" / "denkumari.h").read_text()
    every = re.findall(r"^struct \w+ (dk_\w+)\(", header, re.M)
    if not want("arm-none-eabi-gcc", "the code's size"):
        return
    with manners.room() as room:
        for what, calls in ((f"all {len(every)} calls", every), ("the ten that a loader makes", LOADER), ("dk_read_records alone", LOADER[:1]),
                            ("dk_build alone", ("dk_build",))):
            yield f"| gcc -Os, Cortex-M4, {what} | {bare_size(source, room, calls):,} |"


if __name__ == "__main__":
    manners.part(__doc__)
