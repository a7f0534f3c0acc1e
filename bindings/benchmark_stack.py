"""The stack that each call takes, as bindings/c/stack.c measures it, held against what include/denkumari.h says."""

import math
import re
import subprocess
from pathlib import Path

from benchmark_count import Differ, manners, started

HEADER = Path(__file__).resolve().parent.parent / "include" / "denkumari.h"


def promised():
    """By call: what the comment above its declaration says. Of two calls under one comment the figures stand in their order."""
    text = HEADER.read_text()
    found = {}
    for comment, declarations in re.findall(r"/\*((?:(?!\*/).)*?)\*/\n((?:(?:struct dk_\w+ )dk_\w+\([^;]*\);\n+)+)", text, re.S):
        calls = re.findall(r"^struct \w+ (dk_\w+)\(", declarations, re.M)
        said = re.search(r"needs? less\s+than ([^(]*?) of\s+\*?\s*stack(?: \(([^)]*)\))?", re.sub(r"\n \* ", " ", comment))
        if not said:
            raise Differ(f"include/denkumari.h says nothing of the stack of {calls}")
        limits = [float(n) for n in re.findall(r"\d+(?:\.\d)?", said[1])]
        measured = [float(n) for n in re.findall(r"\d+\.\d", said[2] or "")]
        for i, call in enumerate(calls):
            found[call] = limits[min(i, len(limits) - 1)], measured[min(i, len(measured) - 1)] if measured else None
    return found


def stack_rows(ours):
    yield "| call | needs less than | measured, bytes |\n|---|---|---|"
    header, wrong, most = promised(), [], {}
    lines = subprocess.run([*started(), ours / "stack"], stdout=subprocess.PIPE, check=True).stdout.decode().splitlines()
    for name, measured, limit in (re.match(r"(.*): (\d+) bytes of stack, below (\d+)", line).groups() for line in lines):
        call = name.split(",")[0]
        # of a call that was made in several ways the header has the most
        most[call] = max(int(measured), most.get(call, (0, 0))[0]), int(limit)
        yield f"| {name} | {int(limit) / 1024:g} KiB | {'at most ' * (int(measured) <= 128)}{int(measured):,} |"
    if set(most) != set(header):
        raise Differ(f"bindings/c/stack.c does not measure {sorted(set(header) - set(most))}")
    for call, (measured, limit) in most.items():
        said, figure = header[call]
        kib = math.ceil(measured / 102.4) / 10  # the header rounds up
        if said * 1024 != limit or (figure is not None and figure != kib):
            wrong.append(f"{call}: less than {limit / 1024:g} KiB ({kib} KiB)")
    if wrong:
        raise Differ("include/denkumari.h is to say: " + "; ".join(wrong))


if __name__ == "__main__":
    manners.part(__doc__)
