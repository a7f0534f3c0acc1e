#!/usr/bin/env python3
"""The library beside the Rust: instructions on both sides, counted in one run, and the processor time.

    bindings/build.sh
    oracle/build.sh --edit bindings/long.edit --flags "-C opt-level=3" build/fast
    python3 bindings/benchmark.py [--ours FOLDER] [--rust FOLDER] [--rehex PROGRAM] [--only TABLE ..] [--turns N] [--write DOCUMENT]

FOLDERs are where the two builds put their programs. Prints the tables machine, layouts, where, series, calls, portable, programs, stack and orders; with
--write they take the place of those in the document. On another machine than x86-64 the tables portable, stack and orders can be had, by qemu-x86_64. Ends
with 1 where two sides give different answers, where an exported call has no row, or where a stack figure of
include/denkumari.h is not the measured one."""

import re
import subprocess
import sys
from pathlib import Path

from benchmark_calls import call_rows, ratio
from benchmark_count import Differ, each, manners, times, wanted
from benchmark_layouts import LAYOUTS, MARKED, SERIES
from benchmark_orders import order_rows
from benchmark_portable import portable_rows
from benchmark_stack import stack_rows
from benchmark_where import where_rows
from form1 import encode
from generate import batched
from programs_time import compiled, program_rows

LONGEST = 65_000
TABLES = ("machine", "layouts", "where", "series", "calls", "portable", "programs", "stack", "orders")


def big(number):
    return f"{number:,.0f}"


class Sides:
    """The programs that lay files out: ours, the Rust run once, and the judge as it runs in the comparison, where it resolves each file twice."""

    def __init__(self, ours, rust):
        self.batch, self.judge = [str(ours / "batch")], [str(rust / "judge")]

    def commands(self, file):
        tables = ["--tables", "--long"] if len(file) > LONGEST else []
        return self.batch + tables, self.judge + ["--raw"], self.judge

    def measured(self, name, layout, how_many=3):
        """Instructions for one file, from its bytes to the printed line, by the first so many of the three; they must have printed the same."""
        file = encode(layout)
        found = [each(lambda n, c=command: (c, batched([file] * n))) for command in self.commands(file)[:how_many]]
        lines = {said for _, said in found}
        if len(lines) > 1:
            hint = "; is the judge built with --edit bindings/long.edit?" if len(file) > LONGEST else ""
            raise Differ(f"{name}: the sides print different lines: {[line[:60] for line in lines]}{hint}")
        return [cost for cost, _ in found], lines.pop().decode()

    def timed(self, layout, costs, turns):
        file = encode(layout)
        return times([lambda n, c=command: (c, batched([file] * n)) for command in self.commands(file)[:len(costs)]], costs, turns)


def layout_rows(sides, turns):
    yield "| layout | here | the Rust | ratio | the judge | ratio | here, µs | the Rust, µs | ratio | both print |"
    yield "|---|---|---|---|---|---|---|---|---|---|"
    for name, (_, make) in LAYOUTS.items():
        layout = make()
        # of a layout with marks the judge says that the Rust has no say, and lays nothing out
        (ours, rust, *judge), line = sides.measured(name, layout, 2 if name in MARKED else 3)
        here, there, *_ = sides.timed(layout, (ours, rust, *judge), turns)
        twice = f"{big(judge[0])} | {ratio(ours, judge[0])}" if judge else "no say |"
        said = f"`{' '.join(line.split()[:4])} ..`, {len(line):,} bytes"
        yield (f"| {name} | {big(ours)} | {big(rust)} | {ratio(ours, rust)} | {twice} "
               f"| {here:,.0f} | {there:,.0f} | {ratio(here, there)} | {said} |")


def series_rows(sides):
    yield "| series | | here | times the row before | the Rust | times the row before | ratio |"
    yield "|---|---|---|---|---|---|---|"
    for name, (_, cases) in SERIES.items():
        before = None
        for label, layout in cases:
            costs, _ = sides.measured(f"{name} {label}", layout, 2)
            grown = [f"{cost / last:.2f}" for cost, last in zip(costs, before)] if before else ["", ""]
            yield f"| {name} | {label} | {big(costs[0])} | {grown[0]} | {big(costs[1])} | {grown[1]} | {ratio(*costs)} |"
            before = costs


def first_line(*command):
    try:
        return subprocess.run(command, stdout=subprocess.PIPE, stderr=subprocess.STDOUT).stdout.decode().splitlines()[0]
    except (OSError, IndexError):
        return "not installed"


def machine_rows():
    model = re.search(r"model name\s*: (.*)", Path("/proc/cpuinfo").read_text())
    yield "| what | which |\n|---|---|"
    yield f"| processor | {model[1] if model else 'unknown'}, {first_line('uname', '-sm')} |"
    yield f"| the library | {first_line('rt', 'version')} |"
    for name, command in (("C", "cc"), ("the Rust", "rustc"), ("instructions", "valgrind"), ("objcopy", "objcopy"), ("srec_cat", "srec_cat")):
        yield f"| {name} | {first_line(command, '--version')} |"


def write_into(document, name, rows):
    """The table behind `<!-- NAME -->` gives way to these rows."""
    text = Path(document).read_text()
    place = re.compile(rf"(<!-- {name} -->\n)(\|.*\n)*")
    if not place.search(text):
        raise SystemExit(f"{document}: no place for the table {name}")
    Path(document).write_text(place.sub(lambda found: found[1] + "".join(row + "\n" for row in rows), text))


def main():
    parser = manners.parser(__doc__)
    parser.add_argument("--ours", type=Path, default=manners.ROOT / "build" / "bindings")
    parser.add_argument("--rust", type=Path, default=manners.ROOT / "build" / "fast")
    parser.add_argument("--rehex")
    parser.add_argument("--only", nargs="+", metavar="TABLE")
    parser.add_argument("--turns", type=manners.some, default=5)
    parser.add_argument("--write")
    asked = parser.parse_args()
    for name in set(asked.only or ()) - set(TABLES):
        parser.error(f"there is no table {name}: {', '.join(TABLES)}")
    wanted()
    sides = Sides(asked.ours, asked.rust)
    tables = {"machine": machine_rows, "layouts": lambda: layout_rows(sides, asked.turns), "where": lambda: where_rows(asked.ours, asked.rust),
              "series": lambda: series_rows(sides), "calls": lambda: call_rows(asked.ours, asked.rust, asked.turns),
              "portable": lambda: portable_rows(asked.ours),
              "programs": lambda: program_rows(asked.rehex or compiled(), asked.turns),
              "stack": lambda: stack_rows(asked.ours), "orders": lambda: order_rows(asked.ours)}
    for name in asked.only or tables:
        rows = []
        print(f"\n<!-- {name} -->")
        for row in tables[name]():
            rows.append(row)
            print(row, flush=True)
        if asked.write:
            write_into(asked.write, name, rows)


def told():
    try:
        main()
    except Differ as differ:
        sys.exit(f"benchmark.py: {differ}")


if __name__ == "__main__":
    manners.run(told)
