"""Which functions a layout's instructions are spent in, of ours and of the Rust's own, as callgrind tells them apart."""

import os
import re
import subprocess
from pathlib import Path

from benchmark_calls import RUST
from benchmark_count import LOOPS, manners
from benchmark_layouts import LAYOUTS
from form1 import encode
from generate import batched

SHOWN = ("wide", "deep", "large", "offers", "mixed A", "mixed B")
MOST = 5


def own(command, given, within):
    """By function: the instructions that are its own, most first."""
    with manners.room() as room:
        out = Path(room) / "out"
        valgrind = ["valgrind", "--tool=callgrind", f"--callgrind-out-file={out}"] + [f"--toggle-collect={name}" for name in within]
        subprocess.run(valgrind + command, input=given, stdout=subprocess.DEVNULL, stderr=subprocess.DEVNULL, check=True, env={**os.environ, **LOOPS})
        said = subprocess.run(["callgrind_annotate", "--threshold=100", "--auto=no", out], stdout=subprocess.PIPE, check=True).stdout.decode()
    found = {}
    for cost, name in re.findall(r"^\s*([\d,]+) \(\s*[\d.]+%\)\s+\S*?:([^\[\n]+?)(?: \[.*\])?$", said, re.M):
        found[name] = found.get(name, 0) + int(cost.replace(",", ""))
    return dict(sorted(found.items(), key=lambda pair: -pair[1]))


def cell(costs, i):
    """The function in this place, with its share."""
    if i >= len(costs):
        return " | "
    name, cost = list(costs.items())[i]
    name = re.sub(r"^__(mem\w+?)_avx\w*", r"\1", name).replace("customasm::", "")
    plain = re.fullmatch(r"[\w:]+", name)
    short = "::".join(name.split("::")[-2:]) if plain and len(name) > 40 else name[:60]
    return f"`{short}` | {100 * cost / sum(costs.values()):.0f} %"


def where_rows(ours, rust):
    yield "| layout | in dk_build | of it | in the Rust's own functions | of it |\n|---|---|---|---|---|"
    with manners.room() as room:
        for name in SHOWN:
            file = encode(LAYOUTS[name][1]())
            path = Path(room) / "layout"
            path.write_bytes(file)
            here = own([str(ours / "calls_time"), "dk_build", "1", str(path)], b"", ["dk_build"])
            there = own([str(rust / "judge"), "--raw"], batched([file]), RUST)
            for i in range(MOST):
                yield f"| {name} | {cell(here, i)} | {cell(there, i)} |"
            integer = sum(cost for function, cost in there.items() if "util::bigint::" in function)
            yield f"| {name} | | | all of `util::bigint`, a stand-in | {100 * integer / sum(there.values()):.0f} % |"


if __name__ == "__main__":
    manners.part(__doc__)
