#!/usr/bin/env python3
"""What can be checked with no Rust at hand, in a second: check.py

The replay list and the examples against oracle/model.py, and document 01's worked example word for word."""

import sys

import compare
import examples
import manners
import model
from form1 import decode, encode, worked_example

WORKED = "passes 1\nblock 0 10\nblock 20 10\nimage ffc002a800\n"


def faults():
    if model.printed(encode(worked_example())) != WORKED:
        yield "model.py does not print document 01's worked example"
    for number, line in enumerate((compare.HERE / "replay" / "cases.tsv").read_text().splitlines()):
        data, text, _, whole = line.split("\t")
        file = bytes.fromhex(data)
        if model.printed(file) != text.replace("\\n", "\n") or model.line(file) != whole:
            yield f"replay case {number} is not what model.py says"
    folder = compare.HERE.parent / "examples"
    readme = (folder / "README.md").read_text()
    for name, (_, layout) in examples.EXAMPLES.items():
        file = encode(layout)
        if (folder / f"{name}.form").read_bytes() != file or encode(decode(file)) != file:
            yield f"examples/{name}.form is not what examples.py writes"
        if "".join(f"    {line}\n" for line in examples.shown(model.printed(file).splitlines())) not in readme:
            yield f"examples/README.md does not have what {name}.form prints"
    for name, options, choices in examples.WITH_OPTIONS:
        file = encode(examples.EXAMPLES[name][1])
        if "".join(f"    {line}\n" for line in examples.shown(model.printed(file, choices).splitlines())) not in readme:
            yield f"examples/README.md does not have what {name}.form prints with {options}"


def main():
    manners.parser(__doc__).parse_args()
    found = list(faults())
    print("\n".join(found) or "the replay list and the examples are as model.py says")
    sys.exit(1 if found else 0)


if __name__ == "__main__":
    manners.run(main)
