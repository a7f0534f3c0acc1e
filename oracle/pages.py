#!/usr/bin/env python3
"""Damaged pages, one damage at a time: does the check of the pages (tools/page, tools/quotes) see each?

    oracle/pages.py

A damage is made to what is read, not to a file: a name, a path, a figure, a quote or a list that is no longer what the sources have. Ends with 1 where the
pages as they stand have a fault, where a damage is not seen, or where its text does not stand in its file."""

import contextlib
import io
import sys
from importlib.machinery import SourceFileLoader
from importlib.util import module_from_spec, spec_from_loader

import manners

TOOLS = manners.ROOT / "tools"
sys.path.insert(0, str(TOOLS))

# a file, the text in it, what stands in its place
DAMAGES = [
    ("docs/PROVING.md", "`first_passes`", "`first_passed`"),
    ("docs/PROVING.md", "`sort/Sorted`", "`sort/Sorting`"),
    ("docs/DECISIONS.md", "`resolver/RaisedLimit.edge-moves`", "`resolver/RaisedLimit.edge-move`"),
    ("docs/DECISIONS.md", "| `overlap_checker::hit_before` |", "| the hit before |"),
    ("docs/DECISIONS.md", "| `prog_args::put_refusal` |", "| `prog_args::print` |"),
    ("docs/REQUIRES.txt", "overlap_checker offer\n", ""),
    ("docs/ARCHITECTURE.md", "`thm_worked`", "thm_worked"),
    ("docs/CHANGES.md", "`meets_records/ReadBack.hex-comes-back`", "`meets_records/ReadBack.hex-comes`"),
    ("docs/SAFETY-CASE.md", "<!-- exports -->", "<!-- exports -->1"),
    ("docs/SAFETY-CASE.md", "<!-- lines dk_form -->", "<!-- lines dk_form -->1"),
    ("docs/SAFETY-CASE.md", "pub item-own-bit : (i x m bit : ℕ)", "pub item-own-bit : (i x m : ℕ)"),
    ("docs/SAFETY-CASE.md", "`overlap_checker!one_neighbour`", "`overlap_checker!one_neighbor`"),
    ("docs/SAFETY-CASE.md", "`denkumari::dk_offer`", "`denkumari::dk_offering`"),
    ("docs/SAFETY-CASE.md", "`dk_record_fault`", "`dk_record_faults`"),
    ("README.md", "docs/USING.md", "docs/USAGE.md"),
    ("README.md", "portable/ has", "portable/missing.c has"),
    ("oracle/README.md", "oracle/orders.py", "oracle/order.py"),
    ("include/denkumari.h", "`says/Build.BuildSays`", "`says/Build.BuildSaid`"),
    ("include/denkumari.h", " * dk_hex            sentence", " * dk_hex            words"),
    ("include/denkumari.h", 'DENKUMARI_VERSION "', 'DENKUMARI_VERSION "1'),
    ("crates/iter/src/paces.rt", "// ", "// `iter/Nothing.there` "),
    ("crates/says/specs/Words.antt", "-- ", "-- crates/nothing/specs "),
]
QUOTES = [
    ("crates/says/specs/Build.antt", '"', '"these are no words of a document", "'),
    ("docs/statements/3-tickets.rows", '  says: "', '  says: "never said in any ticket", "'),
]


def loaded(name):
    loader = SourceFileLoader(f"tool_{name.split('.')[0]}", str(TOOLS / name))
    module = module_from_spec(spec_from_loader(loader.name, loader))
    loader.exec_module(module)
    return module


def page_faults(page, path=""):
    """What the check says of pages and header, and of the crates' comments where the damage is there."""
    del page.faults[:]
    if not path.startswith("crates/"):
        page.check_comments = lambda: None
    page.documents()
    page.fill(False)
    return list(page.faults)


def quote_faults(quotes, _=""):
    with contextlib.redirect_stderr(io.StringIO()) as said:
        quotes.check()
    return said.getvalue().splitlines()


def damaged(module, faults, path, old, new):
    """What the check says with `old` in a file replaced once; None where the file does not have it."""
    whole = module.read
    if old not in whole(path):
        return None
    module.read = lambda here: whole(here).replace(old, new, 1) if here == path else whole(here)
    try:
        return faults(module, path)
    finally:
        module.read = whole


def tried(tool, faults, damages):
    """Lines on what is wrong with a check: what it says of the pages as they stand, and damages that it does not see."""
    yield from (f"without any damage: {line}" for line in faults(loaded(tool)))
    for path, old, new in damages:
        seen = damaged(loaded(tool), faults, path, old, new)
        if not seen:
            yield f"{path}: {'not seen' if seen is not None else 'it has no'}: {old.strip()}"


def main():
    manners.parser(__doc__).parse_args()
    wrong = list(tried("page.py", page_faults, DAMAGES)) + list(tried("quotes", quote_faults, QUOTES))
    for line in wrong:
        print(line)
    print(f"{len(DAMAGES) + len(QUOTES)} damaged pages, {'all seen' if not wrong else f'{len(wrong)} faults'}")
    sys.exit(1 if wrong else 0)


if __name__ == "__main__":
    manners.run(main)
