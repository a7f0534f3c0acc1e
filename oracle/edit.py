#!/usr/bin/env python3
"""Applies a changed line to a copy of the Rust: edit.py EDIT FOLDER.

EDIT has the lines `file:`, `old:` and `new:`; the old text must stand in the file exactly once, or exactly as often as a line
`times:` says."""

from pathlib import Path

import manners


def read(edit):
    lines = [line for line in Path(edit).read_text().splitlines() if line and not line.startswith("#")]
    said = dict(line.split(": ", 1) for line in lines if ": " in line)
    if not {"file", "old", "new"} <= set(said):
        raise manners.Stop(f"{edit} has not the lines file:, old: and new:")
    return said


def apply(edit, folder):
    said = read(edit)
    path = Path(folder) / said["file"]
    text = path.read_text()
    found = text.count(said["old"])
    if found != int(said.get("times", 1)):
        raise SystemExit(f"{edit}: the old text stands {found} times in {said['file']}")
    path.write_text(text.replace(said["old"], said["new"]))


def main():
    parser = manners.parser(__doc__)
    parser.add_argument("edit", metavar="EDIT")
    parser.add_argument("folder", metavar="FOLDER")
    asked = parser.parse_args()
    apply(asked.edit, asked.folder)


if __name__ == "__main__":
    manners.run(main)
