"""The names file: what nodes are called and where they stand in the source (docs/FORMAT.md)."""
from __future__ import annotations

import re
from pathlib import Path
from typing import List, Optional, Tuple

from ._types import Names

_SUM = re.compile(r"form\t([0-9]+)\t([0-9]+)\r?\Z")
_LINE = re.compile("([0-9]+)\t([^\x00-\x1f\x7f-\x9f]*)\t([^\x00-\x1f\x7f-\x9f]*)\r?\\Z")
_CONTROL = re.compile("[\x00-\x1f\x7f-\x9f\ud800-\udfff]")


class BadNames(ValueError):
    """Names that are none, or that belong to another layout file."""


def _steps() -> List[int]:
    table = []
    for value in range(256):
        value <<= 24
        for _ in range(8):
            value = (value << 1 ^ (0x04C11DB7 if value >> 31 else 0)) & 0xFFFFFFFF
        table.append(value)
    return table


_STEPS = _steps()


def cksum(file: bytes) -> int:
    """The sum of a file as POSIX cksum prints it.

    >>> cksum(b"123456789")
    930766865
    """
    total, length = 0, len(file)
    for byte in bytes(file) + length.to_bytes((length.bit_length() + 7) // 8, "little"):
        total = total << 8 & 0xFFFFFFFF ^ _STEPS[total >> 24 ^ byte]
    return total ^ 0xFFFFFFFF


def checked(node: int, name: str, place: str) -> Tuple[str, str]:
    """A name and a place that a names file can hold."""
    if not isinstance(name, str) or not isinstance(place, str):
        raise TypeError(f"the name and the place of node {node} have to be str")
    if _CONTROL.search(name + place):
        raise BadNames(f"the name or place of node {node} has a tab, a line end or a control character in it")
    return name, place


def called(names: Names, node: int) -> str:
    """What a node is called, with its place in the source, else its number."""
    return ", ".join(word for word in names.get(node, ("", "")) if word) or f"node {node}"


def read_names(text: str, file: Optional[bytes] = None) -> Names:
    """The names of a names file. BadNames where it is none, or where its first line names another layout file than `file`.

    >>> read_names("3\\ttable\\tmain.asm:12\\n")
    {3: ('table', 'main.asm:12')}
    """
    names, above = {}, -1
    if text[:1] == "\ufeff":
        raise BadNames("it begins with a byte order mark (EF BB BF)")
    lines = text.split("\n")
    for i, line in enumerate(lines[:-1] if lines[-1] == "" else lines):
        head = _SUM.match(line) if i == 0 else None
        if head:
            if file is not None and (int(head.group(1)), int(head.group(2))) != (cksum(file), len(file)):
                raise BadNames(f"they belong to another layout file (cksum {head.group(1)} {head.group(2)}, and this one has {cksum(file)} {len(file)})")
            continue
        found = _LINE.match(line)
        if not found:
            raise BadNames(f"line {i + 1} is not a number, a name and a place with tabs between")
        node = int(found.group(1)) if len(found.group(1)) < 10 else 999999999
        if node <= above:
            raise BadNames(f"the node in line {i + 1} is not above that of the line before")
        above = node
        if found.group(2) or found.group(3):
            names[node] = (found.group(2), found.group(3))
    return names


def names_file(path: Path, file: bytes) -> Names:
    """The names of a file that belongs to a layout file."""
    try:
        text = path.read_bytes().decode("utf-8")
    except UnicodeDecodeError:
        raise BadNames("it is not UTF-8") from None
    return read_names(text, file)


def write_names(names: Names, file: bytes) -> str:
    """The names file that belongs to a layout file."""
    return f"form\t{cksum(file)}\t{len(file)}\n" + "".join(f"{node}\t{name}\t{place}\n" for node, (name, place) in sorted(names.items()))
