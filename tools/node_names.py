#!/usr/bin/env python3
"""The names file beside a layout file (docs/FORMAT.md), for tools/compare and tools/form; tools/awk/names.awk reads it for the others.

Other scripts read it, nobody runs it."""

import sys
from pathlib import Path

sys.path.insert(0, str(Path(__file__).resolve().parent.parent / "oracle"))

import manners  # noqa: E402

# the kinds by number, as people read them, for every script in Python; tools/awk/file.awk and command/layout.c say the same
KINDS = ("nothing", "bank switch", "label", "constant", "instruction", "data", "data of open size", "reserve", "align", "addr", "assert")
# as the Rust crate says it (bindings/rust/src/names.rs)
BAD_LINE = "is not a number, a name and a place with tabs between"


def cksum(data):
    """The sum and the length of a file, as POSIX cksum prints them."""
    crc, length = 0, len(data)
    for byte in data + length.to_bytes((length.bit_length() + 7) // 8, "little"):
        crc = (crc << 8) & 0xffffffff ^ TABLE[crc >> 24 ^ byte]
    return f"{crc ^ 0xffffffff} {length}"


def shifted(byte):
    """A byte's entry of the table: the remainder of eight steps."""
    crc = byte << 24
    for _ in range(8):
        crc = crc << 1 ^ (0x104c11db7 if crc >> 31 else 0)
    return crc


TABLE = [shifted(byte) for byte in range(256)]


def first_line(data):
    """The line that says of which layout file names are; a tool that writes names writes it ahead of them."""
    return "form\t" + cksum(data).replace(" ", "\t") + "\n"


def is_plain(text):
    return not any(ord(one) < 32 or 127 <= ord(one) < 160 for one in text)


def parsed(text):
    """The names, and the sum of the layout file that they are of where the first line has it."""
    names, above, belongs = {}, -1, None
    lines = text.split("\n")
    for line, words in enumerate(lines[:-1] if lines[-1] == "" else lines, 1):
        parts = words.removesuffix("\r").split("\t")
        if line == 1 and parts[0] == "form" and len(parts) == 3 and all(part.isascii() and part.isdigit() for part in parts[1:]):
            belongs = " ".join(parts[1:])
            continue
        if len(parts) != 3 or not (parts[0].isascii() and parts[0].isdigit()) or not all(map(is_plain, parts[1:])):
            raise ValueError(f"line {line} {BAD_LINE}")
        if int(parts[0]) <= above:
            raise ValueError(f"the node in line {line} is not above that of the line before")
        above = int(parts[0])
        names[above] = (parts[1], parts[2])
    return names, belongs


def beside_of(path):
    """NAME.names beside NAME.form, where that is there."""
    beside = path[:-len(".form")] + ".names" if path.endswith(".form") else ""
    return beside if beside and Path(beside).is_file() else None


def read(path, given, data=None):
    """The name and the place of each node that has them, from the file that was given or from NAME.names beside NAME.form; one that only lies there is passed
    over where it is no names file, or is of another layout file. `data` is what the layout file holds, which is read where it is not given."""
    beside = None if given else beside_of(path)
    if not given and not beside:
        return {}
    try:
        names, belongs = parsed(Path(given or beside).read_bytes().decode("utf-8"))
        has = None if belongs is None else cksum(Path(path).read_bytes() if data is None else data)
        if belongs == has:
            return names
        of = "standard input" if path == "-" else path
        return stale(of, given, beside, f"cksum {belongs}, and {of} has {has}")
    except UnicodeDecodeError:
        wrong = "it is not UTF-8"
    except OSError as error:
        wrong = error.strerror
    except ValueError as error:
        wrong = str(error)
    if given:
        raise manners.Stop(f"{given} is no names file: {wrong}")
    print(f"{manners.called()}: the names of {beside} are left out: {wrong}", file=sys.stderr)
    return {}


def stale(path, given, beside, sums):
    """Names of another layout file: an end where they were given, else they are left out, and told."""
    if given:
        raise manners.Stop(f"{given} does not belong to {path}: {sums}")
    print(f"{manners.called()}: the names of {beside} are left out: they belong to another layout file ({sums})", file=sys.stderr)
    return {}


def called(name):
    """A name and its place as they are said; empty where there is none."""
    return ", ".join(word for word in name if word)


if __name__ == "__main__":
    manners.part(__doc__)
