#!/usr/bin/env python3
"""Brings this repository's own definitions and lemmas to the spelling of words of today's Rattle: snake case for all but types, facts and modules.

    tools/port_names.py [--map] FOLDER

It was run once, on what the kit's port.py had made of the repository (docs/PORT.md). A name with a capital inside, as `bankFault`, becomes
`bank_fault`. Where a lemma has that name already, the lemma gets `_lem` behind it, as the kit's own do. Names of Rust's own (functions, parameters,
fields, types) have no such capitals and stay. --map prints each name with its new one and writes nothing. A second run finds nothing to do.
"""
import os
import re
import sys
sys.dont_write_bytecode = True
sys.path.insert(0, os.path.dirname(os.path.realpath(__file__)))
from antt import run  # noqa: E402

TOKEN = re.compile(r"(?<![\w'\-₀-₉])[^\W\d][\w'\-₀-₉]*")
CAPITAL = re.compile(r"^[a-z][\w']*?[a-z0-9₀-₉'][A-Z]")
BYTE = re.compile(r"^b'.'")
# a fact is spelled as a type
FACTS = {"toldBy": "ToldBy"}


def texts(root, endings):
    for folder, folders, names in os.walk(os.path.join(root, "crates")):
        folders[:] = sorted(it for it in folders if it != "out")
        for name in sorted(names):
            if name.endswith(endings):
                yield os.path.join(folder, name)


def read(path):
    with open(path, encoding="utf-8", newline="") as file:
        return file.read()


def code(text):
    return re.sub(r"(--|//).*", "", text)


def has_capital(name):
    return not BYTE.match(name) and any(CAPITAL.search(it) for it in re.split(r"[-_]", name))


def in_snake_case(name):
    if name in FACTS:
        return FACTS[name]

    def one(part):
        part = part.group(0)
        if not CAPITAL.search(part):
            return part
        part = re.sub(r"(?<=[a-z0-9₀-₉'])(?=[A-Z])", "_", part)
        return re.sub(r"(?<=[A-Z])(?=[A-Z][a-z])", "_", part).lower()

    return re.sub(r"[^-_]+", one, name)


def module_of(root, path):
    crate, folder, *rest = os.path.relpath(path, os.path.join(root, "crates"))[: -len(".antt")].split(os.sep)
    return ".".join(["Rattle", crate, folder, *rest])


def renamed(root):
    """The names with capitals, each with its new one; and by file the lemmas that would have the new name of another there."""
    names, declared, used = set(), {}, {}
    for path in texts(root, (".antt", ".rt")):
        text = code(read(path))
        names |= {it for it in TOKEN.findall(text) if has_capital(it)}
        if path.endswith(".antt"):
            declared[path] = set(re.findall(r"(?m)^ *(?:abbrev |unfoldable |pub )*([^\W\d][\w'\-]*)(?: \{[^}]*\})* :(?!:)", text))
            used[path] = set(TOKEN.findall(text))
    new = {it: in_snake_case(it) for it in sorted(names)}
    for it in new:
        others = [other for other in new if new[other] == new[it]]
        if len(others) > 1:
            sys.exit(f"{others} fall together in {new[it]}")
    lemmas = {}
    for it in new:
        homes = [path for path in declared if new[it] in declared[path]]
        for home in homes:
            line = re.compile(r"(?m)^ *use " + re.escape(module_of(root, home)) + r"\.\{(?:[^}]*, )?" + re.escape(new[it]) + r"[,} ]")
            files = [home] + [path for path in used if path != home and line.search(read(path))]
            if any(it in used[path] for path in files):
                for path in files:
                    lemmas.setdefault(path, {})[new[it]] = new[it] + "_lem"
    return new, lemmas


def turned(text, new, lemmas):
    def one(found):
        name = found.group(0)
        if name in new:
            return new[name]
        before = text[: found.start()]
        if name in lemmas and not before.endswith((".", "«")):
            return lemmas[name]
        return name

    return TOKEN.sub(one, text)


def main(words):
    if "--help" in words:
        print(__doc__)
        return 0
    if len(words) not in (1, 2) or words[:-1] not in ([], ["--map"]) or words[-1].startswith("-") or not os.path.isdir(os.path.join(words[-1], "crates")):
        print("tools/port_names.py: --help says how to call it", file=sys.stderr)
        return 2
    root = words[-1]
    new, lemmas = renamed(root)
    if len(words) == 2:
        print("\n".join(f"{a} {b}" for a, b in new.items()))
        print("\n".join(f"{a} {b} in {os.path.relpath(path, root)}" for path in lemmas for a, b in lemmas[path].items()))
        return 0
    for path in texts(root, (".antt", ".rt", ".edit")):
        old = read(path)
        text = turned(old, new, lemmas.get(path, {}))
        if text != old:
            with open(path, "w", encoding="utf-8", newline="") as file:
                file.write(text)
    return 0


if __name__ == "__main__":
    run(main, "tools/port_names.py")
