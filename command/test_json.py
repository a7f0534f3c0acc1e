#!/usr/bin/env python3
"""Holds what --json prints against the text, number by number: command/test_json.py [COMMAND]

COMMAND is the command denkumari, tools/denkumari unless said. Every example and files that are damaged from a seed, refused ones among them, are laid
out, mapped, compared and put on the bench both ways; the object is read by Python's json. Status 1 where something is not the text's."""

import json
import random
import re
import subprocess
import sys
from pathlib import Path

sys.path.insert(0, str(Path(__file__).resolve().parent.parent / "oracle"))

import manners  # noqa: E402

EXAMPLES = manners.ROOT / "examples"
WORDS = 160
COMMAND = [manners.ROOT / "tools" / "denkumari"]


class Wrong(Exception):
    """What is not as the text has it."""


def run(*words):
    done = subprocess.run([*COMMAND, *map(str, words)], capture_output=True, check=False)
    return done.returncode, done.stdout.decode(), done.stderr.decode()


def both(*words):
    """The text and the object of one call, whose statuses and words are the same."""
    status, text, said = run(*words)
    again, printed, too = run(*words, "--json")
    held(words, (again, too), (status, said))
    if status == 2 and not printed:
        return status, text, None, said
    held(words, (printed[-2:], printed.count("\n")), ("}\n", 1))
    return status, text, json.loads(printed), said.partition(": ")[2].rstrip("\n")


def refusal(line):
    numbers = list(map(int, line.split()[1:]))
    return numbers[0], numbers[1:]


def held(words, found, wanted):
    if found != wanted:
        raise Wrong(f"{' '.join(map(str, words))}: {repr(found)[:WORDS]} for {repr(wanted)[:WORDS]}")


def held_refusal(words, found, line, said):
    number, place = refusal(line)
    held(words, (found["number"], found["place"], found["words"]), (number, place, said))


def hold_layout(file, *options):
    words = ("layout", file, *options)
    status, text, found, said = both(*words)
    lines = text.splitlines()
    held(words, found["file"], str(file))
    if status == 1:
        held_refusal(words, found["refused"], lines[-1], said)
        return status
    blocks = [dict(zip(("start", "size"), map(int, line.split()[1:]))) for line in lines if line.startswith("block ")]
    image = lines[-1][len("image "):]
    held(words, found, {"file": str(file), "passes": int(lines[0].split()[1]), "blocks": blocks, "image": image, "refused": None})
    return status


def place(word):
    return None if word == "-" else int(word)


def cells(text, head):
    """The rows of the table whose first row begins so."""
    part = text.split("\n\n")
    table = next((t for t in part if t.split("\n")[0].split()[:1] == [head]), "")
    return [re.split("  +", line.strip()) for line in table.splitlines()[1:]]


def hold_map_banks(words, found, lines, text):
    for bank, line, row in zip(found["banks"], lines, cells(text, "bank")):
        number, unit, start, size, offset, align, _, _, padding, units = line.split()[1:]
        wanted = {"bank": int(number), "unit": int(unit), "start": int(start), "size": place(size), "offset": place(offset), "align": place(align),
                  "padding": int(padding), "padding_units": int(units)}
        held(words, {key: bank[key] for key in wanted}, wanted)
        held(words, [bank["used"], bank["free"], bank["fill"]], [int(row[7]), place(row[10]), None if row[11] == "-" else row[11]])
        held(words, len(bank), 11)


def hold_map_nodes(words, found, lines, text):
    rows = cells(text, "node")
    held(words, [n["node"] for n in found["nodes"]], [int(row[0]) for row in rows])
    said = {int(line.split()[1]): line.split()[2:] for line in lines}
    for node, row in zip(found["nodes"], rows):
        _, bank, position, address, output, _ = said[node["node"]]
        held(words, [node[key] for key in ("bank", "position", "address", "output")], [int(bank), int(position), int(address), place(output)])
        held(words, (node["kind"], node["size"]), (row[1], place(row[8])))
        note = row[9] if len(row) > 9 else ""
        padding = re.search(r"after padding of (\d+)", note)
        held(words, node["padding_before"], int(padding[1]) if padding else 0)
        if note.startswith("to bit "):
            held(words, node["to"], int(note.split()[2]))


def hold_map(file, *options):
    words = ("map", file, *options)
    status, text, found, said = both(*words)
    if status == 1:
        held_refusal(words, found["refused"], run("layout", file, *options)[1].splitlines()[-1], said)
    if not text:
        held(words, sorted(found), ["file", "refused"])
        return
    lines = run("map", file, "--lines", *options)[1].splitlines()
    head = text.splitlines()[0]
    form, banks, nodes, rows, limit, passes = re.search(
        r": form (\d), (\d+) banks?, (\d+) nodes?, (\d+) rows?, pass limit (\d+), (\d+) pass", head).groups()
    held(words, [found[key] for key in ("form", "node_count", "rows", "pass_limit", "passes_run")], list(map(int, (form, nodes, rows, limit, passes))))
    held(words, len(found["banks"]), min(int(banks), 16))
    hold_map_banks(words, found, [line for line in lines if line.startswith("bank ")], text)
    hold_map_nodes(words, found, [line for line in lines if line.startswith("node ")], text)
    blocks = [[b["start"], b["size"]] for b in found["blocks"]]
    held(words, blocks, [[int(row[1].split("..")[0]), int(row[3])] for row in cells(text, "block")])
    bits = re.search(r"^image of (\d+) bit", text, re.M)
    held(words, found["image_bits"], int(bits[1]) if bits else None)
    told = re.search(r"`passes (\d+)`", head)
    if told:
        held(words, found["passes"], int(told[1]))
    held(words, found["fill"], "full" if "full fill" in head else "inherited")


KEYS = {"same": "the same", "moved": "moved", "grown": "grown", "shrunk": "shrunk", "other_contents": "other contents", "other_kind": "other kind",
        "new": "new", "gone": "gone"}


def hold_compare_image(words, found, text):
    sizes = re.search(r"^image (\d+) bytes?(?: -> (\d+) bytes?)?$", text, re.M)
    image = found["image"]
    if not sizes:
        held(words, (image["runs"], image["differ"], image["old_bytes"]), ([], 0, image["new_bytes"]))
        return
    held(words, [image["old_bytes"], image["new_bytes"]], [int(sizes[1]), int(sizes[2] or sizes[1])])
    runs = re.search(r"^  (\d+) bytes? differs?: (.*)$", text, re.M)
    held(words, image["differ"], int(runs[1]) if runs else 0)
    spans = [[r["first"], r["last"]] for r in image["runs"]]
    held(words, spans, [[int(s.split("..")[0]), int(s.split("..")[-1])] for s in runs[2].split(", ")] if runs else [])
    for one in image["runs"]:
        count = 2 * (one["last"] - one["first"] + 1)
        held(words, [len(one["old"]), len(one["new"])], [count, count])
    held(words, bool(runs) and "1 byte differs:" in runs[0], bool(runs) and runs[1] == "1")


def hold_compare_nodes(words, found, lines):
    for node, line in zip(found["nodes"], lines):
        changes, _, rest = line.partition(": ")
        held(words, sorted(node["changes"]), sorted(changes.split(", ")))
        new = node["new"] or node["old"]
        held(words, new["kind"] in rest and new["node"], int(re.search(r"node (\d+)", rest)[1]))
        moved = re.search(r"address (-?\d+)(?: = 0x[0-9a-f]+)? -> (-?\d+)", rest)
        if moved:
            held(words, [node["old"]["address"], node["new"]["address"]], [int(moved[1]), int(moved[2])])
        size = re.search(r"(\d+) -> (\d+) bits", rest)
        if size:
            held(words, [node["old"]["size"], node["new"]["size"]], [int(size[1]), int(size[2])])


def hold_compare(old, new, *options):
    words = ("compare", old, new, *options)
    status, text, found, said = both(*words)
    if status == 2:
        held(words, said.endswith(found["refused"]["words"]), True)
        return
    head = text.splitlines()[0].rpartition(": ")[2]
    wanted = {said: int(n) for n, said in re.findall(r"(\d+) ([a-z ]+)", head)}
    held(words, {KEYS[key]: n for key, n in found["counts"].items() if n}, wanted)
    told = "(?:" + "|".join(KEYS.values()) + ")"
    lines = [line for line in text.splitlines()[1:] if re.match(rf"{told}(?:, {told})*: ", line)]
    held(words, len(found["nodes"]), len(lines))
    hold_compare_nodes(words, found, lines)
    shown = [line for line in text.splitlines() if re.match("  word ", line)]
    held(words, [f"{w['old']} -> {w['new']}" for n in found["nodes"] for w in n.get("words", [])[:16]], [line.split(": ")[1] for line in shown])
    addresses = [re.match(r"  word (-?\w+)(?:\+(\d+))?:", line).groups() for line in shown]
    held(words, [[w["address"], w["past"]] for n in found["nodes"] for w in n.get("words", [])[:16]], [[int(a, 0), int(p or 0)] for a, p in addresses])
    held(words, [b["bank"] for b in found["banks"]], [int(n) for n in re.findall(r"^bank (\d+)(?:: | is )", text, re.M)])
    for kind, key in (("gone", "gone"), ("new ", "added")):
        spans = [[int(a), int(b)] for a, b in re.findall(rf"^  {kind} bits (\d+)\.\.(\d+)$", text, re.M)]
        held(words, [[b["start"], b["start"] + b["size"] - 1] for b in found["blocks"][key]], spans)
    hold_compare_image(words, found, text)
    held(words, status, 1 if found["nodes"] or len(text.splitlines()) > 1 and "are the same" not in text else 0)


def hold_bench(released, overlay, *options):
    words = ("bench", released, overlay, *options)
    status, text, found, said = both(*words)
    held(words, [found["released"], found["overlay"]], [str(released), str(overlay)])
    if status == 1:
        held(words, f"refused with {found['refused']['number']}: {found['refused']['words']}", said)
        return
    if "range" in found:
        held(words, f"{found['range']['from']} {found['range']['bytes']}\n", text)
        return
    lines = [f"run {r['address']} 0x{r['address']:08x} {r['count']} {r['released']} {r['overlay']}" for r in found["runs"]]
    lines += [f"alone {found['alone']} 0x{found['alone']:08x}"] if found["alone"] is not None else []
    held(words, sorted(lines), sorted(text.splitlines()))
    held(words, run(*words, "--check")[0], 1 if lines else 0)


def damaged(rng, data):
    data = bytearray(data)
    for _ in range(rng.choice((1, 1, 2))):
        data[rng.randrange(len(data))] = rng.choice((0, 1, 2, 255, rng.randrange(256)))
    return bytes(data)


def records(base, data):
    def line(address, part):
        body = bytes((len(part), address >> 8, address & 255, 0)) + part
        return ":" + (body + bytes((-sum(body) & 255,))).hex().upper()
    return "\n".join([line(base + i, data[i:i + 16]) for i in range(0, len(data), 16)] + [":00000001FF", ""])


def hold_benches(rng, folder):
    data = bytes(rng.randrange(256) for _ in range(200))
    for i in range(20):
        over = bytearray(data[40:140])
        for _ in range(rng.randrange(6)):
            over[rng.randrange(len(over))] ^= rng.randrange(256)
        (folder / "r.hex").write_text(records(0x100, data[:rng.choice((100, 200))]))
        (folder / "o.hex").write_text(records(0x128, bytes(over)) if i % 7 else "nothing\n")
        hold_bench(folder / "r.hex", folder / "o.hex")
        hold_bench(folder / "r.hex", folder / "o.hex", "--range", rng.randrange(0x100, 0x140), rng.randrange(20))


def hold_files(rng, files, examples, folder):
    """How many layouts were accepted, and how many refused."""
    seen = {0: 0, 1: 0}
    for file in files:
        options = rng.choice(((), (), ("--fill", "full"), ("--page", "128")))
        seen[hold_layout(file, *options)] += 1
        hold_map(file, *options)
    for i in range(200):
        hold_compare(rng.choice((rng.choice(files), *examples)), rng.choice(files))
    for file in examples:
        (folder / "changed.form").write_bytes(damaged(rng, file.read_bytes()[:-1]) + file.read_bytes()[-1:])
        hold_compare(file, folder / "changed.form")
    return seen


def hold_all():
    rng = random.Random(45)
    examples = sorted(EXAMPLES.glob("*.form"))
    with manners.room() as folder:
        odd = folder / 'a "b\\c\td\n.form'
        odd.write_bytes((EXAMPLES / "banks.form").read_bytes())
        held(("layout", "an odd name"), json.loads(run("layout", odd, "--json")[1])["file"], str(odd).replace("\t", "\\x09").replace("\n", "\\x0a"))
        files = list(examples)
        for i in range(150):
            files.append(folder / f"{i}.form")
            files[-1].write_bytes(damaged(rng, rng.choice(examples).read_bytes()))
        seen = hold_files(rng, files, examples, folder)
        hold_benches(rng, folder)
    held(("layouts",), min(seen.values()) > 20, True)
    return f"{sum(seen.values())} layouts and maps, {seen[1]} of them refused, comparisons and benches: the text's numbers"


def main():
    parser = manners.parser(__doc__)
    parser.add_argument("command", nargs="?", metavar="COMMAND")
    asked = parser.parse_args()
    if asked.command:
        COMMAND[:] = [asked.command]
    try:
        print(f"JSON: {hold_all()}")
    except Wrong as wrong:
        print(f"JSON: {wrong}")
        sys.exit(1)


if __name__ == "__main__":
    manners.run(main)
