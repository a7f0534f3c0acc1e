#!/usr/bin/env python3
"""Holds the picture of a read-back against what it is a picture of: oracle/pictures.py [DUMPS [SEED]], 40 and 1 if not given

Dumps of the examples are damaged (command/test_verify.py); `verify --svg` draws them, and `verify --json` says what is wrong. Every word that is not as it
should be is in the picture once, with its values where they are printed, to scale beneath the addresses of its own line; nothing else is marked; the status and
the first line are those of the text. Status 1 where something is not so."""

import json
import random
import re
import sys
from pathlib import Path
from xml.etree import ElementTree

sys.path.insert(0, str(Path(__file__).resolve().parent.parent / "command"))

import manners
import test_verify
from test_verify import Model, Wrong, damaged, held, hex_records, run

SVG = "{http://www.w3.org/2000/svg}"
WORD = re.compile(r"node (\d+)(?:,[^)]*\)| \([^)]*\)), word (-?\w+)(?:\+(\d+))?: (\w+|not given), should be (\w+) \(")


def title_of(box):
    title = box.find(SVG + "title")
    return None if title is None else title.text


def ticks(texts, below):
    """The addresses beneath a bar, each with its place."""
    found = [(float(text.get("x")), int(text.text, 0)) for text in texts if abs(float(text.get("y")) - below) < .01 and text.get("class") == "m"]
    return found if len(found) > 1 else []


def hold_place(box, words, texts, units):
    """A word's box is as far along its line, and as long, as its address and its bits are."""
    found = WORD.search(title_of(box))
    node, word, past = int(found[1]), int(found[2], 0), int(found[3] or 0)
    scale = ticks(texts, float(box.get("y")) + 67)
    if not scale or (node, word, past) not in words:
        return
    (left, first), (right, last) = scale[0], scale[-1]
    one = (right - left) / (last - first)
    unit = units[node]
    held(title_of(box), abs(float(box.get("x")) - (left + (word - first + past / unit) * one)) < .03, True)
    held(title_of(box), abs(float(box.get("width")) - max(2, one * words[node, word, past] / unit)) < .03, True)


def hold(rng, folder, file):
    whole, load = rng.random() < .5, rng.choice((0, 0x8000, 0xfff0))
    model = Model(file, whole, load)
    if not model.image or model.ragged:
        return 0
    (folder / "a <dump> & more.hex").write_text(hex_records(damaged(rng, model), rng))
    words = (file, folder / "a <dump> & more.hex", "--load", load, *(("--whole",) if whole else ()))
    status, text, _ = run("verify", *words)
    said = json.loads(run("verify", *words, "--json")[1])
    again, drawn, _ = run("verify", "--svg", *words)
    held(words, again, status)
    picture = ElementTree.fromstring(drawn)
    held(words, picture.find(SVG + "title").text, text.splitlines()[0])
    boxes = [box for box in picture.iter(SVG + "rect") if box.get("class") in ("new", "gone") and title_of(box)]
    texts = list(picture.iter(SVG + "text"))
    items = {node["node"]: node for node in model.items}
    unit_of = {node: model.banks[item["bank"]]["unit"] for node, item in items.items()}
    wrong = {}
    for word in said["words"]:
        item, unit = items[word["node"]], unit_of[word["node"]]
        at = (word["word"] - model.banks[item["bank"]]["start"]) * unit + word["past"]
        wrong[word["node"], word["word"], word["past"]] = min(unit - word["past"], item["position"] + item["size"] - at)
    seen = [WORD.search(title_of(box)) for box in boxes]
    if all(unit_of[node] >= 8 for node in unit_of) and len(wrong) < 500:
        named = sorted((int(one[1]), int(one[2], 0), int(one[3] or 0), one[4], one[5]) for one in seen if one)
        listed = sorted((word["node"], word["word"], word["past"], word["found"] or "not given", word["wanted"]) for word in said["words"])
        held(words, sorted(set(named)), listed)
        for box, one in zip(boxes, seen):
            if one:
                hold_place(box, wrong, texts, unit_of)
    held(words, bool(boxes), status == 1)
    held(words, [one.get("class") == "gone" for one in boxes], ["not given" in title_of(one) for one in boxes])
    return len(boxes)


def main():
    parser = manners.parser(__doc__)
    parser.add_argument("dumps", nargs="?", type=manners.some, default=40, metavar="DUMPS")
    parser.add_argument("seed", nargs="?", type=manners.count, default=1, metavar="SEED")
    asked = parser.parse_args()
    rng = random.Random(f"pictures {asked.seed}")
    files = [file for file in sorted(test_verify.EXAMPLES.glob("*.form")) if run("layout", file)[0] == 0]
    try:
        with manners.room() as folder:
            found = [hold(rng, folder, rng.choice((*files, *4 * [test_verify.EXAMPLES / "sequencer.form"]))) for _ in range(asked.dumps)]
        held("dumps with something wrong", sum(map(bool, found)) > asked.dumps // 5, True)
    except (Wrong, ElementTree.ParseError) as wrong:
        print(f"verify --svg: {wrong}")
        sys.exit(1)
    print(f"verify --svg: {asked.dumps} dumps, {sum(found)} boxes, each as verify says it and to scale")


if __name__ == "__main__":
    manners.run(main)
