#!/usr/bin/env python3
"""The picture of tools/verify: each bank on lines of equally many words, under its own addresses and those of the device, with what is not as it should be;
then bytes of the image that are in no bank, and the lines of tools/verify. Lines on which nothing is wrong are left out and said to be.

Other scripts read it, nobody runs it."""

import sys
from pathlib import Path

sys.path.insert(0, str(Path(__file__).resolve().parent.parent / "oracle"))
sys.path.insert(0, str(Path(__file__).resolve().parent))

import manners  # noqa: E402
from compare_picture import BAR, LEFT, MOST_LINES, MOST_TRIED, WIDE, Picture  # noqa: E402

WORDS, MOST_LISTED = 32, 60
WRITTEN = ("instruction", "data", "data of open size")
LEGEND = (("same", "as it should be"), ("new", "differs"), ("gone", "not given"), ("empty", "not looked at"))


class Stretch:
    """Bits of the output that are drawn as one: an item, or what is wrong."""

    def __init__(self, start, end, kind, title, texts=()):
        self.start, self.end, self.kind, self.title, self.texts = start, end, kind, title, texts


class Axis:
    """A bank's bits in the output, in its words; `bank` is none for bytes that are in no bank."""

    def __init__(self, bank, start, end, unit, first):
        self.bank, self.start, self.end, self.unit, self.first = bank, start, end, unit, first
        self.items, self.wrong = [], []

    def heading(self):
        of = "1 bit" if self.unit == 1 else f"{self.unit} bits"
        return "Outside the banks, in bytes" if self.bank is None else f"Bank {self.bank}, in words of {of}, from address {both(self.first)} on"

    def has(self, bit):
        return self.start <= bit < self.end

    def lines(self):
        """How many bits a line has, and which lines have something wrong."""
        long, extent = WORDS * self.unit, self.end - self.start
        while extent > MOST_TRIED * long or len(self.touched(long)) > MOST_LINES:
            long *= 2
        return long, sorted(self.touched(long))

    def touched(self, long):
        return {line for one in self.wrong for line in range((one.start - self.start) // long, (min(one.end, self.end) - 1 - self.start) // long + 1)}


def both(number):
    return str(number) if -10 < number < 10 else f"{number} = {'-' if number < 0 else ''}{abs(number):#x}"


def hex_of(number):
    return f"{'-' if number < 0 else ''}{abs(number):#x}"


def called(node):
    name = ", ".join(word for word in (node["name"], node["source"]) if word)
    return f"{name} (node {node['node']}, {node['kind']})" if name else f"node {node['node']} ({node['kind']})"


def axes_of(mapped, length):
    """The banks that have a place in the image, in its order, and last what is outside them all."""
    banks = [bank for bank in mapped["banks"] if bank["offset"] is not None and (bank["bank"] or len(mapped["banks"]) == 1)]
    axes = []
    for bank in sorted(banks, key=lambda bank: bank["offset"]):
        end = length if bank["size"] is None else min(length, bank["offset"] + bank["size"])
        if end > bank["offset"]:
            axes.append(Axis(bank["bank"], bank["offset"], end, bank["unit"], bank["start"]))
    return axes


def put_items(axes, mapped):
    for node in mapped["nodes"]:
        if node["kind"] in WRITTEN and node["size"]:
            axis = next(axis for axis in axes if axis.bank == node["bank"])
            texts = [text for text in (node["name"], str(node["node"])) if text]
            title = f"{called(node)}: bank {node['bank']}, address {both(node['address'])}, {node['size']} bits"
            axis.items.append(Stretch(node["output"], node["output"] + node["size"], "same", title, texts))


def put_words(axes, verified, mapped):
    """Each word that is not as it should be."""
    ends = {node["node"]: node["output"] + node["size"] for node in mapped["nodes"] if node["kind"] in WRITTEN}
    for word in verified["words"]:
        axis = next(axis for axis in axes if axis.bank == word["bank"])
        start = axis.start + (word["word"] - axis.first) * axis.unit + word["past"]
        end = min(start - word["past"] + axis.unit, ends[word["node"]])
        past = f"+{word['past']}" if word["past"] else ""
        found, wanted = word["found"], word["wanted"]
        title = f"{called(word)}, word {hex_of(word['word'])}{past}: {found or 'not given'}, should be {wanted} ({word['at']:#010x})"
        axis.wrong.append(Stretch(start, end, "new" if found else "gone", title, (found, wanted) if found else ()))


def differs(run, start, end):
    """Whether bits of a run differ; they count from its first."""
    first, last = start // 4, -(-end // 4)
    found, wanted = (int(run[side][first:last], 16) for side in ("found", "wanted"))
    return (found ^ wanted) >> 4 * last - end & (1 << end - start) - 1 != 0


def gaps(run, items, first):
    """The rows of bits of a run that no item writes and that are not as they should be."""
    start = at = 8 * first
    end = start + 8 * run["count"]
    for item in [*(item for item in items if item.end > start and item.start < end), Stretch(end, end, "", "")]:
        if at < item.start and (run["kind"] == "missing" or differs(run, at - start, item.start - start)):
            yield at, item.start
        at = max(at, item.end)


def put_gaps(axes, outside, verified):
    items = sorted((item for axis in axes for item in axis.items), key=lambda item: item.start)
    for run in verified["runs"]:
        for start, end in gaps(run, items, run["address"] - verified["load"]):
            words = "not given" if run["kind"] == "missing" else "not as it should be"
            title = f"no item, {words}: {verified['load'] + start // 8:#010x}..{verified['load'] + (end - 1) // 8:#010x}"
            at = start
            while at < end:
                axis = next((axis for axis in axes if axis.has(at)), outside)
                stop = min([end, *(edge for axis in axes for edge in (axis.start, axis.end) if edge > at)])
                axis.wrong.append(Stretch(at, stop, "gone" if run["kind"] == "missing" else "new", title))
                at = stop


def draw_axis(picture, axis, verified):
    picture.y += 22
    picture.write(LEFT, picture.y, axis.heading(), "head")
    picture.y += 10
    long, touched = axis.lines()
    at, last = 0, -(-(axis.end - axis.start) // long)
    for line in [*touched, last]:
        if line > at:
            first, final = (axis.first + bit // axis.unit for bit in (at * long, min(line * long, axis.end - axis.start) - 1))
            picture.write(LEFT, picture.y + 11, f"words {hex_of(first)}..{hex_of(final)}: nothing is wrong", "out")
            picture.y += 20
        if line < last:
            start = axis.start + line * long
            draw_line(picture, axis, (start, min(start + long, axis.end)), min(WIDE / min(long, axis.end - axis.start), 40), verified)
        at = line + 1


def draw_line(picture, axis, line, scale, verified):
    start, end = line
    at = lambda bit: LEFT + (min(max(bit, start), end) - start) * scale
    top = picture.y + 8
    on_line = lambda stretches: (one for one in stretches if one.start < end and one.end > start)
    picture.area(LEFT, top, (at(end) - LEFT, BAR), "same" if verified["whole"] else "empty")
    for item in on_line(axis.items):
        draw_stretch(picture, item, at, top)
    has_values = False
    for one in joined(on_line(sorted(axis.wrong, key=lambda one: one.start)), axis.unit * scale < 3):
        x, size = at(one.start), at(one.end) - at(one.start)
        picture.area(x, top, (max(size, 2), BAR), one.kind, one.title)
        for i, text in enumerate(one.texts if size >= 6.4 * max(map(len, one.texts), default=0) else ()):
            picture.write(x + size / 2, top + BAR + 11 + 11 * i, text, "m")
            has_values = True
    for i, words in enumerate(("read", "should be") if has_values else ()):
        picture.write(LEFT - 6, top + BAR + 11 + 11 * i, words, "e")
    draw_scale(picture, axis, line, scale, verified["load"])


def joined(stretches, is_joined):
    """Stretches of one kind that touch, where a word has no room of its own."""
    made = []
    for one in stretches:
        if is_joined and made and made[-1].kind == one.kind and made[-1].end == one.start:
            made[-1] = Stretch(made[-1].start, one.end, one.kind, made[-1].title)
        else:
            made.append(one)
    return made


def draw_stretch(picture, item, at, top):
    x, size = at(item.start), at(item.end) - at(item.start)
    picture.area(x, top, (max(size, 0.7), BAR), item.kind, item.title)
    text = next((text for text in item.texts if size >= 6.2 * len(text) + 4), None)
    if text is not None:
        picture.write(x + size / 2, top - 2, text, "m")


def draw_scale(picture, axis, line, scale, load):
    start, end = line
    top, step = picture.y + 8 + BAR + 28, 1
    while step * axis.unit * scale < 66:
        step *= 2
    picture.stroke((LEFT, top), (LEFT + (end - start) * scale, top))
    for word in range((start - axis.start) // axis.unit, (end - 1 - axis.start) // axis.unit + 1, step):
        bit = axis.start + word * axis.unit
        x = LEFT + (bit - start) * scale
        picture.stroke((x, top), (x, top + 5))
        picture.write(x, top + 15, hex_of(axis.first + word), "m")
        picture.write(x, top + 25, f"{load + bit // 8:#x}", "m")
    picture.write(LEFT - 38, top + 15, "address" if axis.bank is not None else "byte", "e")
    picture.write(LEFT - 38, top + 25, "device", "e")
    picture.y = top + 40


def put_list(picture, lines):
    picture.y += 22
    picture.write(LEFT, picture.y, "What is not as it should be", "head")
    for line in lines[:MOST_LISTED]:
        picture.y += 14
        picture.write(LEFT, picture.y, line if len(line) <= 180 else line[:180] + " ..")
    if len(lines) > MOST_LISTED:
        picture.y += 14
        picture.write(LEFT, picture.y, f"and {len(lines) - MOST_LISTED} more", "out")
    picture.y += 8


def drawn(verified, mapped, head, lines):
    """The lines of the drawing: of what verify and map say as JSON, verify's first line and the others."""
    length = -(-mapped["image_bits"] // 8) * 8
    axes, outside = axes_of(mapped, length), Axis(None, 0, length, 8, 0)
    put_items(axes, mapped)
    put_words(axes, verified, mapped)
    put_gaps(axes, outside, verified)
    picture = Picture()
    picture.write(LEFT, picture.y, head, "top")
    picture.y += 12
    picture.legend(LEGEND)
    picture.y += 4
    for axis in [*axes, *([outside] if outside.wrong else [])]:
        draw_axis(picture, axis, verified)
    if lines:
        put_list(picture, lines)
    return picture.framed(head)


if __name__ == "__main__":
    manners.part(__doc__)
