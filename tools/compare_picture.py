#!/usr/bin/env python3
"""The picture of tools/compare: the old image above the new one, on lines of equal length, what differs told apart by pattern, and below them the bytes that
differ. Lines on which nothing differs are left out and said to be. Then, each on a scale of its own, the banks that have no place in the output.

Other scripts read it, nobody runs it."""

import sys
from html import escape
from pathlib import Path

sys.path.insert(0, str(Path(__file__).resolve().parent.parent / "oracle"))

import manners  # noqa: E402

LEFT, WIDE, MOST_LINES, MOST_TRIED = 88, 1080, 24, 4096
BAR = 24
# what a node is drawn as, by the first that holds; each has its pattern in the legend
CLASSES = (("new", "new"), ("gone", "gone"), ("other kind", "grown"), ("grown", "grown"), ("shrunk", "grown"), ("moved", "moved"),
           ("other contents", "contents"))
LEGEND = (("same", "the same"), ("moved", "moved"), ("grown", "grown, shrunk or of another kind"), ("contents", "other contents"), ("new", "new"),
          ("gone", "gone"), ("byte", "bytes that differ"))
STYLE = """<style>text{font:10px "DejaVu Sans",Verdana,Arial,sans-serif;fill:#000;pointer-events:none}.head{font-size:13px;font-weight:bold}
.top{font-size:16px;font-weight:bold}.m{text-anchor:middle}.n{text-anchor:middle;font-weight:bold;stroke:#fff;stroke-width:3px;paint-order:stroke}
.e{text-anchor:end}.out{font-style:italic}path{stroke:#000;stroke-width:.8;fill:none}path.way{stroke-dasharray:3 2}rect{stroke:#000;stroke-width:.6}
.same{fill:#e4e4e4}.moved{fill:url(#m)}.grown{fill:url(#g)}.contents{fill:#8c8c8c}.new{fill:#2b2b2b}.gone{fill:url(#x)}.byte{fill:#000}
.empty{fill:#fff;stroke:#bbb;stroke-dasharray:3 2}.flag{fill:#000}</style>"""


def pattern(name, side, over, turned=""):
    turned = f' patternTransform="{turned}"' if turned else ""
    ground = f'<rect width="{side}" height="{side}" style="fill:#fff;stroke:none"/>'
    return f'<pattern id="{name}" width="{side}" height="{side}" patternUnits="userSpaceOnUse"{turned}>{ground}{over}</pattern>'


PATTERNS = "<defs>" + pattern("m", 6, '<path d="M1 0v6" style="stroke-width:2"/>', "rotate(45)") + \
    pattern("g", 5, '<circle cx="2.5" cy="2.5" r="1.3"/>') + pattern("x", 7, '<path d="M0 0l7 7M7 0l-7 7" style="stroke-width:1.4"/>') + "</defs>"


def number(value):
    return f"{value:.2f}".rstrip("0").rstrip(".")


def class_of(found):
    return next((drawn_as for what, drawn_as in CLASSES if what in found), "same")


class Box:
    """A stretch of an axis on one of the two sides, and the other side's where it moved."""

    def __init__(self, node, other, found, axis, side):
        self.start = place_of(node, axis)
        self.end, self.kind, self.side = self.start + node.bits, class_of(found), side
        self.texts = [text for text in (node.name, str(node.number)) if text]
        self.other = place_of(other, axis) if other is not None and "moved" in found and stands_on(other, axis) else None
        was = f"{', '.join(found)}: " if found else ""
        self.title = f"{was}{node.words()}: {node.where()}" + (f"\n{'before' if side else 'now'}: {other.where()}" if other and found else "")


def stands_on(node, axis):
    return node.output is not None if axis is None else node.output is None and node.bank == axis


def place_of(node, axis):
    return node.output if axis is None else node.position


class Picture:
    """The drawing as it grows downward."""

    def __init__(self):
        self.body, self.y = [], 24

    def emit(self, text):
        self.body.append(text)

    def write(self, x, y, text, kind=""):
        self.emit(f'<text x="{number(x)}" y="{number(y)}"{f" class={chr(34)}{kind}{chr(34)}" if kind else ""}>{escape(text)}</text>')

    def area(self, x, y, size, kind, title=""):
        inner = f"><title>{escape(title)}</title></rect>" if title else "/>"
        self.emit(f'<rect x="{number(x)}" y="{number(y)}" width="{number(size[0])}" height="{number(size[1])}" class="{kind}"{inner}')

    def stroke(self, start, end, kind=""):
        kind = f' class="{kind}"' if kind else ""
        self.emit(f'<path d="M{number(start[0])} {number(start[1])}L{number(end[0])} {number(end[1])}"{kind}/>')

    def legend(self, entries):
        x = LEFT
        for kind, words in entries:
            self.area(x, self.y, (28, 14), kind)
            self.write(x + 34, self.y + 11, words)
            x += 54 + 5.8 * len(words)
        self.y += 18

    def paragraph(self, text):
        """Words, cut at spaces."""
        line = ""
        for word in text.split():
            if len(line) + len(word) > 170:
                self.write(LEFT, self.y, line)
                self.y, line = self.y + 14, ""
            line += (" " if line else "") + word
        self.write(LEFT, self.y, line)
        self.y += 8

    def framed(self, head):
        """The lines of the whole drawing."""
        across, down = LEFT + WIDE + 34, number(self.y + 6)
        return [f'<svg xmlns="http://www.w3.org/2000/svg" width="{across}" height="{down}" viewBox="0 0 {across} {down}">',
                f"<title>{escape(head)}</title>", STYLE, PATTERNS, '<rect width="100%" height="100%" style="fill:#fff;stroke:none"/>', *self.body, "</svg>"]


class Axis:
    """The boxes of both sides, the flags of symbols that differ, and the bytes that differ, on lines of `long` bits."""

    def __init__(self, axis, pairs, extents, runs):
        self.axis, self.extents, self.boxes, self.flags = axis, list(extents), [], []
        self.runs = [(8 * first, 8 * last + 8) for first, last in runs]
        for old, new, found in pairs:
            for side, (node, other) in enumerate(((old, new), (new, old))):
                if node is not None and stands_on(node, axis):
                    self.put(Box(node, other, found, axis, side), node, found)
        self.extent = max(self.extents)
        self.long = self.extent
        if self.extent > 640:
            self.long = 640
            while self.extent > MOST_TRIED * self.long or len(self.touched()) > MOST_LINES:
                self.long *= 2

    def put(self, box, node, found):
        if node.bits:
            self.boxes.append(box)
        elif found:
            self.flags.append(box)
        self.extents[box.side] = max(self.extents[box.side], box.end)

    def touched(self):
        """The lines on which something differs."""
        wanted = set()
        for start, end in [*((box.start, box.end) for box in self.boxes if box.kind != "same"), *self.runs]:
            wanted.update(range(start // self.long, (end - 1) // self.long + 1))
        wanted.update(self.line_of(flag.start) for flag in self.flags)
        low, high = sorted(self.extents)
        if low < high:
            wanted.update((low // self.long, (high - 1) // self.long))
        return wanted

    def line_of(self, at):
        return max(0, (min(at, self.extent) - (at == self.extent and at % self.long == 0)) // self.long)


def draw_axis(picture, axis, heading):
    if not axis.extent:
        return
    picture.y += 22
    picture.write(LEFT, picture.y, heading, "head")
    picture.y += 10
    drawn_up_to, last = 0, -(-axis.extent // axis.long)
    for line in [*sorted(axis.touched()), last]:
        if line > drawn_up_to:
            start, end = drawn_up_to * axis.long, min(line * axis.long, axis.extent)
            picture.write(LEFT, picture.y + 11, f"bits {start}..{end - 1}: nothing differs", "out")
            picture.y += 20
        if line < last:
            draw_line(picture, axis, line)
        drawn_up_to = line + 1


def draw_line(picture, axis, line):
    start, end = line * axis.long, min((line + 1) * axis.long, axis.extent)
    scale = min(WIDE / axis.long, 40)
    at = lambda bit: LEFT + (min(max(bit, start), end) - start) * scale
    tops = (picture.y + 8, picture.y + 8 + BAR + 20)
    for side, top in enumerate(tops):
        picture.write(LEFT - 6, top + 15, ("old", "new")[side], "e")
        if axis.extents[side] > start:
            picture.area(LEFT, top, (at(axis.extents[side]) - LEFT, BAR), "empty")
    for box in axis.boxes:
        if box.start < end and box.end > start:
            draw_box(picture, box, at, tops)
            if box.side == 0 and box.other is not None and start <= box.start and start <= box.other < end:
                picture.stroke((at(box.start), tops[0] + BAR), (at(box.other), tops[1]), "way")
    for flag in axis.flags:
        if axis.line_of(flag.start) == line:
            x, top = number(at(flag.start)), number(tops[flag.side])
            picture.emit(f'<path d="M{x} {top}v-9l5 3.5-5 3.5" class="flag"><title>{escape(flag.title)}</title></path>')
    top = tops[1] + BAR + 4
    for first, last in axis.runs:
        if first < end and last > start:
            picture.area(at(first), top, (max(at(last) - at(first), 0.7), 6), "byte", f"bytes {first // 8}..{last // 8 - 1} differ")
    draw_scale(picture, axis, (start, end), scale, top + 8)
    picture.y = top + 48


def draw_box(picture, box, at, tops):
    x, size = at(box.start), at(box.end) - at(box.start)
    picture.area(x, tops[box.side], (max(size, 0.7), BAR), box.kind, box.title)
    text = next((text for text in box.texts if size >= 6.2 * len(text) + 4), None)
    if text is not None:
        picture.write(x + size / 2, tops[box.side] + 15.5, text, "n")


def draw_scale(picture, axis, line, scale, top):
    start, end = line
    step = 8
    while step * scale < 60:
        step *= 2
    picture.stroke((LEFT, top), (LEFT + (end - start) * scale, top))
    for bit in range(-(-start // step) * step, end + 1, step):
        x = LEFT + (bit - start) * scale
        picture.stroke((x, top), (x, top + 5))
        picture.write(x, top + 15, str(bit), "m")
        if axis.axis is None:
            picture.write(x, top + 25, str(bit // 8), "m")
    picture.write(LEFT - 38, top + 15, "bit" if axis.axis is None else "position", "e")
    if axis.axis is None:
        picture.write(LEFT - 38, top + 25, "byte", "e")


def drawn(old, new, pairs, runs, head):
    """The lines of the drawing."""
    picture = Picture()
    picture.write(LEFT, picture.y, head.split(": ", 1)[0], "top")
    picture.y += 12
    picture.legend(LEGEND)
    picture.y += 12
    picture.paragraph(head.split(": ", 1)[1])
    low, high = sorted((len(old.image), len(new.image)))
    runs = runs + [[low, high - 1]] * (low < high)
    draw_axis(picture, Axis(None, pairs, (8 * len(old.image), 8 * len(new.image)), runs), "The output")
    banks = sorted({node.bank for one, other, _ in pairs for node in (one, other) if node is not None and node.output is None})
    for bank in banks:
        draw_axis(picture, Axis(bank, pairs, (0, 0), []), f"Bank {bank}, which has no place in the output")
    return picture.framed(head)


if __name__ == "__main__":
    manners.part(__doc__)
