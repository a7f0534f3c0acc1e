#!/usr/bin/env python3
"""Inputs for oracle/sentences.py, drawn from a seed: for each call of include/denkumari.h by the header's names. Most are small and near an edge.

Other scripts read it, nobody runs it."""
from random import Random

import manners

TOP, NONE = 4_294_967_295, 18_446_744_073_709_551_615
BANK = ("units", "starts", "bank_sizes", "bank_offsets", "aligns", "flags", "fill_bits")


def bank(rng, at, plain):
    """(unit, start, size, offset, alignment, flags, fill bit) of a bank, and where the next may begin."""
    unit = rng.choice((1, 2, 8, 8, 8, 10, 16)) if plain else rng.choice((0, 1, 8, 16, 65535))
    start = rng.choice((0, 0, 64, -3, -1, 7)) if plain else rng.choice((0, 2 ** 40, -2 ** 40, 2 ** 40 + 1, -2 ** 40 - 1, -5))
    size = rng.choice((8, 16, 24, 40, 64, 1, 2)) if plain else rng.choice((0, 1, 40, TOP, 64))
    offset = min(at, TOP) if rng.random() < 0.8 else rng.choice((0, 8, 9, 16, TOP, rng.randrange(64)))
    align = rng.choice((0, 1, 2, 3, 4, 8, 16, 32)) if plain else rng.choice((0, 5, TOP, 1000))
    flags = rng.choice((3, 3, 3, 11, 7, 15, 2, 1, 0, 11)) if plain else rng.randrange(18)
    return (unit, start, size, offset, align, flags, int(rng.random() < 0.2) if rng.random() < 0.98 else 2), at + size


def tables(rng):
    plain, at, banks = rng.random() < 0.85, 0, []
    count = rng.choice((1, 2, 2, 2, 2, 3, 3, 4)) if rng.random() < 0.98 else rng.choice((0, 16, 17))
    for _ in range(count):
        made, at = bank(rng, at, plain or rng.random() < 0.6)
        banks.append(made)
    if banks and rng.random() < 0.9:
        banks[0] = (banks[0][0] or 8, 0, 0, 0, banks[0][4], 0 if count > 1 else rng.choice((2, 3, 6, 2)), 0)
    values = [rng.randrange(256) for _ in range(rng.choice((0, 2, 4, 6)))]
    kinds, operands = [], []
    for i in range(rng.choice((0, 1, 2, 3, 4, 5, 6, 8))):
        kind = 1 if i == 0 and count > 1 and rng.random() < 0.9 else rng.choice((0, 1, 2, 2, 3, 4, 4, 5, 5, 6, 7, 7, 8, 9, 10))
        kinds.append(kind if rng.random() < 0.995 else 11)
        operands.append(rng.choice((1, 1, 1, max(1, count - 1), 0, count)) if kind == 1 else rng.choice((0, 0, 1)) if kind in (2, 3) else
                        rng.choice((0, 0, 3, 8, 8 * len(values))))
    rows = rng.choice((1, 1, 2, 3)) if rng.random() < 0.99 else rng.choice((0, 17))
    numbers, states = [], []
    steady = rng.random() < 0.7
    for r in range(rows):
        for i, kind in enumerate(kinds):
            same = numbers[i] if r and rng.random() < 0.6 else None
            number = rng.choice((0, 1, 2, 4, 8, 8, 10, 16)) if kind != 8 else rng.choice((0, 1, 2, 3, 8, 16, 10))
            numbers.append(same if same is not None else number if rng.random() < 0.98 else rng.choice((TOP, TOP - 1, 100)))
            states.append(0 if steady or r == rows - 1 and rng.random() < 0.8 else rng.choice((0, 0, 1, 2, 3 if rng.random() < 0.05 else 1)))
    out = dict(zip(("units", "starts", "bank_sizes", "bank_offsets", "aligns", "flags", "fill_bits"), map(list, zip(*banks)))) if banks else \
        {n: [] for n in ("units", "starts", "bank_sizes", "bank_offsets", "aligns", "flags", "fill_bits")}
    out.update(kinds=kinds, operands=operands, numbers=numbers, states=states, rows=rows, values=values,
               limit=rng.choice((0, 1, 2, 3, 10, 10)), fill=rng.choice((0, 0, 0, 1)) if rng.random() < 0.99 else 2, closed=int(rng.random() < 0.15))
    if rng.random() < 0.02:
        out[rng.choice(("starts", "flags", "operands", "states", "numbers", "fill_bits"))].append(0)
    return out


def lent(rng):
    n = rng.choice((0, 2, 8, 40)) if rng.random() < 0.4 else 40
    m = rng.choice((0, 1, 3)) if rng.random() < 0.15 else 9
    return dict(image=[rng.randrange(256) for _ in range(n)], addresses=[rng.randrange(-9, 9) for _ in range(m)],
                offsets=[rng.randrange(99) for _ in range(m + (rng.random() < 0.1))], sizes=[rng.randrange(99) for _ in range(m)])


def page(rng):
    return rng.choice((1, 2, 8, 8, 16, 16, 32, 0, 24))


def field(tag, payload):
    return [tag, len(payload) // 256, len(payload) % 256] + payload


def big(n, width):
    return list((n % 256 ** width).to_bytes(width, "big"))


def encoded(t, form):
    """A layout file of tables."""
    out = field(16, [2]) if form == 2 else []
    for unit, start, size, offset, align, flags, fill in zip(*(t[n] for n in BANK)):
        record_ = big(unit, 2) + big(start, 8) + big(size, 4) + big(offset, 4) + big(align, 4) + [flags]
        out += field(17, record_ + [fill]) if form == 2 else field(1, record_)
    for kind, operand in zip(t["kinds"], t["operands"]):
        out += field(2, [kind] + big(operand, 4))
    n = len(t["kinds"])
    for r in range(t["rows"]):
        out += field(3, [x for i in range(n) for x in big((t["numbers"] + [0] * n)[r * n + i], 4) + [(t["states"] + [0] * n)[r * n + i]]])
    return out + field(4, t["values"]) + field(5, [t["limit"]])


def file(rng):
    t = tables(rng)
    if rng.random() < 0.4:                        # one bank, switches to it: what the converter widens
        for n in ("units", "starts", "bank_sizes", "bank_offsets", "aligns", "flags", "fill_bits"):
            t[n] = t[n][:1]
        t["operands"] = [0 if k == 1 and rng.random() < 0.95 else o for k, o in zip(t["kinds"], t["operands"])]
    form = rng.choice((1, 2))
    if form == 2 and rng.random() < 0.6 and t["units"]:
        t["fill_bits"] = [0] * len(t["units"])
        if len(t["units"]) == 1:                  # the shape that goes back to one bank
            for n in ("units", "starts", "bank_sizes", "bank_offsets", "aligns", "flags", "fill_bits"):
                t[n] = [t[n][0] if n in ("units", "starts") else 0] + t[n]
            t["operands"] = [1] + [1 if k == 1 else o for k, o in zip(t["kinds"], t["operands"])]
            width = len(t["kinds"])
            t["kinds"] = [1] + t["kinds"]
            for n in ("numbers", "states"):
                t[n] = [x for r in range(t["rows"]) for x in [0] + t[n][r * width:(r + 1) * width]]
    out = encoded(t, form)
    for _ in range(rng.choice((0, 0, 0, 0, 1, 1, 2))):
        at = rng.randrange(len(out))
        out[at:at + rng.choice((0, 1, 1, 1, 3))] = [rng.choice((0, 1, 2, 3, 4, 5, 16, 17, 255, rng.randrange(256)))] * rng.choice((0, 1, 1, 1))
        out = out or [0]
    return out


def record(kind, address, data):
    """A line of Intel HEX (type 0, 1, 4) or an S-record (S0 .. S9)."""
    if isinstance(kind, int):
        body = [len(data)] + big(address, 2) + [kind] + data
        return ":" + bytes(body + [-sum(body) % 256]).hex().upper()
    body = big(address, 2 if kind in ("S0", "S1", "S9") else 4) + data
    body = [len(body) + 1] + body
    return kind + bytes(body + [255 - sum(body) % 256]).hex().upper()


AMISS = ["", ":", "S", ":00000001", "S9030000", "S101FE", "S5", record(4, 0, [0, 1]), record(4, 1, [0, 0]), record(2, 0, [0, 0]), record(1, 0, [])]
AMISS += [record("S5", 3, []), record("S9", 0, []), record("S1", 20, [1]), record(0, 20, [1]), record("S3", 20, [1, 2])]


def text(rng):
    """(format, load, text): a file of records, most with one thing amiss."""
    kind = rng.choice((0, 0, 1, 1, 1))
    load = rng.choice((0, 0, 16, 0xFFF0, 0x10000, 0xFFFFFFF0))
    narrow = kind == 1 and load < 0x10000 and rng.random() < 0.5
    lines, at, upper = [], load + rng.choice((0, 0, 1, 8)), 0
    if kind and rng.random() < 0.4:
        lines.append(record("S0", 0, [72, 68]))
    for _ in range(rng.choice((0, 1, 1, 2, 2, 3, 4))):
        data = [rng.randrange(256) for _ in range(rng.choice((0, 1, 2, 4, 4)))]
        if kind == 0 and at // 65536 % 65536 != upper:
            upper = at // 65536 % 65536
            lines.append(record(4, 0, big(upper, 2)))
        lines.append(record(0 if kind == 0 else "S1" if narrow else "S3", at, data))
        at = max(0, at + len(data) + rng.choice((0, 0, 0, 1, 2, -2, -4)))
    lines.append(record(1, 0, []) if kind == 0 else record("S9" if narrow else "S7", rng.choice((0, 0, 5)), []))
    if rng.random() < 0.25:
        lines.insert(rng.randrange(len(lines) + 1), rng.choice(AMISS))
    elif rng.random() < 0.1:
        del lines[rng.randrange(len(lines))]
    ends = rng.choice(("\n", "\n", "\r\n", "\n"))
    out = list(ends.join(lines).encode()) + (list(ends.encode()) if rng.random() < 0.8 else [])
    if rng.random() < 0.2:
        out = [x + 32 if 65 <= x <= 90 else x for x in out]
    if out and rng.random() < 0.35:
        at = rng.randrange(len(out))
        out[at:at + rng.choice((0, 1, 1))] = rng.choice(([], [48], [65], [10], [13], [71], [rng.randrange(256)], [58], [102]))
    scratch = [rng.choice((0, 0, 7))] * rng.choice((0, 0, 3))
    return dict(format=kind if rng.random() < 0.97 else rng.choice((1 - kind, 2, 200)), load=load, text=out, scratch=scratch)


def blocks(rng, most, edges=True):
    """Offsets and sizes that mostly ascend."""
    at, offsets, sizes = 0, [], []
    for _ in range(rng.choice((0, 1, 1, 2, 3))):
        at += rng.choice((0, 0, 8, 16, 3 if rng.random() < 0.1 and edges else 8))
        size = rng.choice((8, 8, 16, 24, 0 if rng.random() < 0.1 else 8, 5 if rng.random() < 0.1 else 8))
        offsets.append(at if rng.random() < 0.95 else rng.choice((0, most, NONE)))
        sizes.append(size if rng.random() < 0.97 else rng.choice((NONE, 8 * most)))
        at += size
    if rng.random() < 0.03:
        (offsets if rng.random() < 0.5 else sizes).append(8)
    return offsets, sizes


def some(rng, n, below=256):
    return [rng.randrange(below) for _ in range(n)]


def store(rng):
    at, positions, sizes, marks = 0, [], [], []
    for _ in range(rng.choice((0, 1, 2, 3, 5))):
        at += rng.choice((0, 1, 4))
        size = rng.choice((1, 2, 4, 8))
        if rng.random() < 0.4:
            marks.append(at)
        positions.append(at if rng.random() < 0.98 else max(0, at - 3))
        sizes.append(size if rng.random() < 0.985 else rng.choice((0, TOP + 1)))
        at += size
    full = rng.random() < 0.02
    count, mark_count = (512, len(marks)) if full else (len(positions), len(marks))
    fill = [8 * i for i in range(512)] if full else None
    if rng.random() < 0.01:
        count, mark_count = rng.choice(((513, 0), (0, 513), (NONE, 0)))
    positions, sizes = fill or positions + some(rng, 512 - len(positions), 50), [4] * 512 if full else sizes + some(rng, 512 - len(sizes), 50)
    position = rng.choice((rng.randrange(max(1, at + 3)), at, 0, 8_589_934_590 + rng.randrange(3)))
    return dict(positions=positions, sizes=sizes, count=count, marks=marks + some(rng, 512 - len(marks), 50), mark_count=mark_count,
                position=position, size=rng.choice((0, 0, 1, 2, 4, 9, TOP, TOP + 1)))


def offers(rng):
    """A store and a few offers to it: most behind all that is stored and apart from each other, in any order."""
    given, at, listed = store(rng), 60, []
    position, size = given.pop("position"), given.pop("size")
    for _ in range(rng.choice((0, 1, 2, 3, 4))):
        if rng.random() < 0.15:
            listed.append((rng.choice((position, at, 61)), size))
        else:
            at += rng.choice((0, 0, 1, 4))
            listed.append((at, rng.choice((0, 1, 2, 4))))
            at += listed[-1][1]
    rng.shuffle(listed)
    starts, lengths = [p for p, _ in listed], [n for _, n in listed]
    if rng.random() < 0.06:
        rng.choice((starts, lengths)).append(200)
    return dict(given, offer_positions=starts, offer_sizes=lengths)


def writing(rng):
    image = some(rng, rng.choice((4, 8, 20, 40)))
    offsets, sizes = blocks(rng, 8 * len(image))
    load = rng.choice((0, 0, 0xFFF8, 0xFFFF, 0x1FFFD, TOP - 3, TOP, rng.randrange(TOP)))
    return dict(image=image, offsets=offsets, sizes=sizes, load=load, text=some(rng, rng.choice((0, 12, 300, 300, 300))))


def overlay(rng):
    offsets, sizes = blocks(rng, 80, rng.random() < 0.5)
    n = rng.choice((0, 4, 8))
    return dict(overlay=some(rng, n, 2), released=some(rng, max(0, n + rng.choice((0, 0, -1, 1))), 2), offsets=offsets, sizes=sizes)


def readback(rng):
    """An image and what was read back of it: blocks of whole bytes mostly, a byte that differs here and there."""
    n = rng.choice((0, 3, 5, 8))
    image = some(rng, n, 2)
    found = [x if rng.random() < 0.7 else 1 - x for x in image][:max(0, n - (rng.random() < 0.2))] + [0] * (rng.random() < 0.2)
    (offsets, sizes), (given_offsets, given_sizes) = (whole_blocks(rng, len(x)) for x in (image, found))
    m = rng.choice((0, 1, 3, 6, 6))
    return dict(image=image, offsets=offsets, sizes=sizes, bytes=found, given_offsets=given_offsets, given_sizes=given_sizes, firsts=some(rng, m),
                counts=some(rng, m + (rng.random() < 0.1)), kinds=some(rng, m + (rng.random() < 0.1)))


def whole_blocks(rng, room):
    """Blocks of whole bytes within so many, some touching; or such as have to be refused."""
    if rng.random() < 0.15:
        return blocks(rng, 8 * room + 8, rng.random() < 0.5)
    offsets, sizes, at = [], [], rng.choice((0, 0, 1))
    while at < room and rng.random() < 0.9:
        count = rng.randrange(1, room - at + 1)
        offsets.append(8 * at)
        sizes.append(8 * count)
        at += count + rng.choice((0, 0, 1))
    return offsets, sizes


def spans(rng):
    n = rng.choice((0, 1, 2, 3, 5, 8))
    many = rng.random() < 0.003
    near = [rng.choice((NONE, rng.randrange(24), rng.randrange(24), 8 * rng.randrange(4))) for _ in range(n)]
    offsets = [x if rng.random() < 0.99 else 8_589_934_590 + rng.randrange(3) for x in near]
    sizes = [rng.choice((0, 0, 4, 8, 8, 3)) if rng.random() < 0.99 else TOP + rng.randrange(2) for _ in range(n + (rng.random() < 0.02))]
    m = rng.choice((0, 1, 2, 9, 9, 9))
    return dict(offsets=[0] * 4097 if many else offsets, sizes=[0] * 4097 if many else sizes, block_offsets=some(rng, m),
                block_sizes=some(rng, m + (rng.random() < 0.1)))


def digits(rng):
    n = rng.randrange(8)
    return dict(bytes=some(rng, n), bits=rng.choice((8 * n, 8 * n + 1, rng.randrange(8 * n + 1), NONE)), hex=some(rng, rng.choice((0, 2 * n, 2 * n, 20))))


def part(rng):
    return dict(image=some(rng, rng.randrange(9)), offset=rng.choice((0, 8, 16, 24, 48, 3, rng.randrange(80), NONE)),
                size=rng.choice((0, 8, 16, 24, 5, rng.randrange(80), NONE)))


def reading(rng):
    return dict(text(rng), bytes=some(rng, rng.choice((0, 4, 40, 40))), offsets=some(rng, rng.choice((0, 1, 5, 5))), sizes=some(rng, rng.choice((1, 5, 5))))


MAKE = {
    "dk_build": lambda r: dict(tables(r), **lent(r)),
    "dk_build_paged": lambda r: dict(tables(r), page=page(r), **lent(r)),
    "dk_profile": lambda r: dict(tables(r), page=page(r)),
    "dk_map": lambda r: dict(tables(r), banks_of=some(r, 4096), positions=some(r, 4096), outputs=some(r, 4096), sizes=some(r, 4096)),
    "dk_form": lambda r: dict(lent(r), file=file(r), fill=r.choice((0, 0, 0, 1, 2))),
    "dk_form_paged": lambda r: dict(lent(r), file=file(r), fill=r.choice((0, 0, 0, 1, 2)), page=page(r)),
    "dk_to_form2": lambda r: dict(file=file(r), out=some(r, r.choice((0, 100, 400, 400, 400)))),
    "dk_to_form1": lambda r: dict(file=file(r), out=some(r, r.choice((0, 100, 400, 400, 400)))),
    "dk_blocks": spans,
    "dk_hex": digits,
    "dk_part": part,
    "dk_offer": store,
    "dk_offers": offers,
    "dk_overlay_range": lambda r: dict(overlay(r), first=r.choice((0, 1, 2, 5, NONE)), count=r.choice((0, 1, 2, 3, 4, NONE))),
    "dk_overlay_runs": lambda r: (lambda n: dict(overlay(r), firsts=some(r, n), counts=some(r, n + (r.random() < 0.1))))(r.choice((0, 1, 4, 4))),
    "dk_verify": readback,
    "dk_write_hex": writing,
    "dk_write_srec": lambda r: dict(writing(r), width=r.choice((2, 4, 4, 2, 3, 0))),
    "dk_read_records": reading,
    "dk_record_extent": text,
    "dk_record_reason": text,
    "dk_record_fault": text,
}


def inputs(call, seed, count):
    for i in range(count):
        yield MAKE[call](Random("%s %s %d" % (call, seed, i)))


def wide(call, seed, count):
    """The same, and among them numbers past what the header's types hold: the sentences speak of them too."""
    for i, given in enumerate(inputs(call, seed, count)):
        rng, names = Random("wide %s %d" % (seed, i)), [n for n in ("units", "bank_sizes", "bank_offsets", "aligns", "numbers") if given.get(n)]
        if names and i % 8 == 0:
            name = rng.choice(names)
            given[name][rng.randrange(len(given[name]))] = 65536 if name == "units" else TOP + 1
        sharper = crowded if "kinds" in given else lines if "format" in given else None
        yield dict(given, **sharper(rng)) if sharper and i % 2 else given


def one_bank(nodes=1, rows=1, limit=2, flags=2, start=0, banks=1):
    """Tables of labels in one bank, or in several that have nothing."""
    bank_ = dict(units=[8], starts=[start], bank_sizes=[0], bank_offsets=[0], aligns=[0], flags=[flags], fill_bits=[0])
    return dict({n: x * banks for n, x in bank_.items()}, kinds=[2] * nodes, operands=[0] * nodes, numbers=[0] * (nodes * rows), states=[0] * (nodes * rows),
                rows=rows, values=[], limit=limit, fill=0, closed=0)


def crowded(rng):
    """Tables of items that meet, marks among them, in one bank and near its end; or near the last position; or labels that are aligned."""
    far = rng.random() < 0.2
    kinds, numbers = [], []
    for _ in range(rng.choice((2, 3, 4, 5))):
        kinds += [9, rng.choice((4, 4, 4, 5, 6, 7, 2, 2, 10))]
        numbers += [rng.choice((TOP - 1, TOP)) if far else rng.randrange(7), rng.choice((0, 0, 1, 2, 3))]
    n = len(kinds)
    states = [0] * n if rng.random() < 0.7 else [rng.choice((0, 0, 1)) for _ in range(n)]
    return dict(one_bank(n), units=[rng.choice((1, 1, 2, 8))], kinds=kinds, operands=[0] * n, numbers=numbers, states=states, values=[0xA5, 0x3C],
                bank_sizes=[8], aligns=[rng.choice((0, 2, 3, 4))], flags=[rng.choice((2, 2, 2, 6, 6, 3, 11, 4, 8, 14))], limit=rng.choice((0, 1, 2)),
                fill=rng.randrange(2))


def lines(rng):
    """A file of few records, each of them whole but of any type, count and field, at the ends of what a record's address holds; at times one is cut off."""
    kind, near = rng.randrange(2), rng.choice((0, 0, 1, 0xFFFD, 0xFFFE, 0xFFFF))
    made = [record(4, 0, [255, 255])] if kind == 0 and rng.random() < 0.3 else []
    for _ in range(rng.choice((1, 1, 2, 3))):
        data = some(rng, rng.choice((0, 1, 2, 2, 3)))
        far = 0xFFFF0000 * rng.randrange(2)
        digit = rng.choice((0, 1, 1, 2, 3, 3, 5, 7, 9)) if kind else rng.choice((0, 0, 0, 1, 2, 4, 4, 5))
        made.append(record("S%d" % digit, near + far, data) if kind else record(digit, near, data))
    made.append(record(1, 0, []) if kind == 0 else record(rng.choice(("S9", "S7")), 0, []))
    if rng.random() < 0.3:
        at = rng.randrange(len(made))
        made[at] = made[at][:rng.randrange(len(made[at]) + 1)] + rng.choice(("", "", "0", "G"))
    return dict(format=kind, load=0, text=list(("\n".join(made) + "\n").encode()))


if __name__ == "__main__":
    manners.part(__doc__)
