#!/usr/bin/env python3
"""Inputs for oracle/sentences_changes.py that chance does not find: at a limit and one past it, equal bounds, empty lists, the last bank, node and address.

Other scripts read it, nobody runs it."""
from random import Random

import manners
from sentences_inputs import MAKE, TOP, encoded, one_bank, record


# ---- tables and layout files
def stored(size, last=None):
    """Tables of one item more than a store has room for: intervals, or marks; the last may have another size."""
    return dict(one_bank(513), kinds=[4] * 513, numbers=[size] * 512 + [size if last is None else last], values=[255])


def of_length(n, form, **tables_):
    """A layout file of so many bytes."""
    t = one_bank(**tables_)
    return encoded(dict(t, values=[7] * (n - len(encoded(t, form)))), form)


def touching():
    """A filled bank of four bits, and behind it one of a single bit whose fill bit is one: the image ends before it."""
    return dict(one_bank(0), units=[8, 1, 1], starts=[0] * 3, bank_sizes=[0, 4, 1], bank_offsets=[0, 0, 4], aligns=[0] * 3, flags=[0, 11, 11],
                fill_bits=[0, 0, 1])


def past_last():
    """Tables at the last position and one past it: by an item, by an align, by a label's alignment; also behind a label that is off its boundary."""
    both = dict(one_bank(4, limit=1), kinds=[9, 2, 9, 7], numbers=[4, 0, TOP, 8])
    item = dict(one_bank(2), kinds=[9, 7], numbers=[TOP, 8])
    label = dict(one_bank(2), units=[1], kinds=[9, 2], numbers=[TOP, 0])
    aligned = dict(label, aligns=[3], flags=[6], numbers=[TOP - 1, 0])
    pushed = dict(aligned, units=[10], aligns=[2 ** 16], numbers=[TOP, 0], limit=1)
    return [both, item, label, aligned, pushed, dict(aligned, aligns=[5]), dict(aligned, aligns=[2 ** 16]),
            dict(item, kinds=[9, 8], numbers=[TOP, 2 ** 16], units=[1])]


def one_node(kind, number=0, **rest):
    """Tables of one node."""
    return dict(one_bank(), kinds=[kind], numbers=[number], values=[255], **rest)


def small_tables():
    """Tables that meet one rule, or just do not."""
    made = [dict(one_bank(), **{n: []}) for n in ("starts", "flags", "operands", "numbers", "states")] + [one_bank(rows=0), one_bank(flags=16)]
    made += [dict(one_bank(flags=n), bank_sizes=[8]) for n in (0, 1, 8, 9, 15)] + [one_bank(limit=n) for n in (0, 1, 3)]
    made += [dict(one_bank(), fill=n) for n in (1, 2)] + [dict(one_bank(), closed=n) for n in (1, 2)]
    made += [one_node(n) for n in range(12)] + [one_node(1, operands=[n]) for n in (0, 1)] + [one_node(n, states=[m]) for n in (2, 3, 10) for m in (1, 2, 3)]
    made += [one_node(4, n, operands=[m]) for n in (7, 8, 9) for m in (0, 1)] + [one_node(k, 8, flags=[0]) for k in (2, 4, 7)]
    known = dict(one_bank(2, limit=3), kinds=[4, 2], numbers=[8, 0], values=[255])
    made += [dict(known, states=[n, 0]) for n in (0, 1, 2)] + [dict(known, kinds=[k, 2], states=[1, 0]) for k in (5, 6, 7, 8, 9)]
    again = dict(one_bank(3, limit=1), kinds=[4, 9, 2], numbers=[8, 16, 0], values=[255])
    return made + [dict(again, states=[1, n, 0]) for n in (0, 1)] + [dict(touching(), fill=1), dict(touching(), fill_bits=[0, 1, 0])]


def table_edges():
    counts = [one_bank(0, banks=n, flags=0) for n in (0, 16, 17)] + [one_bank(rows=16), one_bank(rows=17), one_bank(limit=255), one_bank(limit=256)]
    counts += [one_bank(4096), one_bank(4097), stored(0), stored(1), stored(0, 1), stored(1, 0)]
    late = dict(one_bank(514), kinds=[2] + [4] * 513, numbers=[1] * 514, values=[255])
    return small_tables() + past_last() + [one_bank(flags=8), one_bank(flags=9), touching()] + counts + [late]


def profile_edges():
    """Tables in the profile, and such as break one of its rules."""
    good = dict(one_bank(2), units=[8, 8], starts=[0, 0], bank_sizes=[0, 64], bank_offsets=[0, 32], aligns=[0, 0], flags=[0, 3], fill_bits=[0, 0], kinds=[1, 8],
                operands=[1, 0], page=16)
    rows = dict(good, rows=2, states=[0] * 4)
    made = [dict(good, page=n) for n in (0, 1, 2, 16, 24, 32, 64)] + [dict(good, numbers=[0, n]) for n in (0, 1, 2, 3, 4)]
    made += [dict(good, flags=[0, n]) for n in (1, 2)] + [dict(good, aligns=[0, n], flags=[0, 7]) for n in (0, 1, 3, 4)]
    made += [dict(good, bank_offsets=[0, n]) for n in (0, 8, 16, 24)] + [dict(good, bank_sizes=[0, n]) for n in (8, 16, 24)]
    made += [dict(good, units=[8, n]) for n in (9, 10, 16)] + [dict(good, units=[10, 8])] + [dict(good, kinds=[1, 9], numbers=[0, n]) for n in (0, 4, 8, 16)]
    return made + [dict(rows, kinds=[1, k], numbers=[0, n, 0, m]) for k in (8, 9) for n, m in ((0, 0), (0, 3), (0, 8), (3, 8))]


def file_edges():
    starts = [encoded(one_bank(start=x), form) for form in (1, 2) for x in (2 ** 63 - 1, -2 ** 63, 2 ** 40, -2 ** 40)]
    cut = [of_length(n, form)[:-4] for n, form in ((100, 1), (100, 2), (600, 1), (600, 2), (65004, 1), (65540, 2))]       # the last field is missing
    whole = [of_length(n, form) for n, form in ((65000, 1), (65001, 1), (65536, 2), (65537, 2))]
    aligned = dict(one_bank(2), kinds=[9, 2], numbers=[3, 0], aligns=[16], flags=[6])
    return [dict(file=x, fill=0) for x in [[], encoded(aligned, 1), encoded(dict(touching(), fill_bits=[0, 1, 0]), 2)] + starts + cut + whole]


def shape(nodes):
    """The form 2 file that a form 1 file of one bank and so many labels becomes."""
    t = one_bank(nodes + 1, banks=2)
    return encoded(dict(t, bank_sizes=[0, 0], flags=[0, 2], kinds=[1] + t["kinds"][1:], operands=[1] + t["operands"][1:]), 2)


def convert_edges():
    sized = encoded(dict(one_bank(), bank_sizes=[2 ** 24 + 1]), 1)
    files = [sized, shape(1), encoded(dict(touching(), fill_bits=[0, 1, 0]), 2)] + [encoded(one_bank(rows=r), form) for r in (16, 17) for form in (1, 2)]
    files += [of_length(n, 2, banks=2, flags=0) for n in (65005, 65006, 65007)]
    files += [encoded(one_bank(n), 1) for n in (4095, 4096)] + [encoded(one_bank(4096, banks=2, flags=0), form) for form in (1, 2)] + [shape(4096)]
    return [dict(file=x, out=[0] * 65536) for x in files + [encoded(one_bank(0, banks=n, flags=0), 1) for n in (2423, 2424, 2425)]]


# ---- spans, blocks and stores
def span_edges():
    bits = dict(offsets=[0, 1, 8, 16], sizes=[1, 1, 1, 1], block_offsets=[0] * 9, block_sizes=[0] * 9)
    return [bits] + [dict(offsets=[2 ** 64 - 1] * n, sizes=[0] * n) for n in (4096, 4097)]


def overlay_edges():
    """Blocks that cover a byte but for its first or last bit, and such as reach past an image; ranges inside one image and not the other."""
    made = [([9], [7]), ([8], [7]), ([8], [8]), ([0], [8]), ([8], [9]), ([0], [32]), ([8, 12], [4, 4]), ([8, 13], [4, 3]), ([], []), ([24], [16]),
            ([8, 8], [8, 8]), ([8, 15], [8, 8])]
    asked = (([0] * 4, 1, 1), ([0] * 3, 0, 2), ([1] * 5, 1, 2), ([0] * 4, 2, 2), ([0] * 4, 0, 1), ([0, 0, 0, 1, 1], 0, 4), ([1] * 4, 3, 1), ([1] * 6, 3, 2),
             ([0] * 3, 2, 2))
    return [dict(overlay=[0, 1, 0, 1], released=r, offsets=o, sizes=s, first=f, count=c, firsts=[9] * 2, counts=[9] * 2) for o, s in made for r, f, c in asked]


def verify_edges():
    room = dict(image=[0] * 12, bytes=[0] * 12, firsts=[0] * 6, counts=[0] * 6, kinds=[0] * 6)
    pairs = [([72], [8]), ([64], [16]), ([], []), ([16, 0], [8, 8]), ([0, 8], [16, 8]), ([0, 0], [8, 8]), ([0], [0]), ([0], []), ([88], [8]), ([88], [16])]
    return [dict(room, offsets=o, sizes=s, given_offsets=p, given_sizes=t) for o, s in pairs for p, t in pairs]


def kept(intervals, marks, position=0, size=1):
    """A store of these intervals and marks, and an offer to it."""
    starts, lengths, places = (x + [0] * (512 - len(x)) for x in ([p for p, _ in intervals], [n for _, n in intervals], list(marks)))
    return dict(positions=starts, sizes=lengths, count=len(intervals), marks=places, mark_count=len(marks), position=position, size=size)


FAR, TWO = 8_589_934_590, [(4, 2), (8, 2)]


def bad_stores():
    """Stores at their limits and past them, and such as are bad in one thing; in the last ones what is bad stands behind the counts."""
    made = [kept([(FAR + i, 1)], []) for i in (0, 1)] + [kept([(4, TOP + i)], []) for i in (0, 1)] + [kept([], [FAR + i]) for i in (0, 1)]
    made += [kept([], [], FAR + i, n) for i in (0, 1) for n in (0, 1)] + [kept([], [], 0, TOP + i) for i in (0, 1)]
    made += [kept(TWO + [x], []) for x in ((8, 2), (8, 1), (9, 1), (7, 1), (10, 1), (10, 0), (3, 4), (0, 1), (7, 3))]
    made += [kept([(4, 3), x], []) for x in ((5, 1), (6, 1), (6, 9), (7, 1), (4, 1))]
    made += [kept(TWO, x) for x in ([5], [9], [3, 5], [4, 9], [3, 2], [3, 3], [8, 7, 9], [2, 3, 2], [6, 10], [FAR, FAR + 1], [FAR + 1, 3])]
    made += [kept([(4, 2), (4, 2)], [9, 3]), kept([(4, 0)], [5], FAR + 1), kept(TWO, [9, 3], FAR + 1), kept(TWO, [9], 0, TOP + 1)]
    stale = dict(kept(TWO, [7]), positions=[4, 8] + [FAR + 1] * 510, sizes=[2, 2] + [TOP + 1] * 510, marks=[7] + [FAR + 1] * 511)
    return made + [stale, dict(stale, positions=[4, 8] + [0] * 510), dict(stale, sizes=[2, 2] + [1] * 510)]


def full_stores():
    """Stores of 511, 512 and 513 intervals or marks."""
    made = []
    for n in (511, 512):
        line, dots = [(2 * i, 1) for i in range(n)], [2 * i for i in range(n)]
        made += [kept(line, [], p, size) for p, size in ((1, 1), (2, 1), (1, 0), (2000, 1), (2000, 0))]
        made += [kept([], dots, p, size) for p, size in ((1, 0), (2, 0), (0, 1), (2, 1), (2000, 0), (0, 3))]
        made += [kept(line, dots, p, size) for p in (1, 0) for size in (0, 1)]
    full = kept([(2 * i, 1) for i in range(512)], range(0, 1024, 2))
    made += [dict(kept([(0, 0)], []), count=513), dict(kept([], [0] * 512), mark_count=513)]
    return made + [dict(full, count=513), dict(full, mark_count=513), dict(full, count=513, mark_count=513, position=FAR + 1)]


def offer_edges():
    near = [kept(TWO, [4, 7, 7, 10], p, n) for p in range(2, 12) for n in range(4)] + [kept(TWO, [i], p, 5) for i in (0, 10) for p in (3, 4, 5, 8, 9)]
    return near + [kept([(4, 6)], [3, 10], p, n) for p in (2, 3, 4, 9, 10) for n in (0, 1, 9)] + bad_stores() + full_stores()


# ---- records
def write_edges():
    """Blocks at the ends of what is allowed: a record's sixteen bytes, its 64 KiB line, the last address, the image, the text lent."""
    room = dict(image=list(range(40)), load=0, text=[0] * 300)
    pairs = [([0], [8, 5]), ([0], [8, 0]), ([0], [8, 9999]), ([], [3]), ([0, 3], [8]), ([0, 8], [16, 8]), ([0, 16], [16, 8]), ([8, 0], [8, 8]), ([312], [8])]
    pairs += [([312], [16]), ([0, 312, 0], [8, 16, 0]), ([0, 0], [8, 8]), ([0, 7], [8, 8]), ([0, 8], [8, 7])]
    made = [dict(room, offsets=o, sizes=s) for o, s in pairs]
    made += [dict(room, offsets=[0], sizes=[8 * n], load=load) for n in (1, 15, 16, 17, 32, 33) for load in (0, 65529, 65535, 65536, 131070)]
    made += [dict(room, offsets=[8], sizes=[8 * n], load=top - 5) for n in (3, 4, 5) for top in (65536, 65541, 2 ** 32, 2 ** 32 + 5)]
    return made + [dict(room, offsets=[], sizes=[], text=[7] * n) for n in (10, 11, 12, 14, 15)] + [dict(room, offsets=[0], sizes=[8], load=2 ** 24 + 65541)]


def srec_edges():
    return [dict(x, width=w) for x in write_edges() for w in (2, 4)] + [dict(write_edges()[-1], width=w) for w in (1, 3, 5)]


def read_so(format_, load, lines_, end="\n"):
    return dict(format=format_, load=load, text=list(("\n".join(lines_) + end).encode()), scratch=[])


def record_edges():
    """Files whose bytes stand at the ends of addresses and at the load address, touch, and are given twice."""
    top, last = record(4, 0, [255, 255]), {"S1": record("S9", 0, []), "S3": record("S7", 0, [])}
    files = [[], [record(0, 5, [1])], [record(0, 5, [])], [top, record(0, 65535, [1])], [top, record(0, 65535, [1, 2])], [record(0, 65535, [1, 2])],
             [record(0, 5, [1]), record(0, 6, [2]), record(0, 8, [3])], [record(0, 5, [1, 2]), record(0, 6, [2])], [record(0, 6, [1, 2]), record(0, 5, [3])],
             [record(4, 0, [1, 2]), record(0, 3, [1]), record(4, 0, [0, 0]), record(0, 3, [4])]]
    made = [(0, x + [record(1, 0, [])]) for x in files]
    for k, far in (("S1", 65535), ("S3", 2 ** 32 - 1)):
        files = [[], [record(k, far, [1])], [record(k, far, [1, 2])], [record(k, far, [])], [record("S0", 0, [])], [record("S0", 3, [1])],
                 [record(k, 5, [1]), record(k, 6, [2]), record(k, 8, [3])], [record(k, 5, [1, 2]), record(k, 6, [2])]]
        made += [(1, x + [last[k]]) for x in files]
    return [read_so(f, load, x) for load in (0, 5, 6, 7) for f, x in made]


def read_edges():
    lent = [dict(bytes=[9] * n, offsets=[9] * m, sizes=[9] * k) for n, m, k in ((4, 2, 2), (3, 2, 2), (9, 1, 2), (9, 2, 1), (1, 1, 1), (0, 1, 1), (9, 9, 9))]
    return [dict(x, **y) for x in record_edges() for y in lent]


def srec(front, body):
    """An S-record of any count, its checksum right."""
    return front + bytes(body + [255 - sum(body) % 256]).hex().upper()


def bad_lines():
    """Lines that are bad in one thing, alone and behind a good one."""
    hexes = [":", ":1", ":10", ":G000000000", ":0G00000001", ":0g00000001", ":0000000001", ":0000000000", "x", record(0, 5, [1])[:-1] + "G", record(1, 0, [5])]
    hexes += [record(1, 5, []), record(1, 5, [1]), record(4, 0, []), record(4, 0, [1]), record(4, 0, [1, 2, 3]), record(4, 1, [0, 0]), record(2, 0, [0, 0])]
    hexes += [record(3, 0, []), record(5, 0, [])]
    srecs = ["S", "s1", "S10", "S103", "S105", "SG", "S1G3", "S1g3", "T1", srec("S1", [2, 0]), srec("S1", [1]), srec("S0", [3, 0, 0]), srec("S0", [2, 0])]
    srecs += [srec("S1", [3, 0, 0])[:-1], record("S1", 6, [1])[:-2] + "00", record("S9", 0, [])[:-2] + "00"]
    srecs += [srec("S%d" % digit, body) for digit in range(10) for body in ([3, 0, 0], [4, 0, 0, 0], [5, 0, 0, 0, 0], [6, 0, 0, 0, 0, 7])]
    end, last = record(1, 0, []), record("S9", 0, [])
    made = [read_so(0, 0, x, "") for line in hexes for x in ([line, end], [record(0, 5, [1]), line, end], [line])]
    return made + [read_so(1, 0, x, "") for line in srecs for x in ([line, last], [record("S1", 5, [1]), line, last], [record("S3", 5, [1]), line], [line])]


def reason_edges():
    """What two lines say together: the lowest address, bytes given twice, a width that was in force, lines behind the end record."""
    end, last, upper = record(1, 0, []), record("S9", 0, []), record(4, 0, [0, 1])
    hexes = [[record(0, 5, []), record(0, 9, [1])], [record(0, 5, [1]), record(0, 3, [1])], [upper, record(0, 5, [1]), record(0, 3, [2])],
             [record(4, 0, [255, 255]), record(0, 65530, [1]), record(0, 65500, [1] * 40)],
             [upper, record(0, 5, [1, 2]), record(0, 7, [1]), record(0, 4, [1, 2])], [upper, record(0, 5, [1]), record(4, 0, [0, 0]), record(0, 5, [1])]]
    srecs = [[record("S1", 5, []), record("S1", 9, [1])], [record("S1", 65530, [1]), record("S1", 65500, [1] * 40)],
             [record("S1", 65535, [1]), record("S3", 0, [1])], [record("S1", 5, [1]), record("S1", 3, [1, 2]), record("S1", 3, [3])], [last],
             [last, record("S1", 5, [1])]]
    made = [read_so(0, load, x + [end]) for load in (6, 65541, 2 ** 32 - 1, 2 ** 32) for x in hexes]
    made += [read_so(1, load, x + [last]) for load in (6, 65535, 65536) for x in srecs]
    return record_edges() + bad_lines() + made + [read_so(f, 0, [], "") for f in (0, 1)] + [read_so(0, 0, [end, end])]


EDGES = {
    "dk_build": table_edges,
    "dk_build_paged": past_last,
    "dk_profile": lambda: profile_edges() + table_edges(),
    "dk_map": past_last,
    "dk_form": file_edges,
    "dk_to_form2": convert_edges,
    "dk_to_form1": convert_edges,
    "dk_blocks": span_edges,
    "dk_offer": offer_edges,
    "dk_overlay_range": overlay_edges,
    "dk_overlay_runs": overlay_edges,
    "dk_verify": verify_edges,
    "dk_write_hex": write_edges,
    "dk_write_srec": srec_edges,
    "dk_read_records": read_edges,
    "dk_record_extent": record_edges,
    "dk_record_reason": reason_edges,
}


def edges(call):
    for edge in EDGES.get(call, lambda: ())():
        yield dict(MAKE[call](Random(call)), **edge)


if __name__ == "__main__":
    manners.part(__doc__)
