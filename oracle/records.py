#!/usr/bin/env python3
"""Intel HEX and S-records once more, written from document 02's Tickets 1 and 12 alone: what is written, what is read, what is refused, and
which line is at fault.

    records.py --selftest     round trips on random images, and records from the formats' public descriptions
    records.py --batch        a request a line on standard input, its answer a line on standard output (oracle/README.md, "Records")

Kinds: `hex`, `s2` (S1 and S9), `s4` (S3 and S7); a reader of S-records, `srec`, finds the width itself. A number is a format that is neither: it reads
nothing, and the fault is at line 0.
"""
import random

import manners

MOST = 0xFFFF_FFFF          # the last address
HEX_BUFFER, BYTES_BUFFER, BLOCKS_BUFFER = 3, 0, 2


class Refused(Exception):
    def __init__(self, number, place=0):
        super().__init__(f"refused {number} {place}")
        self.number, self.place = number, place


class BadLine(Exception):
    """The first line at which no good file can go on, from 0."""

    def __init__(self, line):
        super().__init__(line)
        self.line = line


# Writing

def pieces(image, blocks, load):
    """(address, bytes) of each data record: 16 bytes, the rest of the block and the rest of the 64 KiB line, whichever is least."""
    for start, size in blocks:
        at, end = start // 8, (start + size) // 8
        while at < end:
            address = load + at
            n = min(16, end - at, 0x10000 - address % 0x10000)
            yield address, image[at:at + n]
            at += n


def check_blocks(image, blocks, load, last):
    for start, size in blocks:
        if size == 0 or start % 8 or size % 8 or start + size > 8 * len(image):
            raise Refused(16)
    reached = 0
    for start, size in blocks:
        if start < reached:
            raise Refused(4)
        reached = start + size
    for start, size in blocks:
        if load + (start + size) // 8 - 1 > last:
            raise Refused(4)


def hex_record(kind, address, data):
    body = bytes([len(data), address >> 8, address & 255, kind]) + bytes(data)
    return ":" + (body + bytes([-sum(body) % 256])).hex().upper() + "\n"


def s_record(digit, width, address, data):
    body = bytes([width + len(data) + 1]) + address.to_bytes(width, "big") + bytes(data)
    return f"S{digit}" + (body + bytes([255 - sum(body) % 256])).hex().upper() + "\n"


def write_hex(image, blocks, load):
    check_blocks(image, blocks, load, MOST)
    text, upper = "", 0
    for address, data in pieces(image, blocks, load):
        if address >> 16 != upper:
            upper = address >> 16
            text += hex_record(4, 0, upper.to_bytes(2, "big"))
        text += hex_record(0, address & 0xFFFF, data)
    return (text + hex_record(1, 0, b"")).encode()


def write_srec(image, blocks, load, width):
    try:
        check_blocks(image, blocks, load, 256 ** width - 1 if width in (2, 4) else MOST)
    except Refused as r:
        if r.number == 16:
            raise
    else:
        if width in (2, 4):
            data, end = {2: (1, 9), 4: (3, 7)}[width]
            text = "".join(s_record(data, width, a, d) for a, d in pieces(image, blocks, load))
            return (text + s_record(end, width, 0, b"")).encode()
    raise Refused(4)


def write(kind, image, blocks, load, room, width=None):
    text = write_hex(image, blocks, load) if kind == "hex" else write_srec(image, blocks, load, width)
    if len(text) > room:
        raise Refused(14, HEX_BUFFER)
    return text


# Reading

def lines_of(text):
    """Each line without its end. A line ends at LF, CR LF or the end of the text."""
    at = 0
    while at < len(text):
        end = text.find(b"\n", at)
        if end < 0:
            yield text[at:]
            return
        yield text[at:end - 1] if end > at and text[end - 1] == 13 else text[at:end]
        at = end + 1


def digits(text):
    """The bytes that pairs of hexadecimal digits say, or None."""
    if len(text) % 2 or any(c not in b"0123456789abcdefABCDEF" for c in text):
        return None
    return bytes(int(text[i:i + 2], 16) for i in range(0, len(text), 2))


class File:
    """What a file gives: its bytes by address; the last address that its records may have."""

    def __init__(self, load):
        self.load, self.given, self.ended = load, {}, False

    def give(self, address, data, last):
        for i, b in enumerate(data):
            a = address + i
            if a < self.load or a > last or a in self.given:
                return False
            self.given[a] = b
        return True


class HexFile(File):
    upper = 0

    def line(self, text):
        record = digits(text[1:]) if text[:1] == b":" else None
        if record is None or len(record) < 5 or len(record) != record[0] + 5 or sum(record) % 256:
            return False
        address, kind, data = record[1] * 256 + record[2], record[3], record[4:-1]
        if kind == 0:
            return self.give(self.upper * 65536 + address, data, MOST)
        if kind == 1 and not data and address == 0:
            self.ended = True
            return True
        if kind == 4 and len(data) == 2 and address == 0:
            self.upper = data[0] * 256 + data[1]
            return True
        return False


class SrecFile(File):
    width = None

    def line(self, text):
        record = digits(text[2:]) if text[:1] in (b"S", b"s") else None
        if not record or len(record) != record[0] + 1 or sum(record) % 256 != 255:
            return False
        known = {b"0": 2, b"1": 2, b"3": 4, b"7": 4, b"9": 2}
        kind = text[1:2]
        if kind not in known or record[0] < known[kind] + 1:
            return False
        if kind == b"0":
            return True
        width = known[kind]
        if self.width not in (None, width):
            return False
        self.width = width
        address, data = int.from_bytes(record[1:1 + width], "big"), record[1 + width:-1]
        if kind in b"13":
            return self.give(address, data, 256 ** width - 1)
        self.ended = True
        return not data


def parse(kind, text, load):
    """The bytes by address, or BadLine."""
    if kind.isdigit():
        raise BadLine(0)
    file = HexFile(load) if kind == "hex" else SrecFile(load)
    n = 0
    for n, line in enumerate(lines_of(text), 1):
        if file.ended or not file.line(line):
            raise BadLine(n - 1)
    if not file.ended:
        raise BadLine(n)
    return file.given


def runs(addresses):
    """[first, count] of each maximal run."""
    out = []
    for a in sorted(addresses):
        if out and out[-1][0] + out[-1][1] == a:
            out[-1][1] += 1
        else:
            out.append([a, 1])
    return out


def read(kind, text, load, lent, starts, sizes):
    """Count of blocks, and the lent bytes and lists afterwards."""
    try:
        given = parse(kind, text, load)
    except BadLine:
        raise Refused(4) from None
    if given and max(given) - load >= len(lent):
        raise Refused(14, BYTES_BUFFER)
    blocks = [(8 * (a - load), 8 * n) for a, n in runs(given)]
    if len(blocks) > min(len(starts), len(sizes)):
        raise Refused(14, BLOCKS_BUFFER)
    lent, starts, sizes = bytearray(lent), list(starts), list(sizes)
    for a, b in given.items():
        lent[a - load] = b
    for i, (start, size) in enumerate(blocks):
        starts[i], sizes[i] = start, size
    return len(blocks), bytes(lent), starts, sizes


def fault(kind, text, load):
    """The line at fault, or None."""
    try:
        parse(kind, text, load)
    except BadLine as b:
        return b.line
    return None


def extent(kind, text):
    """The lowest address that a file gives and the one behind the highest, zeros where it gives none."""
    try:
        given = parse(kind, text, 0)
    except BadLine:
        raise Refused(4) from None
    return (min(given), max(given) + 1) if given else (0, 0)


# The lines of a comparison

def shown(numbers):
    return ",".join(map(str, numbers)) or "-"


def listed(word):
    return [] if word == "-" else [int(x) for x in word.split(",")]


def octets(word):
    return b"" if word == "-" else bytes.fromhex(word)


def lent_list(n, salt):
    """What a lent list of n holds before a call."""
    return [1_000_003 * (i + 1) + salt for i in range(n)]


def answer(line):
    words = line.split()
    if words[0] == "write":
        kind, width, load, image, starts, sizes, room = words[1:]
        lent = bytes([0xA5]) * int(room)
        blocks = list(zip(listed(starts), listed(sizes)))
        try:
            text = write(kind, octets(image), blocks, int(load), int(room), int(width))
        except Refused as r:
            return f"{r} {lent.hex() or '-'}"
        return f"ok {len(text)} {(text + lent[len(text):]).hex() or '-'}"
    if words[0] == "read":
        kind, load, lent, count, text = words[1:]
        lent, starts, sizes = octets(lent), lent_list(int(count), 1), lent_list(int(count), 2)
        try:
            got, lent, starts, sizes = read(kind, octets(text), int(load), lent, starts, sizes)
            told = f"ok {got}"
        except Refused as r:
            told = str(r)
        return f"{told} {lent.hex() or '-'} {shown(starts)} {shown(sizes)}"
    if words[0] == "fault":
        kind, load, text = words[1:]
        line = fault(kind, octets(text), int(load))
        return "good" if line is None else f"line {line}"
    if words[0] == "extent":
        try:
            return "ok %d %d" % extent(words[1], octets(words[2]))
        except Refused as r:
            return str(r)
    if words[0] == "reason":
        import reasons  # which stands on this module
        kind, load, text = words[1:]
        return "reason " + " ".join(map(str, reasons.reason(kind, octets(text), int(load))))
    raise SystemExit(f"records.py: {line!r}?")


# Self-checks

def random_case(rng, width=4):
    """An image, blocks within it, a load address: what every writer accepts."""
    top = 256 ** width
    image = rng.randbytes(rng.choice((0, 1, 5, 16, 17, 40, 100, 300)))
    blocks, at = [], 0
    while at < len(image) and len(blocks) < 6:
        at += rng.choice((0, 0, 1, 3, 20))
        n = min(rng.choice((1, 2, 15, 16, 17, 33, 64)), len(image) - at)
        if n > 0:
            blocks.append((8 * at, 8 * n))
            at += n
    corner = rng.choice((0, 1, 0xFF, 0xFFF0, 0x10000, 0x1FFF8, top - len(image), top - len(image) - rng.randrange(40)))
    return image, blocks, max(0, min(corner - rng.choice((0, 0, 7, 16, 100)), top - len(image)))


VECTORS = [
    # Intel's Hexadecimal Object File Format Specification, revision A, 1988: data, extended linear address, end of file
    ("hex", b":10246200464C5549442050524F46494C4500464C33\n:00000001FF\n", 0x2462, b"FLUID PROFILE\0FL"),
    ("hex", b":02000004FFFFFC\n:04001000AABBCCDDDE\n:00000001FF\n", 0xFFFF0010, bytes.fromhex("AABBCCDD")),
    # Motorola's S-record description (the manual page srec(5) of Unix System V)
    ("srec", b"S00600004844521B\nS1130000285F245F2212226A000424290008237C2A\nS11300100002000800082629001853812341001813\n"
     b"S113002041E900084E42234300182342000824A952\nS107003000144ED492\nS9030000FC\n", 0,
     bytes.fromhex("285F245F2212226A000424290008237C" "00020008000826290018538123410018" "41E900084E42234300182342000824A9" "00144ED4")),
]


def check(told, got, wanted):
    if got != wanted:
        raise SystemExit(f"records.py: {told}: {got!r}, not {wanted!r}")


def selftest_vectors():
    for kind, text, first, data in VECTORS:
        check(text, parse(kind, text, 0), {first + i: b for i, b in enumerate(data)})
        check(text, parse(kind, text.lower().replace(b"\n", b"\r\n"), 0), {first + i: b for i, b in enumerate(data)})
        again = write("hex" if kind == "hex" else "srec", data, [(0, 8 * len(data))], first, 999, 2)
        check(text, b"".join(again.splitlines()[-2:]), b"".join(text.splitlines()[-2:]))
    good = b":0100000041BE\n"
    end = b":00000001FF\n"
    for text, line in ((b"", 0), (good, 1), (good + b"\n" + end, 1), (good + end + end, 2), (good + end + b"\n", 2), (end, None),
                       (good + good + end, 1), (end[:-1], None), (end[:-1] + b"\r", 0), (b" " + end, 0), (b":00000001ff\r\n", None),
                       (good[:-1] + b"\r\n" + end, None), (good[:-1] + b"\r\r\n" + end, 0), (b":0000000000\n" + end, None),
                       (b":00FFFF0002\n" + end, None), (b":020000040001F8\n" + end, 0), (b":020000040001F9\n" + end, None),
                       (b":020000020001FB\n" + end, 0), (b":0000010100\n", 0), (b":00000101FE\n", 0)):
        check(text, fault("hex", text, 0), line)
    check("load", fault("hex", b":0100050041B9\n" + end, 6), 0)
    check("load", fault("hex", b":0100050041B9\n" + end, 5), None)
    past = b":02000004FFFFFC\n:02FFFF00AABB9B\n" + end
    check("past", fault("hex", past, 0), 1)
    over = hex_record(0, 0xFFFF, b"\x01\x02").encode() + end
    check("over", parse("hex", over, 0), {0xFFFF: 1, 0x10000: 2})
    check("extent", (extent("hex", over), extent("hex", b":00FFFF0002\n" + end)), ((0xFFFF, 0x10001), (0, 0)))
    s1, s9, s3, s7, s0 = (s_record(d, w, 0, x).encode() for d, w, x in ((1, 2, b"A"), (9, 2, b""), (3, 4, b"A"), (7, 4, b""), (0, 2, b"HDR")))
    for text, line in ((s1 + s9, None), (s3 + s7, None), (s1 + s7, 1), (s3 + s9, 1), (s1 + s3 + s7, 1), (s0 + s1 + s0 + s9, None), (s9, None),
                       (s7, None), (s1 + s9 + s0, 2), (s0, 1), (s_record(5, 2, 1, b"").encode() + s9, 0), (s_record(2, 3, 0, b"A").encode(), 0),
                       (s_record(9, 2, 0, b"A").encode(), 0), (s_record(9, 2, 0x1234, b"").encode(), None), (s_record(0, 1, 0, b"").encode() + s9, 0),
                       (s_record(1, 2, 0xFFFF, b"AB").encode() + s9, 0), (s_record(1, 2, 0xFFFF, b"A").encode() + s9, None),
                       (s1.lower() + s9, None)):
        check(text, fault("srec", text, 0), line)


def selftest_round_trips(count):
    rng = random.Random(1)
    for _ in range(count):
        width = rng.choice((2, 4))
        image, blocks, load = random_case(rng, width)
        wanted = {load + a: image[a] for s, n in blocks for a in range(s // 8, (s + n) // 8)}
        joined = [(8 * a, 8 * n) for a, n in runs(a - load for a in wanted)]
        for kind, text in (("hex", write_hex(image, blocks, load)), ("srec", write_srec(image, blocks, load, width))):
            check("bytes", parse(kind, text, load), wanted)
            lent = bytes([0xEE]) * len(image)
            n, got, starts, sizes = read(kind, text, load, lent, lent_list(9, 1), lent_list(9, 2))
            check("blocks", list(zip(starts, sizes))[:n], joined)
            check("gaps", got, bytes(wanted.get(load + i, 0xEE) for i in range(len(image))))
            check("upper case", text, text.upper())
        check("as hex", write_hex(got, joined, load), write_hex(image, joined, load))


def main():
    parser = manners.parser(__doc__)
    what = parser.add_mutually_exclusive_group(required=True)
    what.add_argument("--batch", action="store_true")
    what.add_argument("--selftest", action="store_true")
    asked = parser.parse_args()
    if asked.selftest:
        selftest_vectors()
        selftest_round_trips(3000)
        print("records.py: the public descriptions' records and 3,000 round trips of each format")
        return
    for number, line in enumerate(manners.given().decode().splitlines(), 1):
        try:
            said = answer(line)
        except (ValueError, IndexError, KeyError):
            raise manners.Stop(f"line {number} of standard input is no request") from None
        print(said)


if __name__ == "__main__":
    manners.run(main)
