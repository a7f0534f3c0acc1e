#!/usr/bin/env python3
"""Good and damaged files of records through a program over the built library, each answer and all that was lent compared with records.py.

    damage.py COMMAND [--every N] [--random N] [--writes N] [--seed N]
    damage.py --requests [..]      writes the requests instead; records.py --batch and COMMAND read them

COMMAND reads a request a line and writes an answer a line (README.md, "Records"). --every: so many good files have every single byte changed to every
other value (default 3); --random: so many damages drawn from the seed (100,000); --writes: so many calls that write (20,000).
"""
import random
import shlex
import subprocess

import manners
import records

BYTES, LISTS = 64, 6


def good_files():
    """Small files of each kind: gaps, touching blocks, a 64 KiB line that is crossed, records that descend, every line end."""
    image = bytes(range(0xF0, 0x100)) + bytes(range(24))
    blocks = [(0, 8), (8, 16), (80, 136)]
    yield "hex", 0xFFF8, records.write_hex(image, blocks, 0xFFF8)
    yield "srec", 0xFFD0, records.write_srec(image, blocks, 0xFFD0, 2)
    yield "srec", 0xFFF8, records.write_srec(image, blocks, 0xFFF8, 4)
    descending = records.hex_record(0, 8, b"ab") + records.hex_record(0, 4, b"cd") + records.hex_record(0, 6, b"e") + records.hex_record(0, 7, b"f")
    yield "hex", 4, (descending + records.hex_record(1, 0, b"")).replace("\n", "\r\n").encode()
    headed = records.s_record(0, 2, 0, b"HDR") + records.s_record(1, 2, 9, b"z") + records.s_record(1, 2, 2, b"xy") + records.s_record(9, 2, 2, b"")
    yield "srec", 2, headed.lower().encode()


def read_request(kind, load, text, rng=None):
    lent = BYTES if rng is None else rng.choice((BYTES, BYTES, BYTES, 40, 8, 0))
    lists = LISTS if rng is None else rng.choice((LISTS, LISTS, LISTS, 2, 1, 0))
    return f"read {kind} {load} {bytes(range(100, 100 + lent)).hex() or '-'} {lists} {text.hex() or '-'}"


def requests_for(kind, load, text, rng=None):
    yield read_request(kind, load, text, rng)
    yield f"fault {kind} {load} {text.hex() or '-'}"
    yield f"reason {kind} {load} {text.hex() or '-'}"
    yield f"extent {kind} {text.hex() or '-'}"


def every_byte(files):
    for kind, load, text in files:
        for at in range(len(text)):
            for value in range(256):
                if value != text[at]:
                    yield from requests_for(kind, load, text[:at] + bytes([value]) + text[at + 1:])


def random_good(rng):
    """A good file of any shape: records in any order, empty ones, mixed case, both line ends."""
    kind, load = rng.choice(("hex", "srec")), rng.choice((0, 0, 5, 0xFFF0, 0x1FFF0))
    width = rng.choice((2, 4))
    lines, at = [], load
    for _ in range(rng.randrange(6)):
        at += rng.choice((0, 0, 0, 1, 5))
        data = rng.randbytes(rng.choice((0, 1, 2, 8, 16, 17)))
        if kind == "hex":
            lines.append((at, data))
        else:
            at %= 256 ** width - 20
            lines.append((at, data))
        at += len(data)
    if rng.randrange(3) == 0:
        rng.shuffle(lines)
    out, upper = [], 0
    for address, data in lines:
        if kind == "hex":
            if address >> 16 != upper or rng.randrange(8) == 0:
                upper = address >> 16
                out.append(records.hex_record(4, 0, upper.to_bytes(2, "big")))
            out.append(records.hex_record(0, address & 0xFFFF, data))
        else:
            if rng.randrange(6) == 0:
                out.append(records.s_record(0, 2, rng.randrange(65536), rng.randbytes(rng.randrange(4))))
            out.append(records.s_record({2: 1, 4: 3}[width], width, address, data))
    out.append(records.hex_record(1, 0, b"") if kind == "hex" else records.s_record({2: 9, 4: 7}[width], width, rng.choice((0, 99)), b""))
    ends = [rng.choice(("\n", "\n", "\r\n")) for _ in out]
    cased = [line[:-1] if rng.randrange(3) else line[:-1].lower() for line in out]
    if rng.randrange(5) == 0:
        ends[-1] = ""
    return kind, load, "".join(c + e for c, e in zip(cased, ends)).encode()


def sound_again(kind, line, rng):
    """The line with a field changed and its checksum made right again."""
    head = 1 if kind == "hex" else 2
    record = records.digits(line[head:].rstrip(b"\r\n"))
    if not record or len(record) < 3:
        return line
    body = bytearray(record[:-1])
    body[rng.randrange(min(len(body), 6))] = rng.choice((0, 1, 2, 3, 4, 5, 16, 255, rng.randrange(256)))
    check = -sum(body) % 256 if kind == "hex" else 255 - sum(body) % 256
    return line[:head] + (body + bytes([check])).hex().upper().encode() + b"\n"


def damaged(rng):
    kind, load, text = random_good(rng)
    for _ in range(rng.choice((0, 1, 1, 1, 2))):
        lines = text.splitlines(keepends=True) or [b""]
        i = rng.randrange(len(lines))
        way = rng.randrange(9)
        if way == 0:
            at = rng.randrange(len(text) + 1)
            text = text[:at] + bytes([rng.choice((rng.randrange(256), 10, 13, 32, 48, 58, 70, 83))]) + text[at + 1:]
        elif way == 1:
            at = rng.randrange(len(text) + 1)
            text = text[:at] + rng.choice((b"\n", b"\r", b" ", b":", b"S", b"0", b"00")) + text[at:]
        elif way == 2:
            at = rng.randrange(len(text) + 1)
            text = text[:at] + text[at + rng.choice((1, 2)):]
        elif way == 3:
            text = text[:rng.randrange(len(text) + 1)]
        elif way == 4:
            lines.insert(rng.randrange(len(lines) + 1), lines[i])
            text = b"".join(lines)
        elif way == 5:
            del lines[i]
            text = b"".join(lines)
        elif way == 6:
            load = rng.choice((min(load + 1, 0xFFFF_FFFF), min(load + 3, 0xFFFF_FFFF), 0, 0xFFFF_FFFF))
        else:
            lines[i] = sound_again(kind, lines[i], rng)
            text = b"".join(lines)
    return kind, load, text


def random_write(rng):
    width = rng.choice((2, 2, 4, 4, 4, 0, 3))
    image, blocks, load = records.random_case(rng, 2 if width == 2 else 4)
    image, blocks = image[:200], [list(b) for b in blocks if b[0] + b[1] <= 1600]
    for _ in range(rng.choice((0, 0, 0, 1))):
        if blocks:
            b = rng.choice(blocks)
            b[rng.randrange(2)] += rng.choice((-8, -1, 1, 8, 8 * len(image)))
            b[0], b[1] = max(b[0], 0), max(b[1], 0)
            if rng.randrange(3) == 0:
                rng.shuffle(blocks)
    if rng.randrange(12) == 0:
        load = rng.choice((0xFFFF, 0xFFFF_FFFF, 0xFFFF_FFF0, 0xFF00))
    kind = rng.choice(("hex", "srec"))
    try:
        need = len(records.write(kind, image, blocks, load, 1 << 30, width))
    except records.Refused:
        need = 40
    room = max(0, need + rng.choice((0, 0, 3, -1, 20)))
    starts, sizes = ([b[i] for b in blocks] for i in (0, 1))
    return f"write {kind} {width} {load} {image.hex() or '-'} {records.shown(starts)} {records.shown(sizes)} {room}"


def requests(options):
    files = list(good_files())
    for kind, load, text in files:
        yield from requests_for(kind, load, text)
        for neither in ("2", "255"):
            yield read_request(neither, load, text)
            yield f"fault {neither} {load} {text.hex()}"
    yield from every_byte(files[:options.every])
    rng = random.Random(options.seed)
    for _ in range(options.random):
        yield from requests_for(*damaged(rng), rng)
    for _ in range(options.writes):
        yield random_write(rng)


def main():
    words = manners.parser(__doc__)
    words.add_argument("command", nargs="?")
    words.add_argument("--requests", action="store_true")
    for name, value in (("every", 3), ("random", 100_000), ("writes", 20_000), ("seed", 1)):
        words.add_argument("--" + name, type=manners.count, default=value)
    options = words.parse_args()
    if options.requests:
        for line in requests(options):
            print(line)
        return
    if not options.command:
        words.error("which command?")
    asked = list(requests(options))
    run = subprocess.run(shlex.split(options.command), input="\n".join(asked) + "\n", capture_output=True, text=True, check=False)
    answers = run.stdout.splitlines()
    tally = {}
    for line, got in zip(asked, answers):
        wanted = records.answer(line)
        if got != wanted:
            raise SystemExit(f"damage.py: {line}\n  the model:   {wanted}\n  the program: {got}")
        words = wanted.split()
        key = line.split()[0] + " " + (" ".join(words[:3]) if words[0] == "refused" else words[0])
        tally[key] = tally.get(key, 0) + 1
    if run.returncode or len(answers) != len(asked):
        raise SystemExit(f"damage.py: status {run.returncode}, {len(answers)} answers to {len(asked)} requests: {run.stderr[-300:]}")
    print(f"damage.py: {len(asked)} calls, each answer the model's and every lent byte: " + ", ".join(f"{k} {n}" for k, n in sorted(tally.items())))


if __name__ == "__main__":
    manners.run(main)
