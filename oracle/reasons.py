#!/usr/bin/env python3
"""Why a file of records is bad, written from the table in include/denkumari.h: the reason, the line, from 0, and the reason's two numbers.

    reasons.py hex|srec LOAD <FILE    prints the four numbers; zeros of a good file
"""
import manners
import records

NO_START, NO_DIGIT, LENGTH, COUNT, CHECKSUM, TYPE, WIDTH, FIELD, PAST, BELOW, TWICE, BEHIND, NO_END = range(1, 14)
DIGITS = b"0123456789abcdefABCDEF"


def in_line(kind, state, line):
    """What is wrong with a line by itself, or None; and of a good data line its address, its bytes and the last address."""
    hexed = kind == "hex"
    if line[:1] not in ((b":",) if hexed else (b"S", b"s")):
        return (NO_START, 0, 0), None
    start = 1 if hexed else 2
    for place in range(start, len(line)):
        if line[place] not in DIGITS:
            return (NO_DIGIT, place, line[place]), None
    other = 5 if hexed else 1
    count = int(line[start:start + 2], 16) if len(line) >= start + 2 else (0 if hexed else 3)
    if len(line) != start + 2 * (other + count):
        return (LENGTH, len(line), start + 2 * (other + count)), None
    if not hexed and count < 3:
        return (COUNT, count, 3), None
    record = bytes.fromhex(line[start:].decode())
    wanted = (-sum(record[:-1]) if hexed else 255 - sum(record[:-1])) % 256
    if record[-1] != wanted:
        return (CHECKSUM, record[-1], wanted), None
    if hexed:
        return hex_type(state, count, record)
    return srec_type(state, count, line[1:2], record)


def hex_type(state, count, record):
    field = record[1] * 256 + record[2]
    if record[3] == 0:
        return None, (65536 * (state or 0) + field, record[4:-1], records.MOST)
    if record[3] not in (1, 4):
        return (TYPE, record[3], 0), None
    wanted = 0 if record[3] == 1 else 2
    if count != wanted:
        return (COUNT, count, wanted), None
    return ((FIELD, field, 0), None) if field else (None, None)


def srec_type(state, count, digit, record):
    widths = {b"0": 2, b"1": 2, b"3": 4, b"7": 4, b"9": 2}
    if digit not in widths:
        return (TYPE, digit[0], 0), None
    width = widths[digit]
    if digit != b"0" and state not in (None, width):
        return (WIDTH, width, state), None
    if count < width + 1 or digit in b"79" and count > width + 1:
        return (COUNT, count, width + 1), None
    data = (int.from_bytes(record[1:1 + width], "big"), record[1 + width:-1], 256 ** width - 1)
    return None, data if digit in b"13" else None


def after(kind, state, line):
    """The upper half or the width in force behind a line."""
    wrong, data = in_line(kind, state, line)
    if wrong:
        return state
    if kind == "hex":
        return int(line[9:13], 16) if int(line[7:9], 16) == 4 else state
    return len(hex(data[2])[2:]) // 2 if data and data[0] + len(data[1]) - 1 <= data[2] else state


def reason(kind, text, load):
    """(reason, line, first, second)"""
    at = records.fault(kind, text, load)
    if at is None:
        return 0, 0, 0, 0
    lines = list(records.lines_of(text))
    if at > 0 and ends(kind, lines[at - 1]):
        return BEHIND, at, 0, 0
    if at == len(lines):
        return NO_END, at, 0, 0
    state, given = None, []
    for line in lines:
        given.append(None if len(given) == at else in_line(kind, state, line)[1])
        if len(given) == at + 1:
            wrong, data = in_line(kind, state, line)
            if wrong:
                return wrong[0], at, *wrong[1:]
            given[at] = data
        state = after(kind, state, line)
    return in_place(load, at, given)


def ends(kind, line):
    return line[7:9] == b"01" if kind == "hex" else line[1:2] in b"79"


def in_place(load, at, given):
    """What is wrong with where the bytes of line `at` go."""
    address, data, last = given[at]
    if address + len(data) - 1 > last:
        return PAST, at, address + len(data) - 1, last
    if address < load:
        fits = [g for g in given if g and g[1] and (g[2] == records.MOST or g[0] + len(g[1]) - 1 <= g[2])]
        return BELOW, at, address, min(g[0] for g in fits)
    own = range(address, address + len(data))
    for i in range(at):
        if given[i] and any(a in own for a in range(given[i][0], given[i][0] + len(given[i][1]))):
            return TWICE, at, i, max(address, given[i][0])
    raise AssertionError("no reason")


def main():
    words = manners.parser(__doc__)
    words.add_argument("kind", choices=("hex", "srec"))
    words.add_argument("load", type=manners.count)
    asked = words.parse_args()
    print(*reason(asked.kind, manners.given(), asked.load))


if __name__ == "__main__":
    manners.run(main)
