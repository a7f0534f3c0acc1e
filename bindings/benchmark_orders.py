"""Files of records whose lines ascend, descend or are shuffled, read by dk_read_records: how the instructions grow."""

import subprocess
from random import Random

from benchmark_count import Differ, instructions, manners, started

ORDERS = ("ascending", "descending", "shuffled")
SIZES = {"4 KiB": 4_096, "64 KiB": 65_536, "1 MiB": 1_048_576}
FORMATS = ("Intel HEX", "S-records")


def hex_line(kind, address, data):
    body = bytes([len(data), address >> 8 & 255, address & 255, kind]) + data
    return f":{(body + bytes([-sum(body) & 255])).hex().upper()}\n"


def srec_line(kind, address, data):
    body = bytes([len(data) + 5]) + address.to_bytes(4, "big") + data
    return f"S{kind}{(body + bytes([255 - sum(body) & 255])).hex().upper()}\n"


def text_of(made, bytes_each, size, order):
    """A file of `size` bytes from address 0 on, so many in each record; in Intel HEX a type 04 record wherever the upper half changes."""
    places = list(range(0, size, bytes_each))
    if order == "descending":
        places.reverse()
    if order == "shuffled":
        Random(size).shuffle(places)
    lines, upper = [], 0
    for place in places:
        data = bytes((place + i) % 251 for i in range(bytes_each))
        if made == "S-records":
            lines.append(srec_line(3, place, data))
            continue
        if place >> 16 != upper:
            upper = place >> 16
            lines.append(hex_line(4, 0, upper.to_bytes(2, "big")))
        lines.append(hex_line(0, place, data))
    return "".join(lines) + (hex_line(1, 0, b"") if made == "Intel HEX" else srec_line(7, 0, b""))


def order_rows(ours):
    yield "| records of | bytes | order | Intel HEX | times the row before | beside ascending | S-records | times the row before | beside ascending |"
    yield "|---|---|---|---|---|---|---|---|---|"
    with manners.room() as room:
        for bytes_each in (16, 1):
            first = {}
            for order in ORDERS:
                before = None
                for name, size in SIZES.items():
                    costs = [one(ours, room / "text", made, bytes_each, size, order) for made in FORMATS]
                    if order == "ascending":
                        first[name] = costs
                    cells = [f"{bytes_each} byte{'s' * (bytes_each > 1)}", name, order]
                    for k, cost in enumerate(costs):
                        cells += [f"{cost:,.0f}", f"{cost / before[k]:.1f}" if before else "", f"{cost / first[name][k]:.2f}"]
                    before = costs
                    yield f"| {' | '.join(cells)} |"


def one(ours, path, made, bytes_each, size, order):
    """Instructions of one call; what it reads must be the bytes, in one block."""
    path.write_text(text_of(made, bytes_each, size, order))
    wanted = f"0 1 {sum(i % 251 for i in range(size))}\n".encode()
    command = [str(ours / "orders_time"), str(FORMATS.index(made))]
    said = subprocess.run(started() + command + ["1", path], stdout=subprocess.PIPE, check=True).stdout
    if said != wanted:
        raise Differ(f"{made}, {size} bytes by {bytes_each}, {order}: {said.decode()} for {wanted.decode()}")
    return instructions(command + ["1", path])[0] - instructions(command + ["0", path])[0]


if __name__ == "__main__":
    manners.part(__doc__)
