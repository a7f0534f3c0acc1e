#!/usr/bin/env python3
"""Every order of some offers, on a small line of bits and with small capacities: orders.py [--bits N] [--offers N] [--capacity N]

Holds document 02's Ticket 11 against the model's store (oracle/model.py): of every list of offers that is accepted as a whole in one order, every
reordering is accepted as a whole and leaves the same intervals and marks. Also that the definition in words says the same: an order is accepted as a whole
exactly when no two offers share a bit, no empty one is strictly inside another, and there are no more of either kind than fit."""

import sys
from itertools import combinations_with_replacement, permutations

import manners
import model


def outcome(offers):
    """The intervals and marks that are stored, or None where an offer is refused."""
    store = model.Store()
    try:
        for node, (position, size) in enumerate(offers):
            store.offer(position, size, node)
    except model.Refused:
        return None
    return tuple(store.starts), tuple(store.ends), tuple(store.marks)


def clash(a, b):
    inside = lambda mark, block: mark[1] == 0 and block[0] < mark[0] < block[0] + block[1]
    shares = a[1] and b[1] and max(a[0], b[0]) < min(a[0] + a[1], b[0] + b[1])
    return shares or inside(a, b) or inside(b, a)


def fits(offers, capacity):
    empty = sum(size == 0 for _, size in offers)
    apart = all(not clash(a, b) for i, a in enumerate(offers) for b in offers[:i])
    return apart and empty <= capacity and len(offers) - empty <= capacity


def main():
    parser = manners.parser(__doc__)
    parser.add_argument("--bits", type=manners.count, default=4)
    parser.add_argument("--offers", type=manners.count, default=5)
    parser.add_argument("--capacity", type=manners.count, default=2)
    asked = parser.parse_args()
    model.MAX_STORED = asked.capacity
    line = [(position, size) for position in range(asked.bits + 1) for size in range(asked.bits - position + 1)]
    lists = orders = wrong = 0
    for count in range(asked.offers + 1):
        for offers in combinations_with_replacement(line, count):
            found = {outcome(order) for order in set(permutations(offers))}
            lists += 1
            orders += len(set(permutations(offers)))
            if fits(offers, asked.capacity) != (len(found) == 1 and None not in found) or not fits(offers, asked.capacity) and found != {None}:
                wrong += 1
                print(f"wrong: {offers}")
    print(f"{lists} lists, {orders} orders, {wrong} wrong")
    sys.exit(1 if wrong else 0)


if __name__ == "__main__":
    manners.run(main)
