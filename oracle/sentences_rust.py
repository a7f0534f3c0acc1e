#!/usr/bin/env python3
"""The sentences as a side of oracle/compare.py: files from standard input, each behind four bytes of length, and a line for each (oracle/README.md).

    oracle/compare.py --other oracle/sentences_rust.py --cases N

So the sentences and the Rust stand beside each other with no other code of ours between them. --try reads the words and does nothing else."""
import sys
from pathlib import Path

sys.dont_write_bytecode = True
ROOT = Path(__file__).resolve().parent.parent
sys.path.insert(0, str(ROOT / "tools"))

import manners  # noqa: E402
from sentences import layouts  # noqa: E402
from sentences.calls import Call  # noqa: E402
from sentences.running import deep  # noqa: E402

NONE = 18_446_744_073_709_551_615


class Side:
    def __init__(self):
        self.form, self.blocks = Call("dk_form", ROOT / "crates"), Call("dk_blocks", ROOT / "crates")

    def parts(self, call, inputs):
        outcomes = call.outcomes(inputs)
        if len(outcomes) != 1:
            raise manners.Stop("the sentences of %s leave %d outcomes" % (call.name, len(outcomes)))
        return call.parts(outcomes[0])

    def line(self, file):
        laid = layouts.Layout(None, file, call=self.form)
        if len(laid.outcomes) != 1:
            raise manners.Stop("the sentences of a layout leave %d outcomes" % len(laid.outcomes))
        a, (image, addresses, offsets, sizes) = laid.answer, laid.lent
        if a["refusal"]:
            places = [a["place"], a["second"]] if a["refusal"] in (3, 12) else [a["place"]]
            return " ".join(["refused", str(a["refusal"])] + list(map(str, places)) + (["passes", str(a["passes"])] if a["refusal"] > 4 else []))
        n, length = a["spans"], a["length"]
        hexed = bytes(image[:-(-length // 8)]).hex()[:-(-length // 4)] or "-"
        spans = ",".join("%d:%s:%d" % (x, "-" if o == NONE else o, s) for x, o, s in zip(addresses[:n], offsets, sizes)) or "-"
        count, starts, lengths = self.parts(self.blocks, dict(offsets=offsets[:n], sizes=sizes[:n], block_offsets=[0] * n, block_sizes=[0] * n))
        blocks = ",".join("%d:%d" % b for b in list(zip(starts, lengths))[:count["count"]]) or "-"
        return "ok %d %d %d %s | spans %s | blocks %s" % (a["k"], a["passes"], length, hexed, spans, blocks)


def batched(given):
    at = 0
    while at < len(given):
        n = int.from_bytes(given[at:at + 4], "big")
        yield given[at + 4:at + 4 + n]
        at += 4 + n


def main():
    p = manners.parser(__doc__)
    p.add_argument("--try", action="store_true", dest="only")
    if not p.parse_args().only:
        side, given = Side(), manners.given()
        deep(lambda: [print(side.line(file)) for file in batched(given)])


if __name__ == "__main__":
    manners.run(main)
