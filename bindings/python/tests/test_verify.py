"""Read-back: every bit that is turned, and every byte that is not given, is found at its node, bank and address."""
import io
import re
import tempfile
import unittest
from pathlib import Path

from .common import EXAMPLES, HOW_MANY, ROOT, draw, refusal, some_layout
from denkumari import Block, Layout, Records, _verify, read_records, verify, write_hex

FILLS = ("inherited", "full")


def bits(data, offset, count):
    return int.from_bytes(data, "big") >> (8 * len(data) - offset - count) & ((1 << count) - 1)


def without(data, load, gone):
    """Intel HEX of some bytes but for those at these places."""
    blocks = [Block(8 * i, 8) for i in range(len(data)) if i not in gone]
    return write_hex(data, load, blocks)


def runs(image, blocks, data, given):
    """What dk_verify answers: blocks on byte edges, ascending, inside their bytes."""
    asked, kinds = bytearray(len(image)), bytearray(len(image))
    for offset, count in blocks:
        asked[offset // 8:(offset + count) // 8] = kinds[offset // 8:(offset + count) // 8] = b"\1" * (count // 8)
    for offset, count in given:
        for at in range(offset // 8, min((offset + count) // 8, len(image))):
            kinds[at] = 2 if asked[at] and image[at] != data[at] else 0
    return [(found.start(), found.end() - found.start(), kinds[found.start()]) for found in re.finditer(b"\1+|\2+", kinds)]


class Verify(unittest.TestCase):
    def test_random(self):
        rng, found = draw("verify"), 0
        for _ in range(HOW_MANY):
            layout, _ = some_layout(rng)
            fill, load = rng.choice(FILLS), rng.choice([0, 0x100, 0xFFF0])
            if refusal(layout.build, fill) or not layout.build(fill).image:
                continue
            built = layout.build(fill)
            self.assertTrue(verify(layout, built.to_hex(load, True), load, True, fill).same)
            self.one_bit(rng, layout, built, fill, load)
            self.one_byte(rng, layout, built, fill, load)
            found += 1
        self.assertGreater(found, HOW_MANY // 5)

    def test_blocks(self):
        """Without `whole` a turned bit is told exactly where its byte has a bit of an item."""
        rng, seen = draw("blocks"), set()
        for _ in range(HOW_MANY):
            layout, _ = some_layout(rng)
            if refusal(layout.build) or not layout.build().length:
                continue
            built = layout.build()
            at, wrong = rng.randrange(built.length), bytearray(built.image)
            wrong[at >> 3] ^= 0x80 >> at % 8
            asked = any(offset < at // 8 * 8 + 8 and at // 8 * 8 < offset + bits for offset, bits in built.blocks)
            result = verify(layout, Records.from_bytes(wrong, 7), 7)
            self.assertEqual((result.runs, len(result)), ([(7 + at // 8, 1, "different")], 1) if asked else ([], 0))
            for bit in (bit for word in result for bit in range(word.offset, word.offset + word.bits)):
                self.assertTrue(any(offset // 8 <= bit // 8 <= (offset + bits - 1) // 8 for offset, bits in built.blocks))
            seen.add(asked)
        self.assertEqual(seen, {True, False})

    def one_bit(self, rng, layout, built, fill, load):
        at, wrong = rng.randrange(built.length), bytearray(built.image)
        wrong[at >> 3] ^= 0x80 >> at % 8
        result = verify(layout, Records.from_bytes(wrong, load), load, True, fill)
        self.assertEqual(result.runs, [(load + at // 8, 1, "different")])
        self.assertEqual(len(result), 1)
        word = result.differences[0]
        self.assertTrue(word.offset <= at < word.offset + word.bits)
        self.assertEqual(word.expected ^ word.read, 1 << (word.offset + word.bits - 1 - at))
        self.assertEqual(word.expected, bits(built.image, word.offset, word.bits))
        self.owner(layout, fill, load, word, at)

    def owner(self, layout, fill, load, word, at):
        """The node that has the bit, and the address of its word, reckoned again from the map."""
        owners = [p for p in layout.map(fill) if p.kind.placed and p.bits and p.output is not None and p.output <= at < p.output + p.bits]
        self.assertEqual([p.node for p in owners], [] if word.node is None else [word.node])
        banks = [i for i, b in enumerate(layout.banks) if b.offset is not None and b.offset <= at and (b.size is None or at < b.offset + b.size)]
        if owners:
            bank, position = layout.banks[owners[0].bank], owners[0].position + at - owners[0].output
            self.assertEqual((word.bank, word.address), (owners[0].bank, bank.start + position // bank.unit))
            self.assertEqual(word.name or f"reserve, node {word.node}", layout.name(word.node) or f"reserve, node {word.node}")
        elif banks:
            bank = layout.banks[banks[0]]
            self.assertEqual((word.bank, word.address), (banks[0], bank.start + (at - bank.offset) // bank.unit))
        else:
            self.assertEqual((word.bank, word.address), (None, load + at // 8))

    def one_byte(self, rng, layout, built, fill, load):
        """A byte that is not given: every word that it has a bit of, and no other."""
        gone = rng.randrange(built.image.nbytes)
        result = verify(layout, without(bytes(built.image), load, {gone}), load, True, fill)
        self.assertEqual(result.runs, [(load + gone, 1, "missing")])
        told = {bit for word in result for bit in range(word.offset, word.offset + word.bits)}
        self.assertTrue(set(range(8 * gone, 8 * gone + 8)) <= told)
        self.assertTrue(all(word.read is None and word.offset < 8 * gone + 8 and 8 * gone < word.offset + word.bits for word in result))

    def test_many_at_once(self):
        """Every word that differs is told once, in order, however many do."""
        rng = draw("many")
        layout = Layout.from_file(ROOT / "examples" / "sequencer.form")
        built = layout.build()
        wrong = bytearray(byte if rng.random() < .5 else rng.randrange(256) for byte in built.image)
        gone = {i for i in range(len(wrong)) if rng.random() < .1}
        result = verify(layout, without(bytes(wrong), 0x8000, gone), 0x8000, True)
        offsets = [word.offset for word in result]
        self.assertEqual(offsets, sorted(set(offsets)))
        told = {bit for word in result for bit in range(word.offset, word.offset + word.bits)}
        bad = {bit for bit in range(8 * len(wrong)) if bit // 8 in gone or bits(wrong, bit, 1) != bits(built.image, bit, 1)}
        self.assertLessEqual(bad, told)
        for word in result:
            self.assertTrue(any(bit in bad for bit in range(word.offset, word.offset + word.bits)), word)
        kinds = {i: kind for first, length, kind in result.runs for i in range(first, first + length)}
        self.assertEqual(kinds, {0x8000 + i: "missing" if i in gone else "different" for i in range(len(wrong)) if i in gone or wrong[i] != built.image[i]})

    def test_words(self):
        layout = Layout()
        layout.switch(layout.bank(unit=8, start=0x81f, size=64, offset=0, fill=True))
        layout.data(value=b"\1", name="curve 380")
        layout.data(value=b"\7", name="curve 381")
        layout.reserve(8)
        layout.data(value=b"\2\3")
        image = bytearray(layout.build(fill="full").image)
        image[1], image[2], image[7] = 3, 9, 1
        dump = without(bytes(image), 0x8000, {3})
        self.assertEqual(str(verify(layout, dump, 0x8000)), "curve 381, word 0x820: 03, should be 07\nnode 4, word 0x822: not given, should be 02")
        self.assertEqual(str(verify(layout, dump, 0x8000, True, "full")).splitlines()[1:],
                         ["reserve, node 3, word 0x821: 09, should be 00", "node 4, word 0x822: not given, should be 02",
                          "bank 1, no item, word 0x826: 01, should be 00"])
        self.assertEqual(str(verify(layout, layout.to_hex(0x8000), 0x8000)), "the same")

    def test_edges(self):
        """What is refused, what is not looked at, and that no answer is taken for yes or no by itself."""
        layout = Layout.from_file(ROOT / "examples" / "worked.form")
        refused = refusal(layout.build().to_hex)
        self.assertEqual((refused.number, refused.place), (16, 0))
        self.assertIn("block 0 (output bits 0..9, from node 2 on)", refused.words)
        self.assertEqual(verify(layout, ":00000001FF\n").runs, [(0, 4, "missing")])  # 10-bit words off byte edges: every byte that has a bit of one
        wrong = bytearray(layout.build().image)
        wrong[4] ^= 1
        self.assertTrue(verify(layout, Records.from_bytes(wrong)).same)
        wrong[3] ^= 4
        self.assertEqual(str(verify(layout, Records.from_bytes(wrong))), "node 4, word 0x42: 0ab, should be 0aa")
        whole = layout.build().to_hex(0x8000, True)
        self.assertTrue(verify(layout, whole, 0x8000, True).same)
        self.assertEqual(verify(layout, ":00000001FF\n", 0x8000, True).runs, [(0x8000, 5, "missing")])
        self.assertEqual(verify(layout, whole, 0x8001, True).runs[-1], (0x8005, 1, "missing"))
        self.assertEqual(verify(layout, whole, 0, True).runs, [(0, 5, "missing")])
        around = Records.from_bytes(b"\xff" * 16 + bytes(layout.build().image) + b"\xff" * 16, 0x7FF0)
        self.assertTrue(verify(layout, around, 0x8000, True).same)
        with self.assertRaises(TypeError):
            bool(verify(layout, whole, 0x8000, True))
        self.assertEqual(refusal(verify, layout, ":00", 0, True).number, 4)
        self.assertTrue(verify(Layout(), ":00000001FF\n").same)

    def test_whatever_holds_records(self):
        path = ROOT / "examples" / "banks.form"
        built = Layout.from_file(path).build()
        with tempfile.TemporaryDirectory() as room:
            dump = Path(room) / "a dump.srec"
            dump.write_text(built.to_srec(0x100))
            for given in (built.to_hex(0x100), built.to_srec(0x100).encode(), dump, read_records(dump), memoryview(built.to_hex(0x100).encode())):
                self.assertTrue(verify(path, given, 0x100).same)

    def test_intelhex(self):
        try:
            from intelhex import IntelHex
        except ImportError:
            self.skipTest("intelhex is not installed (Debian: python3-intelhex)")
        layout = Layout.from_file(ROOT / "examples" / "sequencer.form")
        theirs = IntelHex(io.StringIO(layout.build().to_hex(0x8000, whole=True)))
        self.assertTrue(verify(layout, theirs, 0x8000, True).same)
        theirs[0x8000 + 20] ^= 0x40
        found = verify(layout, theirs, 0x8000, True)
        self.assertEqual([(word.node, word.address, word.offset, word.bits) for word in found], [(24, 16, 160, 10)])

    def test_examples(self):
        for path in EXAMPLES:
            layout = Layout.from_file(path)
            if refusal(layout.build):
                continue
            built = layout.build()
            self.assertTrue(verify(layout, built.to_hex(0x8000, True), 0x8000, True).same)
            if not refusal(built.to_hex):
                self.assertTrue(verify(layout, built.to_hex(7), 7).same)


class BesideC(unittest.TestCase):
    def test_runs(self):
        """The library's own call beside the same written here."""
        rng = draw("runs")
        for _ in range(HOW_MANY):
            image = bytes(rng.randrange(3) for _ in range(rng.randrange(40)))
            data = bytes(byte if rng.random() < .7 else 9 for byte in image)
            blocks, given = ([Block(8 * i, 8) for i in range(len(image)) if rng.random() < .8] for _ in range(2))
            self.assertEqual(_verify._runs(image, blocks, data, given), runs(image, blocks, data, given))
