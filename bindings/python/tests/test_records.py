"""Files of records, the bench and the store beside the C calls, the models and the package intelhex."""
import io
import subprocess
import tempfile
import unittest
from pathlib import Path

from .common import EXAMPLES, HOW_MANY, ROOT, SEED, answers, command, draw, refusal
from denkumari import BadRecords, Block, Layout, Overlay, Records, Refused, Store, bench, extent, hex_digits, read_records, write_hex, write_srec


def requests():
    """Good and damaged files of oracle/damage.py, with the words of each request."""
    words = ["--requests", "--every", "0", "--random", str(2 * HOW_MANY), "--writes", str(HOW_MANY), "--seed", str(SEED)]
    done = subprocess.run(["python3", str(ROOT / "oracle" / "damage.py"), *words], stdout=subprocess.PIPE, check=True)
    return [line.split() for line in done.stdout.decode().splitlines()]


def octets(word):
    return b"" if word == "-" else bytes.fromhex(word)


def numbers(word):
    return [] if word == "-" else [int(each) for each in word.split(",")]


class BesideC(unittest.TestCase):
    @classmethod
    def setUpClass(cls):
        cls.asked = [words for words in requests() if words[0] == "write" or words[1] in ("hex", "srec")]
        cls.said = answers("records", given="".join(" ".join(words) + "\n" for words in cls.asked).encode())

    def test_written(self):
        seen = set()
        for words, want in zip(self.asked, self.said):
            if words[0] != "write" or len(numbers(words[5])) != len(numbers(words[6])) or want.startswith("refused 14"):
                continue
            image, load, blocks = octets(words[4]), int(words[3]) & 0xFFFFFFFF, list(zip(numbers(words[5]), numbers(words[6])))
            try:
                text = write_hex(image, load, blocks) if words[1] == "hex" else write_srec(image, load, int(words[2]), blocks)
                self.assertEqual(["ok", str(len(text))], want.split()[:2])
                self.assertEqual(octets(want.split()[2])[:len(text)], text.encode())
            except Refused as refused:
                self.assertEqual(f"refused {refused.number} {refused.place}", " ".join(want.split()[:3]), words)
            seen.add(want.split()[0])
        self.assertEqual(seen, {"ok", "refused"})

    def test_read(self):
        """A text is read as the first character says, so requests of the other kind are left out."""
        seen = set()
        for words, want in zip(self.asked, self.said):
            if words[0] != "reason" or (octets(words[3])[:1] in (b"S", b"s")) != (words[1] == "srec"):
                continue
            text, load = octets(words[3]), int(words[2])
            try:
                got = read_records(text, load)
                self.assertEqual(want, "reason 0 0 0 0")
                self.model(words[1], load, text, got)
            except BadRecords as bad:
                self.assertEqual(want, f"reason {bad.reason} {bad.line - 1} {bad.first} {bad.more}")
                self.assertIn(f"line {bad.line}: ", bad.words)
            except Refused as refused:  # a byte too far away
                self.assertEqual((refused.number, want), (14, "reason 0 0 0 0"))
            seen.add(want.split()[1])
        self.assertLessEqual({str(reason) for reason in (0, 1, 2, 3, 5, 10, 11, 12, 13)} if HOW_MANY >= 400 else set(), seen)

    def model(self, kind, load, text, got):
        """The bytes and blocks that the C call reads, where they lie near."""
        if got.data.nbytes > 4096:
            return
        lent = bytes(4096)
        answer = answers("records", given=f"read {kind} {load} {lent.hex()} 200 {text.hex()}\n".encode())[0].split()
        count = int(answer[1])
        self.assertEqual(got.bits(), list(zip(numbers(answer[3])[:count], numbers(answer[4])[:count])))
        self.assertEqual(octets(answer[2])[:got.data.nbytes], got.data)

    def test_words(self):
        """The command's words for a file that is bad."""
        with tempfile.TemporaryDirectory() as room:
            file, seen = Path(room) / "a.hex", 0
            for words in self.asked[:6 * HOW_MANY]:
                if words[0] != "reason" or seen >= 150:
                    continue
                file.write_bytes(octets(words[3]))
                status, _, said = command("rehex", file, "--load", words[2])
                refused = refusal(read_records, octets(words[3]), int(words[2]))
                if refused and refused.number == 4:
                    said = said.replace("--load ", "load=")
                    self.assertEqual((status, said), (1, f"denkumari rehex: refused with 4: {refused.words}\n"))
                    seen += 1
            self.assertGreater(seen, 50)


class Read(unittest.TestCase):
    def test_extent(self):
        """The lowest address that a file gives is found, also where it is the last one."""
        for load in (0, 5, 0x8000, 0xFFFF, 0x20001234, 0xFFFFFFFE):
            got = read_records(write_hex(b"\1\2", load))
            self.assertEqual((got.load, got.data, got.blocks), (load, b"\1\2", [(load, 2)]))
            self.assertEqual(extent(write_hex(b"\1\2", load)), (load, 2))
        self.assertEqual((extent(":00000001FF\n"), extent(write_srec(b"\1", 0xFFFFFFFF))), ((0, 0), (0xFFFFFFFF, 1)))
        self.assertEqual((refusal(extent, ":00").number, refusal(read_records, write_hex(b"\1", 4), 5).reason), (4, 10))
        self.assertEqual(read_records(write_hex(b"\1", 0xFFFFFFFF)).load, 0xFFFFFFFF)
        self.assertEqual(read_records(":00000001FF\n").blocks, [])
        far = write_hex(b"\1", 0).replace(":00000001FF\n", "") + write_hex(b"\2", 0x40000000)
        refused = refusal(read_records, far)
        self.assertEqual((refused.number, refused.place), (14, 0))

    def test_kinds_of_text(self):
        text = write_srec(bytes(range(40)), 0x100, 2)
        with tempfile.TemporaryDirectory() as room:
            path = Path(room) / "a.srec"
            path.write_text(text)
            for given in (text, text.encode(), bytearray(text.encode()), memoryview(text.encode()), path, memoryview(bytearray(b"xx" + text.encode()))[2:]):
                got = read_records(given)
                self.assertEqual((got.load, got.data, got.to_srec(2), got.byte(0x101), got.byte(0x99)), (0x100, bytes(range(40)), text, 1, None))
        bad = refusal(read_records, "dump.hex")
        self.assertIn("pathlib.Path", bad.words)
        self.assertEqual(refusal(read_records, ":00000001F\u2028").number, 4)

    def test_from_bytes(self):
        self.assertEqual(Records.from_bytes(b"ab", 7).to_hex(), write_hex(b"ab", 7))
        self.assertEqual(Records.from_bytes(b"").blocks, [])
        with self.assertRaises(ValueError):
            Records.from_bytes(b"ab", 0xFFFFFFFF)

    def test_examples(self):
        """ihex and srec of the command, blocks and whole."""
        for path in EXAMPLES:
            if refusal(Layout.from_file(path).build):
                continue
            built = Layout.from_file(path).build()
            for whole in ([], ["--whole"]):
                for name, text, width in (("ihex", built.to_hex, []), ("srec", lambda load, whole: built.to_srec(load, 2, whole), ["--width", "2"])):
                    status, said, words = command(name, path, "--load", "0x8000", *whole, *width)
                    refused = refusal(text, 0x8000, bool(whole))
                    self.assertEqual(status, 1 if refused else 0)
                    if refused:
                        self.assertIn(refused.words.split(". ")[0], words)
                        self.assertRegex(refused.words, r"block \d+ \(output bits ")
                    else:
                        self.assertEqual(text(0x8000, bool(whole)), said)

    def test_intelhex(self):
        try:
            from intelhex import IntelHex
        except ImportError:
            self.skipTest("intelhex is not installed (Debian: python3-intelhex)")
        built = Layout.from_file(ROOT / "examples" / "sequencer.form").build()
        theirs = IntelHex(io.StringIO(built.to_hex(0x8000, whole=True)))
        self.assertEqual(theirs.tobinarray(0x8000, size=built.image.nbytes).tobytes(), built.image)
        ours = built.to_intelhex(0x8000, whole=True)
        self.assertEqual(ours.todict(), theirs.todict())
        for start, data in ((0x10000, b"abc"), (0x20, b"x")):
            theirs.puts(start, data)
        got = Records.from_intelhex(theirs)
        self.assertEqual((got.load, got.blocks), (0x20, [(0x20, 1), (0x8000, built.image.nbytes), (0x10000, 3)]))
        self.assertEqual(got.to_intelhex().todict(), theirs.todict())
        self.assertEqual(bench(theirs, built.to_intelhex(0x8000, whole=True)), [])
        self.assertEqual(Records.from_intelhex(IntelHex()).blocks, [])


class Bench(unittest.TestCase):
    def test_overlay(self):
        rng = draw("overlay")
        for _ in range(HOW_MANY // 2):
            above, under = bytes(rng.randrange(3) for _ in range(40)), bytes(rng.randrange(3) for _ in range(rng.choice([40, 30])))
            cover, blocks, at = set(), [], 0
            while at < 300:
                at += rng.randrange(1, 60)
                bits = rng.randrange(1, 60)
                blocks.append(Block(at, bits))
                cover.update(range(at, at + bits))
                at += bits
            trial, both = Overlay(above, bytearray(under), blocks), min(len(above), len(under))
            differ = [i for i in range(both) if above[i] != under[i] and all(8 * i + k in cover for k in range(8))]
            self.assertEqual([i for first, length in trial.runs() for i in range(first, first + length)], differ)
            first = rng.randrange(both)
            bits = {8 * first + k in cover for k in range(16)} if first + 2 <= both else None
            refused = refusal(trial.image_of, first, 2)
            self.assertEqual(refused.number if refused else 0, 16 if bits is None else 17 if len(bits) == 2 else 0)
            if not refused:
                self.assertEqual(trial.image_of(first, 2), "overlay" if bits == {True} else "released")
        self.assertEqual(refusal(Overlay(b"abc", b"abc", [(8, 8), (0, 8)]).runs).number, 4)

    def test_beside_command(self):
        """Two files of records, runs and ranges, as the command has them."""
        rng, seen = draw("bench"), set()
        with tempfile.TemporaryDirectory() as room:
            for _ in range(HOW_MANY // 4):
                paths = [Path(room) / "released", Path(room) / "overlay"]
                for path in paths:
                    blocks = [Block(8 * at, 8 * rng.choice([1, 2, 3])) for at in range(0, 12, 4) if rng.random() < .7]
                    path.write_text(write_hex(bytes(rng.randrange(2) for _ in range(16)), rng.choice([0x100, 0x100, 0x102]), blocks))
                runs = [line.split()[1:] for line in command("bench", *paths)[1].splitlines() if line.startswith("run ")]
                self.assertEqual([(int(run[0]), int(run[2])) for run in runs], bench(*paths))
                window = rng.randrange(0xFE, 0x112), rng.randrange(4)
                status, said, words = command("bench", *paths, "--range", *window)
                refused = refusal(bench, *paths, window)
                self.assertEqual(status, 1 if refused else 0, (window, words))
                if refused:
                    said = words.replace(str(room) + "/", "")
                    self.assertEqual(f"denkumari bench: refused with {refused.number}: {refused.words}\n", said)
                else:
                    self.assertEqual(said.split()[0], bench(*paths, window))
                seen.add(refused.number if refused else said.split()[0])
        self.assertLessEqual({16, 17, "overlay", "released"} if HOW_MANY >= 400 else set(), seen)

    def test_store(self):
        rng = draw("store")
        for _ in range(HOW_MANY // 10):
            store, have, marks = Store(), [], []
            for _ in range(80):
                position, bits = rng.randrange(300), rng.randrange(6)
                clash = any(a < position + bits and position < a + k for a, k in have) if bits else any(a < position < a + k for a, k in have)
                clash = clash or bits > 0 and any(position < mark < position + bits for mark in marks)
                refused = refusal(store.offer, position, bits)
                self.assertEqual(refused.number if refused else 0, 12 if clash else 0)
                if not refused and bits:
                    have.append((position, bits))
                elif not refused:
                    marks.append(position)
            self.assertEqual((store.intervals, store.marks), (sorted(have), sorted(marks)))
        full = Store()
        for i in range(512):
            full.offer(2 * i, 1)
        self.assertEqual(refusal(full.offer, 2000, 1).number, 13)

    def test_store_of_lists(self):
        """A list of offers beside so many single ones."""
        rng, seen = draw("lists of offers"), set()
        for _ in range(HOW_MANY // 4):
            store, single = Store(), Store()
            for _ in range(4):
                listed = [(rng.randrange(300), rng.randrange(6)) for _ in range(rng.randrange(5))]
                before, stopped = (store.intervals, store.marks), None
                for at, each in enumerate(listed):
                    stopped = refusal(single.offer, *each)
                    if stopped:
                        break
                refused = refusal(store.offer_all, listed)
                seen.add(bool(refused))
                if refused:
                    self.assertEqual((refused.number, refused.place, refused.second, refused.node), (stopped.number, stopped.place, stopped.second, at))
                    self.assertEqual((store.intervals, store.marks), before)
                    break
                self.assertEqual((store.intervals, store.marks, stopped), (single.intervals, single.marks, None))
        self.assertEqual(seen, {True, False})

    def test_digits(self):
        rng = draw("digits")
        for _ in range(100):
            data = bytes(rng.randrange(256) for _ in range(rng.randrange(9)))
            self.assertEqual(hex_digits(data), data.hex())
            self.assertEqual(refusal(hex_digits, data, 8 * len(data) + 1).number, 4)
