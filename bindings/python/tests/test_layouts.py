"""Layouts beside the C calls, the command and document 01's worked example."""
import tempfile
import unittest
from pathlib import Path

from .common import EXAMPLES, HOW_MANY, ROOT, answers, batched, command, draw, drawn_files, paged_files, refusal, some_layout
from denkumari import BadNames, Bank, Kind, Layout, Misuse, Placed, Recorder, Refused, State, cksum, convert, read_names

FILLS = ("inherited", "full")


def listed(parts):
    return ",".join("-" if part is None else str(part) for part in parts) or "-"


def line_of(file, fill="inherited", page=None):
    """The line of oracle/README.md that a file's answer makes, without the passes of a refusal."""
    try:
        layout = Layout.from_form(file)
        built = layout.build(fill, page, room=16384)
    except Refused as refused:
        return str(refused).split(":")[0]
    spans = listed(f"{span.address}:{'-' if span.offset is None else span.offset}:{span.bits}" for span in built.spans)
    said = f"ok {built.k} {built.passes} {built.length} {built.digits() or '-'} | spans {spans} | blocks {listed(f'{o}:{b}' for o, b in built.blocks)}"
    said += f" | padding {listed(p.bits for p in built.padding)} | units {listed(p.units for p in built.padding)}"
    return said if page is None else said + f" | pages {listed(layout.profile(page, fill))}"


def walked(banks, nodes, row):
    """Document 01's walk of one row, by hand: where each node stands, or the node at which a position would pass 4,294,967,295."""
    bank, at, places = 0, [0] * len(banks), []
    for i, ((kind, operand), bits) in enumerate(zip(nodes, row)):
        bank = operand if kind == Kind.SWITCH else bank
        unit, start, _, offset, align = banks[bank][:5]
        if kind in (Kind.LABEL, Kind.CONSTANT) and operand == 0 and align:
            at[bank] += -(start * unit + at[bank]) % align
        seen = at[bank]
        if kind == Kind.ALIGN and bits:
            at[bank] += -(start * unit + seen) % bits
        elif kind == Kind.ADDR:
            at[bank] = bits
        elif kind.placed:
            at[bank] += bits
        if at[bank] >= 2**32:
            return i
        output = None if offset is None else offset + seen
        places.append(Placed(i, "", kind, bank, seen, start + seen // unit, seen % unit, output, bits if kind.placed else 0))
    return places


def said_of(recorder):
    """The places of a pass, or the node at which refusal 5 is met."""
    try:
        return recorder.places()
    except Refused as refused:
        return refused.node if refused.number == 5 else refused


def fields(file):
    """The fields of a layout file, each with its head."""
    out, at = [], 0
    while at < len(file):
        out.append(file[at:at + 3 + int.from_bytes(file[at + 1:at + 3], "big")])
        at += len(out[-1])
    return out


class BesideC(unittest.TestCase):
    def hold(self, files, *words, **choices):
        files = list(files)
        said = answers("batch", "--padding", *words, given=batched(files))
        self.assertEqual(len(said), len(files))
        seen = set()
        for file, want in zip(files, said):
            self.assertEqual(line_of(file, **choices), want.split(" passes ")[0], file.hex())
            seen.add(want.split()[0] if want[0] == "o" else want.split()[1])
        return seen

    def test_files(self):
        seen = self.hold(drawn_files(HOW_MANY))
        self.assertLessEqual({"ok", "2", "3", "4", "5", "7", "8", "9", "10", "11", "12"} if HOW_MANY >= 400 else set(), seen)

    def test_broken_files(self):
        """Fields left out, doubled, exchanged, cut, with other tags and lengths: broken for the package exactly where the C call says so."""
        for form in (1, 2):
            file = (ROOT / "examples" / "worked.form").read_bytes()
            parts = fields(file if form == 1 else convert(file, 2))
            broken = [parts[:i] + parts[i + 1:] for i in range(len(parts))] + [parts[:i] + [part] + parts[i:] for i, part in enumerate(parts)]
            broken += [parts[:i] + [parts[j]] + parts[i + 1:j] + [parts[i]] + parts[j + 1:] for i in range(len(parts)) for j in range(i + 1, len(parts))]
            broken += [parts[:i] + [bytes([tag]) + part[1:]] + parts[i + 1:] for i, part in enumerate(parts) for tag in range(20)]
            broken += [parts[:i] + [part[:2] + bytes([length]) + part[3:]] + parts[i + 1:] for i, part in enumerate(parts) for length in range(30)]
            broken += [parts[:i] + [part[:at] + bytes([value]) + part[at + 1:]] + parts[i + 1:] for i, part in enumerate(parts) if len(part) > 25
                       for at in (25, 26)[:form] for value in range(20)]
            whole = b"".join(parts)
            cut = [whole[:i] for i in range(len(whole))] + [whole + b"x", b"\x10", b"\x10\0\1\1" + whole[4:]]
            self.assertLessEqual({"ok", "4"}, self.hold([*map(b"".join, broken), *cut]))

    def test_full_fill(self):
        self.hold(drawn_files(HOW_MANY // 4), "--fill", "1", fill="full")

    def test_profile(self):
        self.assertLessEqual({"ok", "19"}, self.hold(paged_files(HOW_MANY // 2), "--page", "16", page=16))

    def test_from_python(self):
        rng, made = draw("layouts"), []
        for _ in range(HOW_MANY):
            made.append((some_layout(rng), rng.choice(FILLS)))
        for fill in FILLS:
            files = [layout.to_form(2) for (layout, _), chosen in made if chosen == fill]
            self.hold(files, "--fill", str(FILLS.index(fill)), fill=fill)
        checked = sum(self.values(layout, told, fill) for (layout, told), fill in made)
        self.assertGreater(checked, HOW_MANY // 2)

    def values(self, layout, told, fill):
        """Every item's bits in the image are the value that it was given."""
        if refusal(layout.build, fill):
            return 0
        built = layout.build(fill)
        whole, bits = int.from_bytes(built.image, "big"), 8 * built.image.nbytes
        for node, value in told.items():
            span = built.span(node)
            self.assertEqual(whole >> (bits - span.offset - span.bits) & ((1 << span.bits) - 1), value)
        return len(told)

    def test_conversion(self):
        files = list(drawn_files(HOW_MANY // 2))
        for form in (1, 2):
            for file, want in zip(files, answers("batch", "--to", str(form), "--room", "65536", given=batched(files))):
                refused = refusal(convert, file, form)
                got = str(refused).split(":")[0] if refused else f"ok {convert(file, form).hex()}"
                self.assertEqual(got, want, file.hex())

    def test_there_and_back(self):
        for file in drawn_files(HOW_MANY // 2):
            if refusal(Layout.from_form, file) or not Layout.from_form(file).banks:
                continue
            again = Layout.from_form(file).to_form(2 if file[:1] == b"\x10" else 1)
            self.assertEqual(line_of(again), line_of(file))


class BesideCommand(unittest.TestCase):
    @classmethod
    def setUpClass(cls):
        cls.room = tempfile.TemporaryDirectory()
        cls.form = Path(cls.room.name) / "a file.form"

    @classmethod
    def tearDownClass(cls):
        cls.room.cleanup()

    def hold(self, file, fill, page=None):
        """The refusal's words, letter by letter; of a broken file the field and the byte."""
        self.form.write_bytes(file)
        status, _, words = command("layout", "--fill", fill, *(["--page", page] if page else []), self.form)
        refused = refusal(lambda: Layout.from_file(self.form).build(fill, page, room=16384))
        self.assertEqual(status, 1 if refused else 0, words)
        if not refused:
            return 0
        words = words.replace("denkumari layout: ", "", 1).rstrip("\n")
        if refused.number == 14:
            return self.assertIn("16384 bytes", refused.words)
        if " at byte " in words:
            self.assertEqual(refused.words.split(", is ")[0], words.split(", is ")[0].split(", has ")[0])
        else:
            self.assertEqual(refused.words, words, file.hex())
        return refused.number

    def test_words(self):
        seen = set()
        for file in drawn_files(HOW_MANY // 2):
            seen.add(self.hold(file, FILLS[len(file) % 2]))
        for file in paged_files(HOW_MANY // 4):
            seen.add(self.hold(file, "inherited", 16))
        self.assertLessEqual({2, 3, 4, 5, 7, 8, 9, 10, 11, 12, 19} if HOW_MANY >= 400 else set(), seen)

    def test_words_of_python(self):
        rng = draw("words")
        for _ in range(HOW_MANY // 2):
            layout, _ = some_layout(rng)
            Path(str(self.form).replace(".form", ".names")).write_text(layout.to_names(), "utf-8")
            self.hold(layout.to_form(), "inherited")

    def test_words_of_passes(self):
        """8, 7 and 5 in passes that differ: which node, and what moved."""
        for sizes, behind, words in (([8, 16], 0, "is the first that is not resolved: it has moved since pass 1"), ([8, 8], 2, ": node 3 (constant, bank 1")):
            layout = Layout(limit=2, rows=2)
            layout.switch(layout.bank(offset=0))
            layout.item(sizes, 0, states=1)
            layout.label()
            layout.constant(states=behind)
            self.assertEqual(self.hold(layout.to_form(), "inherited"), 8)
            self.assertIn(words, refusal(layout.build).words)
        rng, seen = draw("passes"), []
        for _ in range(HOW_MANY):
            layout = Layout(limit=rng.choice([1, 2, 2, 3, 4]), rows=rng.choice([1, 2, 3]))
            layout.switch(layout.bank(unit=rng.choice([1, 8]), start=rng.choice([0, -3]), offset=0, align=rng.choice([None, 16])))
            told = lambda most, low=0: [rng.choice([low, most]) for _ in range(layout.rows)]
            for _ in range(rng.randint(1, 5)):
                rng.choice([lambda: layout.label(depth=rng.randint(0, 1)), lambda: layout.item(told(16, 8), 0, states=told(rng.choice([0, 1, 2]))),
                            lambda: layout.node(Kind.ALIGN, 0, told(24, 8), told(rng.choice([0, 1, 2]))), lambda: layout.constant(states=told(2)),
                            lambda: layout.node(Kind.RESERVE, 0, told(rng.choice([8, 2**32 - 1])), told(1)),
                            lambda: layout.node(Kind.ADDR, 0, told(40, 32), told(rng.choice([0, 1])))])()
            seen.append(self.hold(layout.to_form(), "inherited"))
        self.assertGreater(seen.count(8), HOW_MANY // 20)

    def test_conversion_words(self):
        files = [*drawn_files(HOW_MANY // 4), Layout().to_form(), Layout(rows=17).to_form(), b"", b":00000001FF\n"]
        ones = Layout()
        ones.bank(size=8, offset=0, fill=True, ones=True)
        for i, file in enumerate([*files, ones.to_form()]):
            self.form.write_bytes(file)
            status, _, words = command("convert", self.form, "--to", 1 + i % 2)
            refused = refusal(convert, file, 1 + i % 2)
            self.assertEqual(status, 1 if refused else 0)
            if refused and " at byte " not in words:
                self.assertEqual(f"denkumari convert: refused with {refused.number}: {refused.words}\n", words)

    def test_examples(self):
        self.assertGreater(len(EXAMPLES), 15)
        for path in EXAMPLES:
            for fill in FILLS:
                said = command("layout", "--fill", fill, path)[1]
                refused = refusal(lambda: Layout.from_file(path).build(fill))
                if refused:
                    self.assertEqual(str(refused).split(":")[0] + "\n", said)
                    continue
                built = Layout.from_file(path).build(fill)
                blocks = "".join(f"block {block.offset} {block.bits}\n" for block in built.blocks)
                self.assertEqual(f"passes {built.k}\n{blocks}image {built.digits()}".rstrip() + "\n", said)

    def test_map(self):
        """Nodes, padding and the node at fault, of accepted layouts and of refused ones."""
        for file in [*(path.read_bytes() for path in EXAMPLES), *drawn_files(HOW_MANY // 8)]:
            self.form.write_bytes(file)
            lines = [line.split() for line in command("map", "--lines", self.form)[1].splitlines()]
            if refusal(lambda: Layout.from_form(file).map()):
                self.assertEqual(lines[-1], str(refusal(lambda: Layout.from_form(file).map())).split(":")[0].split())
                continue
            mapped = Layout.from_form(file).map()
            nodes = [[int(word) if word != "-" else None for word in line[1:]] for line in lines if line[0] == "node"]
            self.assertEqual(nodes, [[p.node, p.kind, p.bank, p.position, p.address, p.output, p.bits] for p in mapped], file.hex())
            self.assertEqual([int(line[1]) for line in lines if line[0] == "fault"], [] if mapped.node is None else [mapped.node])
            self.assertEqual([(int(line[-2]), int(line[-1])) for line in lines if line[0] == "bank"], mapped.padding)
            self.assertEqual(lines[-1][:2] if lines[-1][0] == "refused" else None, ["refused", str(mapped.stopped)] if mapped.stopped else None)

    def test_march(self):
        refused = refusal(Layout.from_file(ROOT / "examples" / "clamp-mark-after.form").build)
        self.assertEqual((refused.number, refused.place, refused.second, refused.node, refused.name), (12, 0, 128, 7, ""))
        self.assertIn(": node 2 (data, bank 1", refused.words)


class Made(unittest.TestCase):
    def worked(self):
        layout = Layout()
        layout.switch(layout.bank(unit=10, start=64, size=40, offset=0, fill=True))
        layout.label("table")
        layout.data(10, 0x3ff)
        layout.reserve(10)
        layout.item(bits=10, value=0x0aa)
        return layout

    def test_worked_example(self):
        built = self.worked().build()
        self.assertEqual((built.k, built.digits(), built.blocks), (1, "ffc002a800", [(0, 10), (20, 10)]))
        self.assertEqual(built.image, bytes.fromhex("ffc002a800"))
        self.assertEqual(bytes(built), bytes.fromhex("ffc002a800"))
        self.assertEqual([(span.address, span.offset, span.bits) for span in built.spans], [(64, 0, 0), (64, 0, 10), (66, 20, 10)])

    def test_rows(self):
        """The jump of docs/FORMAT.md, by rows and by passes."""
        layout, recorder = Layout(rows=3), Recorder()
        for each in (layout, recorder):
            each.bank(size=512, offset=0)
        layout.switch(1)
        layout.item([24, 16, 16], 0xeb02, states=[2, 2, 1])
        layout.data(value=b"\xbe\xef")
        nodes = [recorder.node(Kind.SWITCH, 1), recorder.node(Kind.INSTRUCTION, name="jmp"), recorder.node(Kind.DATA)]
        for bits, state in ((24, State.UNRESOLVED), (16, State.UNRESOLVED), (16, State.STABLE), (16, State.STABLE)):
            recorder.begin_pass()
            recorder.tell(nodes[1], bits, state)
            recorder.tell(nodes[2], 16)
        recorder.value(nodes[1], 0xeb02, 16)
        recorder.value(nodes[2], b"\xbe\xef")
        for each in (layout, recorder):
            self.assertEqual((each.build().digits(), each.build().k), ("eb02beef", 3))
        self.assertEqual(layout.to_form(), recorder.layout().to_form())

    def test_places(self):
        """Where everything stands in each pass: beside a walk by hand, within the pass too; beside the map of the row, as far as that goes; and beside the
        spans of its build."""
        rng, seen = draw("places"), {"within": 0, "stopped": 0, "built": 0, "too far": 0}
        for _ in range(max(HOW_MANY, 200)):
            self.places_of(rng, seen)
        self.assertTrue(all(count > 10 for count in seen.values()), seen)

    def places_of(self, rng, seen):
        banks = [Bank(rng.choice([1, 8, 10, 16]), rng.randint(-32, 32), 96, rng.choice([None, 96 * i]), rng.choice([None, 0, 8, 30])) for i in range(1, 4)]
        recorder = Recorder(limit=rng.randint(0, 3))
        for bank in banks:
            recorder.bank(*bank)
        kinds = [Kind(rng.randint(0, 10)) for _ in range(rng.randint(0, 12))]
        nodes = [(kind, rng.randint(0, 3 if kind == Kind.SWITCH else 1)) for kind in kinds]
        for kind, operand in nodes:
            recorder.node(kind, operand)
        row = [0] * len(nodes)
        for last in range(rng.randint(1, 3)):
            row = [old if last and kind == Kind.DATA else 2**32 - 1 if rng.random() < .1 and not kind.written else 4 * rng.randint(0, 5)
                   for old, kind in zip(row, kinds)]
            recorder.begin_pass()
            for i, kind in enumerate(kinds):
                if kind > Kind.LABEL:
                    if rng.random() < .25:
                        seen["within"] += 1
                        self.assertEqual(said_of(recorder), walked([Bank(), *banks], nodes[:i + 1], row[:i] + [0]))
                    recorder.tell(i, row[i], rng.randint(0, 2))
            places = said_of(recorder)
            self.assertEqual(places, walked([Bank(), *banks], nodes, row))
            if isinstance(places, int):
                seen["too far"] += 1
                continue
            layout = Layout(limit=0)
            for bank in banks:
                layout.bank(*bank)
            layout._values.data = bytearray(8)
            for (kind, operand), bits in zip(nodes, row):
                layout.node(kind, operand if kind < Kind.INSTRUCTION else 0, bits)
            mapped = layout.map()
            self.assertEqual(places[:len(mapped)], list(mapped))
            seen["stopped"] += mapped.stopped > 0
            if refusal(layout.build) is None:
                seen["built"] += 1
                for span in layout.build().spans:
                    self.assertEqual((places[span.node].address, places[span.node].output, places[span.node].bits), span[2:])

    def test_no_places(self):
        recorder = Recorder()
        with self.assertRaisesRegex(Misuse, "no pass has begun"):
            recorder.places()
        far, stack = recorder.node(Kind.ADDR), recorder.node(Kind.INSTRUCTION, name="stack", place="brake.asm:9")
        recorder.begin_pass()
        recorder.tell(far, 2**32 - 1)
        self.assertEqual(recorder.places()[stack][:8], (stack, "stack", Kind.INSTRUCTION, 0, 2**32 - 1, 536870911, 7, None))
        recorder.tell(stack, 1)
        refused = refusal(recorder.places)
        self.assertEqual((refused.number, refused.node, refused.name), (5, stack, "stack"))
        self.assertTrue(refused.words.startswith("stack, brake.asm:9 (node 1, instruction, bank 0, 1 bit)"), refused.words)
        overlapping = Recorder()
        for _ in range(2):
            overlapping.bank(offset=0)
        overlapping.begin_pass()
        self.assertEqual(str(refusal(overlapping.places)).split(":")[0], "refused 3 1 2")

    def test_recorder_turns_away(self):
        recorder = Recorder()
        with self.assertRaisesRegex(Misuse, "no pass has begun"):
            recorder.layout()
        with self.assertRaisesRegex(Misuse, "there is no bank 1"):
            recorder.node(Kind.SWITCH, 1)
        item, data, label = recorder.node(Kind.INSTRUCTION, name="jmp"), recorder.node(Kind.DATA), recorder.node(Kind.LABEL)
        with self.assertRaisesRegex(Misuse, "no pass has begun"):
            recorder.tell(item, 8)
        recorder.begin_pass()
        recorder.tell(data, 8)
        for call, words in ((lambda: recorder.tell(data, 8), "pass 1 tells node 1 twice"), (recorder.begin_pass, "pass 1 leaves out jmp .instruction."),
                            (lambda: recorder.value(label, 1, 1), "is not written"), (lambda: recorder.tell(9, 1), "there is no node 9"),
                            (recorder.bank, "before the first pass"), (lambda: recorder.node(Kind.LABEL), "before the first pass")):
            with self.assertRaisesRegex(Misuse, words):
                call()
        recorder.tell(item, 8)
        with self.assertRaisesRegex(Misuse, "jmp has 8 bits in the last pass, and its value 0"):
            recorder.build()
        recorder.begin_pass()
        with self.assertRaisesRegex(Misuse, "8 bits in pass 1, and 9 in pass 2"):
            recorder.tell(data, 9)

    def test_refused_with_its_name(self):
        layout = self.worked()
        layout.item(bits=24, value=7, name="too long", place="main.asm:7")
        refused = refusal(layout.build)
        self.assertEqual((refused.number, refused.node, refused.name), (10, 5, "too long"))
        self.assertTrue(refused.words.startswith("too long, main.asm:7 (node 5, instruction, bank 1, position 30, address 67 = 0x43, 24 bits"), refused.words)
        self.assertEqual(str(refused), f"refused 10 5: {refused.words}")

    def test_room(self):
        layout = Layout()
        layout.switch(layout.bank(size=1 << 20, offset=0, fill=True))
        layout.data(value=b"x")
        self.assertEqual(layout.build(fill="full").image.nbytes, 1 << 17)
        refused = refusal(layout.build, fill="full", room=1000)
        self.assertEqual((refused.number, refused.words), (14, "the room for the image, 1000 bytes, is too short. Lend more."))

    def test_bank_0(self):
        """Bank 0 alone: closed in form 2, open in form 1."""
        for closed in (True, False):
            layout = Layout(closed=closed, bank0=Bank(offset=0))
            layout.data(value=b"x")
            self.assertEqual(refusal(layout.build) is not None, closed)
            with self.assertRaises(ValueError):
                layout.to_form(1 if closed else 2)

    def test_names(self):
        layout = self.worked()
        layout.names[2] = ("force", "a.asm:1")
        file, text = layout.to_form(), layout.to_names()
        self.assertEqual(Layout.from_form(file, text).names, {1: ("table", ""), 2: ("force", "a.asm:1")})
        for wrong in ("1\tx\n", "a\tb\tc\n", "2\ta\tb\n2\ta\tb\n", f"form\t{cksum(file) ^ 1}\t{len(file)}\n", "1\ta\x1b\tb\n"):
            with self.assertRaises(BadNames):
                Layout.from_form(file, wrong)
        self.assertEqual(read_names("1\ta\tb\r\n7\t\tc"), {1: ("a", "b"), 7: ("", "c")})
        with tempfile.TemporaryDirectory() as room:
            form = Path(room) / "x.form"
            form.write_bytes(file)
            form.with_suffix(".names").write_text(text, "utf-8")
            self.assertEqual(Layout.from_file(form).name(2), "force")
            form.with_suffix(".names").write_text("no names", "utf-8")
            with self.assertWarnsRegex(UserWarning, "are left out: line 1 is not a number"):
                self.assertEqual(Layout.from_file(str(form)).names, {})
            form.with_suffix(".names").write_bytes(b"1\t\xff\t\n")
            with self.assertWarnsRegex(UserWarning, "are left out: it is not UTF-8"):
                self.assertEqual(Layout.from_file(str(form)).names, {})
            with self.assertRaises(BadNames):
                Layout.from_file(form, names=form.with_suffix(".names"))
