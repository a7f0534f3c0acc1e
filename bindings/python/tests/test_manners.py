"""What is not acceptable is told by an exception in plain words, and nothing ends the interpreter; the declarations are those of the header; the examples of
the documents are run."""
import array
import ctypes as c
import doctest
import itertools
import mmap
import os
import pickle
import re
import tempfile
import threading
import unittest

from .common import HOW_MANY, PACKAGE, ROOT, refusal
import denkumari
from denkumari import (BadRecords, Bank, Kind, Layout, Overlay, Recorder, Records, Refused, Store, _c, _words, bench, convert, extent, hex_digits,
                       read_names, read_records, verify, write_hex, write_srec)


class Evil(bytes):
    """Bytes that lie about their length."""

    def __len__(self):
        return 1 << 40


class EvilNumber(int):
    """A number that says that it is within any limits."""

    __le__ = __ge__ = __lt__ = __gt__ = lambda self, other: True


JUNK = [None, True, -1, 0, 1, 255, 256, 65536, 2**32 - 1, 2**32, 2**63, 2**64 - 1, 2**64, -(2**63) - 1, 10**40, 1.5, float("nan"), "", "x", "\ud800", b"",
        b"x", b":00000001FF\n", bytearray(b"ab"), Evil(b"ab"), EvilNumber(2**70), memoryview(b"abcd")[::2], memoryview(bytearray(b"abcd"))[::-1],
        memoryview(b"abcd")[1:3], memoryview(b"abcdefgh").cast("I"), memoryview(b"abcd").cast("B", (2, 2)), array.array("H", [1, 2]), [], [1], [(0, 8)],
        [(8, 8), (0, 8)], [(-1, 2)], [(0, 2**70)], (), (1, 2), {}, {"a": 1}, object(), print, Kind.DATA, Bank(), Layout(), Records, range(3), [None], "full"]
FINE = (TypeError, ValueError, Refused, OSError, OverflowError, KeyError, MemoryError, AttributeError, NotImplementedError)


def calls():
    """Every function and method that takes something."""
    some = Layout()
    some.switch(some.bank(size=64, offset=0))
    some.data(value=b"abcd")
    built = some.build()
    text = built.to_hex(0x10)
    for value in JUNK:
        yield from ((function, value) for function in (Layout.from_form, read_records, extent, read_names, hex_digits, write_hex, write_srec,
                                                       Records.from_bytes, some.build, some.map, some.profile,
                                                       some.to_form, built.to_hex, built.to_srec, built.span))
        yield from ((function, value) for function in (Layout().bank, Layout().item, Layout().data, Layout().reserve, Layout().switch, Layout().label,
                                                       Layout().align, Layout().addr, Layout, Recorder, Recorder().bank, Recorder().node, built.part, Refused))
        yield from ((bench, text, value), (bench, value, text), (bench, text, text, value), (convert, value, 1), (convert, some.to_form(), value))
        yield from ((Layout.from_file, value), (Layout.from_file, ROOT / "examples" / "worked.form", value), (verify, value, text))
        yield from ((Store().offer_all, value),)
        yield from ((verify, some, value), (verify, some, text, value), (verify, some, text, 0x10, value), (read_records, text, value))
        yield from ((write_hex, b"abcd", value), (write_hex, b"abcd", 0, value), (write_srec, b"abcd", 0, value), (built.to_hex, 0, value))
    for one, two in itertools.product(JUNK, repeat=2):
        yield from ((Overlay, one, two, [(0, 8)]), (Store().offer, one, two), (Layout().item, one, two), (Layout().node, one, two))
        yield from ((Store().offer_all, [(one, two)]),)
        yield from ((Layout(rows=2).node, 5, 0, one, two), (Overlay(b"abcd", bytearray(b"abcd"), [(0, 16)]).image_of, one, two))
        yield from ((lambda a, b: Layout(bank0=Bank(a, b)).build(), one, two),)


class Manners(unittest.TestCase):
    def test_junk(self):
        """None, wrong types, numbers that are too large or below zero, memory with gaps: an answer, or an exception that says what is wrong."""
        tried = 0
        for function, *given in calls():
            if any(isinstance(each, int) and 1 << 24 < each < 1 << 34 for each in given) and getattr(function, "__name__", "") in ("item", "data"):
                continue  # so many zero bits can be had, and take their time
            try:
                result = function(*given)
                if isinstance(result, Overlay):
                    result.runs()
            except FINE as wrong:
                self.assertTrue(str(wrong), (function, given))
            tried += 1
        self.assertGreater(tried, 10000)

    def test_plain_words(self):
        layout = Layout()
        for call, kind, words in (
                (lambda: layout.bank(unit=70000), ValueError, "a bank's unit has to be 0 to 65535, and 70000 is more"),
                (lambda: layout.bank(size=-1), ValueError, "a bank's size has to be 0 to 4294967295, and -1 is less"),
                (lambda: layout.bank(unit="8"), TypeError, "a bank's unit has to be a whole number, not str"),
                (lambda: layout.item(10, 0x400), ValueError, "value 0x400 does not fit in 10 bits"),
                (lambda: layout.item(10, -1), ValueError, "value has to be 0 or more"),
                (lambda: layout.item(value=7), TypeError, "bits is missing"),
                (lambda: layout.item(17, b"ab"), ValueError, "bits has to be 0 to 16, and 17 is more"),
                (lambda: layout.label("a\tb"), ValueError, "has a tab, a line end or a control character"),
                (lambda: Layout.from_form(None), TypeError, "a layout file has to be bytes, a bytearray, a memoryview or another buffer, not NoneType"),
                (lambda: write_hex(array.array("H", [1])), TypeError, "a flat row of bytes, not 1 dimensions of 2 bytes"),
                (lambda: write_hex(b"a", 2**32), ValueError, "load has to be 0 to 4294967295, and 4294967296 is more"),
                (lambda: write_hex(b"a", 0, [7]), TypeError, "a block is an offset and a number of bits, not int"),
                (lambda: Layout(rows=3).reserve([1, 2]), ValueError, "a number for each row, which are 3, and not 2"),
                (lambda: layout.build(fill="ful"), ValueError, "fill is 'inherited' or 'full', and not 'ful'")):
            with self.assertRaisesRegex(kind, re.escape(words)):
                call()
        self.assertEqual((layout.nodes, layout.names, layout.values, len(layout.banks)), ([], {}, b"", 1))

    def test_tables_changed_by_hand(self):
        """What is put into the lists past their types is told, and never cut."""
        for change in (lambda x: x.banks.append(Bank(unit=65537)), lambda x: x.banks.append(Bank(size=-1)), lambda x: setattr(x, "limit", 300),
                       lambda x: setattr(x, "rows", 2), lambda x: x.nodes.append(denkumari.Node(2, 0, (), ())), lambda x: setattr(x, "rows", 2**40),
                       lambda x: x.nodes.append(denkumari.Node(2, 2**32, (0,), (0,))), lambda x: x.nodes.append(denkumari.Node(258, 0, (0,), (0,)))):
            layout = Layout()
            layout.label()
            change(layout)
            with self.assertRaises(ValueError):
                layout.build()
            with self.assertRaises(ValueError):
                layout.map()

    def test_memory(self):
        """The same bytes however they are held; and no copy where the memory can be lent."""
        data = bytes(range(64))
        held = bytearray(data)
        with mmap.mmap(-1, 64) as mapped:
            mapped.write(data)
            for given in (data, held, memoryview(data), memoryview(held), memoryview(held).toreadonly(), memoryview(data + data)[64:],
                          memoryview(data[::-1])[::-1], mapped, array.array("B", data)):
                self.assertEqual(write_hex(given, 7), write_hex(data, 7))
                del given
        for given in (data, memoryview(data)):
            self.assertIs(_c.lend("it", given)[0], data)
        lent, length = _c.lend("it", held)
        self.assertEqual((c.addressof(lent), length), (c.addressof(c.c_char.from_buffer(held)), 64))
        layout = Layout()
        layout.switch(layout.bank(offset=0))
        layout.data(value=data)
        built = layout.build()
        self.assertTrue(built.image.readonly)
        self.assertIs(built._memory(), built.image.obj)
        self.assertIs(built.part(built.blocks[0]).obj, built.image.obj)

    def test_refused_changes_nothing(self):
        store = Store()
        store.offer(8, 8)
        before = store.intervals
        self.assertEqual(refusal(store.offer, 9, 1).number, 12)
        self.assertEqual(store.intervals, before)

    def test_pickles(self):
        for each in (Refused(12, 0, 128, 7, "n", "w"), BadRecords(5, 2, 3, 4, "line 2"), refusal(read_records, ":00")):
            again = pickle.loads(pickle.dumps(each))
            self.assertEqual((type(again), again.args, str(again)), (type(each), each.args, str(each)))

    def test_threads(self):
        """Many at once, on small stacks: each has its own answer."""
        layouts, wrong = [], []
        for i in range(16):
            layout = Layout()
            layout.switch(layout.bank(size=2048, offset=0))
            layouts.append((layout, [layout.data(value=bytes([i] * 16)) for _ in range(16)]))

        def work(i):
            for _ in range(HOW_MANY // 10):
                if bytes(layouts[i][0].build().image) != bytes([i]) * 256 or not verify(layouts[i][0], layouts[i][0].to_hex()).same:
                    wrong.append(i)

        old = threading.stack_size(256 * 1024)
        try:
            running = [threading.Thread(target=work, args=(i,)) for i in range(16)]
            for each in running:
                each.start()
        finally:
            threading.stack_size(old)
        for each in running:
            each.join()
        self.assertEqual(wrong, [])


class Header(unittest.TestCase):
    TYPES = {"uint8_t": c.c_uint8, "uint16_t": c.c_uint16, "uint32_t": c.c_uint32, "uint64_t": c.c_uint64, "int64_t": c.c_int64, "size_t": c.c_size_t}

    STRUCTS = {"dk_padding": _c.Padding, "dk_layout": _c.LayoutAnswer, "dk_mapped": _c.Mapped, "dk_profile": _c.Profile, "dk_count": _c.Count,
               "dk_offer": _c.Offer, "dk_offered": _c.Offered, "dk_part": _c.Part, "dk_overlay": _c.Overlay, "dk_extent": _c.Extent, "dk_fault": _c.Fault,
               "dk_reason": _c.Reason}

    def setUp(self):
        self.header = re.sub(r"/\*.*?\*/", "", (ROOT / "include" / "denkumari.h").read_text("utf-8"), flags=re.S)

    def test_functions(self):
        """Every call of the header with its parameters, in order."""
        found = re.findall(r"^struct (dk_\w+) (dk_\w+)\(([^)]*)\);", self.header, re.M)
        self.assertGreaterEqual(len(found), 19)
        for result, name, parameters in found:
            if name not in _c.FUNCTIONS:
                print(f"not bound from Python: {name}")
                continue
            told, bound = _c.FUNCTIONS[name]
            self.assertIs(told, self.STRUCTS[result], name)
            parts = [re.match(r"\s*(?:const )?(\w+) (\*?)\w+\s*$", part).groups() for part in parameters.split(",")]
            self.assertEqual(len(parts), len(bound), name)
            for (kind, star), given in zip(parts, bound):
                wanted = [c.POINTER(self.TYPES[kind])] + [c.c_void_p] * (kind == "uint8_t") if star else [self.TYPES[kind]]
                self.assertIn(given, wanted, (name, kind, star))

    def test_structs(self):
        for name, fields in re.findall(r"^struct (dk_\w+) \{(.*?)\};", self.header, re.M | re.S):
            if name not in self.STRUCTS:
                continue
            ours = self.STRUCTS[name]
            told = re.findall(r"(struct dk_padding|uint64_t) (\w+)(\[DK_MAX_BANKS\])?;", fields)
            of = {"uint64_t": c.c_uint64, "struct dk_padding": _c.Padding}
            self.assertEqual([(field, of[kind] * 16 if many else of[kind]) for kind, field, many in told], ours._fields_, name)

    def test_numbers(self):
        kinds = dict(re.findall(r"\bDK_(\w+) = (\d+)", re.search(r"enum dk_kind \{(.*?)\}", self.header, re.S).group(1)))
        self.assertEqual({name: int(value) for name, value in kinds.items()}, {kind.name: int(kind) for kind in Kind})
        self.assertEqual(denkumari.__version__, re.search(r'DENKUMARI_VERSION "(.*)"', self.header).group(1))

    def test_table(self):
        """The one table of words is read whole, and each row that is named here is in it."""
        text = (ROOT / "command" / "refusals.def").read_text("utf-8")
        self.assertEqual(list(_words.TABLE), re.findall(r"^WORDS\((\w+)", text, re.M))
        sources = "".join(path.read_text("utf-8") for path in (PACKAGE / "denkumari").glob("*.py"))
        named = set(re.findall(r'"([A-Z][A-Z0-9]*_[A-Z0-9_]+)"', sources)) | {"BROKEN", "OVERLAPS", "UNRESOLVED", "MALFORMED"}
        self.assertLessEqual(named - {"RECORDS_MARK"}, set(_words.TABLE))  # that one is taken where the table has it
        for row in _words.TABLE.values():
            for blank in re.findall(r"\{(.*?)\}", row.words):
                self.assertRegex(blank, r"\A(node|bank|second|note|[012](:(\dX|[a-z]+))?)\Z")


class Documents(unittest.TestCase):
    def test_docstrings(self):
        result = doctest.testmod(denkumari, verbose=False)
        self.assertEqual(result.failed, 0)
        self.assertGreater(result.attempted, 60)

    def test_readme(self):
        result = doctest.testfile(str(PACKAGE / "README.md"), module_relative=False, globs={"ROOT": ROOT}, verbose=False)
        self.assertEqual(result.failed, 0)
        self.assertGreater(result.attempted, 20)

    def test_using(self):
        """What docs/USING.md shows of Python."""
        with tempfile.TemporaryDirectory() as room:
            os.chdir(room)
            try:
                for name in ("examples", "include"):
                    os.symlink(ROOT / name, name)
                result = doctest.testfile(str(ROOT / "docs" / "USING.md"), module_relative=False, verbose=False)
            finally:
                os.chdir(PACKAGE)
        self.assertEqual(result.failed, 0)

    def test_documented(self):
        for name in denkumari.__all__:
            self.assertTrue(getattr(denkumari, name).__doc__, name)
