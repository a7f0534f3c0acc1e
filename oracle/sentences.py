#!/usr/bin/env python3
"""The sentences, run as they stand (tools/sentences), beside the library itself: drawn inputs of every call that can be run, all examples, recorded answers.
Then tools/why and tools/verdict, as a person starts them.

    oracle/sentences.py [--inputs N] [--seed S] [--call NAME] [--archive ARCHIVE] [--recorded N] [--try]

Each call's outcome, its answer and all that is lent, has to be the only one that meets the call's sentences. --inputs says how many are drawn for each call
(200; of calls with long lists a tenth), --recorded how many recorded layouts of at most 400 bytes are asked (150). ARCHIVE is the proved archive
(target/staticlib/libdenkumari.a; bindings/build.sh makes it). Status 1 says that something differs. --try reads the words and does nothing else."""
import subprocess
import sys
import time
from collections import Counter
from pathlib import Path

sys.dont_write_bytecode = True
ROOT = Path(__file__).resolve().parent.parent
sys.path.insert(0, str(ROOT / "tools"))

import manners  # noqa: E402
import sentences_inputs  # noqa: E402
import sentences_library  # noqa: E402
import sentences_rust  # noqa: E402
from sentences import layouts  # noqa: E402
from sentences.calls import CALLS, LONG, NOT_RUN, Call  # noqa: E402
from sentences.running import deep  # noqa: E402
from sentences.values import Floundered, Open, Rec  # noqa: E402


def told(name, parts):
    """The sentences' outcome as the library tells its own."""
    answer, fields = parts[0], sentences_library.STRUCTS[sentences_library.CALLS[name][0]]
    out = {}
    for of, word, many in fields:
        found = answer[word]
        out[word] = [[x.d[w] for _, w, _ in sentences_library.STRUCTS[of]] if isinstance(x, Rec) else x for x in found] if many else found
    return [out] + parts[1:]


class Test:
    def __init__(self, library):
        self.library, self.wrong, self.asked = library, 0, 0

    def ask(self, call, inputs, what):
        """One input of a call: the library's outcome is the only one that meets the sentences."""
        want = self.library.ask(call.name, inputs)
        try:
            got = [told(call.name, call.parts(y)) for y in call.outcomes(inputs)]
        except (Floundered, Open) as error:
            got = [str(error)]
        self.asked += 1
        if got != [want]:
            self.wrong += 1
            print("differs: %s, %s\n  the library: %s\n  the sentences, %d outcomes: %s" % (call.name, what, str(want)[:300], len(got), str(got)[:300]))
        return next(iter(want[0].values()))

    def drawn(self, name, seed, count):
        began, call, seen = time.time(), Call(name, ROOT / "crates"), Counter()
        for i, inputs in enumerate(sentences_inputs.inputs(name, seed, count)):
            seen[self.ask(call, inputs, "seed %s, input %d" % (seed, i))] += 1
        print("%-17s %5d inputs, %5d accepted, %2d different answers, %.1f s" % (name, count, seen[0], len(seen), time.time() - began), flush=True)

    def examples(self):
        call, files = Call("dk_form", ROOT / "crates"), sorted((ROOT / "examples").glob("*.form"))
        for file in files:
            for fill in (0, 1):
                lists = dict(image=[0] * 6000, addresses=[7] * 500, offsets=[9] * 500, sizes=[11] * 500)
                self.ask(call, dict(lists, file=list(file.read_bytes()), fill=fill), "%s, fill %d" % (file.name, fill))
        print("%d examples, both fills" % len(files), flush=True)

    def tools(self, folder):
        """tools/why and tools/verdict, as a person starts them."""
        files = made_files(folder)
        for words, status, said in TOOLS:
            tool, *rest = [files.get(w, w) for w in words.split()]
            done = subprocess.run([sys.executable, ROOT / "tools" / tool, *rest], cwd=ROOT, capture_output=True, text=True)
            if done.returncode != status or said not in done.stdout + done.stderr or words == TOOLS[0][0] and done.stdout.count("\n") > 40:
                self.wrong += 1
                print("tools/%s ends with %d, and not with %d and: %s\n%s" % (words, done.returncode, status, said, (done.stdout + done.stderr)[:500]))
        if "verdict: yes" not in Path(files["OUT"]).read_text() or Path(files["OUT2"]).exists():
            self.wrong += 1
            print("a certificate is written with yes, and with yes only")
        print("%d uses of tools/why and tools/verdict" % len(TOOLS), flush=True)

    def recorded(self, most):
        side, count = sentences_rust.Side(), 0
        for row in (ROOT / "oracle" / "replay" / "cases.tsv").read_text().splitlines():
            file, _, _, line = row.split("\t")
            if count < most and len(file) <= 800 and line.startswith(("ok ", "refused ")):
                count += 1
                got = side.line(bytes.fromhex(file))
                if got != line:
                    self.wrong += 1
                    print("differs from the record: %s\n  recorded: %s\n  the sentences: %s" % (file[:200], line, got))
        print("%d recorded layouts" % count, flush=True)


# a tool's words, its status, and what stands in its answer; HEX and BAD are a file of records of banks.form, and one with a bit changed
TOOLS = (
    ("why examples/clamp-mark-after.form", 0, "Why 0 7 12 0 128  by overlaps"),
    ("why BROKEN", 0, "Broken (form-1) 1  by at_field"),
    ("why examples/worked.form --bit 9", 0, "bit 9 is 1:  item-bit"),
    ("why examples/worked.form --bit 40", 2, "there is no bit 40: the image has 40 bits"),
    ("why examples/worked.form --node 1 --names NAMES", 0, "node 1 (start, a.asm:3) in pass 2: label"),
    ("why examples/worked.form --node 9", 2, "there is no node 9"),
    ("why examples/worked.form --node 1 --pass 3", 2, "there is no pass 3: passes 1 to 2 were run"),
    ("why examples/worked.form --names BROKEN", 2, "is no names file"),
    ("why examples/worked.form --html", 0, "<details open><summary>"),
    ("why MISSING", 2, "No such file"),
    ("verdict examples/banks.form HEX --certificate OUT", 0, "yes: "),
    ("verdict examples/banks.form HEX --certificate /dev/full", 2, "No space left on device"),
    ("verdict examples/banks.form BAD --certificate OUT2", 1, "is 0f in the file; by the sentences 0e"),
    ("verdict examples/banks.form BROKEN --as hex", 1, "the file of records is bad: reason"),
    ("verdict examples/clamp-mark-after.form HEX", 1, "the layout has no image: refused 12, place 0, second 128"),
    ("verdict examples/worked.form HEX", 1, "not on byte edges"),
    ("verdict MISSING HEX", 2, "No such file"),
)


def made_files(folder):
    """The files that the tools are tried with, by the names above."""
    layout = layouts.Layout(ROOT / "crates", (ROOT / "examples" / "banks.form").read_bytes())
    n, load = layout.answer["spans"], dict(image=layout.image, load=0, text=[0] * 1000)
    blocks, starts, sizes = sentences_rust.Side().parts(Call("dk_blocks", ROOT / "crates"), dict(
        offsets=layout.lent[2][:n], sizes=layout.lent[3][:n], block_offsets=[0] * n, block_sizes=[0] * n))
    written, text = sentences_rust.Side().parts(Call("dk_write_hex", ROOT / "crates"), dict(
        load, offsets=starts[:blocks["count"]], sizes=sizes[:blocks["count"]]))
    good = bytes(text[:written["count"]])
    record = bytearray.fromhex(good.split(b"\n")[0][1:].decode())
    record[4], record[-1] = record[4] ^ 1, (record[-1] + (1 if record[4] & 1 else -1)) % 256
    bad = b"\n".join([b":" + record.hex().upper().encode()] + good.split(b"\n")[1:])
    made = dict(HEX=good, BAD=bad, BROKEN=(ROOT / "examples" / "worked.form").read_bytes()[:40], NAMES=b"1\tstart\ta.asm:3\n")
    for name, data in made.items():
        (folder / name).write_bytes(data)
    return {name: str(folder / name) for name in (*made, "MISSING", "OUT", "OUT2")}


def run(asked):
    with manners.room() as folder:
        test = Test(sentences_library.Library(asked.archive, folder))
        for name in [asked.call] if asked.call else [n for n in CALLS if n not in NOT_RUN]:
            test.drawn(name, asked.seed, max(1, asked.inputs // 10) if name in LONG else asked.inputs)
        if not asked.call:
            test.examples()
            test.recorded(asked.recorded)
            test.tools(folder)
        test.library.close()
    print("%d outcomes of %d calls: %d differ" % (test.asked, 1 if asked.call else len(CALLS) - len(NOT_RUN), test.wrong))
    return test.wrong


def main():
    p = manners.parser(__doc__)
    p.add_argument("--inputs", type=manners.some, default=200, metavar="N")
    p.add_argument("--seed", default="1", metavar="S")
    p.add_argument("--call", choices=[n for n in CALLS if n not in NOT_RUN], metavar="NAME")
    p.add_argument("--archive", default=str(ROOT / "target" / "staticlib" / "libdenkumari.a"), metavar="ARCHIVE")
    p.add_argument("--recorded", type=manners.count, default=150, metavar="N")
    p.add_argument("--try", action="store_true", dest="only")
    asked = p.parse_args()
    if asked.only:
        return
    if not Path(asked.archive).is_file():
        raise manners.Stop("%s is not there: bindings/build.sh makes the archive" % asked.archive)
    sys.exit(1 if deep(lambda: run(asked)) else 0)


if __name__ == "__main__":
    manners.run(main)
