#!/usr/bin/env python3
"""Changes to the sentences, by hand: each numeral one higher, each < and ≤ exchanged, each constructor and premise removed, one at a time, on drawn inputs.

    oracle/sentences_changes.py FILE .. [--inputs N] [--seed S] [--call NAME ..] [--from L] [--to L] [--every N] [--again ROWS] [--seconds S]
        [--try]

FILE is the name of a file of sentences (Part.antt). Each change is tried on the calls whose sentences reach the declaration that it is made to, and on N
inputs of each (of calls with long lists a tenth) and then on its edges, until an answer differs. Prints a row for each change: `changed` an answer, with none
or several outcomes too; `stops`: the changed sentences cannot be run; `long`: on some input they ran for more than S seconds of processor time; `listed`: no
answer differs, and oracle/sentences_same.tsv says why it means the same; `same`: no answer differs, and nobody has said why; `apart`: no call that runs
reaches it. Behind the rows of a file comes its line for docs/RUNNING-SENTENCES.md. --call leaves other calls out, --from and --to say which lines of a file
are changed, --every that only every Nth change is tried, --again that only those are tried that are `same` or `long` in the rows of an earlier run. Nothing
is written. Status 1 says that a change is `same`, or that one changed an answer though it is listed. --try reads the words only."""
import multiprocessing
import re
import signal
import sys
import time
from collections import Counter
from pathlib import Path

sys.dont_write_bytecode = True
ROOT = Path(__file__).resolve().parent.parent
sys.path.insert(0, str(ROOT / "tools"))

import manners  # noqa: E402
import sentences_edges  # noqa: E402
import sentences_inputs  # noqa: E402
from sentences import clauses  # noqa: E402
from sentences.calls import CALLS, LONG, NOT_RUN, Call  # noqa: E402
from sentences.clauses import NotASentence, Program  # noqa: E402
from sentences.reader import Library, Unreadable  # noqa: E402
from sentences.running import deep  # noqa: E402
from sentences.values import Floundered, Open, plain  # noqa: E402

REFUSED = (Floundered, Open, NotASentence, Unreadable, RecursionError, KeyError, IndexError, TypeError, ValueError, AttributeError)


class TooLong(Exception):
    pass


class Read(Library):
    """The files as they stand are read once."""
    known = {}

    def file(self, path):
        path = Path(path).resolve()
        if path in self.texts:
            return super().file(path)
        if path not in self.known:
            self.known[path] = super().file(path)
        return self.known[path]


def changes(text):
    """(line, what, changed text): in declarations alone, not in comments and imports."""
    at = 0
    for number, line in enumerate(text.split("\n"), 1):
        body = re.sub(r"\s--\s.*", "", line)
        if not re.match(r"\s*(--|use |pub mod |infix)", line):
            for m in re.finditer(r"(?<![\w.'′₀-₉{-])\d+(?![\w'′}])|(?<= )[<≤](?= )", body):
                new = {"<": "≤", "≤": "<"}.get(m.group()) or str(int(m.group()) + 1)
                if "Type 0" not in body[max(0, m.start() - 5):m.end()]:
                    shown = (body[:m.start()] + "«%s→%s»" % (m.group(), new) + body[m.end():]).strip()
                    yield number, shown, text[:at + m.start()] + new + text[at + m.end():]
        at += len(line) + 1


def removals(path, text):
    """The same of what is removed: constructors, and premises of records; what a record holds stays."""
    program = Program(ROOT / "crates")
    lines = text.split("\n")
    for d in program.lib.file(path).defs.values():
        for name, kind, _, line in d.parts if d.kind != "abbrev" else ():
            if d.kind == "record" and (kind[0] == "id" or program.kind(kind, d.ctx) not in (None, "fun", "pair")):
                continue
            indent, end = re.match(" *", lines[line - 1]).group(), line
            while end < len(lines) and lines[end].startswith(indent + " "):
                end += 1
            yield line, "%s of %s removed" % (name, d.name), "\n".join(lines[:line - 1] + lines[end:])


class Pool:
    """A call, its inputs and their outcomes, those that told a change apart first: the drawn ones, and the edges behind them."""
    def __init__(self, name, seed, count):
        self.name, self.reached, began = name, set(), time.process_time()
        lookup = Library.lookup

        def watched(library, file, word):
            found = lookup(library, file, word)
            if found[0] == "def":
                self.reached.add((found[1].file.path, found[1].line))
            return found
        Library.lookup = watched
        self.call = Call(name, ROOT / "crates")
        Library.lookup = lookup
        self.reached.add((self.call.definition.file.path, self.call.definition.line))
        self.cost = (name in LONG, time.process_time() - began)
        self.sources = [lambda: sentences_inputs.wide(name, seed, max(1, count // 10) if name in LONG else count), lambda: sentences_edges.edges(name)]
        self.drawn = [None, None]

    def inputs(self, part):
        """[number, input, outcome] of each, drawn where they are first asked for."""
        if self.drawn[part] is None:
            self.drawn[part] = [["edge %d" % i if part else "input %d" % i, given, outcome(self.call, given)] for i, given in enumerate(self.sources[part]())]
        return self.drawn[part]

    def first(self, number):
        """This input comes first from now on."""
        self.drawn[number.startswith("edge")].sort(key=lambda x: x[0] != number)


def outcome(call, given):
    try:
        return sorted(map(str, map(plain, call.outcomes(given))))
    except REFUSED as error:
        return type(error).__name__


def within(seconds, work):
    """What `work` answers, or "long" where it takes more processor time."""
    def ring(*_):
        raise TooLong
    signal.signal(signal.SIGVTALRM, ring)
    signal.setitimer(signal.ITIMER_VIRTUAL, seconds)
    try:
        return work()
    except TooLong:
        return "long"
    except REFUSED:
        return "stops"
    finally:
        signal.setitimer(signal.ITIMER_VIRTUAL, 0)


def tried(pools, part, path, text, seconds):
    """(verdict, call, input) of a changed file on the calls' inputs; a call that stops on all of the first twelve is left."""
    said = set()
    for pool in pools:
        call, runs = within(seconds, lambda pool=pool: Call(pool.name, ROOT / "crates", {path: text})), False
        for at, (number, given, before) in enumerate(pool.drawn[part]):
            now = call if isinstance(call, str) else within(seconds, lambda call=call, given=given: outcome(call, given))
            if now == before or not isinstance(now, str):
                runs = True
            else:
                said.add("long" if now == "long" else "stops")
            if not isinstance(now, str) and now != before:
                return "changed", pool.name, number
            if now == "long" or call == now or at > 10 and not runs:
                break
    return next((x for x in ("long", "stops") if x in said), "same"), "", ""


def apart(work, *arguments):
    """What `work` answers in a process of its own: (`stops`, ..) where that ends."""
    here, there = multiprocessing.Pipe(False)
    child = multiprocessing.get_context("fork").Process(target=lambda: there.send(work(*arguments)))
    child.start()
    there.close()
    try:
        return here.recv()
    except EOFError:
        return "stops", "", ""
    finally:
        child.kill()
        child.join()


def verdict(pools, path, text, seconds, parts):
    """What comes of a change on the first so many parts of the calls' inputs, and by which."""
    said = ["same" if pools else "apart"]
    for part in range(parts):
        pools = [p for p in pools if p.inputs(part)]
        found, name, number = apart(tried, pools, part, path, text, seconds) if pools else ("same", "", "")
        if found == "changed":
            next(p for p in pools if p.name == name).first(number)
            return found, "%s, %s" % (name, number)
        said.append(found)
    return next(x for x in ("apart", "long", "stops", "same") if x in said), ""


def explained():
    """(file, change) of each that means the same."""
    rows = (ROOT / "oracle" / "sentences_same.tsv").read_text(encoding="utf-8").splitlines()
    return {tuple(row.split("\t")[:2]) for row in rows[1:]}


def told(name, counted):
    """A file's line of the page."""
    n = sum(counted.values())
    return "| %s | %d of %d | %d | %d | %d | %d |" % (name, n - counted["apart"], n, counted["changed"] + counted["listed, changed"],
                                                      counted["stops"] + counted["long"], counted["listed"], counted["same"])


def behind(library, call):
    """The files that a call's sentence rests on."""
    todo, found = [f for f in library.sentences() if CALLS[call].split()[0] in f.defs], set()
    while todo:
        file = todo.pop()
        if file.path not in found:
            found.add(file.path)
            todo += [f for f in map(library.of_use, {*file.imports.values(), *file.alias.values()}) if f]
    return found


def run(asked):
    clauses.Library = Read
    paths = {p.resolve() for name in asked.files for p in (ROOT / "crates").glob("says*/specs/" + name)}
    names = [n for n in asked.call or CALLS if n not in NOT_RUN and behind(Read(ROOT / "crates"), n) & paths]
    pools = sorted((Pool(n, asked.seed, asked.inputs) for n in names), key=lambda p: p.cost)
    rows = [row.split("\t") for row in Path(asked.again).read_text(encoding="utf-8").splitlines()] if asked.again else []
    again = {tuple(row[1:3]) for row in rows if row[0] in ("same", "long")} if asked.again else None
    library, listed, wrong = Read(ROOT / "crates"), explained(), 0
    for name in asked.files:
        path, = (ROOT / "crates").glob("says*/specs/" + name)
        path, counted = path.resolve(), Counter()
        starts = sorted(d.line for d in library.file(path).defs.values())
        text = path.read_text(encoding="utf-8")
        for line, what, text in (list(changes(text)) + list(removals(path, text)))[::asked.every]:
            if asked.first <= line <= asked.last and (again is None or ("%s:%d" % (name, line), what) in again):
                of = max((s for s in starts if s <= line), default=0)
                said, by = verdict([p for p in pools if (path, of) in p.reached], path, text, asked.seconds, 1 if (name, what) in listed else 2)
                if (name, what) in listed:
                    said = {"same": "listed", "changed": "listed, changed"}.get(said, said)
                counted[said] += 1
                print("%s\t%s:%d\t%s\t%s" % (said, name, line, what, by), flush=True)
        wrong += counted["same"] + counted["listed, changed"]
        print(told(name, counted), flush=True)
    return wrong


def main():
    p = manners.parser(__doc__)
    p.add_argument("files", nargs="+", metavar="FILE")
    p.add_argument("--inputs", type=manners.some, default=1500, metavar="N")
    p.add_argument("--seed", default="changes", metavar="S")
    p.add_argument("--call", nargs="+", choices=list(CALLS), metavar="NAME")
    p.add_argument("--from", type=manners.some, default=1, dest="first", metavar="L")
    p.add_argument("--to", type=manners.some, default=10 ** 6, dest="last", metavar="L")
    p.add_argument("--every", type=manners.some, default=1, metavar="N")
    p.add_argument("--again", metavar="ROWS")
    p.add_argument("--seconds", type=manners.some, default=10, metavar="S")
    p.add_argument("--try", action="store_true", dest="only")
    asked = p.parse_args()
    if asked.only:
        return
    for name in asked.files:
        if not list((ROOT / "crates").glob("says*/specs/" + name)):
            raise manners.Stop("there is no file of sentences %s" % name)
    sys.exit(1 if deep(lambda: run(asked)) else 0)


if __name__ == "__main__":
    manners.run(main)
