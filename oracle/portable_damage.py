#!/usr/bin/env python3
"""Damages to the printer of the portable C (tools/printer), one at a time: is each seen?

    portable_damage.py --term FILE [--calls N] [--driver FOLDER] [NAME ..]

The damaged printer prints the term of the exported calls, and a C compiler compiles that with the driver over all calls (portable/driver.h). A damage is
seen where the printer refuses, where the compiler refuses or warns, or where the driver ends or answers otherwise than over portable/denkumari.c, which is
held to the proved archive (portable/matrix). One that prints what means the same is listed here with the reason. Prints a line for each, and how many were
seen; ends with 1 where one is neither seen nor listed. NAME is a damage by its number, all of them unless said; FILE has what `rt mir` of
the kit before this one (portable/PRINTED) printed of the library: today's kit prints no term. FOLDER has the driver (default: portable)."""

import shutil
import subprocess
import sys
from pathlib import Path

import manners

ROOT = manners.ROOT
COMPILER = next((name for name in ("clang", "cc") if shutil.which(name)), "cc")     # clang reads a line more than gcc: apart_helper's
WARNINGS = ["-Wall", "-Wextra", "-Wconversion", "-Wshadow", "-pedantic", "-Werror"]

# What is damaged; the file of tools/printer; the text there; the text in its place; why it means the same, where it does.
DAMAGES = [
    ("a switch's arm loses all keys but its first", "term", "for key in x[1]], body", "for key in x[1][:1]], body", ""),
    ("a list of the logic loses what is behind its first two members", "term", "[done[1], *done[2]] if", "[done[1], *done[2][:1]] if", ""),
    ("the default arm is empty", "term", "yield [], body_of(x[1])", "yield [], Body()", ""),
    ("what may be lent to be written and what may be read are exchanged", "term", "Slice(pointer[2] == 'mut'", "Slice(pointer[2] != 'mut'", ""),
    ("a loop's live locals by one turn", "flow", "while after != top:", "for _ in range(1):", ""),
    ("a local that is set in part counts as set whole", "flow", "after | {s.to.local} if s.to.steps else after - {s.to.local}", "after - {s.to.local}", ""),
    ("what is live where a loop is left is taken from the wrong level", "flow", "after = exits[s.depth]", "after = exits[0]", ""),
    ("exits keep their depth where a block is taken away", "flow", "s.depth -= s.depth > depth", "s.depth -= 0", ""),
    ("leaving an outer block is taken for leaving the inner one", "flow", "if s.depth == depth:\n                return",
     "if s.depth >= depth:\n                return", ""),
    ("the return goes into branches of which one is empty", "flow", " and all(body[at].bodies):", ":",
     "a return that stands in each branch returns what one behind them returns"),
    ("the return behind branches is lost", "flow", "Body(inner + copy.deepcopy(body[at + 1:]))", "inner", ""),
    ("no type may be written through", "flow", "            return t.mut", "            return False", ""),
    ("nothing is written behind a local's address", "flow", "    return stored or any(", "    return False and any(", ""),
    ("no local is set", "flow", "return sum(s.to is not None and s.to.local == n", "return sum(False and s.to.local == n",
     "the term never sets a parameter; locals that could be lent are copied"),
    ("no local's address is taken", "flow", "return {s.reads[0].place.local for s in every(body) if s.kind",
     "return {0 for s in every(body) if False and s.kind",
     "names change, and parameters are copied: each such local is set ahead of a loop or a call, where all is set that is pending"),
    ("8 and 16 bits are not cut back", "exprs", "if t.bits < 32 else made(text", "if t.bits < 0 else made(text", ""),
    ("signed numbers are compared as unsigned ones", "exprs", "if signed and name in ('lt', 'le'):  ", "if False:  ", ""),
    ("a - (b - c) loses its parentheses", "exprs", "'sub': ('-', 4, 4, 3)", "'sub': ('-', 4, 4, 4)", ""),
    ("products lose their parentheses", "exprs", "'mul': ('*', 3, 2, 2)", "'mul': ('*', 3, 4, 4)", ""),
    ("the opposite of < is >", "exprs", "OPPOSITE = {'<': '>='", "OPPOSITE = {'<': '>'", ""),
    ("<= is printed as <", "exprs", "'le': ('<=',", "'le': ('<',", ""),
    ("division is printed as remainder", "exprs", "'div': ('/',", "'div': ('%',", ""),
    ("the logic's structs have no gaps", "ctypes_of", "-(-end // align) * align + size", "end + size", ""),
    ("an offset in bytes is taken for the number of an element", "exprs", "            i = times[0]", "            i = b", ""),
    ("a constant offset in bytes too", "exprs", "number(64, constant[0] // size)", "number(64, constant[0])",
     "the same text: constant offsets are 0, or into bytes"),
    ("1 << n has 32 bits", "exprs", "and (b.literal or name in ('shl', 'shr')):", "and b.literal:",
     "the one such shift counts bits inside of a byte: n is 8 at most"),
    ("products of 8 bits are made as int", "exprs", "name in ('mul', 'shl'):", "name in ('shl',):",
     "255 times 255 is below 2^31, and there are no products of 16 bits"),
    ("the number of a case is that of the case before", "exprs", 'self.types.cases(e.has("tag")[0])[n]}', 'self.types.cases(e.has("tag")[0])[n - 1]}', ""),
    ("a field is the field before", "exprs", "self.types.fields(e.type)[n], 1, parts[n]", "self.types.fields(e.type)[n - 1], 1, parts[n]", ""),
    ("a part of a case is taken from the first case", "exprs", "safe(self.types.cases(e.type)[case])}.f", "safe(self.types.cases(e.type)[0])}.f", ""),
    ("a slice's length is that of what it was cut from", "exprs", "length.has('length')[0].has('of')[0].text == whole.text", "True",
     "the term puts a slice's pointer together with the length of the same slice, or with a number"),
    ("true is printed as false", "exprs", "'true' if operand.n else 'false'", "'false' if operand.n else 'true'", ""),
    ("what is read from a local in memory counts as no memory", "exprs", "frozenset([n]), n in self.slots, place=True)",
     "frozenset([n]), False, place=True)",
     "the same text: no value of such a local is pending where something is stored through its address"),
    ("wrapping subtraction is an addition", "stmts", "BINARY[wrapping[1]]", "BINARY['add']", ""),
    ("a pending value is put where it is read, also twice", "stmts", "return len(here) > 1 or n in after", "return n in after", ""),
    ("a pending value is put where it is read, and is read again later", "stmts", "return len(here) > 1 or n in after", "return len(here) > 1", ""),
    ("a store does not set what reads memory first", "stmts", "(e.memory if s.to.indirect else", "(False if s.to.indirect else", ""),
    ("a call that writes does not set what reads memory first", "stmts", "return not pure and e.memory or not waits", "return not waits", ""),
    ("a local is set though pending values name its old one", "stmts", "            self.flush(out, lambda _, other: n in other.uses)", "            pass",
     "two statements move behind others that they do not touch: pending values are set in the order in which they were made"),
    ("what is pending at the end of a body is forgotten", "stmts", "        self.flush(out, lambda n, _: n in after)\n        self.pending = pending",
     "        self.pending = pending", ""),
    ("a call that writes is put where its answer is read, however late", "stmts", "lambda n, e: e.calls and not (takes", "lambda n, e: False and (takes",
     "between such a call and the use of its answer the term of today reads nothing that the call writes"),
    ("the branches of an if are exchanged", "stmts", "self.fork(out, self.tested(out, s), *[self.lines(inner, s.live) for inner in s.bodies])",
     "self.fork(out, self.tested(out, s), *[self.lines(inner, s.live) for inner in s.bodies[::-1]])", ""),
    ("the arms of a switch are exchanged", "stmts", "zip(s.keys, s.bodies)):", "zip(s.keys, s.bodies[1:] + s.bodies[:1])):", ""),
    ("an if without a first branch is not negated", "stmts", "e, yes, no = negated(e), no, yes", "e, yes, no = e, no, yes", ""),
    ("a loop goes on while its end is met", "stmts", "negated(lines[0].test).text", "lines[0].test.text", ""),
    ("break and continue are exchanged", "stmts", "'continue;' if way == ['loop'] else 'break;'", "'break;' if way == ['loop'] else 'continue;'", ""),
    ("an argument is lent though the call may write to it", "stmts", "if e.place and (pure or not e.memory):", "if e.place:",
     "no call of today's sources lends a large value together with the right to write to it"),
    ("a parameter or a local that is set more often is lent", "stmts", "for m in same) == times", "for m in same) >= times",
     "the same text: the term of today sets no large parameter, and no large local twice that is first set to a part of what is lent"),
    ("a copy of what may change is lent in its place", "stmts", "if e.place and e.steady and self.is_only_read(n, 1):",
     "if e.place and self.is_only_read(n, 1):", "the eight such copies are read before the local that they are a part of is set again"),
    ("what a pointer in a lent value points to counts as lent", "exprs", "True, e.steady and not isinstance(e.type, Ref)", "True, e.steady",
     "the same text: nothing of today's is copied from behind a pointer that stands in a lent value"),
    ("a part of what is lent counts as unchanging though its number is read from memory", "exprs", "memory=e.memory or not e.steady",
     "memory=not e.steady", "the same text: the number of such a part is always a local"),
    ("a parameter is taken for its copy though it is read again", "stmts", "and m not in s.live and not sets(self.body, m)", "and not sets(self.body, m)",
     "the term copies a parameter to memory before anything else, and does not read it again"),
    ("an array is filled but for its last element", "stmts", "each < {s.op}u;", "each < {s.op - 1}u;", ""),
    ("a local is declared in a loop that reads what the turn before left", "lines", "or sets(inner[0], name) and not", "or not",
     "a local that a loop alone names is set in each turn before it is read: otherwise the first turn would read it unset"),
    ("a struct is copied with its fields in the wrong order", "print", "for field in self.types.fields(t))", "for field in self.types.fields(t)[::-1])", ""),
    ("the fields of an answer are told in the wrong order", "print", "zip(structs[struct], self.types.fields(t), parts)",
     "zip(structs[struct][::-1], self.types.fields(t), parts)", ""),
]


class Room:
    """A temporary folder with a printer to be damaged, and the term."""

    def __init__(self, folder, term, driver, calls):
        self.folder, self.term, self.calls = folder, term, str(calls)
        self.driver = []
        shutil.copytree(ROOT / "tools" / "printer", folder / "tools" / "printer", ignore=shutil.ignore_patterns("__pycache__"))
        for name in ("oracle", "crates", "include", "portable"):
            (folder / name).symlink_to(ROOT / name)
        for part in ("", "_layouts", "_records", "_stores", "_main"):
            self.driver.append(folder / f"driver{part}.o")
            if not self.compile(driver / f"driver{part}.c", ["-O1", "-c", "-o", self.driver[-1]]):
                raise manners.Stop(f"{driver}/driver{part}.c is not compiled: --driver names the driver's folder")

    def compile(self, source, words):
        command = [COMPILER, "-std=c99", "-I", ROOT / "include", *words]
        return subprocess.run(command + [source], capture_output=True, check=False).returncode == 0

    def answers(self, source):
        """What the driver says over a file, and its status; None where it is not compiled."""
        if not self.compile(source, ["-w", "-o", self.folder / "driver", *self.driver]):
            return None
        try:
            done = subprocess.run([self.folder / "driver", self.calls, "7"], capture_output=True, check=False, timeout=60)
        except subprocess.TimeoutExpired:
            return "no end"
        return done.returncode, done.stdout

    def printed(self):
        """What the printer in the folder prints, or None where it refuses."""
        words = [sys.executable, "-B", self.folder / "tools" / "printer" / "print.py", "denkumari.c", self.folder, "sum", "kit", self.term]
        if subprocess.run(words, capture_output=True, check=False).returncode:
            return None
        return (self.folder / "denkumari.c").read_text()

    def seen(self, damage, good, wanted):
        """How a damage is seen; nothing where it is not."""
        _, file, old, new, _ = damage
        path = self.folder / "tools" / "printer" / f"{file}.py"
        text = path.read_text()
        if text.count(old) != 1:
            raise manners.Stop(f"tools/printer/{file}.py has {text.count(old)} times: {old}")
        path.write_text(text.replace(old, new))
        printed = self.printed()
        path.write_text(text)
        if printed is None:
            return "the printer refuses"
        if printed == good:
            return ""
        found = self.answers(self.folder / "denkumari.c")
        if found is None:
            return "the compiler refuses"
        if found != wanted:
            return "the driver does not end" if found == "no end" else "other answers" if found[0] == wanted[0] else f"the driver ends with {found[0]}"
        return "" if self.compile(self.folder / "denkumari.c", ["-O2", *WARNINGS, "-c", "-o", self.folder / "object"]) else "the compiler warns"


def main():
    parser = manners.parser(__doc__)
    parser.add_argument("--calls", type=manners.some, default=30_000)
    parser.add_argument("--driver", type=Path, default=ROOT / "portable")
    parser.add_argument("--term", type=Path)
    parser.add_argument("names", nargs="*", type=manners.some, metavar="NAME")
    asked = parser.parse_args()
    for name in asked.names:
        if name > len(DAMAGES):
            parser.error(f"there is no damage {name}")
    missed = seen = same = 0
    with manners.room() as folder:
        if asked.term is None:
            raise manners.Stop("--term is wanted: the kit that KIT names prints no term")
        room = Room(folder, asked.term.resolve(), asked.driver.resolve(), asked.calls)
        good = room.printed()
        if good is None:
            raise manners.Stop("the printer refuses without a damage")
        wanted = room.answers(ROOT / "portable" / "denkumari.c")
        if not isinstance(wanted, tuple) or wanted[0]:
            raise manners.Stop("the driver does not run over portable/denkumari.c")
        print("| | damage to the printer | seen |\n|---|---|---|")
        for number, damage in enumerate(DAMAGES, 1):
            if not asked.names or number in asked.names:
                how = room.seen(damage, good, wanted)
                missed, seen, same = missed + (not how and not damage[4]), seen + bool(how), same + (not how and bool(damage[4]))
                print(f"| {number} | {damage[0]} | {how or (damage[4] and 'means the same: ' + damage[4]) or 'NOT SEEN'} |", flush=True)
    print(f"{seen} seen, {same} mean the same, {missed} not seen")
    sys.exit(1 if missed else 0)


if __name__ == "__main__":
    manners.run(main)
