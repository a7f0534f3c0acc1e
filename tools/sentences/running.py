"""The plans become Python, and the Python is run. Every sentence that is met is kept in a table, with the constructor and its numbers: all outcomes are found,
so that each run also tests that there is exactly one."""
import concurrent.futures
import gc
import itertools
import re
import sys
import threading

from . import values
from .arithmetic import ident
from .clauses import indices_of
from .modes import Modes
from .values import Floundered


class Runner(Modes):
    def __init__(self, crates, texts=None):
        super().__init__(crates, texts)
        self.names = dict(vars(values), itertools=itertools, build=self.run_build, NONE=values.Seq())
        self.functions, self.tops, self.topping, self.builds, self.tables, self.why = {}, {}, [], [], {}, {}
        self.modes, self.bad, self.compiled, self.relaxed, self.testing = {}, {False: set(), True: set()}, set(), True, False

    def function(self, p, mask):
        return "p%d_%s" % (p.id, "".join("io"[not m] for m in mask))

    def define(self, lines):
        exec(compile("\n".join(lines), "<sentences>", "exec"), self.names)

    def emit(self, steps, depth, out="return"):
        """(lines, depth) of Python for some steps"""
        lines = []
        for kind, *rest in steps:
            pad = " " * depth
            if kind == "let":
                lines.append("%s%s = %s" % (pad, *rest))
            elif kind == "guard":
                lines.append("%sif not (%s): %s" % (pad, rest[0], out))
            elif kind == "flounder":
                lines.append("%sif %s: raise Floundered(%r)" % (pad, *rest))
            else:
                lines.append("%sfor %s in %s:" % (pad, *rest[:2]))
                depth, out = depth + 1, "continue"
        return lines, depth

    def ask(self, name, args):
        """What a function finds; first comes code for it, and for all that it asks."""
        if name not in self.compiled:
            by_name = {self.function(*k): k for k in self.modes}
            work = [name] + [n for _, facts, _ in self.builds for f in facts for n in (f.name, f.spoken)]
            while work:
                k = work.pop()
                if k in by_name and k not in self.compiled:
                    self.compiled.add(k)
                    for text in self.code(*by_name[k]):
                        self.define(text)
                        work += re.findall(r"\bp\d+_[io]*\b", "\n".join(text))
        return self.names[name](*args)

    def code(self, p, mask):
        """The texts of functions for a sentence with these arguments known; a clause is a loop that is left where it is not met."""
        name, args, once, plans = self.function(p, mask), [ident(v) for v, m in zip(p.args, mask) if m], all(mask), self.modes[p, mask]
        ranges = [self.ranges(name, args, v, plans[0][1]) for v in args if p.anon and once and len(plans) == 1]
        if any(ranges):
            return next(filter(None, ranges))
        lines, ends = ["def %s(%s):" % (name, ", ".join(args))], [" return False" if once else " yield from ()"]
        if not p.anon:
            self.names["T" + name] = self.tables[p, mask] = {}
            lines += [" k = (%s)" % "".join(a + ", " for a in args), " t = T%s.get(k)" % name, " if t is not None: return t", " T%s[k] = BUSY; t = {}" % name]
            ends = [" T%s[k] = t" % name, " return t"]
        for c, steps, bound in plans:
            found = "".join(self.py(h) + ", " for h, m in zip(c.head, mask) if not m)
            numbers = "".join((ident(v) if v in bound else "None") + ", " for v in c.vars)
            told = ["return True" if once else "yield (%s)" % found] if p.anon else ["t.setdefault((%s), (%d, (%s)))" % (found, p.clauses.index(c), numbers)]
            body, depth = self.emit(steps, 2, "break")
            lines += [" while True:"] + body + [" " * depth + x.strip() for x in told + (ends if once and not p.anon else [])] + ["  break"]
        return [lines + ends]

    def ranges(self, name, args, v, steps):
        """A search whose only word on a number v is that it is at least something and below something: the ranges are found once, and then looked up."""
        on_v = [s for s in steps if re.search(r"\b%s\b" % v, " ".join(s[1:3]))]
        low = [s[1][:-len(" <= " + v)] for s in on_v if s[0] == "guard" and s[1].endswith(" <= " + v) and v not in s[1][:-len(v)]]
        high = [s[1][len(v + " < "):] for s in on_v if s[0] == "guard" and s[1].startswith(v + " < ") and v not in s[1][len(v):]]
        if len(on_v) != 2 or len(low) != 1 or len(high) != 1 or not any(s[0] == "for" for s in steps):
            return None
        given = "".join(a + ", " for a in args if a != v)
        lines, depth = self.emit([s for s in steps if s not in on_v], 1)
        self.names["T" + name] = self.tables[name] = {}
        return [["def %s_all(%s):" % (name, given)] + lines + [" " * depth + "yield %s, %s" % (low[0], high[0])],
                ["def %s(%s):" % (name, ", ".join(args)), " t = T%s.get((%s))" % (name, given),
                 " if t is None: t = T%s[(%s)] = Ranges(%s_all(%s))" % (name, given, name, given), " return t.hold(%s)" % v]]

    def query(self, name, count):
        """(declaration, sentence, which of its arguments are known, their order) of the declaration of this name that takes so many arguments, the last of
        which is to be found."""
        found = [f.defs[name] for f in self.lib.sentences() if name in f.defs]
        found = [d for d in found if len(d.given()) + len(indices_of(d)) == count]
        vs = [self.fresh("x") for _ in range(count)]
        goals = [g for d in found for g in self.goals(self.make(d, [("var", v) for v in vs]), [])]
        if [g.kind for g in goals] != ["call"]:
            raise Floundered("%s is not one sentence of an outcome, with %d arguments" % (name, count))
        p, order = goals[0].label, [vs.index(a[1]) for a in goals[0].parts]
        mask = tuple(i != count - 1 for i in order)
        if not self.ok(p, mask, None):
            raise Floundered("%s: no order of its premises finds the outcome" % name)
        return found[0], p, mask, order

    def clear(self):
        for t in self.tables.values():
            t.clear()
        values.Rec.known.clear()
        self.why.clear()


def deep(work):
    """Runs work where sentences may rest on many others."""
    gc.set_threshold(100000)                  # the tables of a run are many small things that all stay
    sys.setrecursionlimit(10 ** 6)
    threading.stack_size(1 << 29)
    with concurrent.futures.ThreadPoolExecutor(1) as one:
        return one.submit(work).result()
