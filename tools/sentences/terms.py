"""Terms and goals: what a sentence becomes before it is run.

A term is (kind, label, parts); var, num, lit, ty, bot and top have no parts. Values are var num lit fn con rec (a pair is one with the fields 0 and 1) proj and
ufn, a definition by cases. What is said is rel sig pi sum call and abbr, with the term of the file behind the parts. What waits for arguments is papp, bif
and clo, a λ with the values of the names that it uses. A goal is a comparison (rel), another sentence (call), a choice (or) or a search that must find nothing
(not); a choice of nothing is false."""
import functools
from collections import namedtuple

NIL = ("fn", "[]", ())


class Goal:
    """label: the comparison's sign or the sentence; ways: (variables, goals) of each choice, of a search the one; fa: (variables, premises, further variables,
    conclusion) where it was said of all; src: the term in the file; via: the abbreviations it came through."""
    pred, free = None, None

    def __init__(self, kind, label=None, parts=(), ways=(), fa=None, src=None, via=()):
        self.kind, self.label, self.parts, self.ways, self.fa, self.src, self.via = kind, label, parts, ways, fa, src, via

    def noted(self, src, via):
        self.src, self.via = src, via
        return self


def rel(op, a, b):
    return Goal("rel", op, (a, b))


def nothing(vars, goals, fa=None):
    """The search for something that meets the goals must find nothing."""
    return Goal("not", ways=[(vars, goals)], fa=fa)


def false(g):
    return g.kind == "or" and not g.ways


def equations(goals):
    """(goal, side, other side) of each equation, read both ways."""
    for g in goals:
        if g.kind == "rel" and g.label == "==":
            yield (g, *g.parts)
            yield (g, *g.parts[::-1])


# a constructor: its variables, premises, and what it concludes of each argument; parts of a record: (field, comment, first goal, goal behind the last)
Clause = namedtuple("Clause", "name vars goals head comment line parts fa", defaults=("", 0, (), None))


class Pred:
    """A sentence at its arguments; the last `indices` of them are its indices. anon: made for a choice or a search."""
    count = 0

    def __init__(self, name, args, indices, build, of=None):
        Pred.count += 1
        self.id, self.name, self.args, self.indices, self.build, self.of = Pred.count, name, args, indices, build, of
        self.anon, self.endless, self.label, self.captured = of is None, False, name, 0

    @functools.cached_property
    def clauses(self):
        return self.build()


def is_fn(e, *ops):
    return e[0] == "fn" and e[1] in ops


def fn(op, args):
    """An operation, worked out as far as lists are written out."""
    a = args[0] if args else None
    if op in ("/", "%", "*") and a == ("num", 0):
        return a
    if op == "++" and is_fn(a, "∷", "++"):
        return fn(a[1], (a[2][0], fn("++", (a[2][1], args[1]))))
    if op == "++" and a == NIL:
        return args[1]
    if op == "length" and a == NIL:
        return ("num", 0)
    if op == "length" and is_fn(a, "∷"):
        n = fn("length", (a[2][1],))
        return ("num", n[1] + 1) if n[0] == "num" else ("fn", "suc", (n,))
    if op == "length" and is_fn(a, "++"):
        return ("fn", "+", tuple(fn("length", (x,)) for x in a[2]))
    if op == "get_or" and is_fn(a, "∷") and folded(args[1]) is not None:
        i = folded(args[1])
        return a[2][0] if i == 0 else fn("get_or", (a[2][1], ("num", i - 1), args[2]))
    return ("fn", op, args)


def folded(e):
    """A term of numerals as a number, or None."""
    if e[0] == "num":
        return e[1]
    parts = [folded(x) for x in e[2]] if is_fn(e, "+", "suc") else [None]
    return None if None in parts else sum(parts) + (e[1] == "suc")


def proj(e, field):
    return e[2][e[1].index(field)] if e[0] == "rec" else ("proj", field, (e,))


def mapped(x, f):
    """A term or goal with f put on its direct subterms; the variables that it binds are not touched."""
    if isinstance(x, Goal):
        vs, premises, further, conclusion = x.fa or ([], [], [], [])
        fa = x.fa and (vs, [mapped(g, f) for g in premises], further, [mapped(g, f) for g in conclusion])
        return Goal(x.kind, x.label, tuple(map(f, x.parts)), [(vs, [mapped(g, f) for g in gs]) for vs, gs in x.ways], fa, x.src, x.via)
    if len(x) < 3:
        return x
    parts = tuple(map(f, x[2]))
    return fn(x[1], parts) if x[0] == "fn" else proj(parts[0], x[1]) if x[0] == "proj" else (x[0], x[1], parts) + x[3:]


def subst(x, m):
    """Variables replaced by terms."""
    if isinstance(x, tuple) and x[0] == "var":
        return m.get(x[1], x)
    return mapped(x, lambda y: subst(y, m))


def replace(x, old, new):
    """A term replaced by another."""
    return new if x == old else mapped(x, lambda y: replace(y, old, new))


def subterms(x):
    if isinstance(x, Goal):
        for y in x.parts + tuple(g for _, gs in x.ways for g in gs):
            yield from subterms(y)
        return
    yield x
    for y in x[2] if len(x) > 2 else ():
        yield from subterms(y)


def free(x):
    """Free variables, in order."""
    if not isinstance(x, Goal):
        return {x[1]: 1} if x[0] == "var" else {y[1]: 1 for y in subterms(x) if y[0] == "var"}
    if x.free is None:
        x.free = {v: 1 for y in x.parts for v in free(y)}
        x.free.update((v, 1) for bound, goals in x.ways for v in frees(goals) if v not in bound)
    return x.free


def frees(goals):
    return {v: 1 for g in goals for v in free(g)}
