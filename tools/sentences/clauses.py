"""Declarations become clauses: each constructor one, with its premises as goals. No sentence is known here by name; known are numbers, truths, lists, pairs,
records, and ≡ < ≤ between them."""
import itertools

from .reader import Library
from .terms import NIL, Clause, Goal, Pred, fn, free, frees, nothing, proj, subst, subterms

ARITY = {"suc": 1, "pos": 1, "negsuc": 1, "nat_abs": 1, "length": 1, "get_or": 3, "replicate": 2, "take": 2, "drop": 2, "map": 2}
FIXED = {"⊥": ("bot",), "Unit": ("top",), "true": ("lit", True), "false": ("lit", False), "[]": NIL, "zero": ("num", 0)}
TYPES = {"ℕ": "nat", "ℤ": "int", "Bool": "bool", "Unit": "unit", "List": "list", "Type": "type"}
SHAPES = {"pi": "fun", "arr": "fun", "prod": "pair", "sig": "pair"}
SIGNS = {"≡": "==", "≤": "<=", "<": "<"}
OPPOSITE = {"==": "!=", "!=": "==", "<": "<=", "<=": "<"}
PAIR = ("0", "1")


class NotASentence(Exception):
    pass


def arrows(t):
    """[(names or None, type, implicit)] before each arrow of a type, and what stands behind the last."""
    out = []
    while t[0] in ("pi", "arr"):
        out.append((t[1], t[2], t[4]) if t[0] == "pi" else (None, t[1], False))
        t = t[3] if t[0] == "pi" else t[2]
    return out, t


def indices_of(d):
    """(name, type) of what a family is indexed by."""
    return [(n, of) for names, of, implicit in arrows(d.sig)[0] if not implicit for n in names or ("y",)]


def modules_env(d, args):
    """Names of module parameters, and for declarations of the same module what they stand for."""
    own = [(id(b), p) for b in d.blocks for p, _, implicit in b.params if not implicit]
    return {name: a for (b, p), a in zip(own, args) for name in (p, ("module", b, p))}


class Program:
    def __init__(self, crates, texts=None):
        self.lib, self.type_of, self.counter, self.preds = Library(crates, texts), {}, itertools.count(1), {}

    def fresh(self, base, of=None):
        v = "%s~%d" % (base.split("~")[0], next(self.counter))
        self.type_of[v] = of
        return v

    def var(self, base, of=None):
        return ("var", self.fresh(base, of))

    def copy(self, v):
        return self.var(v, self.type_of.get(v))

    def kind(self, raw, ctx):
        """nat int bool list pair unit, ("rec", Def), ("enum", Def), type, fun or None"""
        name = raw[1] if raw[0] == "app" else raw
        if raw[0] != "id" or raw[1] in TYPES:
            return SHAPES.get(raw[0]) or (TYPES.get(name[1]) if name[0] == "id" else None)
        found, d = self.lib.lookup(ctx[0], raw[1])
        if found != "def" or d.params:
            return None
        if d.kind == "abbrev":
            return self.kind(d.eqs[0][1], d.ctx) if d.eqs and not d.eqs[0][0] else None
        return ("rec", d) if d.kind == "record" else ("enum", d) if all(p[1] == ("id", d.name) for p in d.parts) else None

    # ---- terms of the files to terms
    def inst(self, r, env, ctx):
        k = r[0]
        if k == "id":
            return env[r[1]] if r[1] in env else self.name(r[1], env, ctx)
        if k == "num":
            return r
        if k == "proj":
            return proj(self.inst(r[1], env, ctx), r[2])
        if k == "lam":
            names = [n for n in env if isinstance(n, tuple) or n in r[3]]
            return ("clo", (r[1], r[2], r[4], tuple(names), ctx), tuple(env[n] for n in names))
        if k in ("pi", "sig"):
            vs = [self.fresh(n, self.kind(r[2], ctx)) for n in r[1]]
            body = self.inst(r[3], dict(env, **{n: ("var", v) for n, v in zip(r[1], vs)}), ctx)
            for v in reversed(vs):
                body = (k, v, (body,), r)
            return body
        if k == "rec":
            names, parts = zip(*sorted(r[1]))
            return ("rec", names, tuple(self.inst(x, env, ctx) for x in parts))
        if k == "tuple":
            first, *rest = r[1]
            return ("rec", PAIR, tuple(self.inst(x, env, ctx) for x in (first, rest[0] if len(rest) == 1 else ("tuple", tuple(rest)))))
        if k == "app":
            return self.apply(self.inst(r[1], env, ctx), [self.inst(a, env, ctx) for a in r[2]])
        sides = tuple(self.inst(x, env, ctx) for x in r[-3:-1])
        if k == "op":
            return ("rel", SIGNS[r[1]], sides, r) if r[1] in SIGNS else fn(r[1], sides)
        return ({"arr": "pi", "prod": "sig"}.get(k, k), None, sides, r)

    def name(self, n, env, ctx):
        if n in FIXED:
            return FIXED[n]
        found, d = self.lib.lookup(ctx[0], n)
        if found == "def":
            return self.make(d, [env["module", id(b), p] for b in d.blocks if b in ctx[1] for p, _, implicit in b.params if not implicit])
        if found == "con" or n in ARITY:
            return ("con" if found == "con" else "bif", n, ())
        raise NotASentence("%s is not known in %s" % (n, ctx[0].path.name))

    def apply(self, e, args):
        k, args = e[0], tuple(args)
        if not args:
            return e
        if k == "clo" and len(args) >= len(e[1][0]):
            params, body, _, names, ctx = e[1]
            env = dict(zip(names, e[2]), **{n: a for (n, _), a in zip(params, args)})
            return self.apply(self.inst(body, env, ctx), args[len(params):])
        if k == "papp":
            return self.make(e[1], e[2] + args)
        if k == "bif":
            args = e[2] + args
            return fn(e[1], args) if len(args) == ARITY[e[1]] else ("bif", e[1], args)
        if k == "abbr":
            return ("abbr", e[1], e[2][:-1] + (self.apply(e[2][-1], args),))
        raise NotASentence("something that takes no argument is given one: %r" % (e,))

    def make(self, d, args):
        """A declaration at some of its arguments."""
        args, before = tuple(args), len(d.of_modules)
        if d.kind == "abbrev" and not d.eqs:
            raise NotASentence("%s has no equation" % d.name)
        patterns = d.eqs[0][0] if d.kind == "abbrev" else ()
        n = before + len(patterns) if d.kind == "abbrev" else len(d.given()) + len(indices_of(d))
        if len(args) < n:
            return ("papp", d, args)
        if d.kind != "abbrev":
            return ("call", d, args) if n else ("ty", d.name)
        if len(d.eqs) > 1 or any(p[0] != "id" for p in patterns):
            return self.apply(("ufn", d, args[:n]), args[n:])
        env = dict(modules_env(d, args[:before]), **{p[1]: a for p, a in zip(patterns, args[before:])})
        e = self.inst(d.eqs[0][1], env, d.ctx)
        return self.apply(("abbr", d, args[before:n] + (e,)) if arrows(d.sig)[1][:2] == ("app", ("id", "Type")) else e, args[n:])

    # ---- terms to goals
    def goals(self, e, vars, via=()):
        k, parts = e[0], e[2] if len(e) > 2 else ()
        if k == "abbr":
            return self.goals(parts[-1], vars, via + (e[1],))
        if k == "rel":
            return [Goal(k, e[1], parts, src=e[3], via=via)]
        if k in ("top", "bot"):
            return [] if k == "top" else [Goal("or", via=via)]
        if k == "sig" and e[1] is None:
            return [g for x in parts for g in self.goals(x, vars, via)]
        if k == "sig":
            return self.goals(self.opened(e, vars), vars, via)
        if k == "sum":
            return [Goal("or", ways=[(vs, self.goals(x, vs)) for x in parts for vs in [[]]], src=e[3], via=via)]
        if k == "pi":
            return [self.universal(e).noted(e[3], via)]
        if k == "call":
            return [Goal(k, *self.pred(e[1], e[2]), via=via)]
        raise NotASentence("not a sentence: %r" % (e,))

    def opened(self, e, vars):
        """What is said of a bound variable, of one of its own."""
        v = self.copy(e[1])
        vars.append(v[1])
        return subst(e[2][0], {e[1]: v})

    def universal(self, e):
        vs, premises = [], []
        while e[0] in ("abbr", "pi"):
            if e[0] == "pi" and e[1] is None:
                premises += self.goals(e[2][0], vs)
            e = self.opened(e, vs) if e[0] == "pi" and e[1] is not None else e[2][-1]
        further = []
        conclusion = self.goals(e, further)
        xs, no = self.negate(further, conclusion)
        return nothing(vs + xs, premises + no, (vs, premises, further, conclusion))

    def negate(self, vs, gs):
        """Variables and goals that say that gs in vs is met by nothing."""
        if not gs or not vs and len(gs) > 1:
            return [], [Goal("or", ways=[self.negate([], [g]) for g in gs])]
        g = gs[0]
        if vs or g.kind == "call":
            return [], [nothing(vs, gs)]
        if g.kind == "rel":
            sides = g.parts if g.label in ("==", "!=") else g.parts[::-1]
            return [], [Goal("rel", OPPOSITE[g.label], sides, src=g.src, via=g.via)]
        each = g.ways if g.kind == "not" else [self.negate(*a) for a in g.ways]
        return [x for xs, _ in each for x in xs], [x for _, out in each for x in out]

    # ---- sentences at their arguments
    def pred(self, d, args):
        """The sentence at arguments: those that are sentences themselves are put into a copy of it, and the variables that they use become arguments."""
        params, indices = d.given(), indices_of(d)
        higher = [self.kind(t, d.ctx) in ("fun", "type") for _, t, _ in params]
        given = [a for h, a in zip(higher, args) if h]
        bound = {t[1] for a in given for t in subterms(a) if t[0] in ("sig", "pi")}
        found = [v for v in frees(given) if v not in bound]
        apart = {v: ("var", str(i)) for i, v in enumerate(found)}         # so that it is one copy whatever its variables are called
        key = d, tuple(subst(a, apart) for a in given)
        plain = tuple(a for h, a in zip(higher + [False] * len(indices), args) if not h)
        if key not in self.preds:
            env = {n: a if h else self.var(n, self.kind(t, d.ctx)) for (n, t, _), h, a in zip(params, higher, args)}
            names = found + [env[n][1] for (n, _, _), h in zip(params, higher) if not h]
            env.update(modules_env(d, [env[p[0]] for p in d.of_modules]))
            own = [self.fresh(n, self.kind(t, d.ctx)) for n, t in indices]
            p = self.preds[key] = Pred(d.name, names + own, len(own), lambda: self.clauses(d, env, names, len(own)), d)
            p.label = d.name + "".join(" (%s)" % self.called(a) for h, a in zip(higher, args) if h)
            p.captured = len(found)
        return self.preds[key], tuple(("var", v) for v in found) + plain

    def called(self, e):
        """A sentence that is an argument, in words."""
        if e[0] != "papp":
            return e[1][2] if e[0] == "clo" else ".."
        given = e[2][len(e[1].of_modules):]
        return " ".join([e[1].name] + [x[1].split("~")[0] if x[0] == "var" else "(%s)" % self.called(x) for x in given])

    def clauses(self, d, env, names, indices):
        """A clause for each constructor; of a record one, whose fields are variables and premises."""
        cases = [(n, *arrows(t), comment, line) for n, t, comment, line in d.parts]
        if d.kind == "record":
            values = [n for n, raw, _, _ in d.parts if raw[0] not in ("sig", "prod") and self.kind(raw, d.ctx) not in (None, "fun", "type")]
            cases = [("record", [((n,) if n in values else None, raw, (n, comment)) for n, raw, comment, _ in d.parts], None, d.comment, d.line)]
        out = []
        for name, before, end, comment, line in cases:
            own, vars, goals, parts = dict(env), [], [], []
            for bound, of, field in before:
                for m in bound or ():
                    own[m] = self.var(m, self.kind(of, d.ctx))
                    vars.append(own[m][1])
                new = [] if bound else self.goals(self.inst(of, own, d.ctx), vars)
                if field and not bound:
                    parts.append((*field, len(goals), len(goals) + len(new)))
                goals += new if field else [g if g.kind == "rel" and g.via else g.noted(of, g.via) for g in new]
            ends = [self.inst(x, own, d.ctx) for x in end[2][len(end[2]) - indices:]] if indices else []
            out.append(Clause(name, vars, goals, [("var", v) for v in names] + ends, comment, line, parts))
        return out

    def anon(self, g):
        """The sentence of a choice or a search, over its free variables."""
        if g.pred is None:
            args = list(free(g))
            made = [Clause(str(i), vs, gs, [("var", v) for v in args], fa=g.fa) for i, (vs, gs) in enumerate(g.ways)]
            g.pred = Pred(g.kind, args, 0, lambda: made)
        return g.pred
