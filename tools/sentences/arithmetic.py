"""Numbers: terms as Python, equations solved for what is not known, and how large a number can be."""
import re

from .clauses import Program
from .terms import NIL, equations, fn, folded, free, is_fn, rel

FORMS = {"-": "max(%s - %s, 0)", "suc": "(%s + 1)", "pos": "%s", "negsuc": "(-1 - %s)", "nat_abs": "abs(%s)", "length": "%s.n", "get_or": "get_or(%s, %s, %s)",
         "take": "cut(%s, %s)[0]", "drop": "cut(%s, %s)[1]", "[]": "NONE", "replicate": "Seq((%s,) * %s)", "++": "Seq(%s.items() + %s.items())",
         "^": "(%s ** %s)", "/": "div(%s, %s)", "%": "mod(%s, %s)", "+": "(%s + %s)", "*": "(%s * %s)", "+ℤ": "(%s + %s)", "*ℤ": "(%s * %s)", "-ℤ": "(%s - %s)"}


def ident(v):
    base, _, n = v.partition("~")
    return "v%s_%s" % (n or "0", re.sub(r"\W", "_", base, flags=re.A))


def listed(vs):
    return ", ".join(map(ident, vs))


def times(a, b):
    return a * b if isinstance(a, int) and isinstance(b, int) else "(%s) * (%s)" % (a, b)


def combined(x, y, sign):
    """The sum or difference of two linear terms."""
    factors = dict(x[1])
    for v, c in y[1].items():
        c, old = times(sign, c), factors.get(v, 0)
        factors[v] = old + c if isinstance(old, int) and isinstance(c, int) else "(%s) + (%s)" % (old, c)
    return "(%s) %s (%s)" % (x[0], "+" if sign > 0 else "-", y[0]), {v: c for v, c in factors.items() if c != 0}


def elements(e):
    """The elements written out in a list, and the lists behind and between them."""
    if is_fn(e, "∷", "++"):
        (xs, ls), (ys, ms) = ([e[2][0]], []) if e[1] == "∷" else elements(e[2][0]), elements(e[2][1])
        return xs + ys, ls + ms
    return [], [] if e == NIL else [e]


def multiplied(g):
    """A comparison with the whole part of a quotient, as one with what is divided."""
    for side, other in (g.parts, g.parts[::-1]):
        c = folded(side[2][1]) if is_fn(side, "/") else None
        if c and g.label in ("<", "<="):
            left = side is g.parts[0]
            up = fn("*", (other if left == (g.label == "<") else ("fn", "suc", (other,)), ("num", c)))
            return rel("<", side[2][0], up) if left else rel("<=", up, side[2][0])
    return g


class Arithmetic(Program):
    def known(self, x, bound):
        return all(v in bound for v in free(x))

    def py(self, e):
        k, op = e[:2]
        if k in ("var", "num", "lit"):
            return ident(op) if k == "var" else repr(op)
        if k == "fn" and op == "map":
            x = self.var("x")
            return "Seq(tuple([%s for %s in %s]))" % (self.py(self.apply(e[2][0], [x])), self.py(x), self.py(e[2][1]))
        if k == "fn" and op == "∷":
            front = []
            while is_fn(e, "∷"):
                front.append(self.py(e[2][0]) + ",")
                e = e[2][1]
            return "Seq((%s)%s)" % (" ".join(front), "" if e == NIL else " + %s.items()" % self.py(e))
        args = [self.py(x) for x in e[2]]
        if k == "proj":
            return "%s[%s]" % (args[0], op) if op.isdigit() else "%s.d[%r]" % (args[0], op)
        if k in ("rec", "con", "ufn"):
            form = "Rec(%r, (%%s,))" % (op,) if k == "rec" and not op[0].isdigit() else self.cases(op) + "(%s)" if k == "ufn" else "(%s,)"
            return form % ", ".join([repr(op)] * (k == "con") + args)
        if op in ("/", "%") and args[1].isdigit() and args[1] != "0":
            return "(%s %s %s)" % (args[0], "//" if op == "/" else "%", args[1])
        return FORMS[op] % tuple(args[::-1] if op in ("take", "drop", "replicate") else args)

    def pattern(self, p, env, ctx):
        if p[0] == "id" and p[1] not in ("[]", "zero") and self.lib.lookup(ctx[0], p[1])[0] != "con":
            env[p[1]] = self.var(p[1])
            return env[p[1]]
        if p[0] == "op":
            return ("fn", p[1], (self.pattern(p[2], env, ctx), self.pattern(p[3], env, ctx)))
        return self.apply(self.inst(p[1], {}, ctx), [self.pattern(x, env, ctx) for x in p[2]]) if p[0] == "app" else self.inst(p, {}, ctx)

    # ---- equations
    def linear(self, e, bound):
        """(constant, {unknown: factor}) of a linear term: the constant as Python, factors numbers or Python; or None"""
        if self.known(e, bound):
            return self.py(e), {}
        if e[0] == "var":
            return "0", {e[1]: 1}
        if is_fn(e, "pos", "suc"):
            r = self.linear(e[2][0], bound)
            return r and ("%s + %d" % (r[0], e[1] == "suc"), r[1])
        if is_fn(e, "+", "+ℤ", "-ℤ"):
            x, y = (self.linear(part, bound) for part in e[2])
            return x and y and combined(x, y, -1 if e[1] == "-ℤ" else 1)
        for x, y in (e[2], e[2][::-1]) if is_fn(e, "*", "*ℤ") else ():
            if self.known(x, bound):
                r, c = self.linear(y, bound), x[1] if x[0] == "num" else self.py(x)
                return r and ("(%s) * (%s)" % (c, r[0]), {v: times(c, n) for v, n in r[1].items()})
        return None

    def difference(self, g, bound):
        """The linear term that an equation or comparison has on its left, less that on its right."""
        a, b = (self.linear(side, bound) for side in g.parts)
        return a and b and combined(a, b, -1)

    def solve(self, g, bound):
        """(steps, goals left, variables found) of an equation that finds something, or None"""
        for _, a, b in equations([g]):
            known = self.known(b, bound)
            if a[0] == "var" and known:
                return [("let", ident(a[1]), self.py(b))], [], [a[1]]
            if is_fn(a, "get_or") and a[2][2] == b and not known and self.known(a[2][0], bound) and self.known(a[2][1], bound):
                t, (xs, i) = self.var("t"), map(self.py, a[2][:2])
                steps = [("flounder", "%s >= %s.n" % (i, xs), "any element past the end of a list"), ("let", ident(t[1]), "get_or(%s, %s, None)" % (xs, i))]
                return steps, [rel("==", b, t)], [t[1]]
            if b == ("num", 0) and not self.known(a, bound):         # numbers that add up to 0 are 0
                if is_fn(a, "+"):
                    return [], [rel("==", x, b) for x in a[2]], []
                for x, y in (a[2], a[2][::-1]) if is_fn(a, "*") else ():
                    if folded(y):
                        return [], [rel("==", x, b)], []
            r = self.apart(a, b, bound) if known else None
            if r:
                return r
        d = self.difference(g, bound)
        if d and len(d[1]) == 1:
            (v, k), = d[1].items()
            p = ident(v)
            steps = [("let", p, "-(%s)" % d[0])] if k == 1 else [("let", p, d[0])] if k == -1 else \
                [("let", p, "-(%s)" % d[0]), ("flounder", "%s == (%s) == 0" % (p, k), "0 * x = 0"), ("guard", "mod(%s, %s) == 0" % (p, k)),
                 ("let", p, "%s // (%s)" % (p, k))]
            return steps + ([] if self.type_of.get(v) == "int" else [("guard", p + " >= 0")]), [], [v]
        return None

    def apart(self, a, b, bound):
        """A known value b taken apart as the term a has it."""
        t = self.var("t")
        p, steps = ident(t[1]), [("let", ident(t[1]), self.py(b))]
        if a[0] == "rec":
            return steps, [rel("==", x, ("proj", f, (t,))) for f, x in zip(a[1], a[2])], [t[1]]
        if is_fn(a, "^") and self.known(a[2][0], bound):
            base, powers = self.py(a[2][0]), "[k for k in range(%s.bit_length() + 1) if %s ** k == %s]"
            steps += [("flounder", base + " < 2", "a power of less than 2"), ("let", p, powers % (p, base, p)), ("guard", p), ("let", p, p + "[0]")]
            return steps, [rel("==", a[2][1], t)], [t[1]]
        if is_fn(a, "∷"):
            h, r = self.fresh("t"), self.fresh("t", "list")
            return steps + [("guard", p + ".n"), ("let", ident(h), "%s.t[%s.at]" % (p, p)), ("let", ident(r), "tail(%s)" % p)], \
                [rel("==", x, ("var", y)) for x, y in zip(a[2], (h, r))], [t[1], h, r]
        if not is_fn(a, "++"):
            return None
        written, behind = elements(a[2][1])
        if self.known(a[2][0], bound):
            return self.split(a, b, "%s.n" % self.py(a[2][0]))
        if behind and not self.known(a[2][1], bound):
            return None
        return self.split(a, b, "%s.n - %s" % (p, "%s.n" % self.py(a[2][1]) if behind else len(written)), steps)

    def split(self, a, b, at, before=()):
        """A known list b as two, one behind the other: the first has so many elements."""
        n, x, y = self.fresh("n", "nat"), self.fresh("t", "list"), self.fresh("t", "list")
        steps = list(before) + [("let", ident(n), at), ("guard", "0 <= %s <= %s.n" % (ident(n), self.py(b))),
                                ("let", listed((x, y)), "cut(%s, %s)" % (self.py(b), ident(n)))]
        return steps, [rel("==", part, ("var", v)) for part, v in zip(a[2], (x, y))], [n, x, y]

    # ---- how large a number can be
    def bounds(self, v, goals, bound):
        """The lowest and highest values of v by the comparisons and sentences among the goals, as Python, and the comparisons that are then met."""
        low, high, met = ["0"], [], []
        for g in goals:
            if g.kind == "call":
                tops = [top for a, top in zip(g.parts, self.highest(g.label)) if a == ("var", v) or ("var", v) in elements(a)[0]] if v in free(g) else ()
                high += [str(min(t for t in tops if t is not None))] if any(t is not None for t in tops) else []
            d = self.difference(multiplied(g), bound) if g.kind == "rel" and g.label in ("<", "<=") else None
            if not d or list(d[1]) != [v] or not isinstance(d[1][v], int):
                continue
            c, k, one = d[0], d[1][v], int(g.label == "<")
            if k > 0:
                high.append("-(%s) - %d" % (c, one) if k == 1 else "(-(%s) - %d) // %d" % (c, one, k))
            else:
                low.append("(%s) + %d" % (c, one) if k == -1 else "-((-(%s) - %d) // %d)" % (c, one, -k))
            met += [g] if abs(k) == 1 else []
        most = ("min(%s)" if len(high) > 1 else "%s") % ", ".join(high)
        return ("max(%s)" if len(low) > 1 else "%s") % ", ".join(low), most or None, met

    def highest(self, p):
        """For each argument of a sentence the highest value that any constructor leaves to it, or to an element of it; None where there is no such."""
        if p in self.tops and (p not in self.topping or p is self.topping[-1]):
            return self.tops[p]
        if len(self.topping) > 4 or p.anon or p in self.topping:
            return [None] * len(p.args)
        self.tops[p], old = [-1] * len(p.args), None
        self.topping.append(p)
        for _ in range(4):
            old, new = self.tops[p], [self.tops_of(c) for c in p.clauses]
            self.tops[p] = [None if None in column else max(column) for column in zip(*new)] if new else old
        self.topping.pop()
        self.tops[p] = [t if t == o else None for t, o in zip(self.tops[p], old)]
        return self.tops[p]

    def tops_of(self, c):
        tops, said = {}, [(a, b, False) for _, a, b in equations(c.goals)]
        said += [(*g.parts, g.label == "<") for g in c.goals if g.kind == "rel" and g.label in ("<", "<=")]
        for _ in range(3):
            new = [(a[1], t - less) for a, b, less in said for t in [self.top(b, tops)] if a[0] == "var" and t is not None]
            new += [(x[1], t) for g in c.goals if g.kind == "call" for a, t in zip(g.parts, self.highest(g.label)) if t is not None
                    for x in [a] + elements(a)[0] + elements(a)[1] if x[0] == "var"]
            for v, t in new:
                tops[v] = min(t, tops.get(v, t))
        return [self.top(h, tops) for h in c.head]

    def top(self, e, tops):
        """The highest value of a term, or of the elements of a list."""
        if e[0] != "fn":
            return e[1] if e[0] == "num" else tops.get(e[1]) if e[0] == "var" else None
        if e[1] in ("∷", "++", "[]"):
            parts = [self.top(x, tops) for part in elements(e) for x in part]
            return None if None in parts else max(parts, default=-1)
        x, *more = [self.top(x, tops) for x in e[2]] if e[1] in ("+", "*", "suc", "pos", "-", "/") else [None]
        if x is None or None in more and e[1] in ("+", "*"):
            return None
        return x + 1 if e[1] == "suc" else x + more[0] if e[1] == "+" else x * more[0] if e[1] == "*" else x
