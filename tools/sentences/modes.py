"""The order in which the premises of a clause are met when some of its arguments are known: tests first, then equations that find something, then other
sentences, and where nothing goes on, a number of which it is known how large it can be."""
from .arithmetic import elements, ident, listed
from .clauses import PAIR, modules_env
from .lists import Lists, length
from .terms import NIL, Clause, equations, false, folded, free, frees, is_fn, rel, subst, subterms


class State:
    """A plan so far: the goals left, what is known, the steps, what was tried."""
    def __init__(self, c, goals, bound, needed, me=None, endless=False, steps=(), seen=(), depth=0):
        self.c, self.goals, self.bound, self.needed, self.me, self.endless = c, list(goals), set(bound), needed, me, endless
        self.steps, self.seen, self.depth = list(steps), set(seen), depth

    def forked(self, goals):
        return State(self.c, goals, self.bound, self.needed, self.me, self.endless, self.steps, self.seen, self.depth + 1)

    def unknown(self):
        return [v for v in dict.fromkeys((*frees(self.goals), *self.needed)) if v not in self.bound]

    def took(self, g, steps, goals=(), found=()):
        self.steps += steps
        self.goals.remove(g)
        self.goals += goals
        self.bound.update(found)
        return True

    def search(self, v, values, met=(), cost=0):
        """Each of some values is tried."""
        self.steps.append(("for", ident(v), values, cost))
        self.bound.add(v)
        self.goals = [g for g in self.goals if g not in met]
        return True

    def let(self, v, value, least=None):
        self.steps += [("let", ident(v), value)] + ([] if least is None else [("guard", "%s >= %d" % (ident(v), least))])
        self.bound.add(v)
        return True

    def put(self, v, term, keep=None):
        """A variable becomes a term everywhere but in the equation that says so."""
        if keep is None:
            keep = rel("==", ("var", v), term)
            self.goals.append(keep)
        self.goals = [g if g is keep else subst(g, {v: term}) for g in self.goals]
        self.seen.add(id(keep))
        return True


class Modes(Lists):
    def planned(self, st):
        """[(steps, known)], one for each way of going on, or None"""
        while st.goals or not all(v in st.bound for v in st.needed):
            if not any(rule(st) for rule in self.rules()):
                return self.fork(st)
        return [(st.steps, st.bound)]

    def cases(self, d):
        """A definition by cases, as a Python function."""
        if d in self.functions:
            return self.functions[d]
        self.functions[d] = name = "u%d" % len(self.functions)
        n = len(d.of_modules)
        args = [self.fresh("a") for _ in range(n + len(d.eqs[0][0]))]
        lines = ["def %s(%s):" % (name, listed(args))]
        for patterns, body in d.eqs:
            env = modules_env(d, [("var", v) for v in args[:n]])
            goals = [rel("==", ("var", v), self.pattern(p, env, d.ctx)) for v, p in zip(args[n:], patterns)]
            (steps, _), = self.planned(State(Clause("", [], goals, []), goals, args, []))
            lines += [" while True:"] + self.emit(steps, 2, "break")[0] + ["  return " + self.py(self.inst(body, env, d.ctx))]
        self.define(lines)
        return name

    def rules(self):
        return (self.easy, self.call, self.record_apart, self.structured, self.digits, self.multiple, lambda st: self.call(st, (1, 2, 3, 99)), self.few,
                self.least, self.ends_of_range, self.endless_count, self.tails, self.by_length, self.by_pieces, self.by_members, self.build_lists,
                self.by_elements, self.short_list)

    def easy(self, st):
        for g in st.goals:
            p = self.pure(g, st.bound)
            if p is not None:
                return st.took(g, [("guard", p)])
        for g in st.goals:
            r = self.solve(g, st.bound) if g.label == "==" else None
            if r:
                return st.took(g, *r)
        for g in sorted((g for g in st.goals if self.known(g, st.bound)), key=lambda g: len(g.ways[0][0]) + 1 if g.kind == "not" else 0):
            r = self.meet(g, st)
            if r:
                return st.took(g, *r)

    def call(self, st, costs=(0,)):
        """Another sentence that finds something, if it does not have to try every value of a number that is only known to be so large."""
        for most in costs:
            for g in [g for g in st.goals if g.kind in ("call", "or") and not self.known(g, st.bound)]:
                r = self.meet(g, st)
                if r and sum(s[3] for s in r[0] if s[0] == "for") <= most:
                    return st.took(g, *r)

    def cost(self, p, mask):
        """How many numbers are tried with every value that they may have."""
        plans = self.modes.get((p, mask))
        return 0 if plans in (None, "busy") else max((sum(s[3] for s in steps if s[0] == "for") for _, steps, _ in plans), default=0)

    def pure(self, g, bound):
        """A goal over known numbers as one Python expression, where it needs no search."""
        if g.kind == "rel":
            a, b = g.parts
            return "%s %s %s" % (self.py(a), g.label, self.py(b)) if self.known(g, bound) else None
        each = [None if vs else [self.pure(x, bound) for x in goals] for vs, goals in g.ways]
        if g.kind == "call" or any(parts is None or None in parts for parts in each):
            return None
        parts = [" and ".join("(%s)" % p for p in parts) or "True" for parts in each] or ["False"]
        return ("not (%s)" if g.kind == "not" else "%s") % " or ".join("(%s)" % p for p in parts)

    def meet(self, g, st):
        """(steps, goals left, found) for a sentence, a choice or a search"""
        p = g.label if g.kind == "call" else self.anon(g)
        args = g.parts if g.kind == "call" else [("var", v) for v in p.args]
        mask = [self.known(a, st.bound) for a in args]
        at = None if g.kind == "not" else (st.c, st.me, args)
        for i in reversed(range(len(args) - p.indices, len(args))):    # an index is rather found than given, so that its table serves every value
            if mask[i]:
                mask[i], relaxed, self.relaxed = False, self.relaxed, False
                mask[i] = not self.ok(p, tuple(mask), at) or self.cost(p, tuple(mask)) > 0
                self.relaxed = relaxed
        if g.kind == "not" and not all(mask) or not self.ok(p, tuple(mask), at):
            return None
        call = "%s(%s)" % (self.function(p, tuple(mask)), ", ".join(self.py(a) for a, m in zip(args, mask) if m))
        asked = [a for a, m in zip(args, mask) if not m]
        if not asked:
            return [("guard", "not " * (g.kind == "not") + call)],
        if all(self.known(a, st.bound) for a in asked):
            return [("guard", "(%s,) in %s" % (", ".join(map(self.py, asked)), call))],
        left, found = [], []
        for a in asked:
            direct = a[0] == "var" and a[1] not in st.bound and a[1] not in found
            found.append(a[1] if direct else self.fresh("o"))
            left += [] if direct else [rel("==", ("var", found[-1]), a)]
        return [("for", "(%s,)" % listed(found), call, self.cost(p, tuple(mask)))], left, found

    def ok(self, p, mask, at):
        """Whether a sentence can be met with these arguments known, finding the others; a call of itself must come down in one that is known."""
        k, me = (p, mask), at and at[1]
        if k in self.bad[self.relaxed] or me and me[0] is p and any(mine and not m for mine, m in zip(me[1], mask)):
            return False
        if k in self.modes:
            return self.modes[k] != "busy" or not me or me[0] is not p or self.smaller(at, mask)
        before, plans, given = dict(self.modes), [], [v for v, m in zip(p.args, mask) if m]
        self.modes[k] = "busy"
        for c in p.clauses:
            goals = [rel("==", ("var", v), h) for v, h, m in zip(p.args, c.head, mask) if m and h != ("var", v)]
            needed = [v for h, m in zip(c.head, mask) if not m for v in free(h)]
            r = self.planned(State(c, goals + c.goals, given, needed, k, p.endless))
            if r is None:
                self.modes = before
                self.bad[self.relaxed].add(k)
                return False
            plans += [(c, steps, bound) for steps, bound in r]
        self.modes[k] = plans
        return True

    def smaller(self, at, mask):
        """Whether a call is given a part of what the clause was: of a known argument its predecessor, a summand, the rest of a list."""
        c, me, args = at
        for v, h, a, m in zip(me[0].args, c.head, args, mask):
            if m and (is_fn(h, "suc", "+") and a in h[2] or is_fn(h, "∷") and a in list(subterms(h))[1:] or self.relaxed and a != h and a != ("var", v)):
                return True

    def fork(self, st):
        """Where nothing goes on: a choice, or a sentence that does not rest on itself, put in its place, each of its constructors by itself."""
        for g in st.goals if st.depth < 2 else ():
            if g.kind == "or":
                ways = [goals for _, goals in g.ways]
            elif g.kind == "call" and len(g.label.clauses) <= 3 and g.label not in [x.label for c in g.label.clauses for x in c.goals]:
                ways = [self.unfolded(g, c) for c in g.label.clauses]
            else:
                continue
            rest, out = [x for x in st.goals if x is not g], []
            for goals in ways:
                r = self.planned(st.forked(rest + goals)) or (None if g.kind == "call" else self.tested(st.forked(rest + goals)))
                if r is None:
                    break
                out += r
            else:
                return out
        return None

    def unfolded(self, g, c):
        """A clause's goals in the place of a call, with variables of its own."""
        m = dict(zip(g.label.args, g.parts), **{v: self.copy(v) for v in c.vars})
        heads = [subst(h, m) for h in c.head]
        return [rel("==", a, h) for a, h in zip(g.parts, heads) if h != a] + [subst(x, m) for x in c.goals]

    def tested(self, st):
        """Where a way cannot be gone on, but is open only where known numbers are so: that is tested, and if they are, nothing is answered."""
        tests = [p for g in st.goals for p in [self.pure(g, st.bound)] if p]
        steps = st.steps + [("guard", p) for p in tests] + [("flounder", "True", "a way that no order of premises goes")]
        return [(steps, st.bound | {*st.needed, *frees(st.goals)})] if self.testing and tests else None

    # ---- where nothing can be met as it stands
    def record_apart(self, st):
        """A record becomes its fields, and what is looked at as a pair a pair."""
        for v in [v for v in st.unknown() if v not in st.seen]:
            fields = []
            of = self.type_of.get(v)
            if isinstance(of, tuple) and of[0] == "rec":
                d = of[1]
                fields = sorted((p[0], self.kind(p[1], d.ctx)) for p in d.parts)
            elif any(t[0] == "proj" and t[1] in PAIR and t[2][0] == ("var", v) for g in st.goals for t in subterms(g)):
                fields = [(n, "nat") for n in PAIR]
            if fields:
                st.seen.add(v)
                return st.put(v, ("rec", tuple(n for n, _ in fields), tuple(self.var(n, t) for n, t in fields)))

    def structured(self, st):
        """x ≡ a ∷ b: x becomes that."""
        for g, a, b in equations(st.goals):
            if id(g) not in st.seen and (b[0] == "rec" or is_fn(b, "∷", "[]")) and a[0] == "var" and a[1] not in st.bound and a[1] not in free(b):
                return st.put(a[1], b, g)

    def differences(self, st):
        """(constant, {unknown: factor}) of each equation in two unknowns or more."""
        return [d for d in (self.difference(g, st.bound) for g in st.goals if g.label == "==") if d and len(d[1]) > 1]

    def digits(self, st):
        """c + k x + l y + .. ≡ 0, where each but x can only be so large."""
        for c, factors in self.differences(st):
            if not all(isinstance(k, int) and self.type_of.get(v) == "nat" for v, k in factors.items()):
                continue
            x = max(factors, key=lambda v: abs(factors[v]))
            k, tops = factors.pop(x), {v: self.bounds(v, st.goals, st.bound)[1] for v in factors}
            if None not in tops.values():
                least, most = (" + ".join(["0"] + ["%d * (%s)" % (n, tops[v]) for v, n in factors.items() if n * sign > 0]) for sign in (-1, 1))
                sums = ("-(%s) - (%s)" % (c, s) for s in (most, least)) if k > 0 else ("(%s) + (%s)" % (c, s) for s in (least, most))
                return st.search(x, "range(max(0, -((%s) // -%d)), (%s) // %d + 1)" % tuple(y for s in sums for y in (s, abs(k))))

    def multiple(self, st):
        """c + x + m z ≡ 0 in two unknowns: each x that makes c + x a multiple of m."""
        for c, factors in [d for d in self.differences(st) if len(d[1]) == 2]:
            for x, z in (tuple(factors), tuple(factors)[::-1]):
                if factors[x] in (1, -1) and self.type_of.get(x) == "nat":
                    low, high, met = self.bounds(x, st.goals, st.bound)
                    if high or st.endless:
                        return st.search(x, "multiples(%s, %s, %s, %d, %s)" % (low, high, c, factors[x], factors[z]), met)

    def few(self, st):
        """One of a few values, or a number with a highest."""
        for v in st.unknown():
            t = self.type_of.get(v)
            low, high, met = self.bounds(v, st.goals, st.bound) if t == "nat" else (None, None, ())
            if high:
                left = [g for g in st.goals if g not in met]
                once = v not in st.needed and v not in frees(left)     # where nothing else asks for it, the lowest will do
                cost = int(not met and any(g.kind == "call" and v in free(g) for g in st.goals))
                return st.search(v, "range(%s, %s + 1)%s" % (low, high, "[:1]" if once else ""), met, cost)

    def least(self, st):
        """".. and no other is lower": the first that there is bounds it."""
        for g in [g for g in st.goals if g.fa and id(g) not in st.seen]:
            vs, premises, further, conclusion = g.fa
            if further or len(conclusion) != 1 or conclusion[0].label not in ("<", "<=") or any(v not in st.bound and v not in vs for v in frees(premises)):
                continue
            out = [v for v in free(conclusion[0]) if v in vs]
            if len([v for v in free(conclusion[0]) if v not in vs and v not in st.bound]) != 1:
                continue
            st.seen.add(id(g))
            given = [v for v in frees(premises) if v in st.bound]
            name = self.helper("least", given, out, premises, True)
            if name:
                new = {v: self.var(v, "nat") for v in out}
                found = ident(self.fresh("found"))
                st.steps += [("let", found, "next(%s(%s), None)" % (name, listed(given))), ("flounder", found + " is None", "nothing to bound by"),
                             ("let", "(%s,)" % listed(x[1] for x in new.values()), found)]
                st.bound |= {x[1] for x in new.values()}
                st.goals.append(subst(conclusion[0], new))
                return True

    def ends_of_range(self, st):
        """All from low to low + n, and 0 < n: so the first of them, and the last."""
        for g in [g for g in st.goals if g.fa and len(g.fa[0]) == 1 and ("range", id(g)) not in st.seen]:
            (b,), premises, further, conclusion = g.fa
            low, high = ([r.parts[side] for r in premises if r.label == op and r.parts[1 - side] == ("var", b)] for op, side in (("<=", 0), ("<", 1)))
            if len(high) != 1 or len(low) + 1 != len(premises) or len(low) > 1 or not conclusion or false(conclusion[0]):
                continue
            low, high = low[0] if low else ("num", 0), high[0]
            n = high if low == ("num", 0) else high[2][1] if is_fn(high, "+") and high[2][0] == low else None
            if not any((x.label, x.parts) == ("<", (("num", 0), n)) for x in st.c.goals):
                continue
            st.seen.add(("range", id(g)))
            w = self.var("w", "nat")
            st.goals.append(rel("==", ("fn", "suc", (w,)), high))
            for end in (low, w):
                m = dict({v: self.copy(v) for v in further}, **{b: end})
                st.goals += [subst(x, m) for x in conclusion]
            return True

    def endless_count(self, st):
        for v in [v for v in st.unknown() if st.endless and self.type_of.get(v) == "nat"]:
            return st.search(v, "itertools.count(%s)" % self.bounds(v, st.goals, st.bound)[0])

    def short_list(self, st):
        """A list of so many elements, each looked at by its place, becomes as many unknowns."""
        for v in [v for v in st.unknown() if self.type_of.get(v) in ("list", "cell") and ("cells", v) not in st.seen]:
            for n in [folded(b) for _, a, b in equations(st.goals) if a == length(v)]:
                if n is not None and n <= 64:
                    st.seen.add(("cells", v))
                    e = NIL
                    for _ in range(n):
                        e = ("fn", "∷", (self.var("e", "nat"), e))
                    if not any(is_fn(x, "get_or") and elements(x[2][0])[0] for y in st.goals for x in subterms(subst(y, {v: e}))):
                        return st.put(v, e)
