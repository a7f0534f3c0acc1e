"""Lists that are not known, found from what is said of them: of each element, of its members and their order, of the pieces that it is made of."""
from collections import namedtuple

from .arithmetic import Arithmetic, ident, listed
from .terms import NIL, Clause, Goal, Pred, equations, fn, folded, free, frees, is_fn, nothing, rel, replace, subst, subterms
from .values import Open, Seq

# What a goal says of elements. name: a function of `given` that finds their places, then their values; or, with a test ("digit" or "below"), places alone, and
# the function t.. of the same name tells the digit, or the bound. spoken: a function that finds each place of which it speaks. place: of the one element of
# which it says all there is to say.
Fact = namedtuple("Fact", "goal name given found places which vars test spoken place")


def length(v):
    return ("fn", "length", (("var", v),))


class Lists(Arithmetic):
    def helper(self, name, given, found, goals, endless=False):
        """A function that finds some variables from others, or None."""
        inner = [v for v in frees(goals) if v not in given and v not in found]
        p = Pred(name, given + found, 0, lambda: [Clause(name, inner, goals, [("var", v) for v in given + found])])
        p.endless, mask = endless, (True,) * len(given) + (False,) * len(found)
        return self.function(p, mask) if self.ok(p, mask, None) else None

    def length_of(self, v, st):
        """The length of a list by the goals, as Python, or None."""
        t, n, parts = length(v), self.var("n", "nat"), {}
        for g, a, b in equations(st.goals):
            if t in subterms(g):
                d = self.difference(replace(g, t, n), st.bound)
                if d and d[1] in ({n[1]: 1}, {n[1]: -1}):
                    return "-(%s)" % d[0] if d[1][n[1]] == 1 else "(%s)" % d[0]
                if is_fn(a, "/", "%") and a[2][0] == t and folded(a[2][1]) and self.known(b, st.bound):
                    parts[a[1], folded(a[2][1])] = self.py(b)
        return next(("(%s) * %d + (%s)" % (p, c, parts["%", c]) for (op, c), p in parts.items() if op == "/" and ("%", c) in parts), None)

    def by_length(self, st):
        """A known list is one behind another, and the length of the first is known."""
        for g, a, b in equations(st.goals):
            if is_fn(a, "++") and a[2][0][0] == "var" and self.known(b, st.bound):
                at = self.length_of(a[2][0][1], st)
                if at:
                    return st.took(g, *self.split(a, b, at))

    def by_pieces(self, st):
        """A known list begins with what a definition by cases makes of each element of an unknown one."""
        for g, a, b in equations(st.goals):
            if not (is_fn(a, "++") and a[2][0][0] == "ufn" and len(a[2][0][1].eqs) == 2 and self.known(b, st.bound)):
                continue
            *args, of = a[2][0][2]
            x, rest, text, front = (self.var(n, "list") for n in ("x", "rest", "text", "front"))
            given, piece = list(frees(args)), self.piece_of(a[2][0][1], args, x)
            name = piece and self.helper("piece", given + [text[1]], [x[1], rest[1]], [rel("==", text, fn("++", (piece, rest)))])
            if name and all(v in st.bound for v in given):
                known = "".join(ident(v) + ", " for v in given)
                steps = [("for", "(%s)" % listed((front[1], rest[1])), "pieces(%s, (%s), %s)" % (name, known, self.py(b)), 0)]
                return st.took(g, steps, [rel("==", of, front), rel("==", a[2][1], rest)], [front[1], rest[1]])

    def piece_of(self, d, args, x):
        """Of `f .. [] = []` and `f .. (y ∷ l) = g .. y ++ f .. l`: g .. x."""
        env, (_, nothing_left), (patterns, body) = {}, *d.eqs
        *front, last = [self.pattern(p, env, d.ctx) for p in patterns]
        body, rest = self.inst(body, env, d.ctx), ("ufn", d, (*front, last[2][1])) if is_fn(last, "∷") else None
        if nothing_left != ("id", "[]") or rest not in subterms(body):
            return None
        return subst(replace(body, rest, NIL), {p[1]: a for p, a in zip((*front, last[2][0]), (*args, x)) if p[0] == "var"})

    def by_members(self, st):
        """A list of which it is said what stands in it, that nothing else does, and that each comes before those behind it."""
        universals = [g for g in st.goals if g.fa]
        for v in [v for v in st.unknown() if self.type_of.get(v) == "list"]:
            before = [b for g in universals for b in [self.order_of(v, g, st)] if b]
            members = [m for g in universals for m in [self.member_of(v, g)] if m]
            if before and members and self.nothing_else(v, *members[0], universals):
                k, premises = members[0]
                given = [x for x in frees(premises) if x in st.bound]
                name = self.helper("member", given, [k], premises)
                if name:
                    return st.let(v, "ranked(%s(%s), %s)" % (name, listed(given), before[0]))

    def order_of(self, v, g, st):
        """Of "i < j → j < length l → .." what is said of the two elements, as a Python function of them."""
        vs, premises, further, conclusion = g.fa
        i, j = [("var", x) for x in vs] if len(vs) == 2 else (None, None)
        if further or {(x.label,) + x.parts for x in premises} != {("<", i, j), ("<", j, length(v))}:
            return None
        xy = self.var("x", "nat"), self.var("y", "nat")
        for k, z in zip((i, j), xy):
            conclusion = [replace(c, ("fn", "get_or", (("var", v), k, ("num", 0))), z) for c in conclusion]
        tests = [self.pure(c, st.bound | {z[1] for z in xy}) for c in conclusion]
        return None if None in tests else "lambda %s: %s" % (listed(z[1] for z in xy), " and ".join("(%s)" % t for t in tests))

    def member_of(self, v, g):
        """Of ".. k .. → some i with get_or l i ≡ k": k, and the premises that find it."""
        vs, premises, further, conclusion = g.fa
        found = [b[1] for _, a, b in equations(conclusion) if is_fn(a, "get_or") and a[2][0] == ("var", v) and b[0] == "var" and b[1] in vs]
        return (found[0], premises) if found and further and v not in frees(premises) else None

    def nothing_else(self, v, k, premises, universals):
        """Whether each element of a list is said to meet the premises by which k stands in it: "i < length l → .. get_or l i ..", or of the i at a place."""
        for vs, said, further, conclusion in (g.fa for g in universals):
            inside = [x.parts[0] for x in said if x.label == "<" and x.parts[1] == length(v)]
            named = {b[1]: ("var", k) for _, a, b in equations(said) if is_fn(a, "get_or") and a[2][0] == ("var", v) and a[2][1] in inside and b[0] == "var"}
            if not further and len(inside) == 1 and len(said) == 1 + len(named):
                cell = ("fn", "get_or", (("var", v), inside[0], ("num", 0)))
                have = [replace(subst(c, named), cell, ("var", k)) for c in conclusion]
                own = [x for x in frees(premises) if x != k and x not in frees(have)]
                if all(any(c.label == p.label and all(a == b or b[1] in own for a, b in zip(c.parts, p.parts)) for c in have) for p in premises):
                    return True

    # ---- element by element
    def by_elements(self, st):
        """A list of known length, each element from all that is said of it together."""
        for v in [v for v in st.unknown() if self.type_of.get(v) == "list"]:
            size = self.length_of(v, st)
            n, i, u, goals = self.var("n", "nat"), self.var("i", "nat"), self.var("u", "list"), []
            for g in [g for g in st.goals if g.fa and len(g.fa[0]) == 1]:
                said = [replace(subst(x, {g.fa[0][0]: i}), length(v), n) for x in g.ways[0][1]]
                said = [replace(x, ("fn", "get_or", (("var", v), i, NIL)), u) for x in said if (x.label, x.parts) != ("<", (i, n))]
                if u[1] in frees(said) and all(x in st.bound or x in (i[1], u[1], n[1]) for x in frees(said)):
                    goals += self.negate([], said)[1]
            given = [x for x in frees(goals) if x in st.bound] + [n[1]]
            testing, self.testing = self.testing, True
            name = size and goals and self.helper("element", given + [i[1]], [u[1]], goals)
            self.testing = testing
            if name:
                st.let(n[1], size, 0)
                return st.search(v, "elementwise(%s, (%s,), %s)" % (name, listed(given), ident(n[1])))

    def tails(self, st):
        """A universal over all numbers: past the ends of the lists that it looks into, its conclusion no longer depends on the number."""
        for x in [x for x in st.unknown() if st.c.fa and self.type_of.get(x) == "nat"]:
            conclusion, ends = list(st.c.fa[3]), []
            if not all(g.kind == "rel" for g in conclusion):
                continue
            for t in [t for g in conclusion for t in subterms(g) if is_fn(t, "get_or")]:
                at, i = t[2][:2]
                r = self.linear(i, st.bound)
                times = folded(i[2][1]) if is_fn(i, "/") and i[2][0] == ("var", x) else None
                if self.known(at, st.bound) and (times or r and r[1] == {x: 1}):
                    ends.append("%s.n * %d" % (self.py(at), times) if times else "%s.n - (%s)" % (self.py(at), r[0]))
                    conclusion = [replace(h, t, t[2][2]) for h in conclusion]
            if ends and all(v in st.bound for v in frees(conclusion)):
                low, _, met = self.bounds(x, st.goals, st.bound)
                past = " and ".join("(%s)" % self.pure(g, st.bound) for g in conclusion)
                st.steps.append(("flounder", "not (%s)" % past, "past the lists it does not hold"))
                return st.search(x, "range(%s, max(0, %s))" % (low, ", ".join(ends)), met)

    # ---- all of some lists, from what is said of elements wherever they stand
    def build_lists(self, st):
        sizes = {}
        for v in [v for v in st.unknown() if self.type_of.get(v) == "list"]:
            sizes[v] = self.length_of(v, st) or self.searched_length(v, st)
        counts = {v: self.var("n", "nat") for v in sizes if sizes[v]}
        facts, unread = [], False
        for g in st.goals:
            if any(v in counts for v in free(g)):
                new, left = self.facts_of(g, counts, st)
                facts, unread = facts + new, unread or left
        lists = [v for v in counts if any(v in f.which and f.test != "below" for f in facts)]
        facts = [f for f in facts if all(v in lists for v in f.which)]
        for v in lists:
            st.let(counts[v][1], sizes[v], 0)
        if lists:
            given = dict.fromkeys(v for f in facts for v in f.given)
            self.builds.append((lists, facts, unread))
            self.outside(st, facts, counts)
            st.steps.append(("for", "(%s,)" % listed(lists), "build(%d, dict(%s), [%s])" % (
                len(self.builds) - 1, ", ".join("%s=%s" % (ident(a), ident(a)) for a in given), listed(counts[v][1] for v in lists)), 0))
            st.bound.update(lists)
        return bool(lists)

    def outside(self, st, facts, counts):
        """What was used of all elements at a place is then only looked at where it is said of places past an end."""
        for f in [f for f in facts if f.goal.fa and f.place and (f.test or f.spoken) and len(f.goal.fa[3]) == 1]:
            if [h.goal for h in facts].count(f.goal) == 1:
                past = Goal("or", ways=[([], [rel("<=", counts[v], f.place)]) for v in dict.fromkeys(f.which)])
                g, (vs, premises, further, conclusion) = f.goal, f.goal.fa
                st.goals[st.goals.index(g)] = nothing(g.ways[0][0], [past] + g.ways[0][1], (vs, [past] + premises, further, conclusion)).noted(g.src, g.via)

    def searched_length(self, v, st):
        """A length that is only compared: each that it may be."""
        n = self.var("n", "nat")
        low, high, _ = self.bounds(n[1], [replace(g, length(v), n) for g in st.goals if g.kind == "rel"], st.bound)
        return high and st.search(n[1], "range(%s, %s + 1)" % (low, high)) and ident(n[1])

    def facts_of(self, g, counts, st):
        """(facts, whether something of it was not understood)"""
        if g.kind != "rel" and not g.fa:
            return [], True
        vs, premises, further, conclusion = g.fa or ([], [], [], [g])
        for v, n in counts.items():
            premises, conclusion = [replace(x, length(v), n) for x in premises], [replace(x, length(v), n) for x in conclusion]
        facts, unread = [], False
        for goals in [conclusion] if further else [[x] for x in conclusion]:
            cells = {t: self.var("u", "list" if t[2][2] == NIL else "cell") for x in goals for t in dict.fromkeys(subterms(x))
                     if is_fn(t, "get_or") and t[2][0][0] == "var" and t[2][0][1] in counts}
            for t, u in cells.items():
                goals = [replace(x, t, u) for x in goals]
            f = None if not cells or any(v in counts for v in frees(goals + premises)) else self.fact(g, cells, vs, premises, goals, counts, st)
            unread |= f is None and bool(cells or g.fa)
            facts += [f] if f else []
        return facts, unread

    def fact(self, g, cells, vs, premises, goals, counts, st):
        """What the goals say of the cells: their values, else a digit of the one cell, or a bound of it."""
        which, us = [t[2][0][1] for t in cells], [u[1] for u in cells.values()]
        places = [self.fresh("i", "nat") for _ in cells]
        where = premises + [rel("<", t[2][1], counts[v]) for t, v in zip(cells, which)] + [rel("==", ("var", i), t[2][1]) for i, t in zip(places, cells)]
        known = st.bound | {c[1] for c in counts.values()}
        given = [v for v in frees(where + goals) if v in known]
        only = goals[0] if len(goals) == 1 and goals[0].kind == "rel" else None
        others, test = [v for v in vs if v not in places + us], None
        place = next(iter(cells))[2][1] if len({t[2][1] for t in cells}) == 1 else None
        found = places + us + others
        name = self.helper("fact", given, found, where + goals) if only is None or only.label == "==" else None
        if not name:
            test, found = self.test_of(only, cells[next(iter(cells))]) if only and len(cells) == 1 else None, places + others
            name = test and self.helper("fact", given, found, where)
        if test and name:
            self.define(["def t%s(%s): return %s" % (name, listed(given + found), test[1])])
        if not name or test:
            return name and Fact(g, name, given, found, len(places), which, vs, test[0], None, None if test[0] == "below" else place)
        return Fact(g, name, given, found, len(places), which, vs, None, self.helper("spoken", given, places, where), place)

    def test_of(self, g, u):
        """("digit", power, base and value) of u / power % base ≡ value, or ("below", bound), as Python."""
        for _, a, b in equations([g]):
            if is_fn(a, "%") and is_fn(a[2][0], "/") and a[2][0][2][0] == u:
                return "digit", "(%s, %s, %s)" % (self.py(a[2][0][2][1]), self.py(a[2][1]), self.py(b))
        if g.label in ("<", "<=") and g.parts[0] == u:
            return "below", self.py(g.parts[1]) + (" + 1" if g.label == "<=" else "")
        return None

    def run_build(self, k, env, lengths):
        """The lists whose elements are as the facts say, if they leave one value for each. A cell is (list, place)."""
        lists, facts, unread = self.builds[k]
        said, below, why = {}, {}, {}
        if not all(self.gather(f, env, [lists.index(v) for v in f.which], said, below, why) for f in facts):
            return
        for gap in (0, 1):                        # what is said by nothing is tried with two values: met by both, two outcomes are left
            made, left_open = [], False
            for w, n in enumerate(lengths):
                found = [self.number(said.get((w, i), {}), below.get((w, i)), gap) for i in range(n)]
                made.append(Seq(tuple(number for number, _ in found)))
                left_open |= any(undecided for _, undecided in found)
            if any(number is None for each in made for number in each):
                return
            if left_open and unread:
                raise Open("of an element too little is understood")
            self.why[tuple(made)] = lists, why
            yield tuple(made)
            if not left_open:
                return

    def gather(self, f, env, which, said, below, why):
        """Puts what a fact says into the cells, {(power, base): digit} each, a value with no base; False where it contradicts what is there, or where it
        speaks of a place and finds no value for it."""
        known, test = [env[ident(v)] for v in f.given], f.test and self.names["t" + f.name]
        places = set()
        for found in self.names[f.name](*known):
            places.add(found[:f.places])
            told = test and test(*known, *found)
            if f.test == "below":
                at = which[0], found[0]
                below[at] = min(told, below.get(at, told))
                continue
            power, base, *values = told or (1, None, *found[f.places:])
            for w, i, v in zip(which, found, values):
                if base and v >= base or said.setdefault((w, i), {}).setdefault((power, base), v) != v:
                    return False
                why.setdefault((w, i), []).append((f, found, test and power))
        return not f.spoken or places.issuperset(self.names[f.spoken](*known))

    def number(self, digits, below, gap):
        """The number that has these digits (None where there is none), and whether some digit of it is left open."""
        whole = digits.get((1, None))
        if whole is not None or not digits:
            return (gap, True) if not digits else (whole if all(b is None or whole // p % b == d for (p, b), d in digits.items()) else None, False)
        base, total, power, left_open = next(iter(digits))[1], 0, 1, False
        while (power, base) in digits if below is None else power < below:
            left_open |= (power, base) not in digits
            total += digits.get((power, base), gap) * power
            power *= base
        return (total, left_open) if below is not None else (total + gap * power, True)      # without a bound a further digit is open
