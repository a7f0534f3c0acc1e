"""Why an outcome meets the sentences: which constructor was used, with which numbers, and the words above it; down to comparisons of numbers. A tree, printed
as text or as a page with parts that fold."""
import html
import itertools
import textwrap

from .arithmetic import ident
from .terms import false, frees, is_fn
from .values import BUSY, Floundered, Rec, Seq, brief

SIGNS = {"==": "≡", "!=": "≢", "<=": "≤"}


class Node:
    """A line of a reason: its words, the premises below it, and the line that goes on from it."""
    def __init__(self, text, words="", below=()):
        self.text, self.words, self.below, self.further = text, words, list(below), None

    def chain(self):
        return [self] + (self.further.chain() if self.further else [])


def small(x):
    """Whether a value is short enough to stand in a line."""
    if isinstance(x, Rec):
        return not any(isinstance(v, (Rec, Seq)) for v in x.d.values())
    return not (isinstance(x, Seq) and x.n > 8) and not (isinstance(x, tuple) and not all(map(small, x)))


def shown(x):
    return small(x) and not isinstance(x, Rec)


def letter(v):
    return v.split("~")[0]


class Why:
    """named: what is said beside a number of a variable, or nothing; depth: how many premises deep the reason goes where the outcome is decided."""
    def __init__(self, runner, depth=2, named=lambda variable, number: ""):
        self.runner, self.depth, self.named, self.told, self.seen, self.numbers = runner, depth, named, set(), set(), []

    # ---- terms with their numbers
    def python(self, text, env):
        return eval(text, self.runner.names, {ident(k): v for k, v in env.items()})

    def value(self, e, env):
        try:
            return self.python(self.runner.py(e), env)
        except (NameError, KeyError):
            return None

    def term(self, e, env):
        v = env.get(e[1]) if e[0] == "var" else None if e[0] == "clo" else self.value(e, env)
        if v is not None and shown(v) and not (is_fn(e, "+", "*", "+ℤ") and isinstance(v, int)):
            return brief(v)
        if e[0] in ("var", "clo"):
            return letter(e[1]) if e[0] == "var" else "(%s)" % e[1][2]
        parts = [self.term(x, env) for x in e[2]]
        if e[0] == "fn" and len(parts) == 2 and not e[1].isalpha():
            return "%s %s %s" % (parts[0], e[1], parts[1])
        return "(%s)" % " ".join([e[1]] + parts) if e[0] in ("fn", "con") else "%s .%s" % (parts[0], e[1]) if e[0] == "proj" else ".."

    def numbers_of(self, pairs):
        return ["%s = %s%s" % (n, brief(x), self.named(n, x)) for n, x in pairs]

    def label(self, p):
        return p.label if len(p.label) < 50 else p.name + " .."

    def all_of(self, goals, env):
        return ", ".join(self.goal(x, env) for x in goals)

    def goal(self, g, env):
        if g.kind == "rel":
            return "%s %s %s" % (self.term(g.parts[0], env), SIGNS.get(g.label, g.label), self.term(g.parts[1], env))
        if g.kind == "call":
            told = [a for a in g.parts[g.label.captured:] if not isinstance(self.value(a, env), Rec) and a[0] != "rec"]
            return " ".join([self.label(g.label)] + [self.term(a, env) for a in told])
        if g.kind == "or":
            return " or ".join("(%s)" % self.all_of(gs, env) for _, gs in g.ways) or "false"
        vs, premises, _, conclusion = g.fa or (*g.ways[0], [], [])
        names, said = " ".join(letter(v) for v in vs if v in frees(premises)), self.all_of(premises, env)
        if not conclusion or false(conclusion[0]):
            return "no %s with %s" % (names, said) if names else "not: " + said
        return "every %s with %s has %s" % (names or "case", said, self.all_of(conclusion, env))

    # ---- the tree
    def found(self, p, args):
        """The constructor that made it, and its numbers."""
        for (q, m), t in [x for x in self.runner.tables.items() if x[0][0] is p]:
            known, rest = (tuple(a for a, x in zip(args, m) if x == is_known) for is_known in (True, False))
            r = t.get(known)
            if r is not None and r is not BUSY and rest in r:
                return r[rest]
        m = (True,) * len(args)
        return self.runner.ask(self.runner.function(p, m), args).get(()) if self.runner.ok(p, m, None) else None

    def words_of(self, key, text):
        if not text or key in self.told:
            return ""
        self.told.add(key)
        return text.strip("- ") + " "

    def call(self, p, args, depth, outcome=None):
        """The node of a sentence at its arguments."""
        made = self.found(p, args)
        if made is None:
            return Node(self.label(p) + ": met")
        c = p.clauses[made[0]]
        env = dict(zip(p.args, args))
        env.update((v, x) for v, x in zip(c.vars, made[1]) if x is not None)
        head = " ".join([self.label(p)] + ["(%s)" % brief(x) if isinstance(x, tuple) else brief(x) for x in args[p.captured:] if shown(x)])
        given = {(letter(v), x) for v, x in zip(p.args, args)}
        numbers = [(letter(v), env[v]) for v in c.vars if v in env and shown(env[v])]
        by, where = "" if c.name == "record" else "  by " + c.name, "  [%s:%d]" % (p.of.file.path.name, c.line)
        node = Node("  ".join([head + by + where] + self.numbers_of(x for x in numbers if x not in given)))
        if depth > 0:
            self.numbers += numbers
            node.words = (self.words_of((p.of, ""), p.of.comment) + self.words_of((p.of, c.name), "" if c.name == "record" else c.comment)).strip()
            if (p.id, args) in self.seen and outcome is None:
                node.text += "  (as above)"
                return node
            self.seen.add((p.id, args))
            self.premises(node, c, env, depth, outcome)
        return node

    def premises(self, node, c, env, depth, outcome):
        """The premises below a node. Where the outcome is handed on to a sentence that has premises of its own, that goes further, and the others are told in
        a line each."""
        handed = [g for g in c.goals if outcome is not None and g.kind == "call" and any(self.value(a, env) is outcome for a in g.parts)]
        carried = [g for g in handed if any(x.goals for x in g.label.clauses)]
        for g in [g for g in c.goals if g not in handed]:
            node.below += self.premise(g, env, 0 if carried else depth if outcome is not None else depth - 1)
        if carried:
            if len(node.below) == 1 and c.goals[0].kind == "not":
                node.text, node.below = "passed over: " + node.below[0].text, []
            node.further = self.call(carried[0].label, tuple(self.value(a, env) for a in carried[0].parts), depth, outcome)

    def premise(self, g, env, depth):
        args, text, below = tuple(self.value(a, env) for a in g.parts), self.goal(g, env), ()
        words = "".join(self.words_of((d, "abbrev"), d.comment and "%s: %s" % (d.name, d.comment)) for d in g.via if depth > 0)
        if g.kind == "call" and None not in args:
            node = self.call(g.label, args, depth)
            node.words = (words + node.words).strip()
            return [node]
        if false(g) or g.kind == "rel" and any(isinstance(v, (Rec, Seq)) and not small(v) for v in args):
            return []
        source = g.src[-1] if g.src and (g.src[0], g.kind) in (("op", "rel"), ("sum", "or")) else ""
        if g.kind == "or":
            met = [self.all_of(goals, env) for vs, goals in g.ways if not vs and self.met(goals, env)]
            text = "%s:  %s" % (source or "one of", met[0]) if met else source or text
        elif g.kind == "not" and depth > 0:
            below = [Node(t) for t in self.searched(g, env)]
        elif source.replace(" ", "") not in ("", text.replace(" ", "")):
            text = "%s:  %s" % (source, text)
        return [Node(text, words.strip(), below)]

    def met(self, goals, env):
        tests = [self.runner.pure(x, set(env)) for x in goals]
        return None not in tests and all(self.python(t, env) for t in tests)

    def searched(self, g, env, most=6):
        """What was gone through by a search that found nothing: each case of its first premises."""
        vs, premises = g.fa[:2] if g.fa else g.ways[0]
        first = [x for x in premises if x.kind == "call"][:1] or premises
        given, asked = [v for v in frees(first) if v in env], [v for v in frees(first) if v not in env]
        try:
            name = self.runner.helper("searched", given, asked, first) if asked and vs else None
            found = list(itertools.islice(self.runner.ask(name, [env[v] for v in given]), 1000)) if name else None
        except Floundered:
            found = None
        if found is not None:
            cases = [" ".join(self.numbers_of((letter(v), x) for v, x in zip(asked, each) if small(x))) for each in found[:most]]
            count = "1000 cases and more" if len(found) == 1000 else "%d case%s" % (len(found), "" if len(found) == 1 else "s")
            yield "searched %s: %s" % (count, "; ".join(cases) + ("; .." if len(found) > most else "") if found else "none there")

    def bit(self, place, name="image"):
        """Of the list of this name that was made from what is said of its elements: what made this bit of it, the top bit of each byte first."""
        for lists, (names, why) in self.runner.why.items():
            for f, found, power in why.get((0, place // 8), ()) if letter(names[0]) == name else ():
                if power == 2 ** (7 - place % 8):
                    env = dict(zip(f.found, found))
                    field, comment = self.part_of(f.goal)
                    numbers = "  ".join(self.numbers_of((letter(v), env[v]) for v in f.vars if v in env))
                    yield Node("bit %d is %d:  %s%s" % (place, lists[0].t[place // 8] // power % 2, field, numbers), comment)

    def part_of(self, goal):
        """The field of a record that says a goal, and the words above it."""
        for p in self.runner.preds.values():
            for c in vars(p).get("clauses", ()):
                for field, comment, a, b in c.parts:
                    if any(x.src is goal.src and goal.src for x in c.goals[a:b]):
                        return "%s [%s]  " % (field, p.of.file.path.name), comment
        return "", ""


def as_text(nodes, lines=1, width=150, indent=0):
    """Lines of text, so many of each node's words; what has neither words nor premises shares a line."""
    out, pad = [], "  " * indent

    def wrapped(text, first="", rest="    "):
        return textwrap.wrap(text, width, initial_indent=pad + first, subsequent_indent=pad + rest, break_long_words=False)
    for leaves, group in itertools.groupby((m for n in nodes for m in n.chain()), lambda n: not (n.words or n.below)):
        if leaves:
            out += wrapped(";  ".join(n.text for n in group))
        for n in group:
            words = wrapped("-- " + n.words, "   ", "   -- ") if n.words else []
            out += wrapped(n.text) + words[:lines - 1] + [w + " .." * (len(words) > lines) for w in words[lines - 1:lines]]
            out += as_text(n.below, lines, width, indent + 1)
    return out


def as_html(nodes):
    out = ""
    for n in (m for n in nodes for m in n.chain()):
        text = "<code>%s</code>" % html.escape(n.text), "<p class=words>%s</p>" % html.escape(n.words) if n.words else ""
        out += "<div class=leaf>%s%s</div>" % text if not n.below else \
            "<details%s><summary>%s</summary>%s%s</details>" % ("" if n.further else " open", *text, as_html(n.below))
    return out
