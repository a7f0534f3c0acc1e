"""Reads sentence files: declarations (data, record, abbrev, unfoldable) with the comment above each. Statements of theorems and their proofs are passed over.

A term is a tuple: id num app proj lam pi arr sig prod sum op rec tuple; the last part of lam pi arr sig prod sum and op is its text, and before that of lam
stand its words. It is not the kit's reader: precedences are those that the files use, and what does not fit them is refused."""
import re
from pathlib import Path

TOKEN = re.compile(r"[(){};,λ]|\.[^\s(){};,.]*|[^\s(){};,.λ]+(?:\.[^\s(){};,.λ]+)*")
LEVELS = (("→",), ("⊎",), ("×",), ("≡", "<", "≤"), ("∷", "++"), ("+", "-", "+ℤ", "-ℤ"), ("*", "/", "%", "*ℤ"), ("^",))    # the loosest first
RIGHT, ALONE = (0, 1, 2, 4, 7), 3               # levels that group to the right; comparisons do not group
NAMED = {"→": "arr", "⊎": "sum", "×": "prod"}
STOP = {")", "}", ";", ",", ".", ":", "=", "where", None}.union(*LEVELS)


class Unreadable(Exception):
    pass


class Parser:
    """aliases: what the file calls other files; a word with a dot behind one of these is a name of that file, behind any other a projection."""
    def __init__(self, text, aliases=()):
        found = list(TOKEN.finditer(text))
        self.aliases, self.text, self.t, self.ends, self.i = aliases, text, [m.group() for m in found] + [None], [0] + [m.end() for m in found], 0

    def peek(self):
        return self.t[self.i]

    def next(self):
        self.i += 1
        return self.t[self.i - 1]

    def want(self, x):
        if self.next() != x:
            raise Unreadable("%s is wanted in: %s" % (x or "the end", self.text[:200]))

    def skip(self, x):
        """Whether x stands here; then it is passed."""
        found = self.peek() == x
        self.i += found
        return found

    def since(self, start):
        """The text from token `start` on up to here."""
        return " ".join(self.text[self.ends[start]:self.ends[self.i]].split())

    def whole(self):
        """The whole text as one term."""
        e = self.expr()
        self.want(None)
        return e

    def binder(self):
        """(names, type, implicit) if one stands here."""
        j, implicit = self.i + 1, self.peek() == "{"
        while self.peek() in ("(", "{") and self.t[j] not in STOP and self.t[j] not in "({λ":
            j += 1
        if j == self.i + 1 or self.t[j] != ":":
            return None
        names, self.i = tuple(self.t[self.i + 1:j]), j + 1
        of = self.expr()
        self.want("}" if implicit else ")")
        return names, of, implicit

    def telescope(self):
        """(name, type, implicit) of each name of the binders that stand here."""
        out, b = [], self.binder()
        while b:
            out += [(n, *b[1:]) for n in b[0]]
            b = self.binder()
        return out

    def expr(self, level=0):
        """A term of operators of this level and those that bind more closely; (x : a) → b at the loosest, (x : a) × b where × stands."""
        start = self.i
        if self.peek() == "λ" or level == len(LEVELS):
            return self.lam() if self.peek() == "λ" else self.app()
        b = self.binder() if level in (0, 2) else None
        if b and level == 2:
            self.want("×")
            return ("sig", *b[:2], self.expr(2), self.since(start))
        if b and self.peek() != "×":
            arrow, body = self.skip("→"), self.expr()
            if not arrow and body[0] != "pi":
                raise Unreadable("a binder alone in: %s" % self.text[:200])
            return ("pi", *b[:2], body, b[2], self.since(start))
        self.i = start
        a = self.expr(level + 1)
        while self.peek() in LEVELS[level]:
            o = self.next()
            b = self.expr(level if level in RIGHT else level + 1)
            a = (NAMED[o], a, b, self.since(start)) if o in NAMED else ("op", o, a, b, self.since(start))
            if level in RIGHT or level == ALONE:
                break
        return a

    def lam(self):
        self.want("λ")
        params = []
        while not self.skip("."):
            b = self.binder()
            params += [(n, b[1]) for n in b[0]] if b else [(self.next(), None)]
        start, body = self.i, self.expr()
        words = frozenset(word for t in self.t[start:self.i] for word in (t, t.partition(".")[0]))
        return ("lam", tuple(params), body, words, self.since(start))

    def app(self):
        f, args = self.post(), []
        while self.peek() not in STOP:
            if self.skip("{"):                    # an implicit argument is a type
                self.expr()
                self.want("}")
            else:
                args.append(self.lam() if self.peek() == "λ" else self.post())
        return ("app", f, tuple(args)) if args else f

    def post(self):
        e = self.atom()
        while self.peek() and self.peek()[0] == "." and len(self.peek()) > 1:
            for field in self.next()[1:].split("."):
                e = ("proj", e, field.strip("«»"))
        return e

    def atom(self):
        t = self.next()
        if t == "(":
            parts = [self.expr()]
            while self.skip(","):
                parts.append(self.expr())
            self.want(")")
            return parts[0] if len(parts) == 1 else ("tuple", tuple(parts))
        if t == "record" and self.skip("{"):
            fields = []
            while not self.skip("}"):
                n = self.next().strip("«»")
                self.want("=")
                fields.append((n, self.expr()))
                self.skip(";")
            return ("rec", tuple(fields))
        if t in STOP:
            raise Unreadable("%r in: %s" % (t, self.text[:200]))
        if t.isdigit():
            return ("num", int(t))
        head, *fields = t.split(".")
        e, fields = (("id", ".".join((head, fields[0]))), fields[1:]) if head in self.aliases and fields else (("id", head), fields)
        for field in fields:
            e = ("proj", e, field.strip("«»"))
        return e


class Def:
    """A declaration, or a module with parameters, (name, type, implicit) each; its parts are constructors or fields, (name, type, comment, line) each, or
    equations."""
    def __init__(self, kind, name, file, blocks, params, sig=None, comment="", line=0):
        self.kind, self.name, self.file, self.blocks, self.params = kind, name, file, blocks, params
        self.sig, self.comment, self.line, self.parts, self.eqs, self.ctx = sig, comment, line, [], [], (file, blocks)
        self.of_modules = [p for b in blocks for p in b.params if not p[2]]

    def given(self):
        """Its parameters that are not implicit, those of its modules first."""
        return self.of_modules + [p for p in self.params if not p[2]]


def items(text):
    """(indent, text, comment above, line) of each item, its further lines joined to it."""
    out, note = [], []
    for number, line in enumerate(text.split("\n"), 1):
        words = line.strip()
        if not words or words.startswith("--"):
            note = note + [words[2:].strip()] if words else []
            continue
        indent, words = len(line) - len(line.lstrip()), re.sub(r"\s--\s.*", "", words)
        if out and (indent > out[-1][0] and not out[-1][1].endswith("where") or words.startswith("}") and indent == out[-1][0]):
            out[-1][1] += " " + words
        else:
            out.append([indent, words, " ".join(note), number])
        note = []
    return out


class File:
    def __init__(self, path, text):
        self.path, self.defs, self.constructors, self.imports, self.alias = path, {}, set(), {}, {}
        stack = []                                # (indent, declaration) that the item stands in
        for indent, words, comment, line in items(text):
            stack = [x for x in stack if x[0] < indent]
            made = self.item(words, comment, line, tuple(d for _, d in stack if d.kind == "module"), stack[-1][1] if stack else None)
            stack += [(indent, made)] if made else []

    def parser(self, text):
        return Parser(text, self.alias)

    def item(self, words, comment, line, blocks, within):
        if within and within.kind != "module":
            name, of = re.match(r"(?:pub )?(\S+) : (.*)", words, re.S).groups()
            within.parts.append((name, self.parser(of).whole(), comment, line))
            self.constructors |= {name} if within.kind == "data" else set()
        elif words.startswith("use "):
            path, names, alias = re.match(r"use (\S+?)(?:\.\{(.*)\})?(?: as (\S+))?$", words).groups()
            self.imports.update((n.strip(), path) for n in (names or "").split(",") if n.strip())
            self.alias[alias] = path
        elif words.startswith("module "):
            return Def("module", "", self, blocks, self.parser(words.split(None, 2)[2]).telescope())
        elif not words.startswith(("pub mod ", "infix")):
            return self.declaration(words, comment, line, blocks)
        return None

    def declaration(self, words, comment, line, blocks):
        m = re.match(r"(?:pub )?(data|record) (\S+)(.*)where$", words)
        if m:
            p = self.parser(m.group(3))
            params = p.telescope()
            p.want(":")
            made = self.defs[m.group(2)] = Def(m.group(1), m.group(2), self, blocks, params, p.whole(), comment, line)
            return made
        m = re.match(r"(?:abbrev|unfoldable) (?:pub )?(\S+)((?: \{.*?\})*) : (.*)", words)
        if m:
            self.defs[m.group(1)] = Def("abbrev", m.group(1), self, blocks, [], self.parser(m.group(3)).whole(), comment, line)
            return None
        d = self.defs.get(words.split()[0])
        if d and d.kind == "abbrev" and " = " in words:
            left, right = words.split(" = ", 1)
            p, patterns = self.parser(re.sub(r"\{.*?\}", "", left)), []
            p.next()
            while p.peek():
                patterns.append(p.post())
            d.eqs.append((patterns, self.parser(right).whole()))
        return None


class Library:
    """Files by the path of a `use`, from the project's crates; `texts` puts other text in a file's place."""
    def __init__(self, crates, texts=None):
        self.crates, self.files, self.texts = Path(crates), {}, texts or {}

    def file(self, path):
        path = Path(path).resolve()
        if path not in self.files:
            self.files[path] = File(path, self.texts[path] if path in self.texts else path.read_text(encoding="utf-8"))
        return self.files[path]

    def sentences(self):
        """The files of sentences: what stands at the top of each crate says*."""
        return [self.file(p) for p in sorted(self.crates.glob("says*/specs/*.antt"))]

    def of_use(self, use):
        m = re.match(r"Rattle\.([^.]+)\.specs\.(.*)$", use)
        path = self.crates / m.group(1) / "specs" / (m.group(2).replace(".", "/") + ".antt") if m and ".declared." not in use else None
        return self.file(path) if path and path.is_file() else None

    def lookup(self, file, name):
        """("def", Def), ("con", name), or ("out", name) from outside the files."""
        before, _, after = name.partition(".")
        if name in file.defs:
            return "def", file.defs[name]
        if after and before in file.alias:
            return self.lookup(self.of_use(file.alias[before]), after)
        there = self.of_use(file.imports[name]) if name in file.imports else None
        if there:
            return self.lookup(there, name)
        return ("con" if name in file.constructors or "TheVariants" in file.imports.get(name, "") else "out"), name
