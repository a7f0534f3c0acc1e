"""The values that sentences speak of: numbers, truths, lists, pairs, records and cases; and what the code made from the sentences calls."""
import bisect
import functools
import itertools


class Floundered(Exception):
    """No order of the premises makes every number known."""


class Open(Exception):
    """The sentences leave something open."""


class Seq:
    """A list. Its tails share its elements and their hashes, so that taking a long text apart from the front is cheap."""
    __slots__ = ("t", "at", "n", "hashes")

    def __init__(self, elements=(), at=0, hashes=None):
        self.t, self.at, self.hashes = elements, at, [None] if hashes is None else hashes
        self.n = len(elements) - at

    def __hash__(self):
        if self.hashes[0] is None:
            out, h = [17], 17
            for x in reversed(self.t):
                h = (h * 1000003 + hash(x)) % 2305843009213693951
                out.append(h)
            self.hashes[0] = out
        return self.hashes[0][self.n]

    def __eq__(self, other):
        return self is other or isinstance(other, Seq) and self.n == other.n and (self.t is other.t or self.items() == other.items())

    def __iter__(self):
        return iter(self.items())

    def items(self):
        return self.t[self.at:] if self.at else self.t


class Rec:
    """A record. Two that hold the same are one object, so that tables are searched by identity."""
    __slots__ = ("d",)
    known = {}

    def __new__(cls, names, values):
        key = names, values
        made = cls.known.get(key)
        if made is None:
            made = cls.known[key] = object.__new__(cls)
            made.d = dict(zip(names, values))
        return made


def value(x):
    """A Python value as the sentences have it: lists become lists, dictionaries records."""
    if isinstance(x, (list, bytes, bytearray)):
        return Seq(tuple(map(value, x)))
    return Rec(*zip(*sorted((k, value(v)) for k, v in x.items()))) if isinstance(x, dict) else x


def plain(x):
    """And back."""
    if isinstance(x, Seq):
        return [plain(y) for y in x]
    if isinstance(x, Rec):
        return {k: plain(v) for k, v in x.d.items()}
    return tuple(map(plain, x)) if isinstance(x, tuple) else x


def brief(v):
    """A value in words, a long list cut short."""
    if isinstance(v, Seq):
        shown = map(brief, v.items() if v.n <= 16 else v.items()[:4])
        return "[%s%s]" % (", ".join(shown), "" if v.n <= 16 else ", .. %d in all" % v.n)
    if isinstance(v, Rec):
        return "{%s}" % "; ".join("%s = %s" % (k, brief(x)) for k, x in v.d.items())
    if isinstance(v, tuple):
        return v[0] if isinstance(v[0], str) else "(%s)" % ", ".join(map(brief, v))
    return str(v).lower()


# ---- what the code calls: each as the kit's library has it on natural numbers and lists
def get_or(xs, i, default):
    return xs.t[xs.at + i] if i < xs.n else default


def tail(xs):
    return Seq(xs.t, xs.at + 1, xs.hashes)


def cut(xs, n):
    """The first n elements, and those behind them."""
    return Seq(xs.t[xs.at:xs.at + n]), Seq(xs.t, xs.at + min(n, xs.n), xs.hashes)


def div(a, b):
    return a // b if b else 0


def mod(a, b):
    return a % b if b else a


def multiples(low, high, c, sign, m):
    """Each x from low to high (or on and on) with c + sign * x a multiple of m."""
    if m == 0:
        raise Floundered("multiple of 0")
    start = low + (-c * sign - low) % abs(m)
    return itertools.count(start, abs(m)) if high is None else range(start, high + 1, abs(m))


def ranked(found, before):
    """The members of a list, each once, in the order in which they stand."""
    order = functools.cmp_to_key(lambda x, y: -1 if before(x, y) else 1 if before(y, x) else 0)
    return Seq(tuple(sorted(dict.fromkeys(x for x, in found), key=order)))


def pieces(step, known, text):
    """Each way of reading pieces off the front: those read, and what is left."""
    todo = [((), text)]
    for read, left in todo:
        yield Seq(read), left
        for piece, rest in step(*known, left):
            if rest.n >= left.n:
                raise Floundered("an empty piece")
            todo.append((read + (piece,), rest))


def elementwise(cell, known, n):
    """Each list of n elements whose element i is one that `cell` finds."""
    for each in itertools.product(*(set(cell(*known, i)) for i in range(n))):
        yield Seq(tuple(x for x, in each))


class Ranges:
    """Ranges of numbers, each from its first to before its end."""
    def __init__(self, found):
        found = sorted(set(found))
        self.firsts = [a for a, _ in found]
        self.ends = list(itertools.accumulate((b for _, b in found), max))

    def hold(self, number):
        i = bisect.bisect_right(self.firsts, number)
        return i > 0 and self.ends[i - 1] > number


class Busy:
    """What a sentence that is being met has so far: to ask it is to go round in a circle."""
    def __iter__(self):
        raise Floundered("a sentence rests on itself")
    __contains__ = __bool__ = __iter__


BUSY = Busy()
