"""Expressions of C for the term's places, operands and values."""
from dataclasses import dataclass, replace

from ctypes_of import element, symbol
from names import safe
from term import BOOL, PTR, UNIT, Array, Const, Int, Ref, Slice, Unknown, manners, must

SIZE = Int('size')                                      # C's size_t: the length of a slice
# An operator in C, its strength (0 binds tightest), and how tight each side has to be: mixed ones are in parentheses.
BINARY = {'mul': ('*', 3, 2, 2), 'div': ('/', 3, 2, 2), 'rem': ('%', 3, 2, 2), 'add': ('+', 4, 4, 3), 'sub': ('-', 4, 4, 3), 'shl': ('<<', 5, 2, 2),
          'shr': ('>>', 5, 2, 2), 'lt': ('<', 6, 5, 5), 'le': ('<=', 6, 5, 5), 'eq': ('==', 7, 5, 5), 'ne': ('!=', 7, 5, 5)}
OPPOSITE = {'<': '>=', '<=': '>', '==': '!=', '!=': '==', '>': '<=', '>=': '<'}


@dataclass
class Expr:
    """An expression: its text and strength, its type; the locals that it names; whether it reads memory, whether a call in it may write; whether C may give
    it a narrower type; whether it names a place; whether that is, or it points to, a part of a value that is lent, which does not change while the function
    runs; and what else is known of it, a word and its details."""
    text: str
    strength: int
    type: object
    uses: frozenset = frozenset()
    memory: bool = False
    calls: bool = False
    literal: bool = False
    place: bool = False
    steady: bool = False
    known: tuple = ('',)

    def at(self, strength):
        return self.text if self.strength <= strength else f'({self.text})'

    def has(self, word):
        """The details of what is known, if it is this."""
        return self.known[1:] if self.known[0] == word else None


def made(text, strength, t, *parts, **more):
    """An expression made of others."""
    more = {'steady': bool(parts) and parts[0].steady, **more}
    return Expr(text, strength, t, frozenset().union(*(e.uses for e in parts)), any(e.memory for e in parts), any(e.calls for e in parts), **more)


def compared(left, op, right, *parts):
    return made(f'{left} {op} {right}', 6 if op[0] in '<>' else 7, BOOL, *parts, known=('compared', left, op, right))


def negated(e):
    if e.has('compared'):
        left, op, right = e.has('compared')
        return compared(left, OPPOSITE[op], right, e)
    return e.has('not')[0] if e.has('not') else made('!' + e.at(2), 2, BOOL, e, known=('not', e))


def number(bits, n):
    text = f'{n}u' if n < 2 ** 32 else 'UINT64_MAX' if n == 2 ** 64 - 1 else f'UINT64_C({n})'
    return Expr(text, 0, Int(bits), literal=n < 2 ** 32, known=('number', n))


def cast(text, e, t=None):
    return made(f'({text}){e.at(2)}', 2, t or e.type, e)


def narrowed(text, strength, t, *parts):
    """C computes 8 and 16 bits as `int`: what comes is cut back to them."""
    return made(f'(uint{t.bits}_t)({text})', 2, t, *parts) if t.bits < 32 else made(text, strength, t, *parts)


def widened(e):
    """A length as it is, where C makes it the wider type by itself."""
    return e.has('length')[0] if e.has('length') else e


def dot(e):
    """What stands ahead of a field's name."""
    return e.has('lent')[0] + '->' if e.has('lent') else e.at(1) + '.'


def address(e):
    return e.has('lent')[0] if e.has('lent') else '&' + e.at(2)


class Exprs:
    """A function's expressions. `pending` has the locals whose value is not yet set, since it may be put where the local is read; `lent` are the parameters
    that are behind a pointer in C, `slots` the locals whose address is taken."""

    def __init__(self, f, program):
        self.f, self.program, self.types, self.pending, self.lent = f, program, program.types, {}, set()

    def local(self, n):
        """A local by its name; what a parameter points to, where the value is lent."""
        name, t = self.name[n], self.f.locals[n]
        if n in self.lent:
            return Expr('*' + name, 2, t, frozenset([n]), place=True, steady=True, known=('lent', name))
        return Expr(name, 0, t, frozenset([n]), n in self.slots, place=True)

    def place(self, place):
        """A place, step by step."""
        e, case = self.pending.pop(place.local, None) or self.local(place.local), None
        for kind, what in place.steps:
            if kind == 'variant':
                case = what
            else:
                e, case = self.pointee(e, what) if kind == 'deref' else self.part(e, case, what), None
            e.place, e.steady = True, e.steady and not isinstance(e.type, Ref)      # a pointer in what is lent may point anywhere
        return e

    def pointee(self, e, t):
        """What a pointer points to: an array, which C knows by its first element, by a cast to the struct that has nothing else."""
        mut = self.points(e, t)
        text, strength = (e.at(1) + '[0]', 1) if e.has('of') else ('*' + e.at(2), 2)
        if isinstance(t, Array):
            text, strength = f'*({"const " * (not mut)}{self.types.c(t)} *){self.fit(e, PTR).at(2)}', 2
        elif e.has('indexed'):
            base, i = e.has('indexed')
            text, strength = f'{base.at(1)}[{i.text}]', 1
        return replace(made(text, strength, t, e), memory=e.memory or not e.steady)

    def points(self, e, t):
        """Whether what e points to, of type t or its first element, may be written."""
        must(isinstance(e.type, Ref) and element(e.type.to) == element(t), f'a pointer of the type {e.type} to {t}')
        return e.type.mut

    def part(self, e, case, n):
        """A field of a struct, of a case of an enum (its number is field 0), or a slice's pointer or length."""
        if isinstance(e.type, Slice):
            return made(e.at(1) + ('.len' if n else '.ptr'), 1, SIZE if n else Ref(e.type.mut, e.type.of), e, known=('of', e))
        kind, parts = self.types.shape(e.type)
        must((kind == 'variants') == (case is not None), f'a part of {e.type}')
        if case is None:
            return made(dot(e) + self.types.fields(e.type)[n], 1, parts[n], e)
        if n == 0:
            return made(dot(e) + 'tag', 1, Int(8), e, known=('tag', e.type))
        return made(f'{dot(e)}u.{safe(self.types.cases(e.type)[case])}.f{n - 1}', 1, parts[case][n - 1], e)

    def value(self, operand):
        if isinstance(operand, Const):
            if isinstance(operand.type, Int):
                return number(operand.type.bits, operand.n)
            return Expr('' if operand.type == UNIT else 'true' if operand.n else 'false', 0, operand.type)
        e = self.place(operand.place)
        return replace(cast('uint64_t', e, Int(64)), known=('length', e)) if e.type == SIZE else e

    def fit(self, e, t):
        """As a value of type t: a pointer into a slice is a reference, and what it may write to may be read."""
        if isinstance(t, Ref) or t == PTR:
            if e.has('indexed'):
                base, i = e.has('indexed')
                e = made(f'{self.program.at_helper(base.type)}({base.text}, {i.text})', 1, e.type, e)
            must(t == PTR or self.points(e, t.to) >= t.mut, f'{e.type} where {t} is wanted')
            return made(e.text, e.strength, e.type if t == PTR else t, e)
        must(e.type == t, f'{e.type} where {t} is wanted')
        return e

    def assigned(self, s, t):
        """The value of an assignment to a place of type t."""
        if s.value == 'addrOf':
            return self.address_of(s.reads[0].place)
        parts = [self.value(operand) for operand in s.reads]
        if s.value == 'rvOpd':
            return parts[0] if t == PTR else self.fit(parts[0], t)
        if s.value == 'aggregate':
            return self.aggregate(parts, t)
        return self.unary(s.op, *parts) if s.value == 'op1' else self.binary(s.op, *parts)

    def address_of(self, place):
        if place.steps and place.steps[-1][0] == 'deref':       # &*r is r
            e, t = self.place(replace(place, steps=place.steps[:-1])), place.steps[-1][1]
            return made(e.text, e.strength, Ref(self.points(e, t), element(t)), e, known=e.known)
        must(not place.indirect, 'the address of a part of what is lent')
        e = self.place(place)
        text, strength = (e.at(1) + '.a', 1) if isinstance(e.type, Array) else (address(e), 2)
        return Expr(text, strength, Ref(place.local not in self.lent, element(e.type)), e.uses, steady=e.steady)

    def aggregate(self, parts, t):
        """A struct, a case of an enum, an array or a slice of its parts."""
        if isinstance(t, Slice):
            return self.slice(t, *parts)
        if isinstance(t, Array):
            text = f'{{ {self.listed(parts, [t.of] * t.count)} }}'
        elif self.types.shape(t)[0] == 'fields':
            text = self.listed(parts, self.types.shape(t)[1])
        else:
            n, = parts[0].has('number')
            case, inner = self.types.cases(t)[n], self.listed(parts[1:], self.types.shape(t)[1][n])
            text = f'.tag = {symbol(t.name)}_{case}' + (f', .u.{safe(case)} = {{ {inner} }}' if inner else '')
        return made(f'({self.types.c(t)}){{ {text} }}', 1, t, *parts)

    def slice(self, t, pointer, length):
        """A slice of a pointer and a length; those of another slice are that slice."""
        whole = (pointer.has('of') or [None])[0]
        if whole and whole.type == t and length.has('length') and length.has('length')[0].has('of')[0].text == whole.text:
            return whole
        size = widened(length) if length.has('length') or length.literal else cast('size_t', length)
        return made(f'({self.types.c(t)}){{ {self.fit(pointer, Ref(t.mut, t.of)).at(13)}, {size.at(13)} }}', 1, t, pointer, length)

    def listed(self, parts, types):
        must(len(parts) == len(types), 'an aggregate with too few or too many parts')
        return ', '.join(self.fit(e, t).at(13) for e, t in zip(parts, types))

    def unary(self, op, e):
        if op == 'not' and e.type == BOOL:
            return negated(e)
        if op == 'countOnes' and isinstance(e.type, Int):
            return made(f'{self.program.ones_helper(e.type)}({e.text})', 1, Int(32), e)
        match op, e.type:                               # a cast is proved to keep the number
            case (['cast', 'unsigned' | 'signed' as sign, 'unsigned' | 'signed', bits], Int(had)) if sign == 'unsigned' or int(bits) <= had:
                if int(bits) == had:
                    return e
                return number(int(bits), *e.has('number')) if e.has('number') and int(bits) > had else cast(f'uint{bits}_t', e, Int(int(bits)))
        raise Unknown(f'the operator {op} on {e.type}')

    def binary(self, op, a, b):
        name, signed = (op, False) if isinstance(op, str) else (op[0], op[1] == 'signed')
        if name == 'offset':
            return self.offset(a, b)
        must(name in BINARY and a.type == b.type and (isinstance(a.type, Int) or a.type == BOOL and name in ('eq', 'ne')), f'the operator {op} on {a.type}')
        must(not signed or name in ('add', 'sub', 'lt', 'le'), f'the operator {op}')
        (sign, strength, left, right), bits = BINARY[name], getattr(a.type, 'bits', 0)
        if name in ('add', 'sub') and b.has('number') == (0,):
            return a
        x, y = a, b
        if signed and name in ('lt', 'le'):             # sums and differences of signed numbers have the bits of unsigned ones
            x, y = cast(f'int{bits}_t', a), cast(f'int{bits}_t', b)
        elif 0 < bits < 32 and name in ('mul', 'shl'):
            x = cast('uint32_t', a)
        elif bits >= 32 and a.literal and (b.literal or name in ('shl', 'shr')):
            x = cast(f'uint{bits}_t', a)
        if name in ('lt', 'le', 'eq', 'ne'):
            other = self.key(a, *b.has('number')) if a.has('tag') and b.has('number') else widened(y).at(right)
            return compared(widened(x).at(left), sign, other, a, b)
        e = narrowed(f'{x.at(left)} {sign} {y.at(right)}', strength, a.type, a, b)
        return replace(e, known=('times', a, *b.has('number'))) if name == 'mul' and b.has('number') else e

    def offset(self, a, b):
        """A pointer to an element, by its number: the logic counts bytes, of a layout that the C compiler's need not be."""
        must(isinstance(a.type, Ref) and b.type == Int(64) and not a.has('indexed'), f'an offset from {a.type}')
        t = element(a.type.to)
        size, times, constant = self.types.size(t)[0], b.has('times'), b.has('number')
        if times and times[1] == size:
            i = times[0]
        elif constant and constant[0] % size == 0:
            i = number(64, constant[0] // size)
        else:
            must(size == 1, f'an offset that is no number of elements of {size} bytes')
            i = b
        if i.has('number') == (0,):
            return made(a.text, a.strength, Ref(a.type.mut, t), a, known=a.known)
        return made('', 0, Ref(a.type.mut, t), a, i, known=('indexed', a, widened(i)))

    def key(self, e, n):
        """A number that e is compared with: the name of a case, where e is the number of one."""
        return f'{symbol(e.has("tag")[0].name)}_{self.types.cases(e.has("tag")[0])[n]}' if e.has('tag') else f'{n}u'


if __name__ == '__main__':
    manners.part(__doc__)
