"""Reads the text of `rt mir`, the term that the proofs speak of: types, places, values, statements, functions. A form that is not here is refused."""
import re
import sys
from dataclasses import dataclass, make_dataclass
from pathlib import Path

ROOT = Path(__file__).resolve().parents[2]
sys.path.append(str(ROOT / 'oracle'))
sys.dont_write_bytecode = True
import manners  # noqa: E402

# The kinds of types; two types are the same where their parts are. `mut`: whether it may be written through.
Int, Simple, Named, Ref, Slice, Array = (make_dataclass(name, parts.split(), frozen=True) for name, parts in (
    ('Int', 'bits'), ('Simple', 'name'), ('Named', 'name'), ('Ref', 'mut to'), ('Slice', 'mut of'), ('Array', 'of count')))
BOOL, UNIT, PTR = Simple('bool'), Simple('unit'), Simple('ptr')
# The kinds of operands.
Copy, Const = make_dataclass('Copy', ['place'], frozen=True), make_dataclass('Const', ['type', 'n'], frozen=True)


class Unknown(Exception):
    """Something that the printer does not know: then nothing is printed. `where`: the function that it is in."""
    where = 'no function'


def must(known, what):
    if not known:
        raise Unknown(what)


@dataclass(frozen=True)
class Place:
    """A local, and the steps from it: ('deref', type), ('field', n), ('variant', n)."""
    local: int
    steps: tuple = ()

    @property
    def indirect(self):
        """Whether it lies in memory that the local points to."""
        return any(kind == 'deref' for kind, _ in self.steps)


class Body(list):
    """Statements in a row; `live`: the locals that are read from its start on."""
    live = frozenset()


class Stmt:
    """A statement: what it reads, the place that it sets or None, its bodies, and what else its kind has. `live`: the locals that are read behind it."""
    value = ''

    def __init__(self, kind, reads=(), to=None, bodies=(), **more):
        self.kind, self.reads, self.to, self.bodies, self.live = kind, list(reads), to, list(bodies), frozenset()
        self.__dict__.update(more)


def parse(text):
    """The text as lists of lists, those of the logic among them; a name in quotes keeps the first."""
    stack = [[]]
    for bracket, name, word in re.findall(r'([()])|("[^"]*)"|([^\s()"]+)', text):
        if bracket == '(':
            stack.append([])
        else:
            done = stack.pop() if bracket else name or word
            listed = done[0] in ('lcons', 'tcons', 'ttcons')
            stack[-1].append([] if done in ('lnil', 'tnil', 'ttnil') else [done[1], *done[2]] if listed else done)
    return stack[0]


def type_of(x):
    match x:
        case 'tyBool' | 'tyUnit' | 'tyPtr':
            return Simple(x[2:].lower())
        case ['tyInt', '8' | '16' | '32' | '64']:
            return Int(int(x[1]))
        case ['tyRef', _, 'mut' | 'imm', to]:
            return Ref(x[2] == 'mut', type_of(to))
        case ['tyArray', of, ['lenLit', count]]:
            return Array(type_of(of), int(count))
        case ['tyNamed', ['pair', name, []]]:
            return Named(name[1:])
        case ['tyStruct', '"&[]', [['tyRef', _, 'mut' | 'imm', _] as pointer, ['tyInt', '64']]]:
            return Slice(pointer[2] == 'mut', type_of(pointer[3]))
    raise Unknown(f'the type {x}')


def place_of(x):
    steps = tuple((kind, type_of(of) if kind == 'deref' else int(of)) for kind, of in x[2])
    must(x[0] == 'place' and all(kind in ('deref', 'field', 'variant') for kind, _ in steps), f'the place {x}')
    return Place(int(x[1]), steps)


def operand(x):
    match x:
        case 'true' | 'false' | 'unit':
            return Const(UNIT if x == 'unit' else BOOL, x == 'true')
        case ['copy', place]:
            return Copy(place_of(place))
        case ['int' | 'intBig' | 'intNeg' as kind, bits, n]:
            return Const(Int(int(bits)), 2 ** int(bits) - int(n) if kind == 'intNeg' else int(n))
    raise Unknown(f'the operand {x}')


def value_of(x):
    """What a place is set to: the kind of the value, its operator or count, and its operands."""
    match x:
        case ['rvOpd', *parts]:
            return 'rvOpd', None, parts
        case ['op1' | 'op2' as kind, op, *parts]:
            return kind, op, parts
        case ['aggregate', parts]:
            return 'aggregate', None, parts
        case ['repeat', part, ['lenLit', count] | count]:
            return 'repeat', int(count), [part]
        case ['addrOf', place]:
            return 'addrOf', None, [['copy', place]]
    raise Unknown(f'the value {x}')


def statement(x):
    match x:
        case 'return':
            return Stmt('return', [Copy(Place(0))])
        case ['assign', to, value]:
            kind, op, parts = value_of(value)
            return Stmt('assign', map(operand, parts), place_of(to), value=kind, op=op)
        case ['call', ['direct', ['fnRef', name]], parts, to]:
            return Stmt('call', map(operand, parts), place_of(to), name=name[1:])
        case ['if', test, yes, no]:
            return Stmt('if', [operand(test)], None, [body_of(yes), body_of(no)])
        case ['block' | 'loop' as kind, body]:
            return Stmt(kind, bodies=[body_of(body)])
        case ['exit', depth]:
            return Stmt('exit', depth=int(depth))
        case ['switch', on, arms]:
            keys, bodies = zip(*arms_of(arms))
            return Stmt('switch', [operand(on)], None, bodies, keys=keys)
    raise Unknown(f'the statement {x}')


def arms_of(x):
    """A switch's arms, each with its keys; the default's keys are empty."""
    while x[0] == 'arm':
        yield [int(key) for key in x[1]], body_of(x[2])
        x = x[3]
    must(x == 'noDefault' or x[0] == 'default', f'the arm {x}')
    if x != 'noDefault':
        yield [], body_of(x[1])


def body_of(x):
    out = Body()
    while x[0] == 'seq':
        out += body_of(x[1])
        x = x[2]
    return out if x == 'skip' else Body(out + [statement(x)])


class Function:
    """A function: how many parameters, the types of its locals (0 the answer, then the parameters), its body, and the types that it names: a struct's fields
    ('fields', [type ..]), or an enum's cases ('variants', [[type ..] ..])."""

    def __init__(self, x):
        match x:
            case ['fn-def', name, ['fnItem', _, [], params, local, body], *types]:
                self.name, self.params, self.locals, self.body = name[1:], int(params), [type_of(one[1]) for one in local], body_of(body)
                shapes = {pair[1][1:]: pair[2] for pair in (types[0] if types else [])}
                must(all(kind in ('fields', 'variants') for kind, _ in shapes.values()), f'the types of {name}')
                self.types = {name: (kind, [type_of(part) if kind == 'fields' else [type_of(one) for one in part] for part in parts])
                              for name, (kind, parts) in shapes.items()}
            case _:
                raise Unknown(f'the function {x[1]}')


def functions(texts):
    """The functions of some programs by their names, each as a term; one that is in two of them is the same in both."""
    found = {}
    for text in texts:
        program = parse(text)
        must(len(program) == 3 and program[0] == 'program', 'a text that is no program')
        for term in program[1]:
            must(found.setdefault(term[1][1:], term) == term, f'two functions of the name {term[1]}')
    return found


if __name__ == '__main__':
    manners.part(__doc__)
