"""C's types for those of the term, each declared where it is first named. An integer of the term is its bits: an unsigned one in C."""
from names import safe
from term import BOOL, Array, Int, Named, Ref, Simple, Slice, manners, must


def symbol(name):
    return name.replace('::', '__')


def pad(text):
    """A type's text, ready for a name behind it."""
    return text if text.endswith('*') else text + ' '


def element(t):
    """What a pointer to this type points to first: C's pointers into an array are to its elements."""
    return t.of if isinstance(t, Array) else t


class Types:
    def __init__(self, names):
        self.names, self.shapes, self.declared, self.out = names, {}, set(), []

    def add(self, shapes):
        """The structs and enums that a function names."""
        for name, shape in shapes.items():
            must(self.shapes.setdefault(name, shape) == shape, f'two types of the name {name}')

    def short(self, t):
        """A type as a part of a name."""
        must(t == BOOL or isinstance(t, (Int, Named, Array)), f'an element of the type {t}')
        if isinstance(t, Array):
            return f'{self.short(t.of)}_x{t.count}'
        return f'u{t.bits}' if isinstance(t, Int) else symbol(t.name)

    def c(self, t):
        """A type as C has it."""
        match t:
            case Int():
                return f'uint{t.bits}_t'
            case Simple('bool' | 'unit'):
                return 'bool' if t == BOOL else 'void'
            case Ref():
                return f'{"" if t.mut else "const "}{self.c(element(t.to))} *'
        if t not in self.declared:
            self.declared.add(t)
            self.declare(t)
        return ('mut_' if t.mut else 'slice_') + self.short(t.of) if isinstance(t, Slice) else self.short(t)

    def declare(self, t):
        if isinstance(t, Array):
            self.out.append(f'typedef struct {{ {pad(self.c(t.of))}a[{t.count}]; }} {self.short(t)};')
        elif isinstance(t, Slice):
            self.out.append(f'typedef struct {{ {self.c(Ref(t.mut, t.of))}ptr; size_t len; }} {self.c(t)};')
        elif self.shape(t)[0] == 'fields':
            lines = ''.join(f'    {pad(self.c(part))}{field};\n' for field, part in zip(self.fields(t), self.shape(t)[1]))
            self.out.append(f'typedef struct {{\n{lines}}} {symbol(t.name)};')
        else:
            self.declare_cases(symbol(t.name), self.cases(t), self.shape(t)[1])

    def declare_cases(self, name, cases, parts):
        """An enum: the number of its case, as wide as what stands behind it, so that compilers copy whole words; and what each case has."""
        widest = max((one.bits if isinstance(one, Int) else 64 for part in parts for one in part), default=8)
        tag = 'size_t' if widest == 64 else f'uint{widest}_t'
        lines = ''.join(f'        struct {{ {" ".join(f"{pad(self.c(one))}f{i};" for i, one in enumerate(part))} }} {safe(case)};\n'
                        for case, part in zip(cases, parts) if part)
        numbers = ',\n'.join(f'    {name}_{case} = {i}' for i, case in enumerate(cases))
        held = f'    union {{\n{lines}    }} u;\n' if lines else ''
        self.out.append(f'enum {{\n{numbers}\n}};\ntypedef struct {{\n    {tag} tag;\n{held}}} {name};')

    def shape(self, t):
        must(isinstance(t, Named) and self.shapes[t.name][1], f'the parts of {t}')
        return self.shapes[t.name]

    def fields(self, t):
        """The names of a struct's fields."""
        return [safe(name) for name in self.names.parts(t.name, len(self.shape(t)[1]), 'f')]

    def cases(self, t):
        """The names of an enum's cases."""
        return self.names.parts(t.name, len(self.shape(t)[1]), 'V')

    def is_nested(self, t):
        """Whether a type is a struct with structs in it, of at most 32 bytes."""
        return isinstance(t, Named) and self.shape(t)[0] == 'fields' and any(isinstance(part, Named) for part in self.shape(t)[1]) and self.size(t)[0] <= 32

    def size(self, t):
        """Bytes and alignment in the logic's own layout, which counts offsets in bytes. They make such an offset the number of an element, and tell which
        structs are large; C's own layout is the compiler's."""
        if isinstance(t, Array):
            return self.size(t.of)[0] * t.count, self.size(t.of)[1]
        if t == BOOL or isinstance(t, Int):
            return (1, 1) if t == BOOL else (t.bits // 8, t.bits // 8)
        kind, parts = self.shape(t)
        first, ways, longest, aligned = (0, [parts], 0, 1) if kind == 'fields' else (1, parts, 0, 1)
        for end, way in ((first, way) for way in ways):
            for size, align in map(self.size, way):
                aligned, end = max(aligned, align), -(-end // align) * align + size
            longest = max(longest, end)
        return -(-longest // aligned) * aligned, aligned


if __name__ == '__main__':
    manners.part(__doc__)
