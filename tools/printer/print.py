"""Prints C from the text of `rt mir`, for tools/portable: print.py FILE FOLDER SUM KIT TERM ..

FILE is denkumari.c, the calls of include/denkumari.h, or texts.c, the functions that portable/roots.txt names, with texts.h. They go to FOLDER. SUM is that of
the sources and KIT the kit's line, for their heads; each TERM is a file with a program's text."""
import hashlib
import re
import sys
import textwrap
from collections import Counter
from pathlib import Path

from ctypes_of import Types, element, pad, symbol
from flow import every
from lines import wrapped
from names import Names
from stmts import WRAPPING, Printer
from term import ROOT, Array, Function, Named, Ref, Slice, Unknown, functions, manners, must

sys.setrecursionlimit(100_000)
KIT = ('io', 'os', 'libc', 'std', 'core', 'alloc')
# gcc up to 12 makes vectors at -O2 only where it knows a loop's length; the length of what a caller lends it never knows.
VECTORS = '''#if defined(__GNUC__) && !defined(__clang__) && defined(__OPTIMIZE__) && !defined(__OPTIMIZE_SIZE__)
#pragma GCC optimize ("tree-vectorize", "vect-cost-model=dynamic")
#endif
'''
INCLUDES = '#include <stdbool.h>\n#include <stddef.h>\n#include <stdint.h>\n'
HEAD = '''/* {what}. Printed by tools/portable from the term that the proofs
 * speak of; not to be edited. What follows this comment has the sum `text`, and what it was printed from has the sum
 * `sources` (sha256; tools/portable.sh says of what).
 *
 * sources: {asked.sum}
 * text: {text}
 * kit: {asked.kit}
 */
'''


def comment(name, text):
    """A function's comment: its name in the sources, and what is said of it there."""
    text = text.replace('*/', '* /')
    if len(name + text) < 108:
        return f'/* {name}{": " * bool(text)}{text} */\n'
    return f'/* {name}:\n' + ''.join(f' * {line}\n' for line in textwrap.wrap(text, 114)) + ' */\n'


class Program:
    def __init__(self, texts, roots, names):
        """`roots` names the functions that are printed, with all that they call, by their whole path or the end of it."""
        terms = functions(texts)
        self.names, self.types, self.functions, self.called, self.helpers, self.callers = names, Types(names), {}, {}, {}, Counter()
        found = {root: [name for name in terms if name == root or name.endswith('::' + root)] for root in roots}
        must(all(len(names) == 1 for names in found.values()), f'the functions {found}')
        self.roots = [name for name, in found.values()]
        todo = list(self.roots)
        while todo:
            Unknown.where = name = todo.pop()
            if name not in self.functions and not WRAPPING.fullmatch(name):
                must(name in terms and name.split('::')[0] not in KIT, f'the function {name}: it is the kit\'s, or there is none')
                f = self.functions[name] = Function(terms[name])
                self.types.add(f.types)
                self.called[name] = [s.name for s in every(f.body) if s.kind == 'call']
                self.callers.update(self.called[name])
                todo += self.called[name]
        self.printers, self.lent = {name: Printer(f, self) for name, f in self.functions.items()}, {}
        for Unknown.where, printer in self.printers.items():
            self.lent[Unknown.where] = printer.prepare()

    def params(self, f):
        return self.names.of(f)[0][0]

    def is_large(self, t):
        """Whether a struct has more bytes than two registers: where it is only read it is lent."""
        return isinstance(t, Named) and self.types.size(t)[0] > 16

    def is_inline(self, f):
        return self.callers[f.name] > 1 or any(s.kind == 'loop' for s in every(f.body))

    def head(self, f, root=False):
        """A function's first line. What a pointer points to nobody else writes to while the function runs: it is a value that is lent to be read, or what
        the sources' rules of borrowing lend to this function alone. So every pointer is `restrict`."""
        types = [f'const {self.types.c(t)} *' if i in self.lent[f.name] else self.types.c(t) for i, t in enumerate(f.locals[1:f.params + 1], 1)]
        params = ', '.join(pad(t) + 'restrict ' * t.endswith('*') + name for t, name in zip(types, self.params(f))) or 'void'
        kind = '' if root else 'static inline ' if self.is_inline(f) else 'static '
        return wrapped(f'{kind}{pad(self.types.c(f.locals[0]))}{symbol(f.name)}({params})', 0).rstrip()

    def at_helper(self, t):
        """The function that steps to an element."""
        to, c = element(t.to), pad(self.types.c(t))
        name = f'at_{"mut_" * t.mut}{self.types.short(to)}'
        self.helpers[name] = (f'/* The i-th element behind p, which may be any pointer where the length is 0, NULL too. */\n'
                              f'static inline {c}{name}({c}p, uint64_t i)\n{{\n    return i == 0u ? p : p + i;\n}}\n')
        return name

    def apart_helper(self, t):
        """The function that copies a struct by its fields."""
        c, fields = self.types.c(t), ', '.join(f'x.{field}' for field in self.types.fields(t))
        self.helpers[f'apart_{c}'] = ('/* x; for clang by its fields, so that answers which are put into a loop stay in registers. */\n#ifdef __clang__\n'
                                      f'static inline {c} apart_{c}({c} x)\n{{\n    return ({c}){{ {fields} }};\n}}\n'
                                      f'#else\n#define apart_{c}(x) (x)\n#endif\n')
        return f'apart_{c}'

    def ones_helper(self, t):
        """The function that counts ones."""
        name, c = f'ones_u{t.bits}', self.types.c(t)
        self.helpers[name] = (f'/* How many bits of x are one. */\nstatic inline uint32_t {name}({c} x)\n{{\n    uint32_t n = 0;\n'
                              f'    for (; x != 0u; n++) x = ({c})(x & (x - 1u));\n    return n;\n}}\n')
        return name

    def ordered(self, name, texts, order):
        """The text of a function behind those that it calls."""
        if name not in texts:
            Unknown.where = name
            texts[name] = self.printers[name].function()
            for other in sorted(self.functions.keys() & self.called[name]):
                self.ordered(other, texts, order)
            order[name] = comment(name, self.names.of(self.functions[name])[0][2]) + texts[name]

    def file(self, include, exports):
        """The text of the file. A root is static where `exports`, the functions of the header, call it."""
        order, texts = {}, {}
        for root in self.roots:
            self.ordered(root, texts, order)
        for name in self.roots if not exports else ():
            order[name] = re.sub('^static (inline )?', '', order[name], count=1, flags=re.M)
        tops = [self.export(*one) for one in exports]
        blocks = ['\n'.join(self.types.out) + '\n', *(self.helpers[name] for name in sorted(self.helpers)), *order.values(), *tops]
        return f'{VECTORS}{INCLUDES}#include "{include}"\n\n' + '\n'.join(blocks)

    def header(self, guard):
        """A header for the roots; what it declares the file does not declare again."""
        heads = [comment(root, self.names.of(self.functions[root])[0][2]) + self.head(self.functions[root], True) + ';\n' for root in self.roots]
        types, self.types.out = '\n'.join(self.types.out), []
        return f'#ifndef {guard}\n#define {guard}\n{INCLUDES}\n{types}\n\n' + '\n'.join(heads) + '\n#endif\n'

    def export(self, answer, name, params, structs):
        """A function of the C header: pointers and lengths made slices, the answer told field by field."""
        f, rest, given = self.functions[next(root for root in self.roots if root.split('::')[-1] == name)], params.split(', '), []
        for t in f.locals[1:f.params + 1]:
            c, param = re.fullmatch(r'(.*?)(\w+)', rest.pop(0)).groups()
            wanted = self.types.c(Ref(t.mut, t.of) if isinstance(t, Slice) else t)
            one = param if c.strip() == wanted.strip() else f'({wanted.strip()}){param}'
            given.append(f'({self.types.c(t)}){{ {one}, {rest.pop(0).split(" ")[-1]} }}' if isinstance(t, Slice) else one)
        must(not rest, f'the parameters of {name}: {rest}')
        lines = [f'const {self.types.c(f.locals[0])} r = {symbol(f.name)}({", ".join(given)});', f'{answer} answer;']
        lines += self.told('answer', 'r', f.locals[0], answer, structs) + ['return answer;']
        _, _, text, sentence = self.names.of(f)[0]
        said = comment(name, text + f' Its contract is the sentence {sentence}.' * bool(sentence))
        return said + wrapped(f'{answer} {name}({params})', 0) + '{\n' + ''.join(wrapped(line, 4) for line in lines) + '}\n'

    def told(self, to, source, t, struct, structs):
        """The lines that tell an answer to the header's struct."""
        if isinstance(t, Array):
            inner = self.told(f'{to}[i]', f'{source}.a[i]', t.of, struct, structs)
            return [f'for (size_t i = 0; i < {t.count}u; i++) {{'] + ['    ' + line for line in inner] + ['}']
        if not isinstance(t, Named):
            return [f'{to} = {source};']
        parts = self.types.shape(t)[1]
        must(len(structs[struct]) == len(parts), f'the answer {struct}')
        return [line for (inner, field), name, part in zip(structs[struct], self.types.fields(t), parts)
                for line in self.told(f'{to}.{field}', f'{source}.{name}', part, inner, structs)]


def read_header(text):
    """The functions of a C header: (answer's type, name, parameters, the structs' fields)."""
    text = re.sub(r'/\*.*?\*/', '', text, flags=re.S)
    structs = {name: re.findall(r'((?:struct )?\w+)\s+(\w+)(?:\[\w+\])?;', inner) for name, inner in re.findall(r'(struct \w+) \{(.*?)\};', text, re.S)}
    return [(answer, name, re.sub(r'\s+', ' ', params), structs) for answer, name, params in re.findall(r'^((?:struct )?\w+) (dk_\w+)\(([^)]*)\);', text, re.M)]


def printed(file, terms):
    """The files' texts, by their names."""
    names = Names(sorted((ROOT / 'crates').glob('*/src/**/*.rt')))
    if file == 'denkumari.c':
        exports = read_header((ROOT / 'include' / 'denkumari.h').read_text())
        return {file: Program(terms, [name for _, name, _, _ in exports], names).file('denkumari.h', exports)}
    program = Program(terms, (ROOT / 'portable' / 'roots.txt').read_text().split(), names)
    return {'texts.h': program.header('DENKUMARI_TEXTS_H'), file: program.file('texts.h', [])}


def main():
    parser = manners.parser(__doc__)
    parser.add_argument('file', choices=['denkumari.c', 'texts.c'], metavar='FILE')
    for word in ('folder', 'sum', 'kit'):
        parser.add_argument(word, metavar=word.upper())
    parser.add_argument('terms', nargs='+', metavar='TERM')
    asked = parser.parse_args()
    what = ('The calls of include/denkumari.h' if asked.file == 'denkumari.c' else 'The text functions of the programs') + ' as C99'
    try:
        for name, text in printed(asked.file, [Path(term).read_text() for term in asked.terms]).items():
            head = HEAD.format(what=what, asked=asked, text=hashlib.sha256(text.encode()).hexdigest())
            (Path(asked.folder) / name).write_text(head + text)
    except Unknown as unknown:
        raise manners.Stop(f'not known to the printer: {unknown}, in {Unknown.where}') from None


if __name__ == '__main__':
    manners.run(main)
