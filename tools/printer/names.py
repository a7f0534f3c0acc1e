"""Names and comments from the sources, for readers: nothing that is printed means another thing by them."""
import re

from term import manners

KEYWORDS = set('''auto break case char const continue default do double else enum extern float for goto if inline int long register restrict return short
    signed sizeof static struct switch typedef union unsigned void volatile while bool true false result tag u ptr len each answer r'''.split())
FUNCTION = re.compile(r'((?:^ *//[^\n]*\n)*)(?:^ *#\[[^\n]*\n)*^( *)(?:pub(?:\(crate\))? )?(?:extern "C" )?fn (\w+)(?:<[^>]*>)?\s*\(([^)]*)\)', re.M)
BINDING = re.compile(r'\blet (?:mut )?(\w+)(?:: [^=;]*)? = (?:([\w:]+)\()?|\blet [\w:]+\(([^)]*)\) =|\bfor (\w+) in'
                     r'|(?:^|\|)\s*[\w:]+::\w+\(([^)]*)\) (?:=>|$)|^\s*([a-z]\w*) =>', re.M)


def safe(name):
    """A name that means nothing else in C or in what is printed."""
    return name + '_' if name in KEYWORDS or re.fullmatch(r'v\d+', name) else name


def bound(body):
    """The names that a body binds, in order, each with the function whose answer it is, if that is told."""
    for m in BINDING.finditer(body):
        for name in [m[1]] if m[1] else re.split(r',\s*', m[3] or m[5] or m[4] or m[6] or ''):
            if re.fullmatch(r'[a-z]\w*', name):
                yield name, (m[2] or '').split('::')[-1] if m[1] else ''


class Names:
    """What the sources call things; by (crate, name), since the term has no more of a method's or a module's path."""

    def __init__(self, sources):
        self.types, self.functions = {}, {}
        for path in sources:
            crate, text = path.parts[-3], path.read_text()
            plain = re.sub(r'//[^\n]*', '', text)
            for name, parts in re.findall(r'\b(?:struct|enum) (\w+)(?:<[^>]*>)? \{(.*?)\n\}', plain, re.S):
                self.types[crate, name] = re.findall(r'^    (?:pub )?(\w+)\s*[:,({]', parts, re.M)
            for m in FUNCTION.finditer(text):
                self.functions.setdefault((crate, m[3]), []).append(self.read(m, text[m.end():]))

    def read(self, m, rest):
        """A function's parameters, the names that it binds, its comment and the name of the sentence that is its contract."""
        listed = re.sub(r'//[^\n]*', '', re.sub(r"&?('\w+ )?(mut )?\bself\b", 'self: S', m[4]))
        params = [safe(name) for name in re.findall(r'(?:^|,)\s*(?:mut )?(\w+)\s*:', listed)]
        start = r'\n' if rest.split('\n', 1)[0].rstrip().endswith('{') else rf'^{m[2]}\{{\n'
        body = re.search(rf'{start}(.*?)\n{m[2]}\}}', rest, re.M | re.S)
        contract = re.search(r'\bensures(?: \w+)? \{\s*(\w*Says?)\b', rest[:body.start(1)] if body else '')
        comment = ' '.join(line.strip()[2:].strip() for line in m[1].splitlines())
        return params, list(bound(re.sub(r'//[^\n]*', '', body[1]))) if body else [], comment, contract[1] if contract else ''

    def parts(self, name, count, letter):
        """The names of a struct's fields or an enum's cases."""
        found = self.types.get((name.split('::')[0], name.split('::')[-1]), [])
        return found if len(found) == count else [f'{letter}{i}' for i in range(count)]

    def of(self, f):
        """What is read of the functions that f may be."""
        found = self.functions.get((f.name.split('::')[0], f.name.split('::')[-1]), [])
        return [one for one in found if len(one[0]) == len(set(one[0])) == f.params] or [([f'a{i + 1}' for i in range(f.params)], [], '', '')]

    def locals(self, f, functions, copies):
        """Names for the locals behind the parameters: copies of parameters, at most so many, come first, then what is bound, in order. None where the type
        of a call's answer shows that it is not so."""
        for params, binds, _, _ in self.of(f):
            for first in range(f.params + 1 + copies, f.params, -1):
                out, used, fits = {}, set(params), True
                for i, (name, call) in enumerate(binds, first):
                    answers = {g.locals[0] for g in functions.values() if call and g.name.split('::')[-1] == call}
                    fits = fits and i < len(f.locals) and (not answers or f.locals[i] in answers)
                    name = safe(name)
                    while name in used:
                        name += '_'
                    used.add(name)
                    out[i] = name
                if fits:
                    return out
        return {}


if __name__ == '__main__':
    manners.part(__doc__)
