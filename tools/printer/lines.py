"""Lines of C, each a text or a Nest: where a local is declared, and how they are laid out."""
import re
from dataclasses import dataclass

from term import manners


@dataclass
class Nest:
    """Lines inside of `head { .. }`; `test`: the expression that an `if` asks; `braced`: a case without a declaration has no braces."""
    head: str
    lines: list
    test: object = None
    braced: bool = True


def names(line, name):
    """Whether a line names a local: as no part of another word, and as no field."""
    if isinstance(line, Nest):
        return names(line.head, name) or any(names(inner, name) for inner in line.lines)
    return re.search(rf'(?<![\w.>]){name}\b', line) is not None


def sets(line, name):
    """Whether a line sets a local whole, to what does not name it."""
    return isinstance(line, str) and line.startswith(name + ' = ') and not names(line[len(name):], name)


def declare(lines, name, c, is_number):
    """Declares a local of the type c in the innermost lines that have all that names it: with its first value, where that comes first."""
    naming = [line for line in lines if names(line, name)]
    if not naming:
        return
    first = naming[0]
    inner = [line for line in first.lines if names(line, name)] if isinstance(first, Nest) else []
    if sets(first, name):
        lines[lines.index(first)] = c + first.replace(f' = ({c.strip()}){{', ' = {', 1)
    elif len(naming) == 1 and inner and not names(first.head, name) and (first.head[:6] != 'switch' or len(inner) == 1) \
            and (first.head[:3] not in ('whi', 'for') or sets(inner[0], name) and not (is_number and 'return' in laid(first.lines, 0))):
        first.braced = True
        declare(first.lines, name, c, is_number)
    else:
        lines.insert(lines.index(first), f'{c}{name};')


def wrapped(text, indent):
    """A statement in lines of at most 118 characters."""
    out, ahead = '', ' ' * indent
    while len(ahead + text) > 118:
        cut = max(text.rfind(mark, 0, 118 - len(ahead)) + len(mark) - 1 for mark in (', ', ' && ', ' || ', ' ? '))
        if cut < 20:
            break
        out += (ahead + text[:cut]).rstrip() + '\n'
        text, ahead = text[cut:].lstrip(), ' ' * (indent + 8)
    return out + ahead + text + '\n'


def laid(lines, indent):
    """The text of some lines."""
    out = ''
    for line in lines:
        if isinstance(line, str):
            out += wrapped(line, indent)
            continue
        body = laid(line.lines, indent + 4)
        if not line.braced:
            out += f'{" " * indent}{line.head}\n{body}'
        elif line.head != 'else':
            out += f'{wrapped(line.head + " {", indent)}{body}{" " * indent}}}\n'
        else:
            out = f'{out[:-1]} else {{\n{body}{" " * indent}}}\n'
    return out


if __name__ == '__main__':
    manners.part(__doc__)
