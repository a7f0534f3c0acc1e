"""docs/STATEMENTS.md and the pages docs/statements/*.md from docs/statements/*.rows and the sources; tools/page runs it and says how it is called.

A file of rows is Markdown, with blocks of these kinds between the paragraphs, each a head line and lines `  KEY: TEXT` behind it (a longer TEXT goes on in
lines that are indented by four):

    row NAME             a sentence of the documents: one line of a page
      says: the sentence, quoted, or what is proved in words
      theorem: the names of theorems in backquotes, with remarks: links to file and line, each with eight digits that change with its statement.
        Or `none: why`
      headline: yes, where the first statements, up to the first semicolon, are quoted below the line
      where: names that the statement needs to be read, sentences first: links
      only: said where uniqueness is the only theorem: what then says the sentence
      definition:, function:, edit:, note: as they are, names as links
    function crate::name
      not: answers that its contract rules out
      one: the theorem that its contract leaves one outcome; digits change with it and with the contract
    edit crate!label
      changes: what it changes. Where the check refuses it stands in refused.tsv, which tools/refused writes from the check's logs
    together crate
      change: what was changed in definition and code together, or why nothing was
      stopped: the theorem that no longer held, or what would stop such a change
"""
import difflib
import glob
import hashlib
import os
import random
import re
import sys
import textwrap
import believed
from antt import REFUSED, ROOT, edits, functions_of, line_of, names_of, places, read, refused_at, run

PAGE = 'docs/STATEMENTS.md'
ROWS = 'docs/statements'
# the rows of the first page, and how many lines all pages may have
FIRST = '0-reading'
MOST_LINES = 1600
# the crate whose exports C calls
THIN = 'denkumari_c'
KEYS = {
    'row': ['says', 'theorem', 'headline', 'where', 'only', 'definition', 'function', 'edit', 'note'],
    'function': ['not', 'one'],
    'edit': ['changes'],
    'together': ['change', 'stopped'],
}
CITED = re.compile(r'`([a-z_0-9]+)(/|::|!)([^` ]+)`')
# a theorem that two outcomes are one: by its file, or by its name
UNIQUE_FILE = re.compile(r'Unique$')
UNIQUE_NAME = re.compile(r'[-_](unique|ensures|decides)$|^one[-_](outcome|writing|paged|write|read|way|offer|build|file[-_]build|built[-_]in)$')
# so many statements of a headline are quoted, of so many lines at most
QUOTED = 2
LONGEST = 40

faults = []


def fault(text):
    if text not in faults:
        faults.append(text)


def find(crate, rest, where):
    """The declaration of crate/File.name, or None and a fault."""
    file, _, name = rest.partition('.')
    for path in places(crate, file):
        if name in names_of(path):
            return names_of(path)[name]
    elsewhere = sorted(
        os.path.relpath(p, ROOT)
        for p in glob.glob(os.path.join(ROOT, f'crates/{crate}/specs/**/*.antt'), recursive=True)
        + glob.glob(os.path.join(ROOT, f'crates/{crate}/proofs/*.antt'))
        if name in names_of(os.path.relpath(p, ROOT)))
    hint = f'; it is now in {", ".join(elsewhere)}' if elsewhere else ''
    fault(f'{where}: cited and not there: {crate}/{rest}{hint}')
    return None


def laid(declarations, whole):
    """A fenced quote, what is of one file and one module together."""
    out, path, around = [], None, []
    for d in declarations:
        lines = d.whole if whole or d.definition else d.signature
        if len(lines) > LONGEST:
            lines = d.signature if len(d.signature) < len(d.whole) else lines[:LONGEST] + ['    ..']
        if d.path != path:
            out += ([] if out else ['```']) + [f'-- {d.path}']
            path, around = d.path, []
        for n, head in enumerate(d.around):
            if n >= len(around) or around[n] != head:
                out += head
        around = d.around
        out += (d.comment if d.definition else []) + lines
    if out:
        out.append('```')
    return out


def linked(text, where, up):
    """A text whose names of theorems, definitions and functions lead to file and line; `up` is the way from its page to the root."""
    def link(m):
        crate, kind, rest = m.groups()
        if kind == '/' and re.match(r'[A-Z][A-Za-z0-9]*\.', rest):
            d = find(crate, rest, where)
            return f'[{m.group(0)}]({up}{d.path}#L{d.line})' if d else m.group(0)
        if kind == '::' and rest in functions_of(crate):
            path = functions_of(crate)[rest][0]
            return f'[{m.group(0)}]({up}{path}#L{line_of(path, rest)})'
        if kind == '!':
            return f'[{m.group(0)}]({up}crates/{crate}/must-fail/{rest}.edit)'
        return m.group(0)
    return CITED.sub(link, text)


def with_digits(text, where, up):
    """The same, and behind each name of a statement eight digits that change with it."""
    def one(m):
        crate, kind, rest = m.groups()
        named = linked(m.group(0), where, up)
        return f'{named} {digest(crate, rest, where)}' if kind == '/' and re.match(r'[A-Z][A-Za-z0-9]*\.', rest) else named
    return CITED.sub(one, text)


def is_there(kind, crate, rest, where):
    if kind == '/' and not rest[:1].isupper():
        return
    if not os.path.isdir(os.path.join(ROOT, 'crates', crate)):
        fault(f'{where}: there is no crate {crate}: {crate}{kind}{rest}')
    elif kind == '::':
        name = rest.split('::')[-1]
        if name[:1].isupper():
            if not any(re.search(rf'(struct|enum) {re.escape(name)}\b', open(p, encoding='utf-8').read())
                       for p in glob.glob(os.path.join(ROOT, f'crates/{crate}/src/**/*.rt'), recursive=True)):
                fault(f'{where}: cited and not there: {crate}::{rest}')
        elif name not in functions_of(crate):
            fault(f'{where}: cited and not there: {crate}::{rest}')
    elif kind == '!':
        if not os.path.isfile(os.path.join(ROOT, f'crates/{crate}/must-fail/{rest}.edit')):
            fault(f'{where}: cited and not there: {crate}!{rest}')
    elif re.match(r'[A-Z][A-Za-z0-9]*\.', rest):
        find(crate, rest, where)
    elif re.fullmatch(r'[A-Z][A-Za-z0-9]*', rest):
        if not list(places(crate, rest)):
            fault(f'{where}: cited and not there: {crate}/{rest}')


def statements(text):
    """crate/File.name cited in a text, in their order, each once."""
    found = []
    for crate, kind, rest in CITED.findall(text):
        if kind == '/' and re.match(r'[A-Z][A-Za-z0-9]*\.', rest) and (crate, rest) not in found:
            found.append((crate, rest))
    return found


def is_unique(crate, rest):
    file, _, name = rest.partition('.')
    return bool(UNIQUE_FILE.search(file) or UNIQUE_NAME.search(name))


def with_locals(declarations):
    """Before each statement the short abbreviations of its own module that it uses."""
    out, seen = [], set()
    for d in declarations:
        for name in re.findall(r'[A-Za-z][\w₀₁₂′·-]*', ' '.join(d.signature)):
            local = names_of(d.path).get(name)
            if (local and local is not d and local not in declarations and id(local) not in seen and local.definition and local.around
                    and local.around == d.around[:len(local.around)] and len(local.whole) <= 4 and 'Type 0' not in ' '.join(local.signature)):
                seen.add(id(local))
                out.append(local)
        out.append(d)
    return out


def quote(cited, whole, where):
    return laid(with_locals([d for d in (find(c, r, where) for c, r in cited) if d]), whole)


def digest(crate, rest, where):
    """Eight digits that change with a statement."""
    d = find(crate, rest, where)
    text = '\n'.join(ln for part in (d.around if d else []) for ln in part) + '\n'.join(d.signature if d else [])
    return hashlib.sha256(text.encode()).hexdigest()[:8]


def contracts(text, where):
    out = []
    for crate, kind, rest in CITED.findall(text):
        if kind == '::' and rest in functions_of(crate):
            path, _, head = functions_of(crate)[rest]
            out += ['```', f'// {path}'] + head + ['```']
    return out


class Block:
    def __init__(self, kind, name, where):
        self.kind, self.name, self.where, self.text = kind, name, where, {}

    def __getitem__(self, key):
        return self.text.get(key, '')


def counted(text, where):
    """`{lines PATH}`: how many lines a file has; `{lines PATH WORD}`: how many of them have the word as a field."""
    def count(m):
        path, word = m.group(1), m.group(2)
        if not os.path.isfile(os.path.join(ROOT, path)):
            fault(f'{where}: there is no {path}')
            return '0'
        lines = read(path).splitlines()
        return f'{sum(1 for ln in lines if not word or word in ln.split(chr(9))):,}'
    return re.sub(r'\{lines (\S+?)(?: (\w+))?\}', count, text)


def rows():
    """Of each file of rows its name and its parts in their order: ('text', lines) and blocks."""
    for file in sorted(glob.glob(os.path.join(ROOT, ROWS, '*.rows'))):
        yield os.path.basename(file)[:-5], parts_of(os.path.relpath(file, ROOT))


def parts_of(here):
    parts, current, key, prose = [], None, None, []
    for n, line in enumerate(read(here).split('\n'), 1):
        head = re.match(r'^(row|function|edit|together) (\S+)$', line)
        if head:
            if any(prose):
                parts.append(('text', prose))
            current, key, prose = Block(head.group(1), head.group(2), f'{here}:{n}'), None, []
            parts.append((head.group(1), current))
        elif current and re.match(r'^  [a-z]+:', line):
            key, _, text = line.strip().partition(':')
            if key not in KEYS[current.kind]:
                fault(f'{here}:{n}: {current.kind} {current.name} has no key {key}')
            if key in current.text:
                fault(f'{here}:{n}: {current.kind} {current.name} has {key} twice')
            current.text[key] = text.strip()
        elif current and key and line.startswith('    '):
            current.text[key] += ' ' + line.strip()
        elif not line.strip() and current:
            current = None
        elif current:
            fault(f'{here}:{n}: in {current.kind} {current.name}: a line that is neither a key nor the rest of one')
        else:
            prose.append(line)
        if len(line) > 160:
            fault(f'{here}:{n}: longer than 160 characters')
    if any(prose):
        parts.append(('text', prose))
    for kind, b in parts:
        if kind != 'text':
            b.text = {k: counted(v, b.where) for k, v in b.text.items()}
    return parts


def wrapped(text, first='', rest=''):
    """A paragraph in lines of the documents' width."""
    return textwrap.wrap(text, width=158, initial_indent=first, subsequent_indent=rest, break_long_words=False, break_on_hyphens=False)


def anchor(heading):
    return re.sub(r'[^\w\- ]', '', heading.lower()).strip().replace(' ', '-')


def check_row(b, cited):
    """What a row must say: a sentence, and a theorem or why there is none."""
    theorem = b['theorem']
    if not re.fullmatch(r'[a-z0-9]+(-[a-z0-9]+)*', b.name):
        fault(f'{b.where}: no short name: {b.name}')
    if not b['says']:
        fault(f'{b.where}: row {b.name} has no sentence')
    if not theorem:
        fault(f'{b.where}: row {b.name} says neither a theorem nor why there is none')
    elif not theorem.startswith('none') and not cited:
        fault(f'{b.where}: row {b.name} cites no theorem, and does not begin with "none"')
    only = bool(cited) and all(is_unique(*c) for c in cited)
    if only and not b['only']:
        fault(f'{b.where}: uniqueness is the only theorem of row {b.name}, and it does not say so')
    if b['only'] and not only:
        fault(f'{b.where}: row {b.name} says that uniqueness is its only theorem, and it is not')


def write_row(b, up):
    """A line of the page, and below a headline its statements."""
    theorem, cited = b['theorem'], statements(b['theorem'])
    check_row(b, cited)
    parts = [f'- <a id="{b.name}"></a>**{b.name}**: {b["says"].rstrip(".")}.']
    if theorem.startswith('none'):
        parts.append('No theorem' + (theorem[4:].rstrip('.') or '') + '.')
    else:
        if b['only']:
            parts.append(f'Uniqueness alone: {b["only"].rstrip(".")}.')
        parts.append(f'Theorem: {with_digits(theorem.rstrip("."), b.where, up)}.')
    if b['where']:
        parts.append(f'With {linked(b["where"].rstrip("."), b.where, up)}.')
    for key in ('definition', 'function', 'edit'):
        if b[key]:
            parts.append(f'{key.capitalize()}: {linked(b[key].rstrip("."), b.where, up)}.')
    if b['note']:
        parts.append(linked(b['note'], b.where, up))
    out = [' '.join(parts)]
    if b['headline']:
        first = (statements(theorem.split('; ')[0]) or cited)[:QUOTED]
        out += ['  ' + line for line in quote(first, False, b.where)]
    return out


def write_function(b, up):
    """A line of the table of functions."""
    crate, _, name = b.name.partition('::')
    path, _, head = functions_of(crate).get(name, ('', False, []))
    if not path:
        return [f'| `{b.name}` | there is no such function | | |']
    if not b['not'] or not b['one']:
        fault(f'{b.where}: function {b.name} has not both of not and one')
    if not statements(b['one']):
        fault(f'{b.where}: function {b.name} names no theorem of its outcome')
    contract = hashlib.sha256('\n'.join(head).encode()).hexdigest()[:8]
    return [f'| `{b.name}` | {cell(b["not"])} | [{contract}]({up}{path}#L{line_of(path, name)}) | {cell(with_digits(b["one"], b.where, up))} |']


def cell(text):
    return text.replace('|', '\\|')


TABLES = {
    'function': ['| Function | Not | Contract | One outcome |', '|---|---|---|---|'],
    'edit': ['| Edit | What it changes | Turned away at |', '|---|---|---|'],
    'together': ['| Crate | Changed together | What stops it |', '|---|---|---|'],
}


class Seen:
    """What the pages name: rows, functions, edits, crates."""

    def __init__(self):
        self.blocks, self.cited = {}, set()

    def block(self, kind, b):
        if (kind, b.name) in self.blocks and kind != 'together':
            fault(f'{b.where}: {kind} {b.name} is there twice, first in {self.blocks[kind, b.name]}')
        self.blocks[kind, b.name] = b.where
        self.text(list(b.text.values()) + ([f'`{b.name}`'] if kind in ('function', 'edit') else []), b.where)

    def text(self, texts, where):
        for text in texts:
            for crate, kind, rest in CITED.findall(text):
                is_there(kind, crate, rest, where)
                self.cited.add((kind, crate, rest))


def write_block(kind, b, up):
    if kind == 'row':
        return write_row(b, up)
    if kind == 'function':
        return write_function(b, up)
    if kind == 'edit':
        return [f'| `{b.name}` | {cell(linked(b["changes"], b.where, up))} | {cell(turned_away(b, up))} |']
    if not b['change'] or not b['stopped']:
        fault(f'{b.where}: {kind} {b.name} has not both of change and stopped')
    return [f'| `{b.name}` | {cell(linked(b["change"], b.where, up))} | {cell(linked(b["stopped"], b.where, up))} |']


def turned_away(b, up):
    """Where the check refuses an edit: a link to the file, and the declaration in it."""
    file, name = refused_at().get(b.name, ('', ''))
    path = f'crates/{b.name.split("!")[0]}/{file}'
    if not b['changes'] or not file or not os.path.exists(os.path.join(ROOT, path)):
        fault(f'{b.where}: {b.name} has not both what it changes and, in {REFUSED}, a file that is there (tools/refused --write)')
    return f'[{file}]({up}{path})' + (f', `{name}`' if name else '')


def one_page(parts, up, seen):
    """The lines of a page, and its headings with the rows below each."""
    body, index, last = [], [], None
    for kind, b in parts:
        if last != kind and body and body[-1]:
            body.append('')
        if kind == 'text':
            seen.text(b, f'{ROWS}, a paragraph')
            index += [(len(m.group(1)), m.group(2), []) for m in (re.match(r'^(#{2,3}) (.*)$', line) for line in b) if m]
            body += b
        else:
            seen.block(kind, b)
            if kind == 'row' and index:
                index[-1][2].append(b.name)
            if kind in TABLES and last != kind:
                body += TABLES[kind]
            body += write_block(kind, b, up)
        last = kind
    return re.sub(r'\n{3,}', '\n\n', '\n'.join(body)).strip('\n') + '\n', index


def all_named(seen):
    """What the repository has and a page must name."""
    crates = sorted(os.path.basename(os.path.dirname(p)) for p in glob.glob(os.path.join(ROOT, 'crates/*/src')))
    changed = {n for k, n in seen.blocks if k == 'together'}
    for c in crates:
        if c == THIN:
            # each of its functions is one of the library's once more (oracle/exports.py)
            continue
        for name, (_, public, _) in sorted(functions_of(c).items()):
            if public and ('::', c, name) not in seen.cited:
                fault(f'a public function that is not on the pages: {c}::{name}')
        for path in sorted(glob.glob(os.path.join(ROOT, f'crates/{c}/must-fail/*.edit'))):
            label = os.path.basename(path)[:-5]
            if ('!', c, label) not in seen.cited:
                fault(f'an edit that is not on the pages: {c}!{label}')
        if c not in changed:
            fault(f'no row says what stops a change of definition and code together in {c}')
    for c in changed:
        if c not in crates:
            fault(f'together {c}: there is no such crate')
    for edit in sorted(refused_at().keys() - set(edits())):
        fault(f'{REFUSED}: there is no edit {edit}')
    named = {n for k, n in seen.blocks if k == 'row'}
    for pattern in ('antt', 'edit'):
        for path in every_file(f'crates/*/*/**/*.{pattern}'):
            path = os.path.join(ROOT, path)
            for n in re.findall(r'\[row ([a-z0-9-]+)\]', open(path, encoding='utf-8').read()):
                if n not in named:
                    fault(f'{os.path.relpath(path, ROOT)} cites a row that is not on the pages: {n}')


def index_of(name, headings):
    """The lines of the first page that lead to another."""
    out = []
    for level, heading, names in headings:
        place = f'statements/{name}.md'
        text = f'[{heading}]({place}#{anchor(heading)})' + (': ' if names else '') + ', '.join(f'[{n}]({place}#{n})' for n in names)
        out += wrapped(text, '  ' * (level - 2) + '- ', '  ' * (level - 1))
    return out


def pages():
    """path: text of every page."""
    seen, out, index, first = Seen(), {}, [], ''
    for name, parts in rows():
        text, headings = one_page(parts, '../' if name == FIRST else '../../', seen)
        if name == FIRST:
            first = text
        else:
            out[f'{ROWS}/{name}.md'] = text
            index += index_of(name, headings)
    out[PAGE] = first.replace('{index}\n', '\n'.join(index) + '\n')
    all_named(seen)
    lines = sum(text.count('\n') for text in out.values())
    if lines > MOST_LINES:
        fault(f'the pages of statements have {lines} lines, more than {MOST_LINES}')
    return out


QUOTE = re.compile(r'<!-- quote ([^>]*?) -->\n(?:```\n.*?```\n)*', re.S)
EXPORTED = re.compile(r'^struct \w+ (dk_\w+)\(', re.M)
FIGURE = re.compile(r'<!-- (lines|files|edits|exports) ?(\S*) -->[^<]*<!-- / -->')


def filled(text, where):
    """A document with what its marks ask for: `<!-- quote crate/File.name crate::function -->` a quote behind it, `<!-- lines NAME -->N<!-- / -->` how many
    lines of it must be believed (`files`: in how many files), by tools/believed; `<!-- edits -->`, `<!-- exports -->` how many edits and exported functions
    there are."""
    def quoted(m):
        names = m.group(1).split()
        for name in names:
            if '/' not in name and '::' not in name:
                fault(f'{where}: no name to be quoted: {name}')
        out = quote([tuple(name.split('/', 1)) for name in names if '/' in name], False, where)
        for name in names:
            if '::' in name:
                out += contracts(f'`{name}`', where)
        return f'<!-- quote {m.group(1)} -->\n' + ''.join(line + '\n' for line in out)

    def figure(m):
        if m.group(1) == 'edits':
            n = len(glob.glob(os.path.join(ROOT, 'crates/*/must-fail/*.edit')))
        elif m.group(1) == 'exports':
            n = len(EXPORTED.findall(read('include/denkumari.h')))
        else:
            n = believed.figures(m.group(2))[0 if m.group(1) == 'lines' else 2]
        return f'<!-- {m.group(1)}{" " * bool(m.group(2))}{m.group(2)} -->{n:,}<!-- / -->'
    return FIGURE.sub(figure, QUOTE.sub(quoted, text))


def fill(write):
    """Documents with marks: written anew, or a fault where they are not what the sources make."""
    for file in sorted(glob.glob(os.path.join(ROOT, 'docs/*.md')) + [os.path.join(ROOT, 'README.md')]):
        here = os.path.relpath(file, ROOT)
        old = read(here)
        if here == PAGE or '<!-- ' not in old:
            continue
        new = filled(old, here)
        if new != old and write:
            with open(file, 'w', encoding='utf-8') as f:
                f.write(new)
        elif new != old:
            fault(f'{here}: a quote or a figure is not what the sources make: run tools/page and read what changed')


TOPS = ('crates', 'docs', 'tools', 'oracle', 'bindings', 'examples', 'include', 'portable', 'command', 'web', '.ci')
PATH = re.compile(r'(?<![\w/.\-])((?:' + '|'.join(map(re.escape, TOPS)) + r')/[\w./*\-]*[\w*/])')
# a row of a table that has laws: their file, and their names
LAWS = re.compile(r'^\| `([a-z_0-9]+)/([A-Z]\w*)` \| (`[^|]*`) \|')


def every_file(*patterns):
    found = (os.path.relpath(p, ROOT) for pattern in patterns for p in glob.glob(os.path.join(ROOT, pattern), recursive=True))
    return sorted(p for p in found if not re.match(r'crates/\w+/out/', p))


def check_path(path, where):
    path = path.rstrip('.')
    if re.search(r'(^|/)[A-Z]{2,}(/|\.edit|$)', path) and not os.path.exists(os.path.join(ROOT, path)):
        return  # a placeholder: crates/NAME/must-fail/LABEL.edit
    if not glob.glob(os.path.join(ROOT, path)) and not glob.glob(os.path.join(ROOT, path + '.antt')):
        fault(f'{where}: there is no {path}')


def check_laws(line, where):
    m = LAWS.match(line)
    for name in re.findall(r'`([^`]+)`', m.group(3)) if m else []:
        if not any(name in names_of(path) for path in places(m.group(1), m.group(2))):
            fault(f'{where}: {m.group(1)}/{m.group(2)} has no {name}')


def check_document(here, declared):
    """Paths and names of the repository that a document cites; names of C have to be among those declared."""
    for n, line in enumerate(read(here).split('\n'), 1):
        for name in re.findall(r'\b(?:dk|DK)_\w*\w\b(?![*.])', line):
            if name not in declared:
                fault(f'{here}:{n}: no header has {name}')
        for path in PATH.findall(line):
            check_path(path, f'{here}:{n}')
        for crate, kind, rest in CITED.findall(line):
            if os.path.isdir(os.path.join(ROOT, 'crates', crate)):
                is_there(kind, crate, rest, f'{here}:{n}')
        check_laws(line, f'{here}:{n}')


def check_header():
    """Names that the header cites, and that it names each call's sentence."""
    header = read('include/denkumari.h')
    for n, line in enumerate(header.split('\n'), 1):
        for crate, kind, rest in CITED.findall(line):
            is_there(kind, crate, rest, f'include/denkumari.h:{n}')
    for call in sorted(set(EXPORTED.findall(header))):
        if not re.search(rf'^ \* {call} +(the same )?sentence', header, re.M):
            fault(f'include/denkumari.h: its statements do not name the sentence of {call}')


def check_comments():
    """Comments of the crates and of the edits: paths and names that they cite, and none too long; the rest is as rt fmt lays it."""
    for here in every_file('crates/**/*.antt', 'crates/**/*.rt'):
        for n, line in enumerate(read(here).split('\n'), 1):
            mark = '--' if here.endswith('.antt') else '//'
            if mark in line:
                if len(line) > 160 and line.strip().startswith(mark):
                    fault(f'{here}:{n}: longer than 160 characters')
                check_comment(line.split(mark, 1)[1], f'{here}:{n}')


def check_comment(text, where):
    for path in PATH.findall(text):
        check_path(path, where)
    for crate, kind, rest in CITED.findall(text):
        if kind != '/' or re.match(r'[A-Z][A-Za-z0-9]*(\.|$)', rest):
            is_there(kind, crate, rest, where)


def check_versions(texts):
    said = {}
    for here, pattern in (('include/denkumari.h', r'DENKUMARI_VERSION "([^"]+)"'), ('bindings/rust/Cargo.toml', r'^version = "([^"]+)"'),
                          ('bindings/rust/Cargo.lock', r'name = "denkumari"\nversion = "([^"]+)"')):
        m = re.search(pattern, read(here), re.M)
        said[here] = m.group(1) if m else 'none'
    for here in texts:
        for m in re.finditer(r'\bDenkumari (\d+\.\d+\.\d+)', read(here)):
            said[here] = m.group(1)
    if len(set(said.values())) > 1:
        fault('the versions differ: ' + ', '.join(f'{k} {v}' for k, v in sorted(said.items())))


def check_lists():
    """Lists that a page has to have whole: the crates on docs/ARCHITECTURE.md, the functions of docs/REQUIRES.txt in the table of docs/DECISIONS.md."""
    named = set(re.findall(r'`([a-z_0-9]+)`', read('docs/ARCHITECTURE.md')))
    for crate in sorted(os.path.basename(os.path.dirname(p)) for p in every_file('crates/*/src')):
        if crate not in named:
            fault(f'docs/ARCHITECTURE.md does not name the crate {crate}')
    asked = {'::'.join(line.split()) for line in read('docs/REQUIRES.txt').splitlines() if line.strip()}
    table = read('docs/DECISIONS.md').split('## Functions that ask something of their caller')[-1].split('\n## ')[0]
    rows = {name for line in table.split('\n') if line.startswith('| `') for name in re.findall(r'`([a-z_0-9]+::\w+)`', line.split('|')[1])}
    for name in sorted(asked ^ rows):
        there = ('lists', 'has it not') if name in asked else ('does not list', 'has it')
        fault(f'docs/REQUIRES.txt {there[0]} {name}, and the table of docs/DECISIONS.md {there[1]}')


def documents():
    """Paths and names of the repository that documents, header and comments cite, the versions, and lists that have to be whole."""
    texts = [here for here in every_file('docs/*.md', 'README.md', 'NOTICE', 'oracle/README.md', 'examples/README.md') if here != PAGE]
    declared = set(re.findall(r'\b(?:dk|DK)_\w+', ''.join(read(here) for here in every_file('include/*.h'))))
    for here in texts:
        check_document(here, declared)
    check_header()
    check_comments()
    check_versions(texts)
    check_lists()


def rename(old, new):
    touched = 0
    files = [os.path.join(ROOT, n) for n in ('README.md', 'NOTICE')]
    for pattern in (ROWS + '/*.rows', 'docs/*.md'):
        files += glob.glob(os.path.join(ROOT, pattern))
    for file in files:
        if os.path.relpath(file, ROOT) == PAGE:
            continue
        text = open(file, encoding='utf-8').read()
        changed = re.sub(rf'`{old}(?=/[A-Z]|::|!|`)', f'`{new}', text)
        changed = re.sub(rf'crates/{old}(?![\w-])', f'crates/{new}', changed)
        changed = re.sub(rf'^((?:function|edit|together) ){old}(?=::|!|$)', rf'\g<1>{new}', changed, flags=re.M)
        if changed != text:
            open(file, 'w', encoding='utf-8').write(changed)
            touched += 1
    print(f'{old} is {new} in {touched} files')


def follow():
    """Names that stand in another file of their crate, or in the file of that name of another crate, and in one only: the rows cite them there."""
    everywhere = {}
    for path in glob.glob(os.path.join(ROOT, 'crates/*/specs/**/*.antt'), recursive=True) + glob.glob(os.path.join(ROOT, 'crates/*/proofs/*.antt')):
        path = os.path.relpath(path, ROOT)
        for name in names_of(path):
            everywhere.setdefault(name, []).append((path.split('/')[1], os.path.basename(path)[:-5]))
    moved = 0

    def now(m):
        nonlocal moved
        crate, rest = m.group(1), m.group(2)
        file, _, name = rest.partition('.')
        if any(name in names_of(p) for p in places(crate, file)):
            return m.group(0)
        found = everywhere.get(name, [])
        there = [f for f in found if f[0] == crate] or [f for f in found if f[1] == file]
        if len(set(there)) != 1:
            return m.group(0)
        moved += 1
        return f'`{there[0][0]}/{there[0][1]}.{name}`'

    for file in glob.glob(os.path.join(ROOT, ROWS, '*.rows')):
        text = open(file, encoding='utf-8').read()
        changed = re.sub(r'`([a-z_0-9]+)/([A-Z]\w*\.[^` ]+)`', now, text)
        if changed != text:
            open(file, 'w', encoding='utf-8').write(changed)
    print(f'{moved} names followed')


def draw(count):
    found = []
    for file in sorted(glob.glob(os.path.join(ROOT, ROWS, '*.md'))):
        found += [ln for ln in open(file, encoding='utf-8') if ln.startswith('- <a id=')]
    for one in random.sample(found, min(count, len(found))):
        print(one)


def held(path, text):
    """A fault, with what differs, where a page is not what the rows and the sources make."""
    old = read(path) if os.path.isfile(os.path.join(ROOT, path)) else ''
    if old == text:
        return
    fault(f'{path} is not what {ROWS}/*.rows and the sources make: run tools/page and read what changed')
    changed = [ln for ln in difflib.unified_diff(old.split('\n'), text.split('\n'), lineterm='', n=0) if not ln.startswith(('---', '+++', '@@'))]
    for ln in changed[:8]:
        fault('    ' + ln[:150])


def main(arguments):
    if '--help' in arguments:
        print(__doc__)
        return 0
    if arguments[:1] == ['--rename'] and len(arguments) == 3:
        rename(*arguments[1:])
        arguments = []
    if arguments == ['--follow']:
        follow()
        arguments = []
    if arguments[:1] == ['--draw'] and len(arguments) == 2:
        draw(int(arguments[1]))
        return 0
    if arguments not in ([], ['--check']):
        print('tools/page: --help says how to call it', file=sys.stderr)
        return 2
    made = pages()
    if not arguments:
        for path, text in made.items():
            with open(os.path.join(ROOT, path), 'w', encoding='utf-8') as f:
                f.write(text)
        fill(True)
    else:
        documents()
        fill(False)
        for path, text in made.items():
            held(path, text)
        for file in glob.glob(os.path.join(ROOT, ROWS, '*.md')):
            if os.path.relpath(file, ROOT) not in made:
                fault(f'{os.path.relpath(file, ROOT)}: no rows make it')
    for f in faults:
        print(f, file=sys.stderr)
    return 1 if faults else 0


if __name__ == '__main__':
    run(main, 'tools/page')
