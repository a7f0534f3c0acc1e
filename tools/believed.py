"""What a statement rests on; tools/believed runs it and says how it is called.

From a statement to what its words name, from there to what those name, and so on: types and definitions of the repository, each once. Theorems and proofs are
not followed. Names of the kit's library are counted apart. An exported call rests on its own `ensures`, which is counted, and on the sentence of crates/says
that it names. So does a program: on the contracts of those of its own functions that `main` calls. What a contract of another function promises is not taken
for true: it is proved."""
import difflib
import os
import re
import sys
import textwrap
from antt import ROOT, Declared, functions_of, line_of, mentioned, named, names_of, places, read, run, struct, tokens, uses_of

TABLE = 'docs/BELIEVED.md'
EXPORTS = 'denkumari'
# where each exported call is shown to leave one outcome: a line for each
UNIQUE = f'crates/{EXPORTS}/proofs/Unique.antt'
# the theorems of the table, beside those that the rows of demands and tickets name first
ROWS = ('docs/statements/1-demands.rows', 'docs/statements/3-tickets.rows')


def stop(text):
    print(f'tools/believed: {text}', file=sys.stderr)
    raise SystemExit(2)


def declared(name):
    """The declaration of crate/File.name."""
    crate, _, rest = name.partition('/')
    file, _, word = rest.rpartition('.')
    for path in places(crate, file.split('.')[-1]):
        if word in names_of(path):
            return names_of(path)[word]
    stop(f'there is no {name}')


def contract(crate, name):
    if name not in functions_of(crate):
        stop(f'there is no function {crate}::{name}')
    path, _, head = functions_of(crate)[name]
    d = Declared(path, line_of(path, name), [], head, head, True)
    d.name = name
    return d


def is_export(name):
    return bool(re.fullmatch(r'dk_\w+', name))


def exports():
    return sorted(f for f, (_, public, _) in functions_of(EXPORTS).items() if public)


def clause(d):
    """The lines of a contract from its `requires` or `ensures` on: what is read of an exported function beside its parameters."""
    first = next((n for n, ln in enumerate(d.whole) if re.match(r'\s*(requires|ensures)\b', ln)), len(d.whole))
    return d.whole[first:]


def is_program(name):
    return os.path.isfile(os.path.join(ROOT, f'crates/{name}/src/main.rt'))


def promised(name):
    """What a program promises: the contracts of its own functions that `main` calls."""
    body = re.split(r'\nfn main\([^)]*\)[^{]*\{', read(f'crates/{name}/src/main.rt'), maxsplit=1)[-1]
    called = {t for t, _ in tokens(body.split('\n'))}
    return [contract(name, f) for f, (_, _, head) in functions_of(name).items() if f in called and any('ensures' in ln for ln in head)]


def said_by(name):
    """The sentences of crates/says that a program's contracts name, without the word that says where a text stands."""
    found = [uses_of(d.path).names.get(t) for d in promised(name) for t, _ in tokens(clause(d))]
    return sorted({short(*u) for u in found if u and u[0].startswith('Rattle.says.') and u[1] != 'Shows'})


def sentence(name):
    """crate/File.name of the sentence that an exported call ensures, and the theorem that it leaves one outcome."""
    d = contract(EXPORTS, name)
    m = re.search(r'\bensures(?: \w+)? \{\s*(\w+)', '\n'.join(clause(d)))
    said = uses_of(d.path).names.get(m.group(1)) if m else None
    one = re.search(rf'^{name.replace("_", "[-_]")}[-_]unique .*?\b([a-z0-9_-]+[-_]decides?)\b', read(UNIQUE), re.M)
    if not said or not one:
        stop(f'{name}: what it ensures is no sentence, or {UNIQUE} has no line for it')
    return short(*said), short(*uses_of(UNIQUE).names[one.group(1)])


def short(path, name):
    """crate/File.name of a name in a module of the repository."""
    m = re.match(r'Rattle\.([a-z_0-9]+)\.(?:specs|proofs)\.(.*)$', path)
    return f'{m.group(1)}/{m.group(2).split(".")[-1]}.{name}'


def named_by(d):
    """The declarations, and names of the library, that the text of one mentions."""
    if d.path.endswith('.rt'):
        crate = d.path.split('/')[1]
        found = [struct(crate, t) for t, _ in tokens(d.whole[1:] if d.is_type() and re.match(r'pub (struct|enum)', d.whole[0]) else d.whole)]
        uses = uses_of(d.path)
        types = [named(*uses.names[t]) for t, _ in tokens(d.whole) if t in uses.names and 'declared' in uses.names[t][0]]
        said = mentioned(d.path, d.whole, d.name) if not re.match(r'pub (struct|enum)', d.whole[0]) else []
        return [x for x in found + types + said if x is not None and x is not d]
    return mentioned(d.path, [ln for head in d.around for ln in head] + d.text(), d.name)


def surface(starts):
    """Everything that some declarations rest on, these left out where they are theorems or contracts: declarations, and names of the library."""
    seen, library, todo = {}, set(), []
    for d in starts:
        is_contract = d.path.endswith('.rt') and not re.match(r'pub (struct|enum)', d.whole[0])
        todo += named_by(d) + ([d] if d.is_believed() and not is_contract else [])
    while todo:
        d = todo.pop()
        if isinstance(d, str):
            library.add(d)
        elif (d.path, d.line) not in seen and d.is_believed():
            seen[d.path, d.line] = d
            todo += named_by(d)
    return list(seen.values()), library


def in_order(found):
    """File by file, a file behind those that it rests on; in a file by line."""
    by, order = {}, []
    for d in found:
        by.setdefault(d.path, []).append(d)
    needs = {p: {x.path for d in ds for x in named_by(d) if isinstance(x, Declared) and x.path in by and x.path != p} for p, ds in by.items()}

    def put(path, under=()):
        if path in order or path in under:
            return
        for other in sorted(needs[path]):
            put(other, under + (path,))
        order.append(path)
    for path in sorted(by):
        put(path)
    return [d for p in order for d in sorted(by[p], key=lambda d: d.line)]


def starts_of(name):
    """What a name of the command line stands for: declarations, and what to call them."""
    if is_export(name):
        return [contract(EXPORTS, name)]
    if '::' in name:
        return [contract(*name.split('::', 1))]
    if '/' in name:
        return [declared(name)]
    if is_program(name):
        return promised(name)
    stop(f'{name} is no exported call, program, function or name of specs/: --help says how to call it')


def own_lines(name, starts):
    return sum(len(clause(d)) for d in starts) if is_export(name) or is_program(name) else 0


def figures(name):
    """Lines, declarations, files, names of the library; of an exported call and of a program the lines of its own contracts too."""
    starts = starts_of(name)
    found, library = surface(starts)
    return own_lines(name, starts) + sum(d.lines() for d in found), len(found), len({d.path for d in found}), len(library)


def show(name, quiet):
    starts = starts_of(name)
    found, library = surface(starts)
    lines, count, files, names = figures(name)
    own = f', {own_lines(name, starts)} of them its own contract' if own_lines(name, starts) else ''
    print(f'{name}: {lines} lines{own}; {count} declarations in {files} files; {names} names of the kit\'s library')
    if is_export(name):
        said, one = sentence(name)
        print(f'    its sentence: {said}, which leaves one outcome: {one}')
    if quiet:
        return
    for d in starts:
        print(f'\nthe statement, {d.path}:{d.line}')
        print('\n'.join('        ' + ln for head in d.around for ln in head))
        print('\n'.join('        ' + ln for ln in d.signature))
    path, around = None, []
    for d in in_order(found):
        if d.path != path:
            print('\n'.join(['', d.path] + ['        ' + ln for ln in opening(d.path)]))
            path, around = d.path, []
        for n, head in enumerate(d.around):
            if n >= len(around) or around[n] != head:
                print('\n'.join('        ' + ln for ln in d.notes[n] + head))
        around = d.around
        show_declared(d)
    print('\nof the kit: ' + ', '.join(sorted(library)))


def opening(path):
    """What a file of statements says of itself in its first lines."""
    lines = read(path).split('\n')
    return lines[:next((n for n, ln in enumerate(lines) if not ln.startswith('--')), 0)]


def show_declared(d):
    """Its comment and all of it, with the numbers of the lines that stand together."""
    numbered = d.path.endswith('.antt')
    for n, ln in enumerate(d.comment, d.line - len(d.comment)):
        print(f'{n:6}  {ln}' if numbered else f'        {ln}')
    for n, ln in enumerate(d.text(), d.line):
        print(f'{n:6}  {ln}' if n < d.line + len(d.signature) else f'        {ln}')


def headlines():
    """The theorem that each row of demands and tickets names first."""
    found = []
    for file in ROWS:
        for text in re.findall(r'^  theorem: (.*(?:\n    .*)*)', read(file), re.M):
            m = re.search(r'`([a-z_0-9]+/[A-Z]\w*\.[^` ]+)`', text)
            if m and not text.startswith('none') and not re.search(r'[-_]meets?([-_]by)?$', m.group(1)) and not declared(m.group(1)).is_believed():
                found.append(m.group(1))
    return sorted(set(found))


def table():
    out = ['# What must be believed', '',
           'For each exported call, program and theorem how many lines its statement rests on: types and definitions, without comments; no theorem and no '
           'proof. Written by `tools/believed --write`; the tests fail where the sources make another table, so that nothing is added to what must be believed '
           'unseen. `tools/believed NAME` prints the lines themselves in reading order, and docs/READING.md says how to read them.', '',
           '## Exported calls', '',
           'What a call ensures is its sentence, over its own parameters: its `ensures` and the sentence are believed. Sentences stand in crates/says and use '
           'the types of answers, `bit_at` and the pieces of a text, and no other definition of the library.', '',
           '| Call | Lines | of them its `ensures` | Declarations | Files | Sentence |', '|---|---|---|---|---|---|']
    for name in exports():
        lines, count, files, _ = figures(name)
        own = len(clause(contract(EXPORTS, name)))
        out.append(f'| `{name}` | {lines} | {own} | {count} | {files} | `{sentence(name)[0]}` |')
    out += ['', '## Programs', '', 'By the contracts of their own functions that `main` calls, which are counted; one that promises nothing of its own has 0. '
            'Where what is printed has sentences, they are what a contract names; elsewhere it names the definition of the text.', '',
            '| Program | Lines | of them its contracts | Declarations | Files | Sentence |', '|---|---|---|---|---|---|']
    for path in sorted(os.listdir(os.path.join(ROOT, 'crates'))):
        if is_program(path):
            lines, count, files, _ = figures(path)
            said = ', '.join(f'`{x}`' for x in said_by(path)) or 'none'
            out.append(f'| `{path}` | {lines} | {own_lines(path, promised(path))} | {count} | {files} | {said} |')
    out += ['', '## Theorems', '', 'The first that each row of the demands and tickets names (docs/STATEMENTS.md), but for the `meets` of the calls '
            'above: those speak of the model of the calls, which need not be believed.', '',
            '| Theorem | Lines | Declarations | Files |', '|---|---|---|---|']
    for name in headlines():
        lines, count, files, _ = figures(name)
        out.append(f'| `{name}` | {lines} | {count} | {files} |')
    library = set()
    for name in exports():
        library |= surface(starts_of(name))[1]
    out += ['', '## Of the kit', '', 'Names of the kit\'s library that the sentences use: ' + ', '.join(f'`{n}`' for n in sorted(library)) + '.']
    return '\n'.join(l2 for ln in out for l2 in wrapped(ln)) + '\n'


def wrapped(line):
    if line.startswith('|') or not line:
        return [line]
    return textwrap.wrap(line, width=156, break_long_words=False, break_on_hyphens=False)


def main(arguments):
    if '--help' in arguments:
        print(__doc__)
        return 0
    for option in arguments:
        if option.startswith('-') and option not in ('-q', '--write', '--check'):
            stop(f'there is no option {option} (--help says what there is)')
    if arguments in ([], ['--write'], ['--check']):
        text = table()
        if not arguments:
            print(text, end='')
        elif arguments == ['--write']:
            with open(os.path.join(ROOT, TABLE), 'w', encoding='utf-8') as f:
                f.write(text)
        elif not os.path.isfile(os.path.join(ROOT, TABLE)) or read(TABLE) != text:
            print(f'{TABLE} is not what the sources make: run tools/believed --write and read what changed', file=sys.stderr)
            old = read(TABLE).split('\n') if os.path.isfile(os.path.join(ROOT, TABLE)) else []
            for ln in [ln for ln in difflib.unified_diff(old, text.split('\n'), lineterm='', n=0) if not ln.startswith(('---', '+++', '@@'))][:12]:
                print('    ' + ln[:150], file=sys.stderr)
            return 1
        return 0
    quiet = arguments[:1] == ['-q']
    for name in arguments[1:] if quiet else arguments:
        show(name, quiet)
    return 0


if __name__ == '__main__':
    run(main, 'tools/believed')
