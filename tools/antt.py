"""Files of statements as tools/page, tools/believed and tools/unused read them: what each declares, under which modules, what it takes from others, and what
the tokens of a declaration name. A reading by lines and names, not the language's own: names that a declaration binds itself are left out."""
import glob
import os
import re
import signal
import sys

ROOT = os.path.dirname(os.path.dirname(os.path.abspath(__file__)))
MODIFIERS = ('pub', 'abbrev', 'unfoldable', 'axiom')
PARTS = ('specs', 'specs/Theorems', 'specs/Laws', 'proofs')
TOKEN = re.compile(r'«[^»]*»|[^\s(){}.;,@"«»]+|[(){}.;,@]')
WORDS = set('data record deriving module where use mod pub package using open as unfoldable abbrev axiom unfold unfolding ruleset mutual infix infixl '
            'infixr elim let in do λ ∀ Type 𝕀 → : = | ↦ × _ ← ≡ ensures requires result rw rw⁻¹ simp search cc omega absurd tt'.split())


REFUSED = 'docs/statements/refused.tsv'


def read(path):
    with open(os.path.join(ROOT, path), encoding='utf-8') as f:
        return f.read()


def edits():
    """Every edit that must fail, as crate!label."""
    found = glob.glob(os.path.join(ROOT, 'crates/*/must-fail/*.edit'))
    return sorted(f'{os.path.basename(os.path.dirname(os.path.dirname(p)))}!{os.path.basename(p)[:-5]}' for p in found)


def refused_at():
    """edit: the file and the declaration that the check refused it at (tools/refused)."""
    lines = (line.split('\t') for line in read(REFUSED).splitlines() if line[:1] != '#') if os.path.exists(os.path.join(ROOT, REFUSED)) else ()
    return {edit: (file, name) for edit, file, name in lines}


def bare(line):
    """The line without its comment."""
    m = re.search(r'(^|\s)--(\s|$)', line)
    return line[:m.start()] if m else line


def indent(line):
    return len(line) - len(line.lstrip(' '))


def block(lines, i):
    """The line i and those behind it that are indented deeper; blank lines and comments at the end left out."""
    d, j, end = indent(lines[i]), i + 1, i + 1
    while j < len(lines):
        text = lines[j].strip()
        if text and indent(lines[j]) <= d and not (indent(lines[j]) == d and text[0] in '})]'):
            break
        if text:
            end = j + 1
        j += 1
    while end > i + 1 and lines[end - 1].strip().startswith('--'):
        end -= 1
    return lines[i:end], end


class Declared:
    """A name of a file: where it is declared, under which modules, its signature, and all of it. `definition`: it is quoted whole."""

    def __init__(self, path, line, around, signature, whole, definition):
        self.path, self.line, self.around, self.signature, self.whole, self.definition = path, line, around, signature, whole, definition
        self.comment, self.name, self.owner, self.inner, self.field = [], '', None, [], False
        # the comments above the modules that it stands in; other declarations of the file with the same name
        self.notes, self.others = [], []

    def is_type(self):
        return bool(re.match(r'\s*((pub|abbrev|unfoldable) )*(record|data) ', self.signature[0])) or self.path.endswith('.rt')

    def is_believed(self):
        """No theorem: a type, a definition that may be unfolded, or one whose answer is a type, a number, a truth value or a list."""
        if self.definition or self.is_type():
            return True
        text = ' '.join(bare(ln) for ln in self.signature).split(' : ', 1)[-1]
        depth, cut = 0, 0
        for n, c in enumerate(text):
            depth += (c in '({') - (c in ')}')
            if c == '→' and depth == 0:
                cut = n + 1
        return bool(re.match(r'(Type|ℕ|ℤ|Bool|List|Option)\b', text[cut:].strip()))

    def text(self):
        """What a reader of a statement reads of it: a theorem's signature, all of anything else."""
        return self.whole if self.is_believed() else self.signature

    def lines(self):
        """So many lines of it, comments and blanks not counted."""
        return sum(1 for ln in self.text() if bare(ln).strip())


def declared_in(path):
    """The names of a file. Of two that are alike a public one counts, then one that is no field and no constructor, then the first."""
    lines = [ln.rstrip() for ln in read(path).split('\n')]
    names, around, i, last = {}, [], 0, None
    every[path] = []

    def above(i):
        """The comment right above a line, as far as it is indented alike; a heading (`-- ----`) begins one."""
        j = i
        while j > 0 and lines[j - 1].strip().startswith('-- ') and indent(lines[j - 1]) == indent(lines[i]):
            j -= 1
            if lines[j].strip().startswith('-- ----'):
                break
        return lines[j:i]

    def put(name, declared, public, member):
        declared.rank = (not public, member)
        if name not in names:
            names[name] = declared
        elif declared.rank < names[name].rank:
            declared.others = names[name].others + [names[name]]
            names[name] = declared
        else:
            names[name].others.append(declared)

    while i < len(lines):
        text = lines[i].strip()
        if not text or text.startswith('--'):
            i += 1
            continue
        d = indent(lines[i])
        around = [a for a in around if a[0] < d]
        words = text.split()
        k = 0
        while k < len(words) and words[k] in MODIFIERS:
            k += 1
        first = words[k] if k < len(words) else ''
        context, notes = [a[1] for a in around], [a[2] for a in around]
        if first == 'module':
            head, note = [lines[i]], above(i)
            while not head[-1].endswith(' where') and i + 1 < len(lines):
                i += 1
                head.append(lines[i])
            around.append((d, head, note))
            last = None
            i += 1
        elif first in ('record', 'data') and k + 1 < len(words):
            whole, end = block(lines, i)
            own = Declared(path, i + 1, context, whole, whole, True)
            own.name, own.notes, own.comment = words[k + 1], notes, above(i)
            every[path].append(own)
            put(own.name, own, 'pub' in words[:k], False)
            head = [whole[0]]
            n = 1
            while not head[-1].endswith(' where') and n < len(whole):
                head.append(whole[n])
                n += 1
            # fields and constructors
            while n < len(whole):
                member = whole[n].strip()
                if member and not member.startswith('--'):
                    part, _ = block(whole, n)
                    before = member.split(' : ')[0].split()
                    for name in before:
                        if name not in MODIFIERS and re.fullmatch(r'[^\s(){}:=]+', name):
                            inner = Declared(path, i + 1 + n, context + [head], part, part, True)
                            inner.name, inner.owner, inner.field = name, own, first == 'record'
                            own.inner.append(name)
                            put(name, inner, False, True)
                    n += len(part)
                else:
                    n += 1
            i, last = end, None
        elif first in ('use', 'mod', '', 'unfolding', 'deriving', 'open') or first.startswith('infix'):
            part, end = block(lines, i)
            if first == 'unfolding' and last:
                last.whole += part
            i = end
        else:
            part, end = block(lines, i)
            after = words[k + 1] if k + 1 < len(words) else ''
            signed = ' : ' in text or text.endswith(' :')
            if signed and (after == ':' or after[:1] in ('(', '{')) and not re.match(r'^[^:]* = ', ' '.join(words[k:])):
                last = Declared(path, i + 1, context, part, list(part), any(w in ('abbrev', 'unfoldable') for w in words[:k]))
                last.name, last.notes, last.comment = first, notes, above(i)
                every[path].append(last)
                put(first, last, 'pub' in words[:k], False)
            elif last and first == last.name:
                last.whole += part
            else:
                last = last if last and any(w == last.name for w in words) else None
                if last:
                    last.whole += part
            i = end
    return names


parsed = {}
# path: all that the file declares, names that are there twice too
every = {}


def names_of(path):
    if path not in parsed:
        parsed[path] = declared_in(path)
    return parsed[path]


def places(crate, file):
    """The files of a crate that have this name, without its ending: definitions first."""
    for part in PARTS:
        path = f'crates/{crate}/{part}/{file}.antt'
        if os.path.isfile(os.path.join(ROOT, path)):
            yield path


def files():
    """All files of statements and of proofs."""
    found = [p for part in ('specs', 'proofs') for p in glob.glob(os.path.join(ROOT, f'crates/*/{part}/**/*.antt'), recursive=True)]
    return sorted(os.path.relpath(p, ROOT) for p in found)


class Uses:
    """What the `use` lines of a file bring: names, whole modules, and names that it hands on."""

    def __init__(self, text, ghost=False):
        self.names, self.modules, self.passed = {}, {}, {}
        pattern = r'^\s*ghost use (.*?);' if ghost else r'^((?:unfoldable )?(?:pub )?use (?:[^\n]|\n +)*)'
        for said in re.findall(pattern, text, re.M | re.S if ghost else re.M):
            said = ' '.join(bare(ln).strip() for ln in said.split('\n'))
            public = 'pub use ' in said
            said = said.split('use ', 1)[1].strip() if not ghost else said
            m = re.match(r'(.*?)\.\{(.*)\}$', said)
            if m:
                for item in m.group(2).split(','):
                    there, _, here = item.strip().partition(' as ')
                    if there:
                        self.names[(here or there).strip()] = (m.group(1), there.strip())
                        if public:
                            self.passed[(here or there).strip()] = (m.group(1), there.strip())
            else:
                there, _, here = said.partition(' as ')
                self.modules[(here or there).strip().split('.')[-1]] = there.strip()
        if ghost:
            for crate, name in re.findall(r'^(?:pub )?use (\w+)::(\w+);', text, re.M):
                self.names.setdefault(name, (f'Rattle.{crate}.specs.declared.{name}', name))


used = {}


def uses_of(path):
    if path not in used:
        used[path] = Uses(read(path), path.endswith('.rt'))
    return used[path]


structs = {}


def struct(crate, name):
    """A struct or enum of a crate's source."""
    if (crate, name) not in structs:
        found = None
        for path in sorted(glob.glob(os.path.join(ROOT, f'crates/{crate}/src/**/*.rt'), recursive=True)):
            lines = open(path, encoding='utf-8').read().split('\n')
            for i, ln in enumerate(lines):
                if re.match(rf'pub (struct|enum) {re.escape(name)}\b', ln):
                    j = i
                    while j < len(lines) and not lines[j].startswith('}') and not lines[j].rstrip().endswith(';'):
                        j += 1
                    whole = [x for x in lines[i:j + 1] if not x.strip().startswith('//')]
                    found = Declared(os.path.relpath(path, ROOT), i + 1, [], whole, whole, True)
                    found.name = name
                    while i > 0 and lines[i - 1].startswith(('//', '#[')):
                        i -= 1
                        if lines[i].startswith('//'):
                            found.comment.insert(0, '--' + lines[i][2:])
        structs[crate, name] = found
    return structs[crate, name]


def module(path):
    """The file of a module of the repository; of a type declared in a crate's source (crate, name); of the library None."""
    m = re.match(r'Rattle\.([a-z_0-9]+)\.(specs|proofs)\.(.*)$', path)
    if not m or not os.path.isdir(os.path.join(ROOT, 'crates', m.group(1))):
        return None
    crate, where, rest = m.groups()
    if rest.startswith('declared.'):
        # a type of a source file that is not the crate's root stands below that file's name: declared.maps.DkMap
        return (crate, next((word for word in rest.split('.')[1:] if word[:1].isupper()), rest.split('.')[1]))
    return f'crates/{crate}/{where}/{rest.replace(".", "/")}.antt'


def meant(d, words):
    """What a name stands for that several types of a file may have for a constructor: those of them that are spoken of beside it, else all."""
    owners = [x.owner for x in [d] + d.others if x.owner] if d.owner else []
    spoken = [x for x in owners if x.name in words]
    return (spoken or owners) if len(owners) > 1 else [d.owner or d]


def named(path, name, seen=(), words=None):
    """What a name of a module is: a declaration, the name of one of the library, or None; with `words`, the ones beside it, a list of declarations too."""
    there = module(path)
    if there is None:
        return f'{path}.{name}'
    if isinstance(there, tuple):
        return struct(*there)
    if not os.path.isfile(os.path.join(ROOT, there)):
        return None
    if name in names_of(there) and not names_of(there)[name].field:
        d = names_of(there)[name]
        return (d.owner or d) if words is None else meant(d, words)
    if name in uses_of(there).passed and there not in seen:
        return named(*uses_of(there).passed[name], seen + (there,), words)
    return None


def tokens(lines):
    """Words and signs, each with whether it follows on the one before without a blank."""
    out = []
    for ln in lines:
        # what stands in a text names nothing
        ln = re.sub(r'"[^"]*"', lambda m: '"' + ' ' * (len(m.group(0)) - 2) + '"', bare(ln))
        for m in TOKEN.finditer(ln):
            out.append((m.group(0).strip('«»'), m.start() > 0 and not ln[m.start() - 1].isspace()))
    return out


def bound(lines, is_constructor):
    """Names that a declaration binds itself."""
    lines = list(lines)
    text = ' '.join(bare(ln) for ln in lines)
    names = set()
    for m in re.finditer(r'[({]([^(){}:]*?)\s:\s', text):
        names |= set(m.group(1).split())
    if any(re.match(r'\s*(pub )?record\s+\S+.*where', bare(ln)) for ln in lines):
        names |= {m.group(1) for ln in lines for m in [re.match(r'\s+(?:pub )?([^\s:]+)\s+:\s', bare(ln))] if m}
    for m in re.finditer(r'λ\s+([^.]*?)\.', text):
        names |= set(re.findall(r'[^\s(){},]+', re.sub(r'\s:\s[^)]*', '', m.group(1))))
    for m in re.finditer(r'\blet\s+([^=:]*?)\s[=:]', text):
        names |= set(re.findall(r'[^\s(){},]+', m.group(1)))
    for ln in lines:
        ln = bare(ln)
        if ' = ' in ln or ln.rstrip().endswith(' ='):
            left = ln.split(' = ')[0]
            # not a field of a record that is made there
            if ' : ' not in left and all(left.count(a) == left.count(b) for a, b in ('()', '{}')):
                names |= {x for x in re.findall(r'[^\s(){},]+', left)[1:] if not is_constructor(x)}
    return names


def mentioned(path, lines, own):
    """What the words of a declaration mean: declarations, and names of the library."""
    uses = uses_of(path)
    here = names_of(path) if path.endswith('.antt') else {}
    toks = tokens(lines)
    words = {t for t, _ in toks}

    def resolve(name):
        """The declarations that a name may mean, or the name of one of the library, in a list."""
        for alias in (name, f'◌{name}◌', f'{name}◌', f'◌{name}'):
            if alias in here and not here[alias].field:
                return meant(here[alias], words)
            if alias in uses.names:
                found = named(*uses.names[alias], words=words)
                return found if isinstance(found, list) else [found]
        return []

    def is_constructor(name):
        return any(isinstance(d, Declared) and d.is_type() and name != d.name for d in resolve(name))
    hidden = bound(lines, is_constructor)
    out, n = [], 0
    while n < len(toks):
        t = toks[n][0]
        if n + 2 < len(toks) and toks[n + 1] == ('.', True) and toks[n + 2][1] and t in uses.modules and t not in hidden:
            found = named(uses.modules[t], toks[n + 2][0], words=words)
            out += found if isinstance(found, list) else [found]
            n += 3
            continue
        if t == '.':
            n += 2 if n + 1 < len(toks) and toks[n + 1][1] and toks[n + 1][0] not in '(){}' else 1
            continue
        after = toks[n + 1][0] if n + 1 < len(toks) else ''
        before = toks[n - 1][0] if n else ''
        # what a colon follows is declared here: a field, a constructor, a binder
        if (after == '=' and before in ('{', ';') or after == ':' or t in WORDS or t in hidden or t == own or re.fullmatch(r'[\d_]+|[(){},;@]', t)):
            n += 1
            continue
        out += resolve(t)
        n += 1
    return [d for d in out if d is not None]


functions = {}


def functions_of(crate):
    """name: (path, is public, its head: the signature with requires and ensures)."""
    if crate not in functions:
        found = {}
        for path in sorted(glob.glob(os.path.join(ROOT, f'crates/{crate}/src/**/*.rt'), recursive=True)):
            lines = open(path, encoding='utf-8').read().split('\n')
            for i, line in enumerate(lines):
                m = re.match(r'^\s*(?:#\[[^]]*\]\s*)?(pub )?(?:pub\(crate\) )?(?:extern "C" )?fn ([A-Za-z0-9_]+)', line)
                if not m:
                    continue
                head = []
                for ln in lines[i:]:
                    if ln.strip() == '{':
                        break
                    head.append(ln.rstrip())
                    if ln.rstrip().endswith('{') and not any(re.match(r'\s*(requires|ensures)\b', x) for x in head):
                        head[-1] = ln.rstrip()[:-1].rstrip()
                        break
                d = indent(head[0])
                head = [ln[d:] if ln[:d].strip() == '' else ln for ln in head if not ln.strip().startswith('//')]
                public = bool(m.group(1)) and os.path.basename(path) != 'main.rt'
                if m.group(2) not in found or public and not found[m.group(2)][1]:
                    found[m.group(2)] = (os.path.relpath(path, ROOT), public, head)
        functions[crate] = found
    return functions[crate]


def line_of(path, name):
    return next((n for n, ln in enumerate(read(path).split('\n'), 1) if re.search(rf'\bfn {name}\b', ln)), 1)


def run(main, tool):
    """Ends with what a tool's `main` answers; where standard output cannot be written, with status 2 and a line that says so."""
    signal.signal(signal.SIGINT, signal.SIG_DFL)
    try:
        if sys.stdout is None:
            raise OSError(9, 'it is closed')
        code = main(sys.argv[1:])
        sys.stdout.flush()
    except BrokenPipeError:
        os.dup2(os.open(os.devnull, os.O_WRONLY), 1)
        code = 141
    except OSError as error:
        print(f'{tool}: {error.filename or "standard output"} cannot be read or written: {error.strerror}', file=sys.stderr)
        try:
            os.dup2(os.open(os.devnull, os.O_WRONLY), 1)
        except OSError:
            pass
        code = 2
    sys.exit(code)


if __name__ == '__main__':
    if '--help' in sys.argv:
        run(lambda arguments: print(__doc__) or 0, 'tools/antt.py')
    print('tools/antt.py: other scripts read this, nobody runs it', file=sys.stderr)
    sys.exit(2)
