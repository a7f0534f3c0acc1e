"""Statements of C for the term's statements, a function at a time.

What a local is set to is put where the local is read, if that is once, in the same run of statements, and nothing that it reads changes before. Until then it
is pending. No pending value names a local for which another is pending, so they can be set in any order."""
import re

from ctypes_of import pad, symbol
from exprs import BINARY, Exprs, address, cast, compared, made, narrowed, negated, widened
from flow import live, may_write, sets, spread, taken, unblock, written_behind
from lines import Nest, declare, laid, names
from term import BOOL, PTR, UNIT, Array, Copy, Int, Place, Slice, manners, must

WRAPPING = re.compile(r'std::num::wrapping_(add|sub)_u(\d+)')   # the kit's, by their meaning and not by their bodies


class Printer(Exprs):
    """Prints one function. `scopes` are the loops around a statement and what is live where they are left, `alias` the locals that are a parameter by
    another number."""

    def prepare(self):
        """Puts the body into shape, names the locals, and finds the parameters that are large and only read: they are lent."""
        f = self.f
        self.body, self.scopes, self.alias = spread(unblock(f.body)), [], {}
        live(self.body, frozenset(), [])
        self.slots = taken(self.body)
        self.name = {n: f'v{n}' for n in range(len(f.locals))} | dict(enumerate(['result'] + self.program.params(f)))
        while self.body and self.copies_parameter(self.body[0]):
            s = self.body.pop(0)
            self.alias[s.to.local] = s.reads[0].place.local
        names = self.program.names.locals(f, self.program.functions, len(self.alias))
        self.name |= {n: name for n, name in names.items() if n not in self.alias} | {n: self.name[m] for n, m in self.alias.items()}
        lent = {n for n in range(1, f.params + 1) if self.is_only_read(n, 0)}
        self.lent = lent | {n for n, m in self.alias.items() if m in lent}
        return lent

    def copies_parameter(self, s):
        """Whether a statement copies a parameter to a local whose address is taken, and the parameter is not used again: C needs no second one."""
        if s.kind != 'assign' or s.value != 'rvOpd' or s.to.steps or not isinstance(s.reads[0], Copy) or s.reads[0].place.steps:
            return False
        n, m = s.to.local, s.reads[0].place.local
        return 1 <= m <= self.f.params < n and n in self.slots and m not in self.slots and m not in s.live and not sets(self.body, m) \
            and self.f.locals[n] == self.f.locals[m] and m not in self.alias.values()

    def is_only_read(self, n, times):
        """Whether a local is a large struct that is set so many times, and that nothing else writes to."""
        same = {n} | {m for m in self.alias if self.alias[m] == n}
        return self.program.is_large(self.f.locals[n]) and sum(sets(self.body, m) for m in same) == times \
            and not any(written_behind(self.f, self.body, m) for m in same & self.slots)

    def function(self):
        """The function's text."""
        lines = self.lines(self.body, frozenset())
        if lines[-1:] == ['return;']:
            lines.pop()
        for n, t in enumerate(self.f.locals):
            if (n == 0 or n > self.f.params and n not in self.alias) and t not in (PTR, UNIT):
                c = self.types.c(t)
                declare(lines, self.name[n], f'const {c} *' if n in self.lent else pad(c), t == BOOL or isinstance(t, Int))
        unused = [f'(void){name};' for name in self.program.params(self.f) if not any(names(line, name) for line in lines)]
        return f'{self.program.head(self.f)}\n{{\n{laid(unused + lines, 4)}}}\n'

    def set(self, out, n):
        """Sets a local to its pending value."""
        e = self.fit(self.pending.pop(n), self.f.locals[n])
        must(self.f.locals[n] != PTR, 'a pointer that is not used at once')
        if e.place and e.steady and self.is_only_read(n, 1):     # a part of what is lent is lent too
            self.lent.add(n)
        out.append(f'{self.name[n]} = {address(e) if n in self.lent else e.text};')

    def flush(self, out, which):
        """Sets the pending locals of which `which(n, value)` says so."""
        for n in list(self.pending):
            if which(n, self.pending[n]):
                self.set(out, n)

    def ready(self, out, reads, after, changes):
        """Before a statement that reads some operands, with `after` live behind it: sets what is pending that it cannot take in, or that it would change."""
        def goes(n, e):
            here = [o.place.steps for o in reads if isinstance(o, Copy) and o.place.local == n]
            if not here:
                return changes(n, e)
            return len(here) > 1 or n in after or bool(here[0]) and not e.place and here[0][0][0] != 'deref'
        self.flush(out, goes)

    def lines(self, body, after):
        """The lines of a body, with nothing left pending that is live behind it."""
        out, pending, self.pending = [], self.pending, {}
        for s in body:                                  # a pending call that may write is put nowhere but in what follows at once
            takes = s.kind in ('return', 'if') or s.value == 'rvOpd' and not s.to.steps
            self.flush(out, lambda n, e: e.calls and not (takes and s.reads == [Copy(Place(n))]))
            getattr(self, 'do_' + s.kind)(out, s)
            if out and is_jump(out[-1]):
                self.pending = {}
                break
        self.flush(out, lambda n, _: n in after)
        self.pending = pending
        return out

    def do_return(self, out, s):
        if self.f.locals[0] == UNIT:
            return out.append('return;')
        e, t = self.fit(self.value(s.reads[0]), self.f.locals[0]), self.f.locals[0]
        if e.has('call') and self.program.is_inline(self.f) and self.types.is_nested(t):
            e = made(f'{self.program.apart_helper(t)}({e.text})', 1, t, e)
        return out.append(f'return {e.text};')

    def do_exit(self, out, s):
        """A loop's `continue` or `break`."""
        way = [kind for kind, _ in self.scopes[-1 - s.depth:]]
        must(way in (['loop'], ['block', 'loop']), 'a loop that is left from inside of another, or of a switch')
        self.flush(out, lambda n, _: n in self.scopes[-1 - s.depth][1])
        out.append('continue;' if way == ['loop'] else 'break;')

    def target(self, out, s, pure):
        """Makes ready for a statement that sets a place: the place, or None for a local that can wait."""
        n, steps = s.to.local, s.to.steps
        waits = not steps and n not in self.slots and s.value != 'repeat'
        must(not steps or s.to.indirect or n not in self.pending, 'a part that is set before the whole')

        def changes(_, e):
            return not pure and e.memory or not waits and (e.memory if s.to.indirect else n in e.uses or n in self.slots and e.memory)
        self.ready(out, s.reads + ([Copy(s.to)] if steps else []), s.live if steps else s.live - {n}, changes)
        return None if waits else self.place(s.to) if steps else self.local(n)

    def store(self, out, s, to, e):
        """Sets a statement's place to a value, at once or later."""
        n = s.to.local
        if to is None or e.type == UNIT:
            self.pending.pop(n, None)
        if to is None and n in s.live and e.type != UNIT:
            self.flush(out, lambda _, other: n in other.uses)   # those that name the local's old value are set first
            self.pending[n] = e
        elif to is None or e.type == UNIT:
            out += [f'{"" if e.type == UNIT else "(void)"}{e.text};'] if e.calls else []
        elif s.to.steps:
            out.append(f'{to.text} = {self.fit(e, to.type).text};')
        else:
            self.pending[n] = e
            self.set(out, n)

    def do_assign(self, out, s):
        if self.f.locals[s.to.local] == UNIT:
            return
        to = self.target(out, s, True)
        if s.value != 'repeat':
            return self.store(out, s, to, self.assigned(s, to.type if to else self.f.locals[s.to.local]))
        e = self.value(s.reads[0])
        must(to.type == Array(e.type, s.op), f'{to.type} filled with {s.op} of {e.type}')
        return out.append(f'for (size_t each = 0; each < {s.op}u; each++) {to.text}.a[each] = {e.text};')

    def do_call(self, out, s):
        wrapping, g = WRAPPING.fullmatch(s.name), self.program.functions.get(s.name)
        must(wrapping or g, f'a call of {s.name}')
        pure = bool(wrapping) or not any(may_write(g.types, t) for t in g.locals[1:g.params + 1])
        to = self.target(out, s, pure)
        parts = [self.value(operand) for operand in s.reads]
        if wrapping:
            (sign, strength, left, right), t = BINARY[wrapping[1]], Int(int(wrapping[2]))
            first = cast(f'uint{max(32, t.bits)}_t', parts[0]) if parts[0].literal and parts[1].literal else parts[0]
            return self.store(out, s, to, narrowed(f'{first.at(left)} {sign} {parts[1].at(right)}', strength, t, *parts))
        must(len(parts) == g.params, f'a call of {s.name} with {len(parts)} arguments')
        given = [self.argument(self.fit(e, t), i in self.program.lent[g.name], pure) for i, (e, t) in enumerate(zip(parts, g.locals[1:]), 1)]
        e = made(f'{symbol(g.name)}({", ".join(given)})', 1, g.locals[0], *parts)
        e.memory |= any(t != BOOL and not isinstance(t, Int) for t in g.locals[1:g.params + 1])
        e.calls, e.steady, e.known = e.calls or not pure, False, ('call', g)
        return self.store(out, s, to, e)

    def argument(self, e, lent, pure):
        """An argument, or the address of it where a parameter is lent."""
        c = self.types.c(e.type)
        if not lent:
            return widened(e).at(13)
        if e.place and (pure or not e.memory):
            return address(e)
        return '&' + e.text if e.text.startswith(f'({c}){{') else f'({c}[1]){{ {e.text} }}'

    def tested(self, out, s):
        """Before a branch: its test, with all set that the branches or what follows read."""
        alive = s.live.union(*(inner.live for inner in s.bodies))
        self.ready(out, s.reads, alive, lambda n, _: n in alive)
        return self.value(s.reads[0])

    def do_if(self, out, s):
        self.fork(out, self.tested(out, s), *[self.lines(inner, s.live) for inner in s.bodies])

    def fork(self, out, e, yes, no):
        """An `if` of two lists of lines."""
        if not yes:
            e, yes, no = negated(e), no, yes
        must(yes, 'a branch to nothing')
        out.append(Nest(f'if ({e.text})', yes, e))
        out += no if no and is_jump(yes[-1]) else [Nest('else', no)] if no else []

    def do_switch(self, out, s):
        e = self.tested(out, s)
        if len(s.bodies) == 2 and len(s.keys[0]) == 1:
            return self.fork(out, compared(e.at(5), '==', self.key(e, s.keys[0][0]), e), *[self.lines(inner, s.live) for inner in s.bodies])
        rows, last = [], len(s.keys) - 1                # without a default no other number comes: so the last arm is the default
        self.scopes.append(('switch', frozenset()))
        for i, (keys, inner) in enumerate(zip(s.keys, s.bodies)):
            lines, names = self.lines(inner, s.live), [self.key(e, n) for n in keys]
            head = ' '.join(f'case {name}:' for name in names) if i < last else 'default:' + (f' /* {", ".join(names)} */' if names else '')
            rows.append(Nest(head, lines + ([] if lines and is_jump(lines[-1]) else ['break;']), braced=False))
        self.scopes.pop()
        return out.append(Nest(f'switch ({e.text})', rows))

    def do_block(self, out, s):
        """A loop, or the block around it."""
        body = s.bodies[0]
        self.flush(out, lambda n, _: n in body.live or n in s.live)
        self.pending = {}
        self.scopes.append((s.kind, s.live))
        lines = self.lines(body, s.live)
        self.scopes.pop()
        if s.kind == 'block':
            out += lines
        else:
            must(isinstance(lines[0], Nest) and lines[0].lines == ['break;'], 'a loop that does not begin with its test')
            out.append(Nest(f'while ({negated(lines[0].test).text})', lines[1:]))

    do_loop = do_block


def is_jump(line):
    """Whether nothing runs behind a line."""
    return isinstance(line, str) and line.split()[0].rstrip(';') in ('return', 'break', 'continue')


if __name__ == '__main__':
    manners.part(__doc__)
