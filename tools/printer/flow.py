"""What becomes of locals: which are read later, whose address is taken, which are set; and the term's blocks put into the shape that C's statements have."""
import copy

from term import PTR, Array, Body, Copy, Named, Ref, Slice, manners, must


def every(body):
    """All statements of a body, those inside of others too."""
    for s in body:
        yield s
        for inner in s.bodies:
            yield from every(inner)


def live(body, after, exits):
    """Notes at each statement and body which locals are read later, `after` behind the last; exits[n] is what is live where `exit n` goes."""
    for s in reversed(body):
        s.live = after
        if s.kind == 'exit':
            after = exits[s.depth]
        elif s.kind == 'loop':
            top, after = None, frozenset()              # from its end a loop goes on to its start
            while after != top:
                top = after
                after = top | live(s.bodies[0], top, [top] + exits)
            s.live = after
        elif s.kind == 'block':
            after = live(s.bodies[0], after, [after] + exits)
        else:
            if s.bodies or s.kind == 'return':
                after = frozenset().union(*(live(inner, after, exits) for inner in s.bodies))
            if s.to is not None:
                after = after | {s.to.local} if s.to.steps else after - {s.to.local}
            after |= {o.place.local for o in s.reads if isinstance(o, Copy)}
    body.live = after
    return after


def taken(body):
    """The locals whose address is taken."""
    return {s.reads[0].place.local for s in every(body) if s.kind == 'assign' and s.value == 'addrOf' and not s.reads[0].place.indirect}


def sets(body, n):
    """How often local n is set, whole or in part."""
    return sum(s.to is not None and s.to.local == n and not s.to.indirect for s in every(body))


def may_write(types, t):
    """Whether something can be written through a value of this type."""
    match t:
        case Ref() | Slice():
            return t.mut
        case Array():
            return may_write(types, t.of)
        case Named():
            kind, parts = types[t.name]
            return any(may_write(types, part) for part in (parts if kind == 'fields' else sum(parts, [])))
    return t == PTR


def written_behind(f, body, n):
    """Whether local n may be written through its address: something is stored through a pointer into it, or such a pointer is given away to be written."""
    holds, new = set(), {n}                             # n itself, and the locals that may point into it
    while not new <= holds:
        holds |= new
        new = {s.to.local for s in every(body) if s.kind == 'assign' and any(
            isinstance(o, Copy) and o.place.local in holds and (s.value == 'addrOf' or o.place.local != n and not o.place.indirect) for o in s.reads)}
    stored = any(s.to is not None and s.to.local in holds and s.to.indirect for s in every(body))
    return stored or any(m == 0 or f.locals[m] != PTR and may_write(f.types, f.locals[m]) for m in holds - {n})


def ends(body):
    """Whether nothing runs behind a body: each way through it ends in a jump."""
    if not body or body[-1].kind in ('assign', 'call', 'block'):
        return False
    return body[-1].kind in ('exit', 'return', 'loop') or all(map(ends, body[-1].bodies))


def unblock(body):
    """Takes away the blocks that are no loop's; leaving a loop's block is C's `break`."""
    out = Body()
    for s in body:
        s.bodies = [unblock(inner) for inner in s.bodies]
        out += opened(s.bodies[0], 0) if s.kind == 'block' and [one.kind for one in s.bodies[0]] != ['loop'] else [s]
    return out


def opened(body, depth):
    """A body without the block around it: where the block was left, the branch just ends, and what would have followed goes into the others."""
    for i, s in enumerate(body):
        if s.kind == 'exit':
            if s.depth == depth:
                return Body(body[:i])
            s.depth -= s.depth > depth
        inside = depth + (s.kind in ('block', 'loop'))
        if any(leaves(inner, inside) for inner in s.bodies):
            rest, falling = body[i + 1:], [inner for inner in s.bodies if not ends(inner)]
            must(s.kind in ('if', 'switch') and (len(falling) < 2 or len(rest) < 4 and not any(one.bodies for one in rest)),
                 'a block that is left from inside of a loop, or by several ways with much behind it')
            s.bodies = [opened(inner if ends(inner) else Body(inner + copy.deepcopy(rest)), depth) for inner in s.bodies]
            return Body(body[:i + 1])
        s.bodies = [opened(inner, inside) for inner in s.bodies]
    return body


def leaves(body, depth):
    """Whether a body has an exit of the block that many levels up."""
    return any(s.kind == 'exit' and s.depth == depth or any(leaves(inner, depth + (s.kind in ('block', 'loop'))) for inner in s.bodies) for s in body)


def spread(body):
    """`return` behind branches goes into them, with the copies ahead of it."""
    at = len(body) - 1
    while at > 0 and (body[at].kind == 'return' or body[at].value == 'rvOpd'):
        at -= 1
    if body and body[-1].kind == 'return' and body[at].kind in ('if', 'switch') and all(body[at].bodies):
        body[at].bodies = [inner if ends(inner) else Body(inner + copy.deepcopy(body[at + 1:])) for inner in body[at].bodies]
        body = Body(body[:at + 1])
    for s in body:
        s.bodies = [spread(inner) for inner in s.bodies]
    return body


if __name__ == '__main__':
    manners.part(__doc__)
