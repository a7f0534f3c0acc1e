"""Passes as an assembler comes to know them."""
from __future__ import annotations

from typing import Any, Dict, List, Optional, Tuple

from ._c import MOST, number
from ._layout import ROOM, Built, Layout, Value, bits_of
from ._types import Bank, Kind, Node, Placed, State


class Misuse(ValueError):
    """What was told is no layout; the library was not asked."""


class Recorder:
    """Records a layout pass by pass: banks and nodes once, in the order of the source; then for each pass `begin_pass` and a number and a state for each
    node (`tell`); the bits of written items at any time (`value`, the newest count). Nobody counts bits: operands come from the values; and nobody reckons
    addresses: `places` says where everything stands in a pass.

    >>> recorder = Recorder(limit=10)
    >>> flash = recorder.bank(size=512, offset=0)
    >>> switch = recorder.node(Kind.SWITCH, flash)
    >>> jump = recorder.node(Kind.INSTRUCTION, name="jmp end", place="main.asm:3")
    >>> end = recorder.node(Kind.LABEL, name="end")
    >>> for bits, state in ((24, State.UNRESOLVED), (16, State.UNRESOLVED), (16, State.STABLE)):
    ...     recorder.begin_pass()
    ...     recorder.tell(jump, bits, state)
    >>> recorder.value(jump, 0xeb02, 16)
    >>> recorder.build().digits()
    'eb02'
    >>> [placed.address for placed in recorder.layout().map()]
    [0, 0, 2]
    """

    def __init__(self, limit: int = 10, closed: bool = True, bank0: Bank = Bank()):
        self._layout = Layout(limit, 0, closed, bank0)
        self._told: List[Dict[int, Tuple[int, int]]] = []
        self._values: Dict[int, Tuple[int, int]] = {}

    def bank(self, unit: int = 8, start: int = 0, size: Optional[int] = None, offset: Optional[int] = None, align: Optional[int] = None,
             fill: bool = False, ones: bool = False) -> int:
        """A bank more; answers its number."""
        self._before_passes()
        if len(self._layout.banks) >= 16:
            raise Misuse("there are 16 banks already")
        return self._layout.bank(unit, start, size, offset, align, fill, ones)

    def node(self, kind: int, operand: int = 0, name: str = "", place: str = "") -> int:
        """A node more; answers its number. The operand is a bank for a switch, a depth for a label or a constant, and nothing for others."""
        self._before_passes()
        known = Kind(number("the kind", kind, 0, 10))
        if len(self._layout.nodes) >= 4096:
            raise Misuse("there are 4,096 nodes already")
        if known == Kind.SWITCH and number("the bank", operand, 0, MOST) >= len(self._layout.banks):
            raise Misuse(f"there is no bank {operand}")
        return self._layout.node(known, operand if known in (Kind.SWITCH, Kind.LABEL, Kind.CONSTANT) else 0, [], [], name, place)

    def begin_pass(self) -> None:
        """Begins the first pass, or the next: the one before has to be complete."""
        self._whole_pass()
        self._told.append({})

    def tell(self, node: int, bits: int = 0, state: int = State.RESOLVED) -> None:
        """What the pass knows of a node: the bits of an item or a reserve, an alignment in bits, for an addr the position in bits; and the state."""
        kind, told = self._kind(node), (number("bits", bits, 0, MOST), int(State(number("the state", state, 0, 2))))
        if not self._told:
            raise Misuse("no pass has begun")
        if node in self._told[-1]:
            raise Misuse(f"pass {len(self._told)} tells {self._called(node)} twice")
        if kind == Kind.DATA and self._told[0].get(node, told)[0] != told[0]:
            raise Misuse(f"{self._called(node)} is data of declared size: {self._told[0][node][0]} bits in pass 1, and {told[0]} in pass {len(self._told)}")
        self._told[-1][node] = told

    def value(self, node: int, value: Value, bits: Optional[int] = None) -> None:
        """The bits of a written item, in the place of those that it had: a number in so many bits, or bytes."""
        if not self._kind(node).written:
            raise Misuse(f"{self._called(node)} is not written, and has no value")
        self._values[node] = bits_of(value, bits)

    def places(self) -> List[Placed]:
        """Where each node stands in the pass that has begun, as far as it was told: up to the first node that it has said nothing of, which is there too,
        since what a node sees depends on the nodes ahead of it alone. Refused 1, 2, 3 for the banks, 5 for a position that would go too far.

        >>> recorder = Recorder()
        >>> words = recorder.bank(unit=10, start=64, size=40, offset=0)
        >>> nodes = [recorder.node(kind, words) for kind in (Kind.SWITCH, Kind.DATA, Kind.LABEL)]
        >>> recorder.begin_pass()
        >>> [placed.address for placed in recorder.places()]
        [64, 64]
        >>> recorder.tell(nodes[1], 20)
        >>> recorder.places()[nodes[2]].address
        66

        The library is asked for the map of this pass's row as a layout of one row and limit 0. Positions depend on that row alone (document 01); data of
        declared size has the same number in every pass here. What could end the walk early is taken from it and moves nothing: written items, whose values are
        not read, are reserves, labels are constants of their depth, and every state is unresolved, so that no placement is tried.
        """
        if not self._told:
            raise Misuse("no pass has begun")
        told, walk = self._told[-1], Layout(0, 1)
        walk.banks, walk.names = self._layout.banks, self._layout.names
        kinds = []
        for i, node in enumerate(self._layout.nodes):
            kinds.append(Kind(node.kind))
            walked = Kind.RESERVE if kinds[i].written else Kind.CONSTANT if kinds[i] == Kind.LABEL else kinds[i]
            walk.nodes.append(Node(walked, node.operand, (told.get(i, (0, 0))[0],), (State.UNRESOLVED,)))
            if kinds[i] > Kind.LABEL and i not in told:
                break
        mapped = walk.map()
        if mapped.stopped == 5:
            walk.nodes = [node._replace(kind=kind) for node, kind in zip(walk.nodes, kinds)]  # for the words
            raise walk._refused(5, mapped.place, 0, mapped, 0)
        return [placed._replace(kind=kinds[placed.node]) for placed in mapped]

    def layout(self) -> Layout:
        """The layout so far: a row for each pass, without rows at the end that are as the one before, which change nothing."""
        if not self._told:
            raise Misuse("no pass has begun")
        self._whole_pass()
        rows = [[told.get(i, (0, 0)) for i in range(len(self._layout.nodes))] for told in self._told]
        while len(rows) > 1 and rows[-1] == rows[-2]:
            rows.pop()
        if len(rows) > 16:
            raise Misuse(f"{len(rows)} passes differ from the one before, and a layout has at most 16 rows")
        out = Layout(self._layout.limit, len(rows), self._layout.closed)
        out.banks, out.names = list(self._layout.banks), dict(self._layout.names)
        for i, node in enumerate(self._layout.nodes):
            cells = [row[i] for row in rows]
            operand = self._put(out, i, cells) if Kind(node.kind).written else node.operand
            out.nodes.append(Node(node.kind, operand, tuple(cell[0] for cell in cells), tuple(cell[1] for cell in cells)))
        return out

    def build(self, fill: str = "inherited", page: Optional[int] = None, room: int = ROOM) -> Built:
        """`layout().build(..)`: Misuse before the library is asked, Refused after."""
        return self.layout().build(fill, page, room)

    def _put(self, out: Layout, node: int, cells: Any) -> int:
        """Puts an item's value where its longest pass has room; answers its first bit."""
        size = cells[0 if self._kind(node) == Kind.DATA else -1][0]
        value, bits = self._values.get(node, (0, 0))
        if bits != size:
            raise Misuse(f"{self._called(node)} has {size} bits in the last pass, and its value {bits}")
        most = max(cell[0] for cell in cells)
        return out._values.append(value << (most - bits), most)

    def _before_passes(self) -> None:
        if self._told:
            raise Misuse("banks and nodes are told before the first pass begins")

    def _whole_pass(self) -> None:
        """Kinds 0, 1 and 2 need not be told: a row is not read of them."""
        for i, node in enumerate(self._layout.nodes if self._told else ()):
            if node.kind > Kind.LABEL and i not in self._told[-1]:
                raise Misuse(f"pass {len(self._told)} leaves out {self._called(i)} ({Kind(node.kind).words})")

    def _kind(self, node: int) -> Kind:
        if number("the node", node, 0, MOST) >= len(self._layout.nodes):
            raise Misuse(f"there is no node {node}")
        return Kind(self._layout.nodes[node].kind)

    def _called(self, node: int) -> str:
        return self._layout.called(node)
