"""Refusals in words. The words are command/refusals.def, the one table of them; here stands which row it is, and what fills its places, as the command
has it."""
from __future__ import annotations

import ast
import re
from typing import TYPE_CHECKING, Any, Dict, List, NamedTuple, Optional, Tuple

from ._c import beside_or
from ._types import Bank, Kind, Map

if TYPE_CHECKING:
    from ._layout import Layout

_TEXT = r'("(?:[^"\\]|\\.)*"(?:\s*"(?:[^"\\]|\\.)*")*)'
_ROW = re.compile(r"^WORDS\((\w+),\s*(\d+),\s*" + _TEXT + r",\s*" + _TEXT + r"\)", re.M)


class Row(NamedTuple):
    number: int
    words: str
    remedy: str


def read_table(text: str) -> Dict[str, Row]:
    """The rows of refusals.def by their causes."""
    return {cause: Row(int(number), ast.literal_eval(words), ast.literal_eval(remedy)) for cause, number, words, remedy in _ROW.findall(text)}


TABLE = read_table(beside_or("refusals.def", "command/refusals.def").read_text("utf-8"))


def several(count: int, what: str) -> str:
    return f"{count} {what}" + ("" if count == 1 else "s")


def both(value: int) -> str:
    return str(value) if value < 10 else f"{value} = {value:#x}"


def say(cause: str, numbers: Tuple[int, ...] = (), **texts: str) -> str:
    """A row's words with its places filled, what `behind` says, and its remedy; options of the command are those of Python here."""

    def blank(found: "re.Match[str]") -> str:
        what, _, shape = found.group(1).partition(":")
        if not what.isdigit():
            return texts.get(what, "")
        value = numbers[int(what)]
        return str(value) if not shape else f"{value:0{shape[0]}X}" if shape.endswith("X") else several(value, shape)

    row = TABLE[cause]
    words = re.sub(r"\{([a-z0-9]+(?::\w+)?)\}", blank, row.words) + texts.get("behind", "") + (f". {row.remedy}" if row.remedy else "")
    return re.sub(r"--(load|width) ", r"\1=", words).replace("--whole", "whole=True").replace("--help has the limits", "Give a larger room")


class Said:
    """A refused layout, with its map where there is one, and what stands in the places of its words."""

    def __init__(self, layout: "Layout", mapped: Optional[Map]):
        self.layout, self.map = layout, mapped
        self.shown = len(mapped) if mapped else 0

    # -- nodes and banks --

    def row_of(self, passed: int) -> int:
        return min(max(passed, 1), max(self.layout.rows, 1)) - 1

    def number_at(self, node: int, row: int) -> int:
        each = self.layout.nodes[node]
        return each.numbers[0 if each.kind == Kind.DATA else row] if each.numbers else 0

    def bank_at(self, node: int) -> int:
        switches = [each.operand for each in self.layout.nodes[: node + 1] if each.kind == Kind.SWITCH]
        return switches[-1] if switches else 0

    def bank_of(self, at: int) -> Bank:
        banks = self.layout.banks
        return banks[at if at < len(banks) else 0]

    def place(self, node: int) -> str:
        assert self.map is not None
        at = self.map[node]
        said = f", bank {at.bank}, position {at.position}, address {both(at.address)}" + (f" and {several(at.past, 'bit')}" if at.past else "")
        said += f", {several(at.bits, 'bit')}" if at.kind.placed else ""
        return said if at.output is None else said + ("" if at.kind.placed else ",") + f" at output bit {at.output}"

    def numbers(self, node: int) -> str:
        now = self.number_at(node, self.row_of(self.map.passes) if self.map else 0)
        return f", to {now}" if self.layout.nodes[node].kind >= Kind.ALIGN else f", {several(now, 'bit')}"

    def node(self, at: int) -> str:
        called = self.layout.called(at)
        if at >= len(self.layout.nodes):
            return called
        kind, operand = self.layout.nodes[at][:2]
        said = f"{called} (" + (f"node {at}, " if at in self.layout.names else "")
        if kind > Kind.ASSERT:
            return said + f"kind {kind})"
        said += Kind(kind).words
        if kind == Kind.SWITCH:
            return said + f" to {operand})"
        if at < self.shown:
            return said + self.place(at) + ")"
        return said + f", bank {self.bank_at(at)}" + (self.numbers(at) if Kind.INSTRUCTION <= kind <= Kind.ADDR else "") + ")"

    def bank(self, at: int) -> str:
        if at >= len(self.layout.banks):
            return f"bank {at}"
        bank = self.layout.banks[at]
        said = f"bank {at} (unit {bank.unit}, start " + (str(bank.start) if abs(bank.start) > 2**40 else both(bank.start))
        said += ", no size" if bank.size is None else f", size {bank.size}"
        if bank.offset is not None:
            said += f", output from bit {bank.offset}" + (f" to {bank.offset + bank.size - 1}" if bank.size else "")
        return said + (", filled with ones" if bank.fill and bank.ones else ", filled" if bank.fill else "") + ")"

    # -- one refusal each --

    def table(self, at: int) -> str:
        bank = self.bank_of(at)
        cause = ("BANK_UNIT" if bank.unit == 0 else "BANK_START" if abs(bank.start) > 2**40
                 else "BANK_EMPTY" if bank.fill and bank.size == 0 else "BANK_ONES")
        return say(cause, bank=self.bank(at))

    def cells(self, at: int) -> str:
        """4, of a node's number and state in some row."""
        node, bits = self.layout.nodes[at], 8 * len(self.layout.values)
        for row, (value, state) in enumerate(zip(node.numbers, node.states)):
            if node.kind > Kind.LABEL and state > 2:
                return say("NODE_STATE", (row, state), node=self.node(at))
            is_read = node.kind in (Kind.INSTRUCTION, Kind.OPEN_DATA) or node.kind == Kind.DATA and row == 0
            if is_read and node.operand + value > bits:
                return say("NODE_VALUES", (row, node.operand + value, bits), node=self.node(at))
        return say("MALFORMED", (at,))

    def listed(self, at: int) -> str:
        """4: the count of nodes, that of rows, then the lowest node."""
        layout = self.layout
        if len(layout.nodes) > 4096:
            return say("NODE_COUNT", (len(layout.nodes),))
        if not 1 <= layout.rows <= 16:
            return say("ROW_COUNT", (layout.rows,))
        if at >= len(layout.nodes):
            return say("MALFORMED", (at,))
        node = layout.nodes[at]
        if node.kind > Kind.ASSERT:
            return say("NODE_KIND", (node.kind,), node=self.node(at))
        if node.kind == Kind.SWITCH and node.operand >= len(layout.banks):
            return say("NODE_BANK", (len(layout.banks),), node=self.node(at))
        return self.cells(at)

    def far(self, at: int) -> str:
        """5: where the bank stood before, as far as the map tells it."""
        bank, stood, note = self.bank_at(at), 0, ""
        for each in self.map or ():
            if each.bank != bank:
                continue
            stood = -1 if each.kind == Kind.ALIGN else each.position + each.bits
            if each.kind == Kind.ADDR and self.map:
                stood = self.number_at(each.node, self.row_of(self.map.passes))
        if self.map and self.shown == at:
            note = ("" if stood < 0 else f", from {stood}") + f", in pass {self.map.passes}"
        return say("TOO_FAR", (bank,), node=self.node(at), note=note)

    def unresolved(self) -> Tuple[str, int]:
        """8: the first node that the last pass leaves unresolved."""
        layout, passes = self.layout, self.map.passes if self.map else 0
        node, note = Walk.unresolved(self, passes)
        cause = "UNRESOLVED_AGAIN" if passes < layout.limit else "UNRESOLVED"
        return say(cause, (passes, layout.limit, layout.rows), node=self.node(node), note=note), node

    def past_end(self, at: int) -> str:
        bank = self.bank_at(at)
        end = self.map[at].position + self.map[at].bits if self.map and at < self.shown else 0
        return say("PAST_END", (end, end - (self.bank_of(bank).size or 0)), node=self.node(at), bank=self.bank(bank))

    def clash(self, start: int, size: int) -> str:
        """12: the node that was offered, and the one that stands there."""
        fault = self.map.node if self.map and self.map.node is not None else len(self.layout.nodes)
        there = [each.node for each in self.map or () if each.node < fault and each.kind.placed and (each.output, each.bits) == (start, size)]
        inside = self.map is not None and fault < self.shown and self.map[fault].bits == 0
        cause = "AROUND_MARK" if size == 0 else "MARK_INSIDE" if inside else "OVERLAPS"
        return say(cause, (start, size), node=self.node(fault), note=f": {self.node(there[0])}" if there else "")

    def rule(self, rule: int, at: int) -> str:
        """19: rule 2 names a bank while its label alignment is at fault."""
        bank = self.bank_of(at)
        if rule == 1:
            return say("PAGE_SIZE")
        if rule == 2 and at < len(self.layout.banks) and not _is_power(bank.align or 1):
            return say("BANK_ALIGNMENT", (bank.align or 0,), bank=self.bank(at))
        if rule == 2 or rule >= 6:
            return self.rule_of_node(rule, at)
        cause = {3: "PAGE_OFFSET", 4: "PAGE_NO_SIZE" if bank.size is None else "PAGE_PARTS", 5: "PAGE_UNIT"}[rule]
        return say(cause, ((bank.offset if rule == 3 else bank.size if rule == 4 else bank.unit) or 0,), bank=self.bank(at))

    def rule_of_node(self, rule: int, at: int) -> str:
        bank = self.bank_at(at)
        unit = self.bank_of(bank).unit or 1
        told = [self.number_at(at, row) for row in range(self.layout.rows)]
        broken = [value for value in told if (not _is_power(value or 1) if rule == 2 else value % unit)] or told
        return say("NODE_ALIGNMENT" if rule == 2 else "PAGE_ADDR", (broken[0], bank, unit), node=self.node(at))


class Walk:
    """A pass as document 01 has it: each bank's position, and whether it is known. For words alone: no answer stands on it."""

    def __init__(self, layout: "Layout", row: int):
        self.layout, self.row, self.at, self.known = layout, row, [0] * len(layout.banks), [True] * len(layout.banks)

    @staticmethod
    def unresolved(said: Said, passes: int) -> Tuple[int, str]:
        """The first node that a pass leaves unresolved, and what moved."""
        layout, bank = said.layout, 0
        now, old = Walk(layout, said.row_of(passes)), Walk(layout, said.row_of(passes - 1))
        for i, node in enumerate(layout.nodes):
            bank = node.operand if node.kind == Kind.SWITCH else bank
            now.align_symbol(bank, i)
            old.align_symbol(bank, i)
            if node.kind > Kind.LABEL and node.states[now.row] == 2:
                return i, ""
            unit = layout.banks[bank].unit
            if node.kind == Kind.LABEL and not (now.known[bank] and now.at[bank] % unit == 0):
                if passes < 2:
                    return i, ", and no pass before it tells whether it stays"
                if now.at[bank] // unit != old.at[bank] // unit:
                    return i, f": it has moved since pass {passes - 1}"
            now.advance(said, bank, i)
            old.advance(said, bank, i)
        return len(layout.nodes), ""

    def distance(self, bank: int, alignment: int) -> int:
        each = self.layout.banks[bank]
        return -(each.start * each.unit + self.at[bank]) % alignment if alignment else 0

    def align_symbol(self, bank: int, node: int) -> None:
        kind, operand = self.layout.nodes[node][:2]
        if kind in (Kind.LABEL, Kind.CONSTANT) and operand == 0:
            self.at[bank] += self.distance(bank, self.layout.banks[bank].align or 0)

    def advance(self, said: Said, bank: int, node: int) -> None:
        kind, value = self.layout.nodes[node].kind, said.number_at(node, self.row)
        is_resolved = self.layout.nodes[node].states[self.row] == 0
        if Kind.INSTRUCTION <= kind <= Kind.RESERVE:
            self.at[bank] += value
        elif kind == Kind.ALIGN:
            self.at[bank] += self.distance(bank, value)
        elif kind == Kind.ADDR:
            self.at[bank], self.known[bank] = value, is_resolved
        if Kind.INSTRUCTION <= kind <= Kind.ALIGN and kind != Kind.DATA:
            self.known[bank] = self.known[bank] and is_resolved


def _is_power(value: int) -> bool:
    return value > 0 and value & (value - 1) == 0


def layout_words(layout: "Layout", number: int, place: int, second: int, mapped: Optional[Map], room: int) -> Tuple[str, Optional[int]]:
    """The words of a layout's refusal, and the node at fault."""
    said = Said(layout, mapped)
    if number == 8:
        return said.unresolved()
    if number == 12:
        return said.clash(place, second), mapped.node if mapped else None
    if number == 19:
        return said.rule(place, second), second if place == 6 or place == 2 and not _names_bank(layout, second) else None
    if number == 14:
        return say("OTHER_ROOM", note=f"image, {several(room, 'byte')}," if place == 0 else "spans"), None
    if number <= 3:
        return (say("BANK_COUNT", (len(layout.banks),)) if number == 1 else said.table(place) if number == 2
                else say("BANKS_OVERLAP", bank=said.bank(place), second=said.bank(second))), None
    is_node = number > 4 or len(layout.nodes) <= 4096 and 1 <= layout.rows <= 16 and place < len(layout.nodes)
    return _node_words(said, number, place), place if is_node else None


def _names_bank(layout: "Layout", at: int) -> bool:
    return at < len(layout.banks) and not _is_power(layout.banks[at].align or 1)


def _node_words(said: Said, number: int, at: int) -> str:
    """4, 5, 7, 9, 10, 11 and 13: those with a node for their place."""
    if number == 4:
        return said.listed(at)
    if number == 5:
        return said.far(at)
    if number == 10:
        return said.past_end(at)
    bank = said.bank_at(at)
    mark = bool(said.map) and at < said.shown and said.map is not None and said.map[at].bits == 0
    cause = {7: "OFF_BOUNDARY", 9: "BANK_0_CLOSED" if len(said.layout.banks) == 1 else "BANK_0_USED", 11: "NO_OUTPUT",
             13: "MARKS_FULL" if mark else "STORE_FULL"}[number]
    return say(cause, (said.bank_of(bank).unit,), node=said.node(at), bank=said.bank(bank))


def looks_like(file: bytes) -> str:
    """Which row speaks of a file that is no layout file, by its first line that is neither empty nor a remark."""
    text = file[3:] if file[:3] == b"\xef\xbb\xbf" else file
    lines: List[bytes] = [line.strip(b" \t\r") for line in text.split(b"\n")]
    first = next((line for line in lines if line and line[:1] != b"#"), b"")
    if re.match(rb":[0-9a-fA-F].", first):
        return "BROKEN_HEX"
    if re.match(rb"[Ss][0-9].", first):
        return "BROKEN_SREC"
    words = rb"(form|bank|rows|limit|values|switch|kind) |label|constant|instruction|data|open|reserve|mark|align:|addr:|assert|nothing"
    return "BROKEN_WORDS" if re.match(words, first) else "BROKEN"


def reason_words(reason: Any, text: bytes, is_srec: bool) -> str:
    """Why a file of records is bad: its line, one cause, and the line's text."""
    lines = text.split(b"\n")
    line = lines[reason.line].replace(b"\r", b"")[:80] if reason.line < len(lines) else b""
    shown = "".join(chr(byte) if 32 <= byte <= 126 else "?" for byte in line)
    first = reason.first + (reason.reason in (2, 11))  # characters and lines as people count them
    note = "S" if is_srec else "a colon"
    if reason.reason == 6:
        kind = f"S{chr(first) if 32 <= first < 127 else '?'}" if is_srec else f"{first:02X}"
        note = kind + (" (there are S0, S1 with S9, and S3 with S7)" if is_srec else " (there are 00, 01 and 04)")
    behind = f': "{shown}"' if shown and reason.reason < 13 else ""
    cause = "RECORDS_MARK" if text[:3] == b"\xef\xbb\xbf" and "RECORDS_MARK" in TABLE else f"REASON_{reason.reason}"
    words = "a blank line" if cause == "REASON_1" and not shown else say(cause, (first, reason.second, 0), note=note, behind=behind)
    return f"line {reason.line + 1}: {words}"
