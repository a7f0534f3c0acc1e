#!/usr/bin/env python3
"""Whether each exported function speaks of its own parameters, by name, and whether C is told of it as it is.

What a function of crates/denkumari ensures is a sentence of crates/says. The proofs hold its body to that; what no proof sees is which parameter is given to
which field of the sentence, and which declaration C has of it. So: every field of a record in an `ensures`, and every parameter of its sentence, is given by
the function's parameter of its name (EXCEPT lists the others, each with its ground); what is given before the call is taken before it, what comes after behind
it; no parameter is left out. include/denkumari.h declares the parameters in the source's order with its types, and the fields of every struct too. The crate
denkumari_c, from which the archive is built, exports each of them with the same parameters, the same contract and a body that hands them on.

It tries itself: wherever two parameters or two fields have one type, they are exchanged in a copy of the text, and that has to be seen."""

import re
import sys
from copy import copy
from itertools import combinations
from pathlib import Path

import manners

ROOT = Path(__file__).resolve().parent.parent
sys.path.insert(0, str(ROOT / "tools"))
import antt  # noqa: E402

HEADER = "include/denkumari.h"
THIN = manners.crates()["archive"]
# (function, field or parameter of its sentence): what is given there, and why it has another name
EXCEPT = {
    ("dk_profile", "limit"): ("0", "the profile reads no pass limit, and the call has none"),
    ("dk_profile", "closed"): ("0", "the profile does not ask whether bank 0 is closed, and the call does not say"),
    ("dk_map", "banks"): ("banks_of", "`banks` would be the table's in C; these are the banks of nodes"),
    ("dk_blocks", "lengths"): ("sizes", "in the sentence `sizes` are those of the blocks"),
    ("dk_to_form2", "f"): ("form-1", "the form that the call converts from: its own name says so"),
    ("dk_to_form1", "f"): ("form-2", "the form that the call converts from: its own name says so"),
    ("dk_offers", "starts"): ("offer_positions", "where the offers start; `positions` are those of the store"),
    ("dk_offers", "lengths"): ("offer_sizes", "how long the offers are; `sizes` are those of the store"),
    ("dk_blocks", "starts"): ("block_offsets", "where blocks start; `offsets` are those of the spans"),
    ("dk_blocks", "sizes"): ("block_sizes", "the sizes of the blocks; `sizes` are those of the spans"),
}
# the struct that C has for a type of the source, where it has another name
NAMES = {"DkMap": "dk_mapped", "Lost": "dk_padding"}
NUMBERS = {"u8": "uint8_t", "u16": "uint16_t", "u32": "uint32_t", "u64": "uint64_t", "i64": "int64_t"}
LENGTHS = {"16": "DK_MAX_BANKS"}


def snake(name):
    """bankSizes as bank_sizes."""
    return re.sub(r"[A-Z]", lambda m: "_" + m.group(0).lower(), name)


class Export:
    """An exported function: its parameters as (name, type), what it returns, and the text of its `ensures`."""

    def __init__(self, path, name, parameters, answer, ensures):
        self.path, self.name, self.answer, self.ensures = path, name, answer, ensures
        self.parameters = [tuple(x.strip() for x in p.split(":", 1)) for p in split(parameters, ",")]

    def lent(self):
        return [name for name, kind in self.parameters if kind.startswith("&mut")]


def split(text, at):
    """The parts of a text between the outermost of a sign."""
    parts, depth, part = [], 0, ""
    for c in text:
        depth += (c in "([{") - (c in ")]}")
        if c == at and depth == 0:
            parts.append(part)
            part = ""
        else:
            part += c
    return [p.strip() for p in parts + [part] if p.strip()]


def exports(crate="denkumari"):
    """The exported functions of a crate's sources, each with its body."""
    found = []
    for file in sorted((ROOT / "crates" / crate / "src").glob("*.rt")):
        text = re.sub(r"//[^\n]*", "", file.read_text(encoding="utf-8"))
        opening = r'#\[unsafe\(no_mangle\)\]\s+pub extern "C" fn' if crate == THIN else "pub fn"
        for m in re.finditer(opening + r' (dk_\w+)\(([^{]*?)\) -> (\w+)\s+ensures(?: \w+)? \{(.*?)\}\s*\n\{\n(.*?)\n\}', text, re.S):
            found.append(Export(f"crates/{crate}/src/{file.name}", m.group(1), m.group(2), m.group(3), " ".join(m.group(4).split())))
            found[-1].body = " ".join(m.group(5).split())
        if len(re.findall(r"\bfn dk_", text)) != len([e for e in found if e.path.endswith("/" + file.name)]):
            raise manners.Stop(f"crates/{crate}/src/{file.name}: an exported function has another form than this test reads")
    return found


def thin_wrong(found):
    """What is wrong with the crate whose exports C calls: each function of the library's is there once more."""
    thin, wrong = {e.name: e for e in exports(THIN)}, []
    for e in found:
        own = thin.pop(e.name, None)
        names = ", ".join(name for name, _ in e.parameters)
        if own is None:
            wrong.append(f"crates/{THIN} does not export {e.name}")
        elif (own.parameters, own.answer, own.ensures) != (e.parameters, e.answer, e.ensures):
            wrong.append(f"{own.path}, {e.name}: its parameters, answer or contract are not those of {e.path}")
        elif not re.fullmatch(rf"(\w+::)*{e.name}\( ?{names},? ?\)", own.body):
            wrong.append(f"{own.path}, {e.name}: its body does not hand its parameters on, in their order")
    return wrong + [f"crates/{THIN} exports {name}, which crates/denkumari does not have" for name in thin]


# ---- what is given to a sentence


def arguments(text):
    """The parts of an application: a name, then what it is applied to."""
    return split(re.sub(r"\s+", " ", spaced(text)), " ")


def spaced(text):
    """A record's braces beside its word, so that it is one part."""
    return re.sub(r"record \{", "record{", text)


def stripped(text):
    """A term without the parentheses around it."""
    text = text.strip()
    while text.startswith("(") and closes(text):
        text = text[1:-1].strip()
    return text


def closes(text):
    """The first parenthesis is closed by the last."""
    depth = 0
    for n, c in enumerate(text):
        depth += (c == "(") - (c == ")")
        if depth == 0:
            return n == len(text) - 1
    return False


def given(term, name, after):
    """(field or parameter of the sentence, what is given, whether after the call) of every leaf of a term."""
    term = stripped(term)
    record = re.match(r"record\{(.*)\}$", spaced(term))
    if record:
        fields = [tuple(x.strip() for x in f.split("=", 1)) for f in split(record.group(1), ";")]
        after = after or ("answer", "result") in fields
        return [leaf for field, value in fields for leaf in given(value, field, after)]
    parts = split(term, ",")
    if len(parts) > 1:
        return [leaf for p in parts for leaf in given(p, None, True)]
    return [(name, term, after)]


def sentence(export):
    """The name of an export's sentence, and the names of the sentence's parameters."""
    word = arguments(export.ensures)[0]
    path, name = antt.uses_of(export.path).names[word]
    d = antt.named(path, name)
    heads = [" ".join(antt.bare(ln).strip() for ln in head) for head in d.around]
    own = " ".join(antt.bare(ln).strip() for ln in d.signature)
    own = re.sub(r"^((pub|data|abbrev|record|unfoldable) )*\S+", "", own.split(" where")[0])
    return word, [n for text in heads + [own] for n in binders(text)]


def binders(text):
    """The names that stand in the parentheses at the front of a text, in order."""
    names, text = [], re.sub(r"^module _ ", "", text).strip()
    while True:
        text = text.lstrip(" :")
        m = re.match(r"\(([^():]*) : ((?:[^()]|\([^()]*\))*)\)", text)
        if not m:
            return names
        names += m.group(1).split()
        text = text[m.end():].strip()


def leaves(export):
    """What an export gives to its sentence: (field or parameter of it, what is given, whether after the call)."""
    _, names = sentence(export)
    parts = arguments(export.ensures)[1:]
    found = []
    for n, part in enumerate(parts):
        found += given(part, said_as(export, names[n]) if n < len(names) else None, n == len(parts) - 1)
    return found


def said_as(export, name):
    """A sentence's word for a parameter: `x₀` is x before the call, and `old` before it the one thing that is lent."""
    return export.lent()[0] if name == "old" and len(export.lent()) == 1 else name.rstrip("₀")


def taken(term):
    """The parameter that a term takes, and when: now, old, new, or at once for a number."""
    m = re.match(r"«?(\w+)»?\.(now|old|new)$", term)
    return m.groups() if m else (term.strip("«»"), "")


def moment(kind, after):
    """How a parameter is taken: as it is, or what a `&` leads to, or what a `&mut` leads to before the call or behind it."""
    if kind.startswith("&mut"):
        return "new" if after else "old"
    return "now" if kind.startswith("&") else ""


def wrong_with(export):
    """What is wrong with what an export gives to its sentence."""
    wrong, kinds, entry, left = [], dict(export.parameters), [], []
    for field, term, after in leaves(export):
        word, when = taken(term)
        if after and word == "result":
            continue
        expected = EXCEPT.get((export.name, field), (snake(field or word),))[0]
        if word != expected:
            wrong.append(f"{field} of the sentence is given by {word}, and not by {expected}")
        if re.fullmatch(r"\d+|form-[12]", word):
            continue
        if word not in kinds:
            wrong.append(f"{word} is no parameter")
        elif when != moment(kinds[word], after):
            wrong.append(f"{word} is taken at {when or 'no time'}, {'after' if after else 'before'} the call")
        (left if after else entry).append(word)
    for name, said in [(n, entry) for n, _ in export.parameters] + [(n, left) for n in export.lent()]:
        if said.count(name) != 1:
            wrong.append(f"{name} is spoken of {said.count(name)} times {'after' if said is left else 'before'} the call, and not once")
    return [f"{export.path}, {export.name}: {w}" for w in wrong]


def unneeded(found):
    """Exceptions that no export has."""
    met = {(e.name, field) for e in found for field, term, _ in leaves(e) if field and taken(term)[0] != snake(field)}
    return [f"oracle/exports.py: the exception {name}, {field} is not needed" for name, field in sorted(set(EXCEPT) - met)]


# ---- what C is told


def declared(export):
    """The parameters that C should be told of: a slice is a pointer and a length, an array by reference a pointer."""
    for name, kind in export.parameters:
        m = re.fullmatch(r"&(mut )?\[(\w+)(; \d+)?\]", kind)
        if not m:
            yield f"{NUMBERS[kind]} {name}"
            continue
        yield f"{'' if m.group(1) else 'const '}{NUMBERS[m.group(2)]} *{name}"
        if not m.group(3):
            yield f"size_t {name}_len"


def struct_name(name):
    return NAMES.get(name) or snake(name).lstrip("_")


def header():
    return re.sub(r"/\*.*?\*/", " ", (ROOT / HEADER).read_text(encoding="utf-8"), flags=re.S)


def prototypes(text):
    """What C is told of each function: name, what it returns, its parameters."""
    found = re.findall(r"^struct (\w+) (dk_\w+)\(([^;{]*)\);", text, re.M)
    return {name: (answer, [" ".join(p.split()) for p in inside.split(",")]) for answer, name, inside in found}


def told_wrong(export, told):
    """What is wrong with what C is told of an export."""
    if export.name not in told:
        return [f"{HEADER}: {export.name} is not declared"]
    answer, inside = told[export.name]
    wrong = [] if answer == struct_name(export.answer) else [f"{HEADER}: {export.name} returns {answer}, and not {struct_name(export.answer)}"]
    wanted = list(declared(export))
    for n in range(max(len(wanted), len(inside))):
        a, b = (x[n] if n < len(x) else "nothing" for x in (wanted, inside))
        if a != b:
            return wrong + [f"{HEADER}: {export.name}: parameter {n + 1} is declared as {b}, and in the source it is {a}"]
    return wrong


# ---- the structs


def structs_of_source():
    """The fields of every struct that is handed out, as C should have them: name, and (type, field) in order."""
    found = {}
    for crate in ("c_answers", "iter"):
        text = re.sub(r"//[^\n]*", "", (ROOT / f"crates/{crate}/src/lib.rt").read_text(encoding="utf-8"))
        for m in re.finditer(r"#\[repr\(C\)\]\s*(?:#\[[^]]*\]\s*)*pub struct (\w+) \{(.*?)\}", text, re.S):
            fields = [tuple(x.strip() for x in f.replace("pub ", "").split(":", 1)) for f in split(m.group(2), ",")]
            found[struct_name(m.group(1))] = [field_in_c(name, kind) for name, kind in fields]
    return found


def field_in_c(name, kind):
    m = re.fullmatch(r"\[(\w+); (\d+)\]", kind)
    of = m.group(1) if m else kind
    return (NUMBERS.get(of) or f"struct {struct_name(of)}", f"{name}[{LENGTHS[m.group(2)]}]" if m else name)


def structs_of_header(text):
    found = {}
    for name, inside in re.findall(r"^struct (\w+) \{(.*?)^\};", text, re.M | re.S):
        found[name] = [tuple(" ".join(f.split()).rsplit(" ", 1)) for f in split(inside, ";")]
    return found


def structs_wrong(source, told):
    wrong = [f"{HEADER}: there is no struct {name}" for name in source if name not in told]
    for name in source:
        for n, (a, b) in enumerate(zip(source[name], told.get(name, []))):
            if a != b:
                wrong.append(f"{HEADER}: field {n + 1} of struct {name} is {' '.join(b)}, and in the source it is {' '.join(a)}")
        if name in told and len(source[name]) != len(told[name]):
            wrong.append(f"{HEADER}: struct {name} has {len(told[name])} fields, and in the source {len(source[name])}")
    return wrong


# ---- exchanges that have to be seen


def unseen_in_contracts(found):
    """Pairs of parameters of one type whose exchange in what is ensured would not be seen; and how many pairs there are."""
    pairs = [(e, a, b) for e in found for (a, k), (b, m) in combinations(e.parameters, 2) if k == m]
    missed = []
    for e, a, b in pairs:
        other = copy(e)
        other.ensures = exchanged(e.ensures, a, b)
        if other.ensures == e.ensures or not wrong_with(other):
            missed.append(f"{e.name}: {a} and {b} exchanged in its ensures would not be seen")
    return missed, len(pairs)


def exchanged(text, a, b):
    """Two names exchanged where they are given, not where they name a field."""
    return re.sub(rf"(?<![\w.])({a}|{b})(?!\w| =)", lambda m: b if m.group(0) == a else a, text)


def unseen_in_header(found, told, source):
    """The same of the parameters and fields that C is told of."""
    missed, count = [], 0
    for e in found:
        for a, b in combinations(range(len(told[e.name][1])), 2):
            inside = list(told[e.name][1])
            inside[a], inside[b] = inside[b], inside[a]
            count += 1
            if inside != told[e.name][1] and not told_wrong(e, {e.name: (told[e.name][0], inside)}):
                missed.append(f"{HEADER}: two parameters of {e.name} exchanged would not be seen")
    for name, fields in source.items():
        for a, b in combinations(range(len(fields)), 2):
            other = list(fields)
            other[a], other[b] = other[b], other[a]
            count += 1
            if not structs_wrong({name: fields}, {name: other}):
                missed.append(f"{HEADER}: two fields of struct {name} exchanged would not be seen")
    return missed, count


def main():
    manners.parser(__doc__).parse_args()
    found, text = exports(), header()
    told, source = prototypes(text), structs_of_source()
    wrong = [w for e in found for w in wrong_with(e) + told_wrong(e, told)] + unneeded(found) + structs_wrong(source, structs_of_header(text))
    wrong += [f"{HEADER}: {name} is declared, and not exported" for name in told if name not in {e.name for e in found}]
    wrong += thin_wrong(found)
    if not wrong:
        missed, pairs = unseen_in_contracts(found)
        more, others = unseen_in_header(found, told, source)
        wrong = missed + more
    for w in wrong:
        print(w)
    if not wrong:
        print(f"{len(found)} exports, {sum(len(leaves(e)) for e in found)} things given to their sentences by name, {len(EXCEPT)} exceptions; "
              f"{len(source)} structs; {pairs} exchanges in contracts and {others} in {HEADER}, all seen")
    sys.exit(1 if wrong else 0)


if __name__ == "__main__":
    manners.run(main)
