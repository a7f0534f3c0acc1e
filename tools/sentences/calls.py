"""The one table of names: for each call of include/denkumari.h the sentence that is its own, and its inputs by the names that the header has for them.

( .. ) is a record, its fields in the order in which the sentences declare them; { .. } one by these names; #N is case N of an enumeration; a number is
itself."""
import re

from .clauses import indices_of
from .running import Runner
from .values import Rec, Seq, value

TABLES = "(units starts bank_sizes bank_offsets aligns flags fill_bits kinds operands numbers states rows values %s fill %s)"
LENT = "(image addresses offsets sizes)"
CALLS = {
    "dk_build": "BuildSays " + TABLES % ("limit", "closed") + LENT,
    "dk_build_paged": "PagedSays " + TABLES % ("limit", "closed") + "page" + LENT,
    "dk_profile": "ProfileSays " + TABLES % (0, 0) + "page",
    "dk_map": "MapSays " + TABLES % ("limit", "closed") + "(banks_of positions outputs sizes)",
    "dk_form": "FormSays file fill" + LENT,
    "dk_form_paged": "FormPagedSays file fill page" + LENT,
    "dk_to_form2": "ConvertSays #0 file out",
    "dk_to_form1": "ConvertSays #1 file out",
    "dk_blocks": "DkBlocksSay offsets sizes block_offsets block_sizes",
    "dk_hex": "HexSays bytes bits hex",
    "dk_part": "PartSays image offset size",
    "dk_offer": "OfferSays (positions sizes count marks mark_count) {position size}",
    "dk_offers": "OffersSay (positions sizes count marks mark_count) offer_positions offer_sizes",
    "dk_overlay_range": "RangeSays overlay released offsets sizes first count",
    "dk_overlay_runs": "RunsSay overlay released offsets sizes firsts counts",
    "dk_verify": "VerifySays image offsets sizes bytes given_offsets given_sizes firsts counts kinds",
    "dk_write_hex": "HexSays (image offsets sizes load) text",
    "dk_write_srec": "SrecSays (image offsets sizes load) text width",
    "dk_read_records": "ReadSays format load text (bytes offsets sizes scratch)",
    "dk_record_extent": "ExtentSays format text scratch",
    "dk_record_reason": "DkReasonSays format load text scratch",
    "dk_record_fault": "FaultSays format load text scratch",
}
# "some good file begins so": no search finds that file (docs/RUNNING-SENTENCES.md)
NOT_RUN = ("dk_record_fault",)
LONG = ("dk_map", "dk_offer", "dk_offers")  # their lists have a fixed length in hundreds or thousands, so that fewer inputs are drawn


def parsed(text):
    """The sentence's name, and each input: a name, or the names of a record's fields with the bracket that they stand in."""
    name, rest = text.split(" ", 1)
    found = re.findall(r"\(([^)]*)\)|\{([^}]*)\}|([^\s(){}]+)", rest)
    return name, [("(", a.split()) if a else ("{", b.split()) if b else ("", c) for a, b, c in found]


class Call:
    """A call by its sentence: all outcomes that meet it."""
    def __init__(self, name, crates, texts=None):
        self.name = name
        sentence, self.inputs = parsed(CALLS[name])
        self.runner = Runner(crates, texts)
        self.definition, self.pred, self.mask, self.order = self.runner.query(sentence, len(self.inputs) + 1)
        d = self.definition
        self.kinds = [self.runner.kind(t, d.ctx) for t in [t for _, t, _ in d.given()] + [t for _, t in indices_of(d)]]
        self.function = self.runner.function(self.pred, self.mask)

    def given(self, inputs):
        """The sentence's arguments from the call's inputs, by their names."""
        def one(word):
            return inputs[word] if word in inputs else int(word)
        out = []
        for (bracket, words), kind in zip(self.inputs, self.kinds):
            if bracket:
                names = words if bracket == "{" else [p[0] for p in kind[1].parts]
                if len(names) != len(words):
                    raise ValueError("%s: %d fields are named and %d are declared" % (self.name, len(words), len(names)))
                out.append(value(dict(zip(names, map(one, words)))))
            else:
                out.append((kind[1].parts[int(words[1:])][0],) if words[0] == "#" else value(one(words)))
        return tuple(out)

    def outcomes(self, inputs):
        self.runner.clear()
        given = self.given(inputs)
        return [y for y, in self.runner.ask(self.function, [given[i] for i, known in zip(self.order, self.mask) if known])]

    def why(self, why, inputs, outcome, depth, *handed):
        """The reason of an outcome, a tree."""
        arguments = self.given(inputs) + (outcome,)
        return why.call(self.pred, tuple(arguments[i] for i in self.order), depth, *handed)

    def parts(self, outcome, kind=None):
        """An outcome as its answer and the lists behind it, in the order in which they are declared."""
        kind = kind or self.kinds[-1]
        if isinstance(outcome, tuple):
            return [x for y in outcome for x in self.parts(y)]
        if isinstance(outcome, Rec) and isinstance(kind, tuple) and kind[0] == "rec":
            d = kind[1]
            return [x for n, raw, _, _ in d.parts for x in self.parts(outcome.d[n], self.runner.kind(raw, d.ctx) or "none")]
        return [outcome.d if isinstance(outcome, Rec) else list(outcome) if isinstance(outcome, Seq) else outcome]
