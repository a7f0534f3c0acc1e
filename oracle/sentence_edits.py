#!/usr/bin/env python3
"""Wrong sentences, one at a time: each change below is made to a copy of crates/says in memory, the sentences are run, and an answer has to change.

    oracle/sentence_edits.py [--inputs N]

An edit of must-fail/ is refused by the check of its own crate, and crates/says has no theorem: there the sentences stand alone. So what a wrong sentence would
say is seen by running it (tools/sentences) on inputs from a seed, N of them at most, and on the edges of oracle/sentences_edges.py, until its outcomes differ
from those of the sentence as it stands: another outcome, none, or more than one. Ends with 1 where a change is not seen, where its text does not stand in its
file once, and where a sentence that was not changed seems to be."""
import sys
from itertools import chain

import manners

sys.path.insert(0, str(manners.ROOT / "tools"))
from sentences.calls import Call  # noqa: E402
from sentences.values import Floundered, plain  # noqa: E402
from sentences_edges import edges  # noqa: E402
from sentences_inputs import inputs  # noqa: E402

SAYS = manners.ROOT / "crates" / "says" / "specs"
# what the changed sentence says: the call, the file, what stands there and what stands there instead
EDITS = [
    ("of equal spans the later one is taken first", "dk_blocks", "Blocks",
     "((get_or offsets i 0 ≡ get_or offsets j 0) × (i < j))", "((get_or offsets i 0 ≡ get_or offsets j 0) × (j < i))"),
    ("found blocks are told with a refusal's number", "dk_blocks", "Blocks", "record { refusal = 0; place = 0; count = length b }",
     "record { refusal = 1; place = 0; count = length b }"),
    ("two sized banks that share one bit are apart", "dk_build", "Banks",
     "Size' n → p < o + m → o < p + n → Meet", "Size' n → p + 1 < o + m → o < p + n → Meet"),
    ("hex in upper case", "dk_hex", "Hex", "char ≡ 97 + i", "char ≡ 65 + i"),
    ("a part told one byte on", "dk_part", "Part", "located : {first count : ℕ} → offset ≡ 8 * first", "located : {first count : ℕ} → offset + 8 ≡ 8 * first"),
    ("a reserve may end past its bank's size", "dk_build", "Build", "Placed i = (i < nodes) × ((kind i ≡ 2) ⊎ ((4 ≤ kind i) × (kind i ≤ 7)))",
     "Placed i = (i < nodes) × ((kind i ≡ 2) ⊎ ((4 ≤ kind i) × (kind i ≤ 6)))"),
    ("sixteen banks are refused", "dk_build", "Build", "too_many : 16 < banks", "too_many : 15 < banks"),
    ("the states of reserves, aligns, addrs and asserts are not read", "dk_build", "Build", "by_state : {i r : ℕ} → i < nodes → 3 ≤ kind i",
     "by_state : {i r : ℕ} → i < nodes → kind i ≤ 6"),
    ("a skip's whole units are rounded up", "dk_build", "Build",
     "(at.lost.units + d / unit b)", "(at.lost.units + (d + unit b - 1) / unit b)"),
    ("on the way back a bank loses its flags with its fill bit", "dk_to_form1", "Convert", "each_bank (take 23) h", "each_bank (take 22) h"),
    ("bank 0 of a converted one-bank file keeps the first byte of its size", "dk_to_form2", "Convert",
     "(take 10 (get_or h.banks 0 []) ++ replicate 14 0)", "(take 11 (get_or h.banks 0 []) ++ replicate 13 0)"),
    ("a form 2 file may use bank 0 where it is alone", "dk_form", "Form", "closes form-2 = 1", "closes form-2 = 0"),
    ("a broken file is told with place 0, whichever its field", "dk_form_paged", "FormPaged",
     "Is (broken_at file fill old i) y", "Is (broken_at file fill old 0) y"),
    ("5 shows the node at fault too, which sees no position", "dk_map", "Map", "before : UpTo i 5 i", "before : UpTo i 5 (suc i)"),
    ("the node at fault of 9 to 13 is not told", "dk_map", "Map",
     "Shows n r (suc i) number place second i y", "Shows n r (suc i) number place second no_node y"),
    ("a list that has room for just the runs is too short", "dk_overlay_runs", "Overlay", "TooShort fs ns = (length firsts₀ < length fs)",
     "TooShort fs ns = (length firsts₀ ≤ length fs)"),
    ("a byte counts as covered when seven of its bits are", "dk_overlay_runs", "Overlay", "CoveredByte b = (k : ℕ) → 8 * b ≤ k → k < 8 * b + 8",
     "CoveredByte b = (k : ℕ) → 8 * b ≤ k → k < 8 * b + 7"),
    ("a byte that is not given is passed over", "dk_verify", "Verify", "one : Missing b → Of b 1", "one : Missing b → Different b → Of b 1"),
    ("the last byte of a block is not given", "dk_verify", "Verify",
     "(get_or given_offsets i 0 ≤ 8 * b) × (8 * b + 8 ≤ get_or given_offsets i 0",
     "(get_or given_offsets i 0 ≤ 8 * b) × (8 * b + 16 ≤ get_or given_offsets i 0"),
    ("19 comes after the first pass", "dk_build_paged", "Paged", "refusal g old 19 rule at 0", "refusal g old 19 rule at 1"),
    ("a bank without an offset has 0 pages", "dk_profile", "Profile", "Offset g b o → ⊥) → Pages b 18446744073709551615", "Offset g b o → ⊥) → Pages b 0"),
    ("the highest address of a file is told as its end", "dk_record_extent", "Extent", "told 0 lowest (highest + 1)", "told 0 lowest highest"),
    ("the lowest address of a file is any that it gives", "dk_record_extent", "Extent", "First (GivenTo ps) lowest", "GivenTo ps lowest"),
    ("a line that begins at the load address is told as below it", "dk_record_reason", "Reason", "0 < length p.bytes → p.address < load",
     "0 < length p.bytes → p.address ≤ load"),
    ("the checksum that should be there may be 256 and more", "dk_record_reason", "Reason", "hex : format ≡ 0 → c < 256", "hex : format ≡ 0 → c < 512"),
    ("a line too short to have a count is held against a record of count 0", "dk_record_reason", "Reason", "m ≡ bare + 2 * least → Long bare least m",
     "m ≡ bare + 0 * least → Long bare least m"),
    ("an S-record's checksum is the two's complement", "dk_write_srec", "Records", "check ≡ 255 - total (count ∷ field ++ bytes) % 256",
     "check ≡ (256 - total (count ∷ field ++ bytes) % 256) % 256"),
    ("the bytes of an Intel HEX record sum to one", "dk_write_hex", "Records", "total (length bytes ∷ high ∷ low ∷ type ∷ bytes ++ check ∷ []) % 256 ≡ 0",
     "total (length bytes ∷ high ∷ low ∷ type ∷ bytes ++ check ∷ []) % 256 ≡ 1"),
    ("a byte given twice is let through when the two are equal", "dk_read_records", "Read", "Gives ps j a c → i ≡ j) → Good text ps",
     "Gives ps j a c → (i ≡ j) ⊎ (b ≡ c)) → Good text ps"),
    ("a refused call hands counts of 0 back", "dk_offer", "Store", "count = s.count; marks = s.mark_count };", "count = 0; marks = 0 };"),
    ("13 is given for a store of 511 intervals", "dk_offer", "Store", "Full = ((0 < e.size) × (s.count ≡ 512))", "Full = ((0 < e.size) × (s.count ≡ 511))"),
]


def outcomes(call, given):
    try:
        return [plain(outcome) for outcome in call.outcomes(given)]
    except (Floundered, RecursionError):
        return "cannot be run"


def seen(call, file, old, new, most):
    """After how many inputs the change is seen; 0 where it is not; a text where it cannot be made."""
    path = SAYS / (file + ".antt")
    text = path.read_text(encoding="utf-8")
    if text.count(old) != 1:
        return "its text does not stand in %s.antt once" % file
    right, wrong = Call(call, manners.ROOT / "crates"), Call(call, manners.ROOT / "crates", {path: text.replace(old, new)})
    for n, given in enumerate(chain(inputs(call, "edits", most), edges(call)), 1):
        if outcomes(right, given) != outcomes(wrong, given):
            return n
    return 0


def main():
    parser = manners.parser(__doc__)
    parser.add_argument("--inputs", type=manners.some, default=1500)
    most = parser.parse_args().inputs
    unseen = 0
    for call, file, old in {call: (call, file, old) for _, call, file, old, _ in EDITS}.values():
        if seen(call, file, old, old, 3):
            raise manners.Stop("%s: a difference is seen where nothing was changed" % call)
    for what, call, file, old, new in EDITS:
        found = seen(call, file, old, new, most)
        if not isinstance(found, int) or not found:
            print("%s: %s: %s" % (call, what, found or "not seen in %d inputs" % most))
            unseen += 1
    print("wrong sentences: %d of %d change an answer" % (len(EDITS) - unseen, len(EDITS)))
    sys.exit(1 if unseen else 0)


if __name__ == "__main__":
    manners.run(main)
