"""A row for each exported call, beside what does the same, or something of the same size, where there is such a thing."""

import subprocess
from dataclasses import dataclass
from pathlib import Path

from benchmark_count import Differ, each, instructions, manners, times
from benchmark_layouts import Bank, DATA, SWITCH, Layout, mixed_a, mixed_b, offers, wide
from benchmark_stack import promised
from form1 import encode
from generate import batched

RUST = [f"customasm::asm::{name}" for name in ("output::check_bank_overlap", "resolver::resolve_iteratively", "output::build_output")]
LOADED = bytes(i % 251 for i in range(65_536))


@dataclass
class Row:
    call: str               # as bindings/c/calls_time.c has it
    given: str              # in words
    layout: str = ""        # one of `layouts`
    beside: str = ""        # what stands beside it, in words
    same: str = ""          # the call of the C program or the Rust one that does it; "build" are the Rust's own functions in the judge
    tool: str = ""          # or a tool, from one file to another


def layouts():
    """The layout files, by name."""
    def filled(bit, flag):
        banks = [Bank(), Bank(size=131_072, offset=0, fill=flag, fill_bit=bit)]
        return encode(Layout(banks, [(SWITCH, 1), (DATA, 0)], [[(0, 0), (8, 0)]], b"\x5a", 10, 2))
    made = {"wide": wide(), "offers": offers(), "mixed A": mixed_a(), "mixed A, cut": mixed_a(3_580), "mixed B": mixed_b()}
    second = mixed_a(3_580)
    second.form = 2
    return {**{name: encode(layout) for name, layout in made.items()}, "mixed A, cut, form 2": encode(second),
            "filled with ones": filled(1, True), "filled with zeros": filled(0, True), "no fill": filled(0, False)}


# calls that read what they come to need, so that no limit is told of them
UNBOUND = ("dk_part", "dk_offer", "dk_offers")
ORDERS = {"rising": "in order", "falling": "in reverse", "shuffled": "shuffled"}
ROWS = (
    [Row("dk_build", name, name, "the Rust's own functions", "build") for name in ("wide", "offers", "mixed A", "mixed B")]
    + [Row("dk_build", f"an image of 16 KiB, {name}", name, "memset of it", "memset") for name in ("no fill", "filled with zeros", "filled with ones")]
    + [Row("dk_form", name, name, "dk_build of its tables", "dk_build") for name in ("wide", "offers", "mixed A, cut", "mixed B")]
    + [Row("dk_build_paged", "mixed A", "mixed A", "dk_build", "dk_build"),
       Row("dk_form_paged", "mixed A, cut", "mixed A, cut", "dk_form", "dk_form"),
       Row("dk_profile", "mixed A", "mixed A", "dk_build", "dk_build"),
       Row("dk_to_form2", "mixed A, cut", "mixed A, cut", "memcpy of the file", "memcpy"),
       Row("dk_to_form1", "mixed A, cut, form 2", "mixed A, cut, form 2", "memcpy of the file", "memcpy")]
    + [Row(f"dk_blocks:{order}", f"4,096 spans {words}", "", "the Rust's get_blocks", f"dk_blocks:{order}")
       for order, words in {**ORDERS, "one": "all at one offset"}.items()]
    + [Row("dk_hex", "131,072 bits", "", "the Rust's LowerHex", "dk_hex"), Row("dk_part", "a block of 1 KiB")]
    + [Row(f"dk_offer:{order}", f"512 calls, {words}", "", "512 of the Rust's check_and_insert", f"dk_offer:{order}") for order, words in ORDERS.items()]
    + [Row(f"dk_offers:{order}", f"512 offers, {words}", "", "512 of the Rust's check_and_insert", f"dk_offer:{order}") for order, words in ORDERS.items()]
    + [Row("dk_overlay_range", "64 bytes, 256 blocks"),
       Row("dk_overlay_runs:last", "1 MiB covered, the last byte differs", "", "memcmp of 1 MiB", "memcmp"),
       Row("dk_overlay_runs:every", "1 MiB covered, each 4,096th byte differs", "", "memcmp of 1 MiB", "memcmp"),
       Row("dk_overlay_runs:sixteenth", "64 KiB of 1 MiB covered, none differs", "", "memcmp of 1 MiB", "memcmp"),
       Row("dk_verify", "1 MiB in 256 blocks, the last byte differs", "", "memcmp of 1 MiB", "memcmp")]
    + [Row(call, given, "", tool, "", tool) for call, given, tools in (
        ("dk_write_hex", "64 KiB", ("objcopy", "srec_cat")), ("dk_write_srec", "64 KiB", ("objcopy", "srec_cat")),
        ("dk_read_records:hex", "64 KiB, Intel HEX", ("objcopy", "srec_cat")), ("dk_read_records:srec", "64 KiB, S-records", ("objcopy", "srec_cat")))
       for tool in tools]
    + [Row("dk_record_extent:hex", "64 KiB, Intel HEX", "", "dk_record_fault", "dk_record_fault:hex"),
       Row("dk_record_extent:srec", "64 KiB, S-records", "", "dk_record_fault", "dk_record_fault:srec"),
       Row("dk_record_fault:hex", "64 KiB, Intel HEX", "", "dk_read_records", "dk_read_records:hex"),
       Row("dk_record_fault:srec", "64 KiB, S-records", "", "dk_read_records", "dk_read_records:srec"),
       Row("dk_record_reason:hex", "64 KiB, Intel HEX, no end record", "", "dk_record_fault", "dk_record_fault:hex"),
       Row("dk_record_reason:srec", "64 KiB, S-records, no end record", "", "dk_record_fault", "dk_record_fault:srec"),
       Row("dk_map", "mixed A", "mixed A", "dk_build", "dk_build")])


class Bench:
    def __init__(self, ours, rust, room):
        self.ours, self.rust, self.room = ours, rust, Path(room)
        self.files, self.known = layouts(), {}
        for name, file in self.files.items():
            (self.room / name).write_bytes(file)
        program = Path(__file__).parent / "rust" / "calls_time.rs"
        subprocess.run(["rustc", "--edition", "2021", "-C", "opt-level=3", "--extern", f"customasm={rust}/libcustomasm.rlib",
                        "-o", rust / "calls_time", program], check=True)

    def run(self, program, call, layout):
        """Makes a call so many times, by one of the two programs."""
        return lambda n: ([str(program), call, str(n)] + [str(self.room / layout)] * bool(layout), b"")

    def counted(self, run):
        command = " ".join(run(1)[0])
        if command not in self.known:
            self.known[command] = each(run)
        return self.known[command]

    def timed(self, pairs, turns):
        """Microseconds of one of each; of a row that has the same call as the row before, those that it has."""
        key = tuple(" ".join(run(1)[0]) for run, _ in pairs)
        if key not in self.known:
            self.known[key] = times([run for run, _ in pairs], [cost for _, cost in pairs], turns)
        return self.known[key]

    def tool_cost(self, row):
        """A tool's instructions for the 64 KiB less those for 16 bytes. It reads the text that ours reads, and it reads what ours wrote: to the same bytes."""
        kind, text, back = "srec" if "srec" in row.call else "hex", self.room / "text", self.room / "back.bin"
        ours = [str(self.ours / "calls_time")]
        subprocess.run(ours + [f"dk_write_{kind}", "1", text], check=True, stdout=subprocess.DEVNULL)
        binary, few, few_text = self.room / "all.bin", self.room / "few.bin", self.room / "few.text"
        binary.write_bytes(LOADED)
        few.write_bytes(LOADED[:16])
        instructions(tool_command(row.tool, kind, few, few_text, True))
        read = instructions(tool_command(row.tool, kind, text, back, False))[0]
        if back.read_bytes() != LOADED:
            raise Differ(f"dk_write_{kind}: {row.tool} reads other bytes")
        if "write" in row.call:
            return (instructions(tool_command(row.tool, kind, binary, self.room / "made", True))[0]
                    - instructions(tool_command(row.tool, kind, few, few_text, True))[0])
        subprocess.run(ours + [row.call, "1", back], check=True, stdout=subprocess.DEVNULL)
        if back.read_bytes() != LOADED:
            raise Differ(f"{row.call}: other bytes")
        return read - instructions(tool_command(row.tool, kind, few_text, back, False))[0]

    def once(self, row):
        """Instructions of reading once what a call must read and writing once what it must write; None where that depends on what the call finds."""
        if row.call.split(":")[0] in UNBOUND:
            return None
        return self.counted(self.run(self.ours / "calls_time", f"once:{row.call}", row.layout))[0]

    def beside(self, row, said):
        """Instructions of what stands beside a call, and how to run it, if it can be timed."""
        if row.tool:
            return self.tool_cost(row), None
        if row.same == "build":
            judge = [str(self.rust / "judge"), "--raw"]
            return each(lambda n: (judge, batched([self.files[row.layout]] * n)), RUST)[0], None
        rust = "Rust" in row.beside
        run = self.run((self.rust if rust else self.ours) / "calls_time", row.same, row.layout)
        cost, other = self.counted(run)
        if rust and other != said:
            raise Differ(f"{row.call}: the sides give {said} and {other}")
        return cost, run


def tool_command(tool, kind, source, target, writes):
    """Binary to records, or back."""
    if tool == "objcopy":
        name = {"hex": "ihex", "srec": "srec"}[kind]
        return ["objcopy", "-I", "binary" if writes else name, "-O", name if writes else "binary", "--srec-forceS3", source, target]
    name = {"hex": "-intel", "srec": "-motorola"}[kind]
    return ["srec_cat", source, "-binary" if writes else name, "-o", target, name if writes else "-binary"] + (
        ["-address-length=4", "-output_block_size=16"] if writes else [])


def ratio(ours, theirs):
    if not theirs:
        return ""
    return f"{ours / theirs:.3f}" if ours < theirs / 50 else f"{ours / theirs:.2f}"


def number(value):
    return f"{value:,.0f}" if value >= 100 else f"{value:.3g}"


def call_rows(ours, rust, turns):
    missing = set(promised()) - {row.call.split(":")[0] for row in ROWS}
    if missing:
        raise Differ(f"bindings/benchmark_calls.py has no row for {sorted(missing)}")
    yield "| call | on | instructions | once | beside it | instructions | ratio | µs | beside it, µs | ratio |"
    yield "|---|---|---|---|---|---|---|---|---|---|"
    with manners.room() as room:
        bench = Bench(ours, rust, room)
        for row in ROWS:
            run = bench.run(ours / "calls_time", row.call, row.layout)
            cost, said = bench.counted(run)
            other, run_other = bench.beside(row, said) if row.beside else (None, None)
            spent = bench.timed([(run, cost)] + [(run_other, other)] * bool(run_other), turns)
            once = bench.once(row)
            cells = [row.call.split(":")[0], row.given, f"{cost:,.0f}", f"{once:,.0f}" if once else "", row.beside]
            cells += [f"{other:,.0f}", ratio(cost, other)] if other else ["", ""]
            cells += [number(spent[0])] + ([number(spent[1]), ratio(*spent)] if run_other else ["", ""])
            yield f"| {' | '.join(cells)} |"


if __name__ == "__main__":
    manners.part(__doc__)
