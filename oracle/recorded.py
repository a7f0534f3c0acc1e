#!/usr/bin/env python3
"""The models against answers that were recorded: recorded.py [--write] [--built]

oracle/replay/models.tsv has a line for each case: the model, the choices that it was given, its input in hexadecimal (of records.py the request itself)
and its answer. oracle/replay/cases.tsv has those of model.py (check.py, tools/replay). With --built the proved ones are asked too: the program behind
tools/map, and the library through the C programs of build/bindings, where bindings/build.sh has made them. With --write the list is made again from the
models as they are now, for when a document changes what is right."""

import io
import random
import re
import subprocess
import sys

import bench
import compare
import convert
import damage
import generate
import manners
import map as mapped
import model
import records

LIST = compare.HERE / "replay" / "models.tsv"
WORKED = manners.ROOT / "crates" / "meets_convert" / "specs" / "Theorems" / "Example.antt"
EACH = 50       # cases of a model, or a few more
LONGEST = 300   # bytes of a file


def files():
    """Files of the replay list, short ones, as many of each answer."""
    taken = {}
    for line in (compare.HERE / "replay" / "cases.tsv").read_text().splitlines():
        data, _, _, whole = line.split("\t")
        kind = compare.head(whole)
        if len(data) <= 2 * LONGEST and taken.get((kind, data[:2] == "10"), 0) < 3:
            taken[kind, data[:2] == "10"] = taken.get((kind, data[:2] == "10"), 0) + 1
            yield bytes.fromhex(data)


def worked():
    """The one-bank file of the theorems `example-to-form2` and `example-to-form1`, in form 1 and in form 2: the bytes that stand in their text."""
    text = WORKED.read_text()
    return [bytes(map(int, re.findall(r"\d+", re.search(rf"^{name} =$(.*?)\[\]$", text, re.M | re.S)[1]))) for name in ("in_form1", "in_form2")]


def worked_cases():
    """Each of them, and what the theorem says that it becomes."""
    one, two = worked()
    return ("--to 2", one.hex(), f"ok {two.hex()}"), ("--to 1", two.hex(), f"ok {one.hex()}")


def convert_cases():
    for choices, given, _ in worked_cases():
        yield choices, given
    for file in files():
        for to in (1, 2):
            yield f"--to {to}", file.hex()
        try:
            back = convert.to_form_2(file)
        except model.Refused:
            continue
        yield "--to 1", back.hex()
        yield "--to 1 --room 100", back.hex()


def map_cases():
    for file in files():
        for fill in (0, 1):
            yield f"{fill}", file.hex()


def bench_cases():
    rng = random.Random(1)
    for _ in range(2 * EACH):
        out = io.BytesIO()
        bench.write(bench.generate(rng), out)
        yield "-", out.getvalue().hex()


def records_cases():
    rng = random.Random(1)
    for _ in range(EACH):
        for request in damage.requests_for(*damage.damaged(rng), rng):
            yield "-", request
        yield "-", damage.random_write(rng)


def convert_answer(choices, given):
    words = choices.split()
    return convert.line(bytes.fromhex(given), int(words[1]), int(words[3]) if len(words) > 2 else None)


def map_answer(choices, given):
    return mapped.printed(bytes.fromhex(given), model.Choices(fill=int(choices))).replace("\n", "\\n")


def bench_answer(_, given):
    case, = bench.read(bytes.fromhex(given))
    return bench.line(case)


def records_answer(_, given):
    return records.answer(given)


def asked_of(start, *words, given):
    return subprocess.run([*start, *words], input=given, stdout=subprocess.PIPE, check=True).stdout.decode()


def of_c(program):
    """The words that start one of the C programs, or none where it is not built."""
    path = manners.ROOT / "build" / "bindings" / program
    return [str(manners.ROOT / "tools" / "run"), "--file", str(path)] if path.exists() else None


def built_convert(start, choices, cases):
    return asked_of(start, *choices.split(), given=generate.batched(map(bytes.fromhex, cases))).splitlines()


def built_map(start, choices, cases):
    return [asked_of(start, choices, given=bytes.fromhex(case)).replace("\n", "\\n") for case in cases]


def built_bench(start, _, cases):
    return asked_of(start, "--batch", given=b"".join(map(bytes.fromhex, cases))).splitlines()


def built_records(start, _, cases):
    return asked_of(start, given="".join(case + "\n" for case in cases).encode()).splitlines()


BUILT = {"convert.py": (lambda: of_c("batch"), built_convert), "map.py": (lambda: manners.command("mapper"), built_map),
         "bench.py": (lambda: of_c("overlays"), built_bench), "records.py": (lambda: of_c("records"), built_records)}
MODELS = {"convert.py": (convert_cases, convert_answer), "map.py": (map_cases, map_answer),
          "bench.py": (bench_cases, bench_answer), "records.py": (records_cases, records_answer)}


def made():
    """The lines of the list, from the models as they are."""
    for name, (cases, answer) in MODELS.items():
        for choices, given in dict.fromkeys(cases()):
            yield "\t".join((name, choices, given or "-", answer(choices, given)))


def recorded():
    """By model and choices: each input with its answer."""
    found = {}
    for line in LIST.read_text().splitlines():
        name, choices, given, said = line.split("\t")
        found.setdefault((name, choices), []).append((given.removeprefix("-"), said))
    return found


def compared(who, name, choices, cases, got):
    """How many answers are others than the recorded ones."""
    wrong = [(given, said, other) for (given, said), other in zip(cases, got, strict=True) if other != said]
    for given, said, other in wrong[:3]:
        print(f"{who}, {name} {choices} on {given[:200]}: {other[:200]} and not {said[:200]}")
    return len(wrong)


def main():
    parser = manners.parser(__doc__)
    parser.add_argument("--write", action="store_true")
    parser.add_argument("--built", action="store_true")
    asked = parser.parse_args()
    if asked.write:
        LIST.write_text("".join(line + "\n" for line in made()))
    counted, wrong, start = dict.fromkeys(MODELS, 0), 0, {}
    if asked.built:
        start = {name: words for name, (starts, _) in BUILT.items() if (words := starts())}
    found = recorded()
    for choices, given, said in worked_cases():
        if (given, said) not in found.get(("convert.py", choices), []):
            print(f"convert.py {choices}: the worked file of {WORKED.name} is not recorded as its theorem has it")
            wrong += 1
    for (name, choices), cases in found.items():
        counted[name] += len(cases)
        wrong += compared("the model", name, choices, cases, [MODELS[name][1](choices, given) for given, _ in cases])
        if name in start:
            wrong += compared("the proved one", name, choices, cases, BUILT[name][1](start[name], choices, [given for given, _ in cases]))
    if wrong or not all(counted.values()):
        print(f"{wrong} answers are not the recorded ones")
        sys.exit(1)
    print("recorded answers, all the models': " + ", ".join(f"{name} {n}" for name, n in counted.items()))
    if asked.built:
        print("recorded answers, all the proved programs' and the library's too: " + ", ".join(f"{name} {counted[name]}" for name in start))


if __name__ == "__main__":
    manners.run(main)
