"""What the tests share: the checkout, the C programs over the library, the models of oracle/, the native command."""
import os
import platform
import random
import shutil
import subprocess
import sys
from pathlib import Path

ROOT = Path(__file__).resolve().parents[3]
PACKAGE = ROOT / "bindings" / "python"
MADE = ROOT / "build" / "python"
EXAMPLES = sorted((ROOT / "examples").glob("*.form"))
SEED = int(os.environ.get("DENKUMARI_SEED", "1"))
HOW_MANY = int(os.environ.get("DENKUMARI_CASES", "400"))
sys.path.insert(0, str(PACKAGE))
sys.path.append("/usr/lib/python3/dist-packages")  # Debian's own packages, where another Python runs this

import denkumari  # noqa: E402
from denkumari import Kind, Layout, Refused  # noqa: E402


def draw(what):
    """A source of random numbers of its own for each test."""
    return random.Random(f"{SEED}/{what}")


def library():
    """What the C programs are linked with: the proved archive where it is built, else the library that the package loads."""
    archive = ROOT / "target" / "staticlib" / "libdenkumari.a"
    if archive.is_file() and platform.machine() == "x86_64":
        return archive
    return denkumari._c._library()


def program(name):
    """A program of bindings/c over the library, compiled once in each run."""
    made = MADE / "programs" / name
    if not made.is_file():
        made.parent.mkdir(parents=True, exist_ok=True)
        compiler = next(one for one in (os.environ.get("CC"), "cc", "gcc", "clang") if one and shutil.which(one))
        subprocess.run([compiler, "-std=c11", "-O1", "-o", str(made), str(ROOT / "bindings" / "c" / f"{name}.c"), str(library())], check=True)
    return str(made)


def answers(name, *words, given):
    """What a program of C answers, a line for each case."""
    return subprocess.run([program(name), *words], input=given, stdout=subprocess.PIPE, check=True).stdout.decode().splitlines()


def batched(files):
    return b"".join(len(file).to_bytes(4, "big") + file for file in files)


def command(*words):
    """The native command, which tools/layout compiled: its status and what it says."""
    found = sorted((ROOT / "build").glob("denkumari-" + "?" * 16), key=lambda path: path.stat().st_mtime)
    done = subprocess.run([str(found[-1]), *map(str, words)], stdout=subprocess.PIPE, stderr=subprocess.PIPE, check=False)
    return done.returncode, done.stdout.decode("utf-8", "replace"), done.stderr.decode()


def generated(what):
    """Files that oracle/generate.py draws; it wants a newer Python than the package does."""
    words = ["python3", "-c", f"import generate, sys; sys.stdout.buffer.write(generate.batched({what}))"]
    done = subprocess.run(words, cwd=ROOT / "oracle", env={**os.environ, "PYTHONDONTWRITEBYTECODE": "1"}, stdout=subprocess.PIPE, check=True).stdout
    at = 0
    while at < len(done):
        size = int.from_bytes(done[at:at + 4], "big")
        yield done[at + 4:at + 4 + size]
        at += 4 + size


def drawn_files(how_many):
    """Layout files of every family, damaged ones among them, in either form."""
    return [*generated(f"generate.drawn('{SEED}', i)[1] for i in range({how_many})"), *generated(f"generate.cases_of_form_2('{SEED}', {how_many})")]


def paged_files(how_many):
    return list(generated(f"generate.cases_in_pages('{SEED}', {how_many})"))


def some_layout(rng):
    """A layout that is made in Python, with the values that its items were given."""
    layout, told, at = Layout(limit=rng.choice([0, 1, 2, 10, 10])), {}, 0
    for _ in range(rng.randint(1, 3)):
        size = rng.choice([40, 64, 100, 800])
        layout.bank(rng.choice([8, 8, 10, 16]), rng.randint(-20, 40), size if rng.random() < .9 else None, at if rng.random() < .9 else None,
                    rng.choice([None, None, 16, 20]), rng.random() < .5, rng.random() < .3)
        at += size + rng.choice([0, 0, 8])
    layout.switch(1)
    for i in range(rng.randint(0, 16)):
        some_node(rng, layout, told, i)
    return layout, told


def some_node(rng, layout, told, i):
    which = rng.random()
    if which < .1:
        layout.switch(rng.randint(1, len(layout.banks) - 1))
    elif which < .3:
        layout.label(f"l{i}", rng.randint(0, 1))
    elif which < .7:
        bits = rng.choice([1, 8, 8, 10, 16, 24])
        value = rng.getrandbits(bits)
        told[layout.item(bits, value, f"i{i}", kind=rng.choice([Kind.INSTRUCTION, Kind.DATA, Kind.OPEN_DATA]), states=rng.choice([0, 0, 0, 1]))] = value
    elif which < .8:
        layout.reserve(rng.choice([0, 0, 8, 10]), f"r{i}")
    elif which < .9:
        layout.align(rng.choice([8, 16, 24, 0]))
    else:
        layout.addr(8 * rng.randint(0, 12))


def refusal(call, *given, **named):
    """What a call is refused with, or None."""
    try:
        call(*given, **named)
    except Refused as refused:
        return refused
    return None
