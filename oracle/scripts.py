#!/usr/bin/env python3
"""The manners of every script of tools/, command/, oracle/, bindings/, web/ and .ci/: scripts.py [NAME ..]

Each prints its --help and does nothing else, also through a symlink, from another directory and with CDPATH set; refuses an option that there is not with
status 2 and a line on standard error; has no traceback for a file that is not there, a folder in a file's place, a closed pipe or a full disk; and leaves no
temporary folder behind, whatever signal ends it. Then the tools once more from a copy of the repository whose path has blanks. NAME is a script, all of
them unless said."""

import os
import shutil
import signal
import subprocess
import sys
import tempfile
import time
from concurrent.futures import ThreadPoolExecutor
from pathlib import Path

import manners

ROOT = manners.ROOT
FOLDERS = ("tools", "command", "portable", "oracle", "bindings", "web", ".ci")
SIGNALS = (signal.SIGINT, signal.SIGTERM, signal.SIGHUP)
NOWHERE = "no such folder/no such file"
FORM = "examples/worked.form"

# Calls with FILE in a file's place; the rest of the words is good.
FILES = """
tools/layout FILE
tools/map FILE
tools/map --html FILE
tools/ihex FILE
tools/srec FILE
tools/convert FILE --to 2
tools/rehex FILE --to hex
tools/bench FILE FILE
tools/words FILE refused\u00a01\u00a00
tools/form FILE
tools/form --make FILE
tools/compare FILE FILE
tools/run --file FILE
tools/release --gate FILE
oracle/edit.py FILE FILE
oracle/build.sh --edit FILE
oracle/mutants.py FILE
bindings/test.sh FILE
bindings/python/test.sh FILE
oracle/models.sh FILE
"""
# Calls that read standard input, which is a folder, or closed.
STDIN = """
tools/layout
tools/map -
tools/ihex -
tools/srec -
tools/convert - --to 2
tools/rehex - --to hex
tools/form -
oracle/model.py
oracle/model.py --batch
oracle/convert.py --to 2
oracle/map.py
oracle/bench.py --expected
oracle/records.py --batch
oracle/form1.py
"""
# Calls that write an answer, which nobody reads, from standard input that is a sound file of form 1.
ANSWERS = """
tools/layout
tools/map -
tools/map --svg -
tools/map --html -
tools/ihex examples/banks.form
tools/srec examples/banks.form
tools/convert - --to 2
tools/form -
tools/compare examples/worked.form examples/banks.form
tools/compare --svg examples/worked.form examples/worked.form
tools/words examples/clamp-mark-after.form refused\u00a012\u00a00\u00a0128
tools/run --command LAYOUT
oracle/model.py
oracle/model.py --line
oracle/convert.py --to 2
oracle/map.py
oracle/form1.py
oracle/sequencer.py
oracle/examples.py --table
oracle/generate.py 1 40 --batch
oracle/bench.py --generate 1 40
oracle/damage.py --requests --every 0 --random 40 --writes 40
"""
# Calls that have a temporary folder for a while.
LASTING = """
tools/map --svg -
tools/map --html -
tools/replay
tools/citations
tools/lint
oracle/tools.sh
oracle/programs.py --cases 5000 rehex
"""
EVERY_SIGNAL = ("tools/map", "oracle/programs.py")


def calls(text, chosen, file=""):
    """The words of each call of a chosen script; a no-break space stands for a blank in a word."""
    for line in text.strip().splitlines():
        named = {"FILE": file, "LAYOUT": manners.crates()["layout"]}
        words = [named.get(word, word).replace("\u00a0", " ") for word in line.split(" ")]
        if words[0] in chosen:
            yield words


def scripts():
    for folder in FOLDERS:
        for path in sorted((ROOT / folder).rglob("*")):
            # a module of a package cannot be started
            is_module = (path.parent / "__init__.py").exists() or path.name == "setup.py"  # that one is setuptools' own
            if path.is_file() and not is_module and "rust" not in path.parts and "__pycache__" not in path.parts:
                head = path.read_bytes()[:40].split(b"\n")[0]
                if path.suffix in (".sh", ".py") or head in (b"#!/bin/sh", b"#!/usr/bin/env python3"):
                    yield path


def start_of(path):
    """The words that start a script, which need not be one that can be started by itself."""
    if os.access(path, os.X_OK):
        return [str(path)]
    return [sys.executable if path.suffix == ".py" else "sh", str(path)]


class Trial:
    """A place of its own for a call: a directory to start in, a folder for temporary ones, and what is said of it."""

    def __init__(self, room):
        self.room = Path(tempfile.mkdtemp(dir=room))
        self.temporary, self.start = self.room / "temporary", self.room / "start"
        self.temporary.mkdir()
        self.start.mkdir()
        self.environment = {**os.environ, "TMPDIR": str(self.temporary), "CDPATH": f".:{ROOT}:/"}

    def run(self, words, start=None, stdin=subprocess.DEVNULL, stdout=subprocess.PIPE, closed=""):
        words = ["sh", "-c", f'exec "$@" {closed}', "sh", *words] if closed else words
        return subprocess.run(words, cwd=start or self.start, env=self.environment, stdin=stdin, stdout=stdout, stderr=subprocess.PIPE,
                              check=False, timeout=600)

    def left(self):
        return [path.name for folder in (self.temporary, self.start) for path in folder.iterdir()]


def faulty(said):
    return b"Traceback" in said or b"Exception ignored" in said


def helped(room, path):
    """--help, in every way of being called, and an option that there is not."""
    trial, name = Trial(room), path.relative_to(ROOT)
    done = trial.run([*start_of(path), "--help"])
    if done.returncode or not done.stdout.strip() or done.stderr or trial.left():
        yield f"{name} --help: status {done.returncode}, {len(done.stdout)} bytes, {done.stderr[-200:]!r}, leaves {trial.left()}"
    link = trial.room / "a link"
    link.mkdir()
    (link / path.name).symlink_to(path)
    again = trial.run([*start_of(path)[:-1], f"a link/{path.name}", "--help"], start=trial.room)
    if (again.returncode, again.stdout, again.stderr) != (0, done.stdout, b""):
        yield f"{name} --help through a symlink: status {again.returncode}, {again.stderr[-200:]!r}"
    again = trial.run([*start_of(path)[:-1], str(name), "--help"], start=ROOT) if path.suffix != ".py" else done
    if (again.returncode, again.stdout, again.stderr) != (0, done.stdout, b""):
        yield f"{name} --help with CDPATH: status {again.returncode}, {again.stderr[-200:]!r}"
    with open("/dev/full", "wb") as full:
        again = trial.run([*start_of(path), "--help"], stdout=full)
    if again.returncode != 2 or faulty(again.stderr):
        yield f"{name} --help on a full disk: status {again.returncode}, {again.stderr[-200:]!r}"
    again = trial.run([*start_of(path), "--help"], closed=">&-")
    if again.returncode != 2 or faulty(again.stderr):
        yield f"{name} --help with standard output closed: status {again.returncode}, {again.stderr[-200:]!r}"
    done = trial.run([*start_of(path), "--no-such-option"])
    if done.returncode != 2 or done.stdout or not done.stderr or faulty(done.stderr) or trial.left():
        yield f"{name} --no-such-option: status {done.returncode}, {done.stdout[-200:]!r}, {done.stderr[-200:]!r}, leaves {trial.left()}"


def refused(room, words, how, **given):
    """A call that ends with status 2 and says why in a line or two."""
    trial = Trial(room)
    done = trial.run([*start_of(ROOT / words[0]), *words[1:]], **given)
    if done.returncode != 2 or not done.stderr or faulty(done.stderr) or trial.left():
        yield f"{' '.join(words)}, {how}: status {done.returncode}, {done.stderr[-300:]!r}, leaves {trial.left()}"


def unread(room, words):
    """An answer that nobody reads: no status of success, and no traceback."""
    trial, (reader, writer) = Trial(room), os.pipe()
    os.close(reader)
    with os.fdopen(writer, "wb") as pipe, open(ROOT / FORM, "rb") as given:
        done = trial.run([*start_of(ROOT / words[0]), *words[1:]], start=ROOT, stdin=given, stdout=pipe)
    if done.returncode == 0 or faulty(done.stderr) or trial.left():
        yield f"{' '.join(words)} into a closed pipe: status {done.returncode}, {done.stderr[-300:]!r}, leaves {trial.left()}"


def ended(room, words, number):
    """A call that a signal ends: its temporary folder goes with it."""
    trial, name = Trial(room), f"{' '.join(words)}, signal {number}"
    running = subprocess.Popen([*start_of(ROOT / words[0]), *words[1:]], cwd=ROOT, env=trial.environment, stdin=subprocess.PIPE,
                               stdout=subprocess.DEVNULL, stderr=subprocess.PIPE, start_new_session=True,
                               preexec_fn=lambda: [signal.signal(one, signal.SIG_DFL) for one in SIGNALS])
    until, seen = time.monotonic() + 60, []
    while not seen and running.poll() is None and time.monotonic() < until:
        time.sleep(0.01)
        # a folder: Python tries the place with a file first
        seen = [path.name for path in trial.temporary.iterdir() if path.is_dir()]
    running.send_signal(number)
    try:
        status = running.wait(60)
    except subprocess.TimeoutExpired:
        yield f"{name}: goes on for 60 seconds"
        os.killpg(running.pid, signal.SIGKILL)
        status = running.wait()
    running.stdin.close()
    said = running.stderr.read()
    running.stderr.close()
    if not seen or status not in (128 + number, -number) or faulty(said) or trial.left():
        yield f"{name}: status {status}, {said[-300:]!r}, had {seen}, leaves {trial.left()}"


def with_blanks(room):
    """The tools from a copy whose path has blanks."""
    trial = Trial(room)
    copy = trial.room / "a path with blanks"
    copy.mkdir()
    for name in ("tools", "command", "portable", "oracle", "bindings", "examples", "include", "docs", "crates", "crates.txt", "KIT", "web", ".ci"):
        source = ROOT / name
        if source.is_dir():
            shutil.copytree(source, copy / name, ignore=shutil.ignore_patterns("__pycache__", "target", *(["out"] if name == "crates" else [])))
        else:
            shutil.copy2(source, copy / name)
    for name in ("bin", "sum", "staticlib"):
        if (ROOT / "target" / name).is_dir():
            shutil.copytree(ROOT / "target" / name, copy / "target" / name)
    tried = [("tools/layout", FORM), ("tools/map", "--svg", "examples/sequencer.form"),
             ("tools/map", "--html", "examples/sequencer.form"), ("tools/ihex", "examples/banks.form"), ("tools/form", FORM),
             ("tools/compare", FORM, FORM),
             ("tools/words", "examples/clamp-mark-after.form", "refused 12 0 128"), ("tools/statements",), ("oracle/check.py",),
             ("oracle/programs.py", "--cases", "3")]
    # the command is compiled there by a run of its own, which may say so
    trial.run([str(copy / "tools" / "layout"), "--help"])
    for words in tried:
        here, there = ([trial.run([*start_of(root / words[0]), *words[1:]], start=root) for root in (ROOT, copy)])
        if (here.returncode, here.stdout, here.stderr) != (there.returncode, there.stdout, there.stderr) or here.returncode:
            yield f"{' '.join(words)} in a path with blanks: {there.returncode}, {there.stdout[-200:]!r}, {there.stderr[-300:]!r}"
    link = trial.room / "layout of a link"
    link.symlink_to(copy / "tools" / "layout")
    done = trial.run([str(link), str(ROOT / FORM)], start="/")
    if done.returncode or done.stdout != trial.run([str(ROOT / "tools" / "layout"), FORM], start=ROOT).stdout:
        yield f"tools/layout through a symlink: {done.returncode}, {done.stderr[-300:]!r}"
    if not (copy / "target" / "staticlib").is_dir():
        print("left out: the bindings in a path with blanks, since the archive is not built (bindings/build.sh)")
    elif shutil.which("cc") and os.uname().machine == "x86_64":
        trial.environment["RUSTC"] = "/no such rustc"
        done = trial.run([str(copy / "bindings" / "test.sh"), "5"])
        if done.returncode or b"C, records: " not in done.stdout:
            yield f"bindings/test.sh in a path with blanks: {done.returncode}, {done.stdout[-300:]!r}, {done.stderr[-300:]!r}"


def trials(room, names):
    """Everything that is tried, each as a function without arguments that says what is wrong."""
    wanted = [ROOT / name for name in names] or list(scripts())
    chosen = {str(path.relative_to(ROOT)) for path in wanted}
    for path in wanted:
        yield lambda path=path: helped(room, path)
    for file, how in ((NOWHERE, "no such file"), (str(ROOT / "examples"), "a folder")):
        for words in calls(FILES, chosen, file):
            yield lambda words=words, how=how: refused(room, words, how)
    for words in calls(STDIN, chosen):
        yield lambda words=words: refused(room, words, "standard input closed", closed="<&-")
        # a folder there stops Python itself, before any script
        if ".py" not in words[0] and words[0] != "tools/form":
            yield lambda words=words: refused(room, words, "standard input a folder", stdin=os.open(ROOT, os.O_RDONLY))
    for words in calls(ANSWERS, chosen):
        yield lambda words=words: unread(room, words)
    for words in calls(LASTING, chosen):
        for number in SIGNALS if words[0] in EVERY_SIGNAL else SIGNALS[1:2]:
            yield lambda words=words, number=number: ended(room, words, number)
    if chosen == {str(path.relative_to(ROOT)) for path in scripts()}:
        yield lambda: with_blanks(room)


def main():
    parser = manners.parser(__doc__)
    parser.add_argument("names", nargs="*", metavar="NAME")
    asked = parser.parse_args()
    there = {str(path.relative_to(ROOT)) for path in scripts()}
    for name in set(asked.names) - there:
        parser.error(f"there is no script {name}")
    for role in ("layout", "mapper", "station", "rehex", "converter"):
        manners.command(role)
    with manners.room() as room, ThreadPoolExecutor(2) as pool:
        found = [wrong for each in pool.map(lambda trial: list(trial()), trials(room, asked.names)) for wrong in each]
    print("\n".join(found) or f"{len(asked.names or there)} scripts, all as they should be")
    sys.exit(1 if found else 0)


if __name__ == "__main__":
    manners.run(main)
