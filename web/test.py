#!/usr/bin/env python3
"""Tests the page: web/test.py [--files N] [--pictures FOLDER]

The page is what the sources make (web/build.py); in node it says what the command says, of the examples and of random and damaged layout files
(web/test_core.js); in Chromium files are dropped on it, found, compared, saved and printed (web/test_browser.js), with pictures for people into FOLDER. What
this machine has no node or Chromium for is left out, and a line says so. Status 1 where anything differs."""

import random
import shutil
import subprocess
import sys
from pathlib import Path

sys.path.insert(0, str(Path(__file__).resolve().parent.parent / "oracle"))

import generate  # noqa: E402
import manners  # noqa: E402

ROOT = manners.ROOT
HERE = ROOT / "web"
PAGE = HERE / "denkumari.html"


def damaged(rng, data):
    """A file with some bytes changed, cut or put in."""
    data = bytearray(data)
    for _ in range(rng.randint(1, 3)):
        if data:
            data[rng.randrange(len(data))] = rng.choice((rng.randrange(20), rng.randrange(256)))
    if rng.random() < 0.15:
        del data[rng.randrange(len(data) + 1):]
    if rng.random() < 0.1:
        data += rng.randbytes(rng.randint(1, 9))
    return bytes(data)


def drawn(seed, number):
    """A layout file: random, in form 1 or 2, every third one damaged."""
    rng = random.Random(f"page {seed} {number}")
    _, data = generate.drawn(seed, number)
    if rng.random() < 0.3:
        data = generate.in_form_2(rng, data)
    return damaged(rng, data) if number % 3 == 0 else data


def put_files(folder, count):
    for file in sorted((ROOT / "examples").glob("*.form")):
        data = file.read_bytes()
        (folder / f"example-{file.name}").write_bytes(data)
        (folder / f"damaged-{file.name}").write_bytes(damaged(random.Random(file.name), data))
    for number in range(count):
        (folder / f"random-{number}.form").write_bytes(drawn(47, number))
    (folder / "records.form").write_text(":0100000000FF\n:00000001FF\n")
    (folder / "empty.form").write_bytes(b"")


def native():
    """The command as this machine has it, compiled where it is not."""
    subprocess.run([ROOT / "tools" / "layout", "--help"], stdout=subprocess.DEVNULL, check=True)
    found = sorted((ROOT / "build").glob("denkumari-????????????????"))
    if len(found) != 1:
        raise manners.Stop("build/ does not have one command")
    return found[0]


def starts(name):
    """Whether a browser is there and can be started at all."""
    return shutil.which(name) and subprocess.run([name, "--version"], stdout=subprocess.DEVNULL, stderr=subprocess.DEVNULL, check=False).returncode == 0


def chromium():
    return next((name for name in ("chromium", "chromium-browser", "google-chrome") if starts(name)), None)


def held(*words):
    if subprocess.run(words, check=False).returncode:
        sys.exit(1)


def main():
    asked = manners.parser(__doc__)
    asked.add_argument("--files", type=manners.count, default=1500, help="how many random layout files")
    asked.add_argument("--pictures", help="where pictures of the page are left")
    asked = asked.parse_args()
    if asked.pictures:
        Path(asked.pictures).mkdir(parents=True, exist_ok=True)
    held(HERE / "build.py")
    if not shutil.which("node"):
        print("left out: the page beside the command, and in a browser: node is not installed")
        return
    with manners.room() as room:
        (room / "files").mkdir()
        put_files(room / "files", asked.files)
        command = native()
        held("node", HERE / "test_core.js", PAGE, command, room / "files")
        if not chromium():
            print("left out: the page in a browser: Chromium is not installed (Debian: chromium)")
            return
        held("node", HERE / "test_browser.js", chromium(), ROOT, command, room, *([asked.pictures] if asked.pictures else []))


if __name__ == "__main__":
    manners.run(main)
