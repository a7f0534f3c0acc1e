#!/usr/bin/env python3
"""The page: web/build.py holds web/denkumari.html to what the sources make, web/build.py --write makes it.

One HTML file: page.html with core.js, draw.js and view.js in it, and with the command denkumari (command/, and the proved functions as C, portable/texts.c and
portable/denkumari.c, as far as the command calls them) compiled to WebAssembly by clang and wasm-ld (Debian: clang, lld). The head of the page has a sum of
everything that it was made from, and the compiler's version. Where clang is not there, or is another version, the WebAssembly is taken from the page as it
stands, the sums of its sources are held all the same, and a line `left out:` says so. Status 1 where the page is not what the sources make."""

import base64
import hashlib
import json
import re
import shutil
import subprocess
import sys
from pathlib import Path

sys.path.insert(0, str(Path(__file__).resolve().parent.parent / "oracle"))

import manners  # noqa: E402

ROOT = manners.ROOT
HERE = ROOT / "web"
PAGE = HERE / "denkumari.html"
EXAMPLES = ("worked", "banks", "clamp-mark-after", "mark-then-table", "past-the-end", "erased", "paged", "sequencer")
PARTS = ("page.html", "core.js", "draw.js", "view.js", "build.py")
FLAGS = ("--target=wasm32", "-Oz", "-std=c99", "-ffreestanding", "-nostdlib", "-mbulk-memory", "-fvisibility=hidden", "-Wall", "-Wextra", "-Werror",
         "-Dmain=main_of_command")
LINKED = ("--no-entry", "--gc-sections", "--strip-all", "-z", "stack-size=1048576")
PROVED = (ROOT / "portable" / "texts.c", ROOT / "portable" / "denkumari.c")
# the command's own, in whose place the page has its own: web/system.c
REPLACED = ("system.c",)


def compiled_files():
    """The files of C that are compiled."""
    own = sorted(file for file in (ROOT / "command").glob("*.c") if file.name not in REPLACED)
    return own + [*PROVED, *sorted(HERE.glob("*.c"))]


def wasm_sources():
    """Everything that the WebAssembly is made from."""
    read = [*(ROOT / "command").glob("*.[ch]"), *(ROOT / "command").glob("*.def"), *HERE.glob("*.c"), *(HERE / "libc").glob("*.h")]
    read += [*PROVED, ROOT / "portable" / "texts.h", ROOT / "include" / "denkumari.h"]
    return sorted(set(read) - {ROOT / "command" / "system.c"})


def sum_of(files):
    """One sum of files, by their paths as bytes: that of the lines that sha256sum prints for them."""
    lines = sorted((str(file.relative_to(ROOT)), hashlib.sha256(file.read_bytes()).hexdigest()) for file in files)
    return hashlib.sha256("".join(f"{digest}  {path}\n" for path, digest in lines).encode()).hexdigest()


def compiler():
    """The compiler's version in words, or nothing where it cannot compile for WebAssembly."""
    if not shutil.which("clang") or not shutil.which("wasm-ld"):
        return None
    said = subprocess.run(["clang", "--version"], stdout=subprocess.PIPE, check=True).stdout.decode()
    found = re.search(r"clang version \d+\.\d+\.\d+", said)
    return found[0] if found else said.splitlines()[0]


def compiled():
    """The command as WebAssembly."""
    with manners.room() as room:
        objects = []
        printed = [re.search(r"^ \* sources: (\S+)$", file.read_text(), re.MULTILINE)[1] for file in PROVED]
        kit = re.search(r"^ \* kit: (.+)$", PROVED[0].read_text(), re.MULTILINE)[1]
        told = [f'-DDENKUMARI_KIT="{kit}"', f'-DDENKUMARI_SOURCES="{" ".join(printed)}"']
        found = [f"-isystem{HERE / 'libc'}", f"-I{ROOT / 'include'}", f"-I{ROOT / 'portable'}", f"-I{ROOT / 'command'}"]
        for file in compiled_files():
            objects.append(str(room / f"{file.parent.name}-{file.stem}.o"))
            subprocess.run(["clang", *FLAGS, *told, *found, "-c", str(file), "-o", objects[-1]], check=True)
        subprocess.run(["wasm-ld", *LINKED, *objects, "-o", str(room / "page.wasm")], check=True)
        return (room / "page.wasm").read_bytes()


def kinds():
    """The kinds' names, from the one place that has them."""
    text = (ROOT / "command" / "layout.c").read_text()
    found = re.search(r"kind_words\[11\] = \{(.*?)\};", text, re.DOTALL)
    names = re.findall(r'"([^"]*)"', found[1]) if found else []
    if len(names) != 11:
        raise manners.Stop("command/layout.c does not have the names of 11 kinds where they are looked for")
    return names


def examples():
    return {name: base64.b64encode((ROOT / "examples" / f"{name}.form").read_bytes()).decode() for name in EXAMPLES}


def hashed(text):
    """A script or a style as the page's policy names it."""
    return "'sha256-" + base64.b64encode(hashlib.sha256(text.encode()).digest()).decode() + "'"


def made(wasm, version):
    """The page. Scripts and style are the only ones that its policy lets run; nothing can be fetched."""
    text = (HERE / "page.html").read_text()
    style = re.search(r"<style>(.*?)</style>", text, re.DOTALL)[1]
    core, draw, view = ("\n" + (HERE / name).read_text() for name in ("core.js", "draw.js", "view.js"))
    data = "\n" + f"const KINDS = {json.dumps(kinds())};\nconst EXAMPLES = {json.dumps(examples())};\n"
    policy = (f"default-src 'none'; script-src {' '.join(map(hashed, (data, core, draw, view)))} 'wasm-unsafe-eval'; style-src {hashed(style)}; "
              "img-src data: blob:; base-uri 'none'; form-action 'none'")
    files = [HERE / name for name in PARTS] + [ROOT / "examples" / f"{name}.form" for name in EXAMPLES]
    for mark, put in (("@POLICY@", policy), ("@PAGE@", sum_of(files)), ("@SOURCES@", sum_of(wasm_sources())), ("@COMPILER@", version),
                      ("@DATA@", data), ("@CORE@", core), ("@DRAW@", draw), ("@VIEW@", view), ("@WASM@", base64.b64encode(wasm).decode())):
        if text.count(mark) != 1:
            raise manners.Stop(f"web/page.html has {mark} {text.count(mark)} times")
        text = text.replace(mark, put)
    return text


def standing():
    """The page as it stands: its text, the compiler that it names, and its WebAssembly."""
    text = PAGE.read_text()
    version, wasm = re.search(r"^compiler: (.*)$", text, re.MULTILINE), re.search(r'id="wasm">([^<]*)<', text)
    if not version or not wasm:
        raise manners.Stop("web/denkumari.html is not a page that web/build.py --write wrote")
    return text, version[1], base64.b64decode(wasm[1])


def check():
    text, version, wasm = standing()
    here = compiler()
    if here == version:
        wasm = compiled()
    else:
        print(f"left out: the page's WebAssembly compiled anew: it was made by {version}, and " + (f"this is {here}" if here else "clang or lld is not here"))
    if made(wasm, version) != text:
        print("web/denkumari.html is not what the sources make: web/build.py --write makes it", file=sys.stderr)
        sys.exit(1)
    print(f"the page is what the sources make: {len(text.encode())} bytes, {len(wasm)} of them the command as WebAssembly")


def main():
    asked = manners.parser(__doc__)
    asked.add_argument("--write", action="store_true", help="writes web/denkumari.html")
    if not asked.parse_args().write:
        return check()
    version = compiler()
    if not version:
        raise manners.Stop("clang or wasm-ld is not installed (Debian: clang, lld)")
    text = made(compiled(), version)
    part = PAGE.with_suffix(".part")
    part.write_text(text)
    part.replace(PAGE)
    return print(f"web/denkumari.html: {len(text.encode())} bytes")


if __name__ == "__main__":
    manners.run(main)
