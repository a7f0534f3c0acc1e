"""For portable/matrix: which tools this machine has, which Debian package has those that it lacks, and how programs of other machines are started."""

import os
import platform
import shutil
import subprocess
import sys
from pathlib import Path

sys.path.insert(0, str(Path(__file__).resolve().parent.parent / "oracle"))

import manners  # noqa: E402

HOST = platform.machine()
# Debian's wine64 has no name on the PATH of its own
WINE = next((name for name in ("wine", "wine64", "/usr/lib/wine/wine64") if shutil.which(name)), "wine")
LIMIT = 1_800  # seconds that a run may take: an emulator on a busy machine
PACKAGES = {
    "gcc": "gcc", "clang": "clang", "cc": "gcc", "tcc": "tcc", "wasm-ld": "lld", "ld.lld": "lld", "llvm-dlltool": "llvm", "node": "nodejs", "wine": "wine64",
    "x86_64-linux-gnu-gcc": "gcc-x86-64-linux-gnu libc6-dev-amd64-cross", "aarch64-linux-gnu-gcc": "gcc-aarch64-linux-gnu libc6-dev-arm64-cross",
    "i686-linux-gnu-gcc": "gcc-i686-linux-gnu libc6-dev-i386-cross", "arm-linux-gnueabihf-gcc": "gcc-arm-linux-gnueabihf libc6-dev-armhf-cross",
    "s390x-linux-gnu-gcc": "gcc-s390x-linux-gnu libc6-dev-s390x-cross", "x86_64-w64-mingw32-gcc": "gcc-mingw-w64-x86-64",
    "arm-none-eabi-gcc": "gcc-arm-none-eabi", "qemu-system-arm": "qemu-system-arm", "qemu-x86_64": "qemu-user", "qemu-aarch64": "qemu-user",
    "qemu-i386": "qemu-user", "qemu-arm": "qemu-user", "qemu-s390x": "qemu-user"}
EMULATORS = {"x86_64": "qemu-x86_64", "aarch64": "qemu-aarch64", "i686": "qemu-i386", "armhf": "qemu-arm", "s390x": "qemu-s390x"}
# Tools that are there and must not be used: of f(s->a, g(t)), t a struct of 16 bytes, tcc 0.9.27 for AArch64 passes another number in the place of s->a
UNUSABLE = {("tcc", "aarch64"): "tcc's code for AArch64 spoils an argument that stands before a call with a struct of 16 bytes"}
RUNS = {"x86_64": ("x86_64", "i686"), "aarch64": ("aarch64",), "s390x": ("s390x",)}  # what a machine runs by itself


def emulated(arch):
    """The words that start a program of that machine here."""
    return [] if arch in RUNS.get(HOST, ()) else [EMULATORS[arch]]


def want(tool, what):
    """Whether a tool is there and can be used on this machine; if not, what is left out or skipped for want of it is said."""
    if (tool, HOST) in UNUSABLE:
        print(f"left out: {what}: {UNUSABLE[tool, HOST]}")
        return False
    if shutil.which(tool):
        return True
    print(f"skipped: {what}, for want of {tool} (Debian: {PACKAGES.get(tool, tool)})")
    return False


def launched(words, room=None):
    """Runs a program. What qemu-system-arm says on standard error, semihosting, counts as said. Wine keeps its folder beside the program."""
    wine = {"WINEPREFIX": str(room / "wine"), "WINEDEBUG": "-all"} if words[0] == WINE else {}
    told = subprocess.STDOUT if not wine else subprocess.DEVNULL
    return subprocess.run(words, stdout=subprocess.PIPE, stderr=told, stdin=subprocess.DEVNULL, timeout=LIMIT, env={**os.environ, **wine})


def first_line(*command):
    try:
        return subprocess.run(command, stdout=subprocess.PIPE, stderr=subprocess.STDOUT).stdout.decode().splitlines()[0]
    except (OSError, IndexError):
        return "not installed"


if __name__ == "__main__":
    manners.part(__doc__)
