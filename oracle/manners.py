#!/usr/bin/env python3
"""How the scripts here behave at the command line: --help, options that there are not, faults said in a line, signals, and the crates' names.

Other scripts read it, nobody runs it. Status 0 is done, 1 says that something differs, 2 that nothing was done, and 128 and its number that a signal came."""

import argparse
import os
import shutil
import signal
import stat
import subprocess
import sys
import tempfile
from contextlib import contextmanager
from pathlib import Path

ROOT = Path(__file__).resolve().parent.parent
INSTALLED = (ROOT / "INSTALLED").exists()
ENDING = (signal.SIGTERM, signal.SIGHUP, signal.SIGINT)


class Stop(Exception):
    """Nothing was done, and why: status 2."""


class Parser(argparse.ArgumentParser):
    """One whose help is not lost in silence where it cannot be written."""

    def _print_message(self, message, file=None):
        (file or sys.stderr).write(message or "")


def called():
    """The script's name as its caller knows it: its path in the checkout, or the installed command (tools/install)."""
    name = os.path.relpath(os.path.realpath(sys.argv[0]), ROOT)
    return name.replace("tools/", "denkumari ", 1) if INSTALLED else name


def parser(doc):
    doc = doc.replace("tools/", "denkumari ") if INSTALLED else doc
    return Parser(description=doc, formatter_class=argparse.RawDescriptionHelpFormatter, allow_abbrev=False)


def count(text):
    """A number from 0 on, for an option."""
    if not text.isascii() or not text.isdigit():
        raise argparse.ArgumentTypeError(f"a number is wanted, and not '{text}'")
    return int(text)


def some(text):
    """A number from 1 on."""
    if count(text) == 0:
        raise argparse.ArgumentTypeError("0 of them would be nothing")
    return int(text)


def given():
    """Standard input, whole."""
    if sys.stdin is None:
        raise Stop("standard input is closed")
    try:
        return sys.stdin.buffer.read()
    except OSError as error:
        raise Stop(f"standard input cannot be read: {error.strerror}") from None


@contextmanager
def room():
    """A temporary folder. While it is made and while it goes, signals wait."""
    folder = None
    signal.pthread_sigmask(signal.SIG_BLOCK, ENDING)
    try:
        folder = tempfile.mkdtemp()
        signal.pthread_sigmask(signal.SIG_UNBLOCK, ENDING)
        yield Path(folder)
    finally:
        signal.pthread_sigmask(signal.SIG_BLOCK, ENDING)
        if folder is not None:
            shutil.rmtree(folder, ignore_errors=True)
        signal.pthread_sigmask(signal.SIG_UNBLOCK, ENDING)


def answer(data, path, sources):
    """Bytes that are the answer: to standard output, or to a file that is none of the sources."""
    if path is None:
        sys.stdout.buffer.write(data)
    else:
        deliver(path, data, sources)


def deliver(path, data, sources):
    """The answer in a file of its own: made beside its place, and moved there when it is whole. It keeps the mode of the file that it replaces."""
    place = os.path.realpath(path)
    try:
        old = os.stat(place) if os.path.exists(place) else None
        if old and not stat.S_ISREG(old.st_mode):
            raise Stop(f"{path} is no regular file")
        if old and any(os.path.samestat(old, os.fstat(0) if one == "-" else os.stat(one)) for one in sources):
            raise Stop(f"{path} is a file that is read, and is not written over")
        umask = os.umask(0)
        os.umask(umask)
        replace(place, data, stat.S_IMODE(old.st_mode) if old else 0o666 & ~umask)
    except OSError as error:
        raise Stop(f"{path} could not be written: {error.strerror}") from None


def replace(place, data, mode):
    """While the file beside it is made and while it goes, signals wait."""
    part, folder = None, os.open(os.path.dirname(place), os.O_RDONLY)
    signal.pthread_sigmask(signal.SIG_BLOCK, ENDING)
    try:
        handle, part = tempfile.mkstemp(prefix=".part.", dir=os.path.dirname(place))
        with open(handle, "wb") as file:
            file.write(data)
            file.flush()
            os.fchmod(handle, mode)
            os.fsync(handle)
        os.replace(part, place)
        part = None
        os.fsync(folder)
    finally:
        if part is not None:
            os.unlink(part)
        os.close(folder)
        signal.pthread_sigmask(signal.SIG_UNBLOCK, ENDING)


def crates():
    """The crates that scripts name, by their part (tools/crates.sh)."""
    lines = (ROOT / "tools" / "crates.sh").read_text().splitlines()
    return dict(line.removeprefix("crate_").split("=", 1) for line in lines if line.startswith("crate_"))


def command(role):
    """The words that start a program of the repository, which is built first where it must be (tools/run)."""
    done = subprocess.run([ROOT / "tools" / "run", "--command", crates()[role]], stdout=subprocess.PIPE, check=False)
    if done.returncode:
        raise Stop(f"the program {crates()[role]} was not built")
    return done.stdout.decode().splitlines()


def said_of(error):
    """A fault in a line, or none where it is a fault of the script itself."""
    if isinstance(error, BrokenPipeError):
        return "the answer could not be written: Broken pipe"
    if isinstance(error, OSError):
        return f"{error.filename}: {error.strerror}" if error.filename else f"the answer could not be written: {error.strerror}"
    if isinstance(error, subprocess.CalledProcessError):
        words = error.cmd if isinstance(error.cmd, (list, tuple)) else [error.cmd]
        return f"{' '.join(map(str, words))[:300]}: status {error.returncode}"
    if isinstance(error, subprocess.TimeoutExpired):
        return str(error)[:300]
    if isinstance(error, UnicodeDecodeError):
        return "a file that should be text is not"
    return str(error) if isinstance(error, Stop) else None


def ended(status):
    """Ends, with nothing more to write: what standard output still holds has no reader."""
    try:
        sys.stdout.flush()
    except (OSError, ValueError):
        os.dup2(os.open(os.devnull, os.O_WRONLY), 1)
    except AttributeError:
        pass
    sys.exit(status)


def run(main, *words):
    """A script's main function, with no traceback for what its caller did, and its temporary folders gone whatever ends it."""
    def came(number, _):
        sys.exit(128 + number)
    for number in ENDING:
        if signal.getsignal(number) in (signal.SIG_DFL, signal.default_int_handler):
            signal.signal(number, came)
    name = called()
    try:
        if sys.stdout is None:
            raise Stop("standard output is closed")
        try:
            main(*words)
        finally:
            sys.stdout.flush()
    except Exception as error:  # pylint: disable=broad-except
        said = said_of(error)
        if said is None:
            raise
        print(f"{name}: {said}", file=sys.stderr)
        ended(2)


def part(doc):
    """For a file that other scripts read: --help, and nothing else."""
    def main():
        parser(doc).parse_args()
        raise Stop("other scripts read this, nobody runs it")
    run(main)


if __name__ == "__main__":
    part(__doc__)
