"""Counting the instructions and the processor time of a command, with what it does once taken off. On x86-64 callgrind counts; elsewhere the programs are
x86-64 ones all the same, and qemu-user counts by a plugin of ours. The two have been seen to agree to the instruction."""

import functools
import os
import platform
import re
import resource
import shutil
import subprocess
import sys
import tempfile
from pathlib import Path

sys.path.insert(0, str(Path(__file__).resolve().parent.parent / "oracle"))

import manners  # noqa: E402

TIMED = 300_000_000  # instructions that a timed run has at least, so that the clock has something to see

# callgrind counts each byte of a `rep movsb` or `rep stosb` as an instruction: while it counts, the C library's memcpy and memset take their
# loops instead, on both sides
LOOPS = {"GLIBC_TUNABLES": "glibc.cpu.x86_rep_movsb_threshold=2000000000:glibc.cpu.x86_rep_stosb_threshold=2000000000"}


class Differ(Exception):
    """Two sides gave different answers."""


def instructions(command, given=b"", within=()):
    """Instructions of the whole process or within some functions, and what the command printed."""
    done = subprocess.run(counter(tuple(within)) + command, input=given, stdout=subprocess.PIPE, stderr=subprocess.PIPE, env={**os.environ, **LOOPS})
    found = re.search(rb"Collected : (\d+)", done.stderr)
    if done.returncode != 0 or not found:
        raise SystemExit(f"{' '.join(map(str, command))}: status {done.returncode}, {done.stderr[-300:].decode(errors='replace')}")
    return int(found[1]), done.stdout


def seconds(command, given=b""):
    """Processor time of a process."""
    before = resource.getrusage(resource.RUSAGE_CHILDREN)
    subprocess.run(command, input=given, stdout=subprocess.DEVNULL, stderr=subprocess.DEVNULL, check=True)
    after = resource.getrusage(resource.RUSAGE_CHILDREN)
    return after.ru_utime + after.ru_stime - before.ru_utime - before.ru_stime


def each(run, within=()):
    """Instructions of one of what `run(n)`, a command and its input, does n times, and what is printed for the first. The first is taken off, with the
    start of the process."""
    one, said = instructions(*run(1), within)
    three, _ = instructions(*run(3), within)
    return (three - one) / 2, said


def times(runs, costs, turns):
    """Microseconds of one, of each of several that alternate; the least of the turns. `costs` are their instructions."""
    least = [float("inf")] * len(runs)
    copies = [2 + int(TIMED // max(cost, 1)) for cost in costs]
    for _ in range(turns):
        for i, run in enumerate(runs):
            spent = seconds(*run(copies[i])) - seconds(*run(1))
            least[i] = min(least[i], max(spent, 0) / (copies[i] - 1) * 1e6)
    return least


def native():
    return platform.machine() == "x86_64"


def started():
    """The words that start an x86-64 program here."""
    return [] if native() else ["qemu-x86_64"]


@functools.lru_cache(None)
def counter(within):
    """The words that run a command and count its instructions."""
    if native():
        return ["valgrind", "--tool=callgrind", "--callgrind-out-file=/dev/null"] + [f"--toggle-collect={name}" for name in within]
    if within:
        raise manners.Stop("the instructions within a function are counted by callgrind, on x86-64 alone")
    folder = tempfile.TemporaryDirectory()
    counter.folders.append(folder)
    plugin = Path(folder.name) / "plugin.so"
    subprocess.run(["cc", "-O2", "-shared", "-fPIC", Path(__file__).parent / "benchmark_plugin.c", "-o", plugin], check=True)
    return ["qemu-x86_64", "-plugin", str(plugin)]


counter.folders = []


def wanted():
    tool = "valgrind" if native() else "qemu-x86_64"
    if not shutil.which(tool):
        raise manners.Stop(f"instructions are counted by {tool}, which is not installed")


if __name__ == "__main__":
    manners.part(__doc__)
