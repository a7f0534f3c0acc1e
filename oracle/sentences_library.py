#!/usr/bin/env python3
"""The library's calls for oracle/sentences.py: a C program made from the prototypes of include/denkumari.h, linked with the proved archive.

Other scripts read it, nobody runs it. Where this machine is not x86-64 the program is linked by x86_64-linux-gnu-gcc and runs under qemu-x86_64."""
import platform
import re
import shutil
import struct
import subprocess
from array import array
from pathlib import Path

import manners

ROOT = Path(__file__).resolve().parent.parent
CODES = {"uint8_t": "B", "uint16_t": "H", "uint32_t": "I", "uint64_t": "Q", "int64_t": "q", "size_t": "Q"}
START = """#include <stdio.h>
#include <stdlib.h>
#include <string.h>
#include "denkumari.h"
static void take_in(void *to, size_t n) { if (n && fread(to, 1, n, stdin) != n) exit(3); }
static void put_out(const void *from, size_t n) { if (n && fwrite(from, 1, n, stdout) != n) exit(3); }
static uint64_t number(void) { uint64_t n; take_in(&n, 8); return n; }
static void *list(uint64_t n, size_t size) { void *p = malloc(n * size + 1); if (!p) exit(3); take_in(p, n * size); return p; }
"""


def header():
    """Each call as (its answer's struct, parameters), a parameter as (name, C type, whether it is a list, whether it is lent, whether its length is given
    behind it); and each struct's fields."""
    text = re.sub(r"/\*.*?\*/", " ", (ROOT / "include" / "denkumari.h").read_text(), flags=re.S)
    calls, structs = {}, {}
    for name, body in re.findall(r"struct (\w+) \{(.*?)\};", text, re.S):
        structs[name] = re.findall(r"(?:struct )?(\w+) (\w+)(\[\w+\])?;", body)
    for answer, name, params in re.findall(r"struct (\w+) (dk_\w+)\(([^)]*)\);", text):
        found = []
        for one in params.split(","):
            const, of, star, word = re.match(r"\s*(const )?(\w+) (\*?)(\w+)\s*$", one).groups()
            if word.endswith("_len") and found and found[-1][0] == word[:-4]:
                found[-1] = found[-1][:4] + (True,)
            else:
                found.append((word, of, bool(star), bool(star) and not const, False))
        calls[name] = answer, found
    return calls, structs


CALLS, STRUCTS = header()


def program():
    """The C program: a call's number, then its inputs; its answer, then all that is lent."""
    lines = [START, "int main(void) {", "int which;", "while ((which = getchar()) != EOF) {", "switch (which) {"]
    for number, (name, (answer, params)) in enumerate(CALLS.items()):
        lines.append("case %d: {" % number)
        args = []
        for word, of, is_list, _, with_length in params:
            if is_list:
                lines.append("uint64_t n_%s = number(); %s *%s = list(n_%s, sizeof(%s));" % (word, of, word, word, of))
                args += [word, "n_" + word] if with_length else [word]
            else:
                lines.append("%s %s = (%s)number();" % (of, word, of))
                args.append(word)
        lines.append("struct %s answer = %s(%s);" % (answer, name, ", ".join(args)))
        lines.append("put_out(&answer, sizeof answer);")
        for word, of, is_list, lent, _ in params:
            lines += ["put_out(%s, n_%s * sizeof(%s));" % (word, word, of)] if lent else []
            lines += ["free(%s);" % word] if is_list else []
        lines.append("break; }")
    return "\n".join(lines + ["default: return 4;", "}", "fflush(stdout);", "}", "return 0;", "}", ""])


class Library:
    """The program, started; each call goes to it and its answer comes back."""
    def __init__(self, archive, folder):
        native = platform.machine() == "x86_64"
        compiler, emulator = "cc" if native else "x86_64-linux-gnu-gcc", None if native else shutil.which("qemu-x86_64") or shutil.which("qemu-x86_64-static")
        if not shutil.which(compiler) or not native and not emulator:
            raise manners.Stop("a C compiler for x86-64 is not installed (%s)" % compiler if native or emulator else "qemu-x86_64 is not installed")
        source, made = Path(folder) / "calls.c", Path(folder) / "calls"
        source.write_text(program())
        subprocess.run([compiler, "-std=c11", "-O1", "-static", "-I", ROOT / "include", "-o", made, source, archive], check=True)
        self.process = subprocess.Popen([emulator, made] if emulator else [made], stdin=subprocess.PIPE, stdout=subprocess.PIPE)

    def ask(self, name, inputs):
        """The answer's fields by their names, and each lent list afterwards."""
        answer, params = CALLS[name]
        sent = [bytes([list(CALLS).index(name)])]
        for word, of, is_list, _, _ in params:
            if is_list:
                sent += [struct.pack("<Q", len(inputs[word])), array(CODES[of], inputs[word]).tobytes()]
            else:
                sent.append(struct.pack("<Q", inputs[word]))
        self.process.stdin.write(b"".join(sent))
        self.process.stdin.flush()
        fields = {}
        for of, word, many in STRUCTS[answer]:
            n = 16 if many else 1
            got = [self.read("Q", len(STRUCTS[of])) if of in STRUCTS else self.read("Q", 1)[0] for _ in range(n)]
            fields[word] = got if many else got[0]
        return [fields] + [self.read(CODES[of], len(inputs[word])) for word, of, _, lent, _ in params if lent]

    def read(self, code, n):
        a = array(code)
        got = self.process.stdout.read(n * a.itemsize)
        if len(got) != n * a.itemsize:
            raise manners.Stop("the library's program ended")
        a.frombytes(got)
        return a.tolist()

    def close(self):
        self.process.stdin.close()
        self.process.wait()


if __name__ == "__main__":
    manners.part(__doc__)
