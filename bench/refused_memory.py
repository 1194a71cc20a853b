#!/usr/bin/env python3
"""Refuses each allocation of a run in turn, and tells what the program gives.

    bench/refused_memory.py --asg PROGRAM [--only REGEX] [--cc COMPILER]

A small library is put before the C library: it counts the calls that take memory, and answers the
one of a number with none. Each request is run once without, and then once for each number up to
the last. Right is status 9 with nothing written, for `edit` with a prefix of the due text that ends
with a document or a brief line; or, where only room was to be given back, what the run gives
without. The table has how often each came. The status is 1 where something else did.
"""
import argparse
import collections
import os
import re
import subprocess
import sys
import tempfile

from refused_requests import requests

SHIM = r"""
#define _GNU_SOURCE
#include <dlfcn.h>
#include <errno.h>
#include <fcntl.h>
#include <stdio.h>
#include <stdlib.h>
#include <unistd.h>

extern void *__libc_malloc(size_t);
extern void *__libc_calloc(size_t, size_t);
extern void *__libc_realloc(void *, size_t);
extern void *__libc_memalign(size_t, size_t);
static long count, refused, is_ready;

static int is_refused(void) {
    if (!is_ready) return 0;
    if (++count != refused) return 0;
    errno = ENOMEM;
    return 1;
}
void *malloc(size_t n) { return is_refused() ? NULL : __libc_malloc(n); }
void *calloc(size_t n, size_t m) { return is_refused() ? NULL : __libc_calloc(n, m); }
void *realloc(void *p, size_t n) { return is_refused() ? NULL : __libc_realloc(p, n); }
void *memalign(size_t a, size_t n) { return is_refused() ? NULL : __libc_memalign(a, n); }
void *aligned_alloc(size_t a, size_t n) { return memalign(a, n); }
int posix_memalign(void **p, size_t a, size_t n) {
    *p = memalign(a, n);
    return *p ? 0 : ENOMEM;
}
__attribute__((constructor)) static void begin(void) {
    const char *number = getenv("REFUSED");
    refused = number ? atol(number) : 0;
    is_ready = 1;
}
__attribute__((destructor)) static void end(void) {
    is_ready = 0;
    const char *file = getenv("COUNTED");
    int to = file ? open(file, O_WRONLY | O_CREAT | O_TRUNC, 0600) : -1;
    char text[32];
    if (to >= 0 && write(to, text, snprintf(text, sizeof text, "%ld", count)) < 0) _exit(99);
}
"""


def build(compiler, folder, code=SHIM):
    """The library of a C text."""
    source, shim = (os.path.join(folder, name) for name in ("shim.c", "shim.so"))
    with open(source, "w", encoding="ascii") as out:
        out.write(code)
    words = [*compiler.split(), "-O1", "-fno-builtin", "-shared", "-fPIC", source, "-o", shim]
    subprocess.run(words, check=True)
    return shim


class Runner:
    """Runs a request with the library before the C library."""

    def __init__(self, program, folder, shim):
        self.program, self.folder, self.shim = program, folder, shim

    def write(self, request):
        for name, text in request.files.items():
            with open(os.path.join(self.folder, name), "wb") as out:
                out.write(text)

    def run(self, request, refused=0):
        """The status and the bytes, and how many calls took memory."""
        counted = os.path.join(self.folder, "counted")
        environment = {"LD_PRELOAD": self.shim, "REFUSED": str(refused), "COUNTED": counted}
        ended = subprocess.run([self.program, *request.words], cwd=self.folder, env=environment,
                               stdout=subprocess.PIPE, timeout=600, check=False)
        with open(counted, encoding="ascii") as it:
            return (ended.returncode, ended.stdout), int(it.read())


def is_prefix(request, text, whole):
    """Whether a text is the first documents or brief lines of the whole."""
    if request.words[0] != "edit":
        return text == b""
    ends = text == b"" or text.endswith(b"\n" if "--brief" in request.words else b"\nend\n")
    return whole.startswith(text) and ends


def swept(runner, request):
    """How often each outcome came, and the numbers at which a wrong one did."""
    runner.write(request)
    whole, calls = runner.run(request)
    counts, wrong = collections.Counter(), []
    for number in range(1, calls + 1):
        outcome, _ = runner.run(request, number)
        if outcome[0] == 9 and is_prefix(request, outcome[1], whole[1]):
            counts["a prefix" if outcome[1] else "nothing"] += 1
        elif outcome == whole:
            counts["as without"] += 1
        else:
            wrong.append((number, outcome))
    return whole[0], calls, counts, wrong


def arguments():
    parser = argparse.ArgumentParser(description="Refuses each allocation in turn.")
    parser.add_argument("--asg", required=True, metavar="PROGRAM")
    parser.add_argument("--only", default="", help="a regular expression for the request")
    parser.add_argument("--cc", default="cc", help="a C compiler")
    return parser.parse_args()


def main():
    asked = arguments()
    print("| Request | Status without | Calls | 9, nothing | 9, a prefix | As without | Wrong |\n"
          "|---|---:|---:|---:|---:|---:|---:|", flush=True)
    is_wrong = False
    with tempfile.TemporaryDirectory() as folder:
        runner = Runner(os.path.realpath(asked.asg), folder, build(asked.cc, folder))
        for request in requests(runner.program):
            if not re.search(asked.only, request.title):
                continue
            status, calls, counts, wrong = swept(runner, request)
            kinds = [counts[kind] for kind in ("nothing", "a prefix", "as without")]
            print(f"| {request.title} | {status} | {calls} | "
                  + " | ".join(map(str, [*kinds, len(wrong)])) + " |", flush=True)
            for number, outcome in wrong:
                print(f"{request.title}, call {number}: {outcome}", file=sys.stderr)
            is_wrong |= bool(wrong)
    sys.exit(is_wrong)


if __name__ == "__main__":
    main()
