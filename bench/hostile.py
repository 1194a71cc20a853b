#!/usr/bin/env python3
"""Runs `asg` on files that a stranger may send, and prints one Markdown table.

    bench/hostile.py --asg PROGRAM [--sizes MIB,..] [--only REGEX] [--seconds S]

A line has the command and the file; the bytes of all files; the seconds of the processor, and those
for a MiB; the peak memory in MB of 2^20 bytes, which is about 12 at least, since the process that
starts the program counts too, and of more than 8 MiB how many times the files that is; and what the
program wrote, with its status. What takes longer than S seconds is ended and told as such. The
status is 1 where a run ended by a signal or with a status that isn't in docs/FORMATS.md.
"""
import argparse
import os
import re
import resource
import subprocess
import sys
import tempfile
from typing import NamedTuple

from hostile_documents import DOCUMENTS
from hostile_files import INSTANCES, SCRIPTS

LONGEST = 268435456
OWN = 14  # MB; less may be those of the process that starts the program
HEAD = ("Command", "File", "Bytes", "Seconds", "a MiB", "MB", "times", "Writes", "Status")
SOLVES = b"solve\n" * 10000
THREE = b"3\n4 1 3\n2 0 5\n3 2 2\n"


class Case(NamedTuple):
    """A command, in which words that are names of files stand for them, and the files."""
    title: str
    words: list
    files: dict


def cases():
    for name, (form, pieces) in INSTANCES.items():
        words = ["solve", "bottleneck", "instance", f"--format={form}"]
        yield Case(name, words, {"instance": pieces})
    for name, pieces in SCRIPTS.items():
        words = ["edit", "sum", "instance", "script"]
        yield Case(f"script: {name}", words, {"instance": lambda _: [THREE], "script": pieces})
    for name, (words, side, cost, pieces) in DOCUMENTS.items():
        objective, *options = words.split()
        files = {"instance": table(side, cost), "answer": pieces}
        if "--script" in options:
            files["script"] = lambda _: [SOLVES]
            options.append("script")
        yield Case(f"document: {name}", ["check", objective, "instance", "answer", *options], files)


def table(side, cost):
    """A square file of these cells, or all of whose cells have one cost; or what a call gives."""
    if callable(cost):
        return lambda _: [cost()]
    if isinstance(cost, int):
        cost = (b" ".join([b"%d" % cost] * side) + b"\n") * side
    return lambda _: [b"%d\n" % side, cost]


def written(case, size, folder):
    """Writes the files, and gives how many bytes they have."""
    for name, pieces in case.files.items():
        with open(os.path.join(folder, name), "wb") as out:
            left = LONGEST
            for piece in pieces(size):
                out.write(piece[:left])
                left -= min(left, len(piece))
    return sum(os.path.getsize(os.path.join(folder, name)) for name in case.files)


def run(program, case, folder, seconds):
    """The seconds, the peak memory in MB, the status, and the line or how many bytes it wrote."""
    words = [os.path.join(folder, it) if it in case.files else it for it in case.words]

    def limit():
        resource.setrlimit(resource.RLIMIT_CPU, (seconds, seconds + 5))
    out = os.path.join(folder, "out")
    with open(out, "wb") as to:
        process = subprocess.Popen([program, *words], stdout=to, preexec_fn=limit)
        _, ended, usage = os.wait4(process.pid, 0)
        taken = usage.ru_utime + usage.ru_stime
    process.returncode = os.waitstatus_to_exitcode(ended)
    with open(out, "rb") as text:
        line = text.readline(60).decode(errors="replace").strip()
    size = os.path.getsize(out)
    return taken, usage.ru_maxrss / 1024, process.returncode, \
        line if size < 100 else f"{size:,} bytes"


def line_of(case, size, taken, memory, status, wrote):
    mib = size / 2**20
    times = f"{memory / mib:.1f}" if mib > 8 and memory > OWN else "-"
    shown = "ended at the limit" if status == -24 else status
    return [" ".join(case.words), case.title, f"{size:,}", f"{taken:.2f}", f"{taken / mib:.3f}",
            f"{memory:.0f}", times, wrote.replace("|", "\\|"), str(shown)]


def arguments():
    parser = argparse.ArgumentParser(description="Runs asg on hostile files.")
    parser.add_argument("--asg", required=True, metavar="PROGRAM")
    parser.add_argument("--sizes", default="1,16,256", help="MiB, with commas")
    parser.add_argument("--only", default="", help="a regular expression for the file")
    parser.add_argument("--seconds", type=int, default=300, help="of the processor, at most")
    parser.add_argument("--folder", help="where the files are made for a while")
    return parser.parse_args()


def main():
    asked = arguments()
    print("| " + " | ".join(HEAD) + " |\n|---|---|" + "---:|" * 5 + "---|---|", flush=True)
    is_wrong = False
    for case in cases():
        if not re.search(asked.only, case.title):
            continue
        for size in map(int, asked.sizes.split(",")):
            with tempfile.TemporaryDirectory(dir=asked.folder) as folder:
                size = written(case, min(size << 20, LONGEST - (8 << 20)), folder)
                taken, memory, status, wrote = run(asked.asg, case, folder, asked.seconds)
            is_wrong |= status != -24 and not 0 <= status <= 10
            print("| " + " | ".join(line_of(case, size, taken, memory, status, wrote)) + " |",
                  flush=True)
    sys.exit(is_wrong)


if __name__ == "__main__":
    main()
