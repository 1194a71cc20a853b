#!/usr/bin/env python3
"""Times `asg` on files that it makes, and prints one Markdown table: bench/table.py [OPTIONS]

A line has a request and its file; the seconds and the peak memory of the program, and the bytes
that it wrote; then the seconds and the peak memory of `asg check` of the document, and the seconds
of the request with `--brief`. Seconds are those of the wall clock for the whole process, medians of
--runs runs. Memory is the most of them, in MB of 2^20 bytes; it is about 16 at least, since the
process that starts the program counts too.

With --peers DIR a line also has the best peer, and the program's seconds with `--brief` over its
seconds. A peer is a method of DIR/bin/dense, which `make` builds in DIR where it isn't built. It is
called as

    dense METHOD FILE --format FORMAT [--place K] [--each C] [--count K] [--script SCRIPT]

and prints a line `value VALUE`: that of a best choice, or `none`; of a ranking the number of
answers, the first value and the last one; of edits one value after the other. It writes no
document. It counts only where its value is the program's.

The processes of a line take turns, one at a time. What ended otherwise than it should, and each
peer with another value, is told on standard error, and the status is then 1.
"""
import argparse
import os
import platform
import re
import subprocess
import sys
import tempfile

from cases import few_cases, more_cases
from timed import Timed

TOP = os.path.dirname(os.path.dirname(os.path.realpath(__file__)))
THREE = os.path.join(TOP, "examples", "three.square")
HEAD = ("Request", "File", "Seconds", "MB", "Bytes", "Check, seconds", "Check, MB",
        "Brief, seconds")
PEER_HEAD = ("Best peer", "Ratio")
OWN = ("asg", "check", "brief")
PEERS = {
    "solve sum": ("jv", "sap"),
    "solve sum asn": ("jv", "sap", "spjv"),
    "solve sum-max": ("jv-max", "sap-max"),
    "solve pair": ("pair",),
    "solve capped": ("jv", "sap"),
    "solve bottleneck": ("bbit", "bsap"),
    "solve bottleneck-max": ("bbit-max", "bsap-max"),
    "solve time-cost": ("tc",),
    "solve balanced": ("balbit",),
    "solve lex": ("lexlv",),
    "rank sum": ("murty",),
    "edit sum": ("ewarm",),
}


def methods_of(case):
    """The methods of the peers for a case."""
    request = f"{case.command} {case.objective.split('=')[0]}"
    return PEERS.get(f"{request} {case.form}", PEERS.get(request, ()))


def commands(case, program, dense, folder):
    """The commands of a case by name: the program, the check of its document, and the peers."""
    def named(name):
        return os.path.join(folder, name)

    def words(*first):
        return [*first, "--format", case.form, *case.options.split()]

    file, document = named("file"), named("document")
    if case.command == "make":
        return {"asg": Timed([program, "make", *case.objective.split()], document)}
    if case.command == "check":
        judged = [program, "check", case.objective, THREE, file]
        return {"asg": Timed(judged, document, case.status)}
    script = [named("script")] if case.command == "edit" else []
    asked = words(program, case.command, case.objective, file, *script)
    found = {"asg": Timed(asked, document, case.status)}
    if case.status == 0:
        option = ["--script", *script] if script else []
        judged = words(program, "check", case.objective, file, document) + option
        found["check"] = Timed(judged, named("said"))
        found["brief"] = Timed([*asked, "--brief"], named("brief"))
        for method in methods_of(case) if dense else ():
            found[method] = Timed(words(dense, method, file) + option, named(method))
    return found


def cells_of(case, found):
    """The cells of a case's line, without those of the peers."""
    asg, check, brief = (found.get(name) for name in OWN)
    cells = [f"`{case.request}`", case.title, f"{asg.seconds():.3g}", f"{asg.memory():.0f}",
             f"{asg.size():,}"]
    if not check:
        return cells + ["-"] * 3
    return cells + [f"{check.seconds():.3g}", f"{check.memory():.0f}", f"{brief.seconds():.3g}"]


def peer_cells(found):
    """The best peer with the program's value, and the ratio to it."""
    value = found["asg"].value()
    equals = [(timed.seconds(), name) for name, timed in found.items()
              if name not in OWN and timed.ended() and timed.value() == value]
    if not equals:
        return ["-", "-"]
    seconds, name = min(equals)
    return [name, f"{found['brief'].seconds() / seconds:.2f}"]


def faults(found):
    """What went wrong in the runs of a case."""
    value = found["asg"].value()
    for name, timed in found.items():
        if not timed.ended():
            yield f"{name} ended with {timed.wrong_status()}"
        elif name != "check" and timed.value() != value:
            yield f"{name} has the value {timed.value()}"


def measured(case, asked, program, dense, folder):
    """The cells of a case's line, and what went wrong."""
    case.write(asked.seed, os.path.join(folder, "file"), os.path.join(folder, "script"))
    found = commands(case, program, dense, folder)
    for _ in range(asked.runs):
        for timed in found.values():
            timed.run()
    return cells_of(case, found) + (peer_cells(found) if dense else []), list(faults(found))


def machine():
    """The processors, the memory and the system of this machine."""
    model = platform.machine()
    if os.path.exists("/proc/cpuinfo"):
        with open("/proc/cpuinfo", encoding="utf-8") as info:
            names = [line.split(":", 1)[1] for line in info if line.startswith("model name")]
        model = names[0].strip() if names else model
    memory = os.sysconf("SC_PAGE_SIZE") * os.sysconf("SC_PHYS_PAGES") / 2**30
    return f"{model}, {os.cpu_count()} processors, {memory:.0f} GB, {platform.system()}"


def built_program():
    """The program, which the launcher builds where it isn't built."""
    words = [os.path.join(TOP, "asg"), "solve", "sum", THREE]
    subprocess.run(words, stdout=subprocess.DEVNULL, check=True)
    return os.path.join(TOP, "crates", "asg", "out", "asg")


def built_peers(folder):
    """The program of the peers, or none where it isn't there and can't be built."""
    if not folder:
        return None
    dense = os.path.realpath(os.path.join(folder, "bin", "dense"))
    if not os.path.exists(dense):
        words = ["make", "-s", "-C", folder, "bin/dense"]
        subprocess.run(words, stdout=subprocess.DEVNULL, check=False)
    if os.path.exists(dense):
        return dense
    print(f"no peers: {dense} isn't there", file=sys.stderr)
    return None


def arguments():
    parser = argparse.ArgumentParser(description="Times asg, and prints one Markdown table.")
    parser.add_argument("--all", action="store_true", help="more kinds of files, and long ones")
    parser.add_argument("--side", type=int, default=1000,
                        help="rows of the largest instances, 50 to 1000")
    parser.add_argument("--edits", type=int, default=100, help="changes in the script of an edit")
    parser.add_argument("--seed", type=int, default=1, help="of what is random in the files")
    parser.add_argument("--runs", type=int, default=5, help="how often each process runs")
    parser.add_argument("--only", default="",
                        help="a regular expression for the request and the file")
    parser.add_argument("--peers", metavar="DIR", help="the folder of the peers")
    parser.add_argument("--asg", metavar="PROGRAM",
                        help="a built program in place of this clone's")
    return parser.parse_args()


def main():
    asked = arguments()
    program = asked.asg or built_program()
    dense = built_peers(asked.peers)
    cases = few_cases(asked.side, asked.edits)
    if asked.all:
        cases += more_cases(asked.side, asked.edits)
    head = HEAD + PEER_HEAD * bool(dense)
    print(f"{machine()}; medians of {asked.runs} runs, seed {asked.seed}\n")
    print("| " + " | ".join(head) + " |\n|---|---|" + "---:|" * (len(head) - 2), flush=True)
    is_wrong = False
    for case in cases:
        if not re.search(asked.only, f"{case.request} {case.title}"):
            continue
        with tempfile.TemporaryDirectory() as folder:
            cells, wrong = measured(case, asked, program, dense, folder)
        print("| " + " | ".join(cells) + " |", flush=True)
        for what in wrong:
            is_wrong = True
            print(f"{case.request}, {case.title}: {what}", file=sys.stderr)
    sys.exit(is_wrong)


if __name__ == "__main__":
    main()
