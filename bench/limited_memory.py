#!/usr/bin/env python3
"""Runs requests under limits of the address space, and tells what the program gives.

    bench/limited_memory.py --asg PROGRAM [--only REGEX] [--sizes N]
    bench/limited_memory.py --asg PROGRAM --window FROM TO [--step BYTES]

For each request, those of refused_memory.py and larger ones, the sizes, 60 or as many as are asked
for, lie evenly between the least at which the program starts and the least at which it gives what
it gives without a limit, and one beyond. Right is that, or status 9 with nothing written, for
`edit` with a prefix of the due text that ends with a document or a brief line. With a window one
request is run, at each size of it in steps: the check of a script's documents for 300 rows and
columns. The table has how often each came. The status is 1 where something else did, as a run that
ends by a signal.

Below the least size nothing of the program has run: the system ends it before its first
instruction, or the loader ends it with status 127 since it can't map the C library.
"""
import argparse
import collections
import multiprocessing
import os
import random
import re
import resource
import subprocess
import sys
import tempfile

from refused_memory import is_prefix
from refused_requests import Request, answered, requests, table, with_check

LARGEST = 1 << 31


def run(program, folder, words, size):
    """The status, negative for a signal, and the bytes; None where the system starts no program."""
    def limit():
        if size:
            resource.setrlimit(resource.RLIMIT_AS, (size, size))
    try:
        ended = subprocess.run([program, *words], cwd=folder, stdout=subprocess.PIPE,
                               stderr=subprocess.DEVNULL, preexec_fn=limit, timeout=600,
                               check=False)
    except (OSError, subprocess.SubprocessError):
        return None
    return ended.returncode, ended.stdout


def least(is_enough, low=0, high=LARGEST):
    """The least size, to the page, that is enough where larger ones are."""
    while high - low > 4096:
        middle = (low + high) // 2 // 4096 * 4096
        low, high = (low, middle) if is_enough(middle) else (middle, high)
    return high


def start_of(program, folder):
    """The least size at which the program tells that words are none, or that memory is wanting."""
    def starts(size):
        ended = run(program, folder, ["none"], size)
        return ended is not None and ended[0] in (2, 9)
    return least(starts)


def outcome(task):
    """How a run of a request at a size ended: a word, and what came where that was wrong."""
    program, folder, request, size, whole = task
    ended = run(program, folder, request.words, size)
    if ended == whole:
        return "as without", size, None
    if ended and ended[0] == 9 and is_prefix(request, ended[1], whole[1]):
        return "a prefix" if ended[1] else "nothing", size, None
    return "wrong", size, ended and (ended[0], len(ended[1]))


def write(folder, request):
    for name, text in request.files.items():
        with open(os.path.join(folder, name), "wb") as out:
            out.write(text)


def told(pool, program, folder, request, sizes, whole):
    """Prints the line of a request, and tells whether something was wrong."""
    counts, wrong = collections.Counter(), []
    tasks = [(program, folder, request, size, whole) for size in sizes]
    for word, size, came in pool.imap_unordered(outcome, tasks):
        counts[word] += 1
        if word == "wrong":
            wrong.append((size, came))
    print(f"| {request.title} | {whole[0]} | {sizes[0]} | {sizes[-1]} | "
          + " | ".join(str(counts[word]) for word in ("nothing", "a prefix", "as without", "wrong"))
          + " |", flush=True)
    for size, came in sorted(wrong):
        print(f"{request.title}, {size} bytes: {came}", file=sys.stderr)
    return bool(wrong)


def script_check(program):
    """The check of a script's documents for 300 rows and columns."""
    files = {"M": table(300), "S": edits(300, random.Random(7), 350)}
    answer = answered(program, ["edit", "sum", "M", "S"], files)
    return Request("check of a script, side 300", ["check", "sum", "M", "answer", "--script=S"],
                   {**files, "answer": answer})


def edits(side, chance, places):
    """A script that changes so many costs, with a solve line after each."""
    return b"".join(b"cost %d %d %d\nsolve\n" % (chance.randint(1, side), chance.randint(1, side),
                                                 chance.randint(0, 99)) for _ in range(places))


def larger(program):
    """A request of each command whose instance takes more than the program alone."""
    square, script = {"M": table(150)}, edits(150, random.Random(3), 20)
    for objective in ("sum", "balanced", "bottleneck", "time-cost"):
        yield from with_check(program, f"solve {objective}, side 150", ["solve", objective, "M"],
                              square)
    yield from with_check(program, "solve lex, side 60", ["solve", "lex", "M"], {"M": table(60)})
    yield from with_check(program, "rank sum, side 60", ["rank", "sum", "M", "--count=9"],
                          {"M": table(60)})
    for objective in ("sum", "bottleneck"):
        yield from with_check(program, f"edit {objective}, side 150",
                              ["edit", objective, "M", "S"], {**square, "S": script})
    yield Request("edit sum --brief, side 150", ["edit", "sum", "M", "S", "--brief"],
                  {**square, "S": script})
    yield Request("make 7 300", ["make", "7", "300"], {})


def arguments():
    parser = argparse.ArgumentParser(description="Runs requests in limited address spaces.")
    parser.add_argument("--asg", required=True, metavar="PROGRAM")
    parser.add_argument("--only", default="", help="a regular expression for the request")
    parser.add_argument("--sizes", type=int, default=60, help="how many sizes for each request")
    parser.add_argument("--window", type=int, nargs=2, metavar=("FROM", "TO"))
    parser.add_argument("--step", type=int, default=4096, metavar="BYTES")
    return parser.parse_args()


def asked_sizes(asked, program, folder, request, start, whole):
    if asked.window:
        return range(*asked.window, asked.step)
    enough = least(lambda size: run(program, folder, request.words, size) == whole, start)
    return [start + (enough - start) * place // (asked.sizes - 2)
            for place in range(asked.sizes)]


def main():
    asked = arguments()
    program = os.path.realpath(asked.asg)
    print("| Request | Status without | From | To | 9, nothing | 9, a prefix | As without | Wrong |\n"
          "|---|---:|---:|---:|---:|---:|---:|---:|", flush=True)
    is_wrong = False
    with tempfile.TemporaryDirectory() as folder, multiprocessing.Pool() as pool:
        start = start_of(program, folder)
        due = [script_check(program)] if asked.window else [*requests(program), *larger(program)]
        for request in due:
            if not re.search(asked.only, request.title):
                continue
            write(folder, request)
            whole = run(program, folder, request.words, 0)
            sizes = asked_sizes(asked, program, folder, request, start, whole)
            is_wrong |= told(pool, program, folder, request, sizes, whole)
    sys.exit(is_wrong)


if __name__ == "__main__":
    main()
