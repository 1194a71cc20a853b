"""The requests whose allocations refused_memory.py refuses."""
import os
import random
import subprocess
import tempfile
from typing import NamedTuple

from hostile_rankings import deep_tree

THREE = b"3\n4 1 3\n2 0 5\n3 2 2\n"
SCRIPT = b"cost 1 2 9\nsolve\ndrop-row 2\nsolve\ndrop-column 2\nsolve\ndrop-column 3\nsolve\n"
LONG_SCRIPT = (b"".join(b"cost %d %d %d:%d\n" % (i, j, i * j, i) for i in (1, 2, 3)
                        for j in (1, 2, 3)) * 20
               + b"solve\nforbid 1 1\nsolve\ndrop-row 3\nsolve\ndrop-column 3\nsolve\n")
TWO = b"2\n1 2\n4 3\n"


class Request(NamedTuple):
    title: str
    words: list
    files: dict


def table(side, seed=1, pairs=False):
    chance = random.Random(seed)
    lines = [b" ".join(b"%d:%d" % (chance.randint(0, 99), chance.randint(0, 9)) if pairs else
                       b"%d" % chance.randint(0, 99) for _ in range(side)) for _ in range(side)]
    return b"%d\n" % side + b"\n".join(lines) + b"\n"


def network(rows, columns):
    """An asn file whose rows have high ids at the end of its nodes; some arcs twice."""
    nodes = rows + columns
    lines = [b"n %d" % i for i in range(nodes, columns, -1)]
    arcs = [b"a %d %d %d" % (i, j, i * j % 17)
            for i in range(columns + 1, nodes + 1) for j in range(1, columns + 1)]
    arcs += arcs[:20]
    return b"\n".join([b"p asn %d %d" % (nodes, len(arcs)), *lines, *arcs, b""])


def answered(program, words, files):
    """What the program writes for a request."""
    with tempfile.TemporaryDirectory() as folder:
        for name, text in files.items():
            with open(os.path.join(folder, name), "wb") as out:
                out.write(text)
        return subprocess.run([program, *words], cwd=folder, stdout=subprocess.PIPE,
                              check=False).stdout


def with_check(program, title, words, files):
    """A request and the check of what it writes."""
    yield Request(title, words, files)
    answer = answered(program, words, files)
    options = [it for it in words[3:] if it.startswith("--")]
    if words[0] == "edit":
        options.append("--script=S")
    yield Request(f"check of {title}", ["check", words[1], "M", "answer", *options],
                  {**files, "answer": answer})


def requests(program):
    three, two = {"M": THREE}, {"M": TWO}
    for objective in ("sum", "balanced", "lex", "bottleneck"):
        yield from with_check(program, f"solve {objective}", ["solve", objective, "M"], three)
        yield Request(f"solve {objective} --brief", ["solve", objective, "M", "--brief"], three)
    yield from with_check(program, "rank sum", ["rank", "sum", "M", "--count=2"], three)
    yield Request("rank sum --brief", ["rank", "sum", "M", "--count=2", "--brief"], three)
    yield from with_check(program, "rank sum, side 2", ["rank", "sum", "M", "--count=2"], two)
    edited = {"M": THREE, "S": SCRIPT}
    yield from with_check(program, "edit sum", ["edit", "sum", "M", "S"], edited)
    yield Request("edit sum --brief", ["edit", "sum", "M", "S", "--brief"], edited)
    yield from larger(program)


def larger(program):
    """Each reader at a larger form, and other objectives."""
    large, pairs = {"M": table(12)}, {"M": table(9, pairs=True)}
    yield from with_check(program, "solve balanced, side 12", ["solve", "balanced", "M"], large)
    yield from with_check(program, "solve lex, side 12", ["solve", "lex", "M"], large)
    yield from with_check(program, "solve time-cost, pairs", ["solve", "time-cost", "M"], pairs)
    yield from with_check(program, "solve pair, pairs", ["solve", "pair", "M", "--place=7"], pairs)
    yield from with_check(program, "solve capped, each 2",
                          ["solve", "capped=100", "M", "--each=2"], large)
    yield from with_check(program, "rank sum, side 6", ["rank", "sum", "M", "--count=9"],
                          {"M": table(6)})
    yield from with_check(program, "edit pair, long script", ["edit", "pair", "M", "S"],
                          {"M": THREE, "S": LONG_SCRIPT})
    yield from with_check(program, "solve sum, asn", ["solve", "sum", "M", "--format=asn"],
                          {"M": network(10, 12)})
    twice = {"M": network(4, 2005).replace(b"a 2006 1 16\n", b"a 2006 1 15\n", 1)}
    yield Request("solve sum, asn of many arcs", ["solve", "sum", "M", "--format=asn"], twice)
    yield Request("make 7 9", ["make", "7", "9"], {})
    yield Request("words that are none", ["solve", "sum"], {})
    yield Request("check of a deep tree", ["check", "sum", "M", "answer", "--count=4000000"],
                  {"M": b"5\n" + b"0 0 0 0 0\n" * 5, "answer": b"".join(deep_tree(5)(10**6))})
