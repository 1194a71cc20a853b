"""Documents that a stranger may send. Each generator gives pieces of bytes, of about so many bytes
in all; what is checked, and for which instance, stands in the table at the end."""
import itertools

from hostile_files import filled, lines_count
from hostile_rankings import (answer, deep_tree, diagonal, many_answers, nodes_below,
                              repeated_answers, wide_tree)

HEAD = b"assignment 1\ncommand %b\nobjective %b\nstatus %b\n"
ONE = b"value %b\ncells 1\n1 1\n"


def best(objective, answer=ONE % b"5", command=b"solve"):
    return HEAD % (command, objective, b"best") + answer


def repeated(head, piece, end=b"end\n", objective=b"sum", value=b"5"):
    """A document with so many equal parts, whose number stands in its head."""
    def pieces(size):
        yield best(objective, ONE % value) + head % lines_count(size, piece)
        yield from filled(piece, size)
        yield end
    return pieces


def listed(before, word, after, objective=b"sum", value=b"5"):
    """A document with one long list."""
    def pieces(size):
        yield best(objective, ONE % value) + before
        yield from filled(b" " + word, size)
        yield after + b"end\n"
    return pieces


def spaced(number, count):
    return b" ".join([number] * count)


def all_rows(count):
    return b" ".join(b"%d" % i for i in range(1, count + 1))


def one_step(side, step=b"0"):
    """A phase of one step, by row 1 and all columns, on a square of this side."""
    enters = b" ".join([b"0"] + [b"1"] * (side - 1))
    return b"steps %b\nenters %b\nleaves %b\n" % (step, enters, spaced(b"1", side))


def stairs(side, step=b"1"):
    """A phase of as many steps as the side: at each a row comes and a column goes."""
    enters = b" ".join(b"%d" % i for i in range(side))
    leaves = b" ".join(b"%d" % (side - j) for j in range(side))
    return b"steps %b\nenters %b\nleaves %b\n" % (spaced(step, side), enters, leaves)


def phases(side, phase, objective=b"sum", value=b"0"):
    """The phase again and again."""
    def pieces(size):
        yield best(objective, diagonal_cells(side, value))
        yield b"proof phases %d\n" % lines_count(size, phase)
        yield from filled(phase, size)
        yield b"end\n"
    return pieces


def diagonal_cells(side, value):
    cells = b"".join(b"%d %d\n" % (i, i) for i in range(1, side + 1))
    return b"value %b\ncells %d\n%b" % (value, side, cells)


def windows(side):
    """Windows of all rows, each of a band without costs."""
    line = b"window 7 8 " + all_rows(side) + b"\n"

    def pieces(size):
        yield best(b"balanced", diagonal_cells(side, b"0"))
        yield b"proof windows %d\n" % lines_count(size, line)
        yield from filled(line, size)
        yield b"end\n"
    return pieces


def falling_windows(size):
    """Windows that begin one below the other, of costs that no cell has, for a spread of 1."""
    count = size // 24
    yield best(b"balanced", b"value 1\ncells 2\n1 1\n2 2\n") + b"proof windows %d\n" % count
    for first in range(0, count, 10000):
        yield b"".join(b"window %d %d 1\n" % (2 * 10**8 - i, 2 * 10**8 - i)
                       for i in range(first, min(count, first + 10000)))
    yield b"end\n"


def column_phase(side, column):
    """One step by 1, by all rows and a column."""
    leaves = b" ".join([b"0"] * column + [b"1"] + [b"0"] * (side - 1 - column))
    return b"steps 1\nenters %b\nleaves %b\n" % (spaced(b"0", side), leaves)


def level_phases(side, phase):
    """One level with very many phases behind those that count; all costs are 5."""
    def pieces(size):
        yield best(b"lex", diagonal_cells(side, spaced(b"5", side)))
        yield b"proof levels 1\nperm %b\n" % all_rows(side)
        yield b"level 5 %d %d\n" % (side, side + lines_count(size, phase))
        yield from (column_phase(side, column) for column in range(side))
        yield from filled(phase, size)
        yield b"end\n"
    return pieces


# --- Many documents ---

def nones(size):
    yield from filled(HEAD % (b"solve", b"sum", b"none") + b"hall 1\nend\n", size)


def ten_thousand(size):
    """10,000 documents of `edit`, each with as many rows as there is room for."""
    head = HEAD % (b"edit", b"sum", b"none") + b"hall "
    rows = max(1, min(1000, (size // 10000 - len(head) - 5) // 4))
    one = head + all_rows(rows) + b"\nend\n"
    yield from filled(one, len(one) * 10000)


def ten_thousand_best(side):
    """10,000 documents of `edit` without phases, which certify where sums stop at 5 and all costs
    are 0."""
    def pieces(_):
        one = best(b"capped=5", diagonal_cells(side, b"0"), b"edit") + b"proof phases 0\nend\n"
        yield from filled(one, len(one) * 10000)
    return pieces


def long_line(line):
    def pieces(size):
        yield line
        yield from filled(b"9", size)
    return pieces


def line_ends(size):
    yield from filled(b"\n", size)


RANKED = "sum --count=4000000"
ONE_PHASE = b"\nenters 0\nleaves 4294967295\n"
WIDE = b"340282366920938463463374607431768211455"
# name: words of the check, side of the instance, the cost of all its cells or their text, generator
DOCUMENTS = {
    "a long list of steps 0": ("sum", 1, 5, listed(b"proof phases 1\nsteps", b"0", ONE_PHASE)),
    "a long list of wide steps": ("sum", 1, 5, listed(b"proof phases 1\nsteps", WIDE, ONE_PHASE)),
    "a long list of steps of 2^32": (
        "sum", 1, 5, listed(b"proof phases 1\nsteps", b"4294967296", ONE_PHASE)),
    "a long list of graded steps": (
        "time-cost", 1, 5,
        listed(b"proof phases 1\nsteps", b"0:0", ONE_PHASE, b"time-cost", b"5:0")),
    "a long enters": (
        "sum", 1, 5, listed(b"proof phases 1\nsteps 0\nenters", b"0", b"\nleaves 1\n")),
    "many phases, side 1": ("sum", 1, 0, phases(1, one_step(1))),
    "many phases of a long step": (
        "time-cost", 1, 5,
        phases(1, one_step(1, b"4294967295:0"), b"time-cost", b"5:0")),
    "many phases, side 8": ("sum", 8, 0, phases(8, one_step(8))),
    "many phases, side 100": ("sum", 100, 0, phases(100, one_step(100))),
    "many phases, side 1000": ("sum", 1000, 0, phases(1000, one_step(1000))),
    "stairs, side 100": ("sum", 100, 0, phases(100, stairs(100))),
    "stairs, side 1000": ("sum", 1000, 0, phases(1000, stairs(1000))),
    "stairs of capped, side 1000": (
        "capped=1000000000000", 1000, 10**9,
        phases(1000, stairs(1000), b"capped=1000000000000", b"1000000000000")),
    "stairs of bottleneck, side 1000": (
        "bottleneck", 1000, 0, phases(1000, stairs(1000, b"0"), b"bottleneck")),
    "stairs of time-cost, side 1000": (
        "time-cost", 1000, 0, phases(1000, stairs(1000, b"5:1"), b"time-cost", b"0:0")),
    "many windows of one row": (
        "balanced", 1, 5, repeated(b"proof windows %d\n", b"window 0 0 1\n", objective=b"balanced",
                                   value=b"0")),
    "many windows of eight rows": (
        "balanced", 8, 5, repeated(b"proof windows %d\n", b"window 0 0 1 2 3 4 5 6 7 8\n",
                                   objective=b"balanced", value=b"0")),
    "windows of all rows, side 1000": ("balanced", 1000, 0, windows(1000)),
    "windows one below the other": ("balanced", 2, b"0 9\n9 1\n", falling_windows),
    "many levels": (
        "lex", 1, 5, repeated(b"proof levels %d\nperm 1\n", b"level 5 1 0\n", objective=b"lex")),
    "a level with many phases": ("lex", 1, 5, level_phases(1, one_step(1))),
    "a level with stairs, side 200": ("lex", 200, 5, level_phases(200, stairs(200, b"0"))),
    "a level with phases, side 1000": ("lex", 1000, 5, level_phases(1000, one_step(1000))),
    "a long perm": ("lex", 1, 5, listed(b"proof levels 1\nperm", b"1", b"\nlevel 5 1 0\n", b"lex")),
    "a long value": ("lex", 1, 5, lambda size: itertools.chain(
        [HEAD % (b"solve", b"lex", b"best"), b"value"], filled(b" 5", size), [b"\ncells 1\n"])),
    "many cells": ("sum", 1, 5, lambda size: itertools.chain(
        [best(b"sum", b"value 5\ncells %d\n" % (size // 4))], filled(b"1 1\n", size),
        [b"proof phases 0\nend\n"])),
    "a long below": (
        "bottleneck", 1, 5, listed(b"proof below", b"1", b"\n", b"bottleneck")),
    "a wide tree": (RANKED, 1, 5, nodes_below(b"node 1 1 open 0\n")),
    "a tree of empty nodes": (RANKED, 1, 5, nodes_below(b"node 1 1 empty 1\n")),
    "a tree of nodes with a phase": (
        RANKED, 1, 5, nodes_below(b"node 1 1 open 1\n" + one_step(1))),
    "a node with stairs for each branch, side 100": (
        RANKED, 100, 0, wide_tree(100, stairs(100), None)),
    "a node with a phase for each branch, side 1000": (
        RANKED, 1000, 0, wide_tree(1000, one_step(1000, b"1"), 1)),
    "a deep tree, side 30": (RANKED, 30, 0, deep_tree(30)),
    "a deep tree, side 60": (RANKED, 60, 0, deep_tree(60)),
    "a deep tree, side 100": (RANKED, 100, 0, deep_tree(100)),
    "a deep tree with phases at its top, side 10": (
        RANKED, 10, 0, deep_tree(10, one_step(10))),
    "a deep tree with phases at its top, side 30": (
        RANKED, 30, 0, deep_tree(30, one_step(30))),
    "many answers": (RANKED, 10, 0, many_answers),
    "one answer again and again": (
        RANKED, 1, 5, repeated_answers(b"answer 5\ncells 1\n1 1\n")),
    "one answer of 1,000 rows, ids from 1001": (
        RANKED + " --format=asn", 1000, diagonal,
        repeated_answers(answer(range(1000), first=1001))),
    "many documents": ("sum", 1, 5, nones),
    "10,000 documents for a script": (
        "sum --script", 1000, spaced(b"-", 1000000), ten_thousand),
    "10,000 best ones, side 1000": ("capped=5 --script", 1000, 0, ten_thousand_best(1000)),
    "line ends": ("sum", 1, 5, line_ends),
    "a long first line": ("sum", 1, 5, long_line(b"assignment 1")),
    "a long value of nines": ("sum", 1, 5, long_line(best(b"sum", b"value "))),
    "phases that aren't there": (
        "sum", 1, 5, lambda size: [best(b"sum") + b"proof phases 4294967295\n"]),
}
