"""Files that a stranger may send: instances and scripts. Each generator gives pieces of bytes, of
about so many bytes in all."""

ODD = 2654435761  # times a number, modulo 2^32: all numbers, in an order that looks random


def filled(piece, size):
    """The piece again and again."""
    many = piece * max(1, 65536 // len(piece))
    count, rest = divmod(size // len(piece) * len(piece), len(many))
    for _ in range(count):
        yield many
    yield many[:rest]


def joined(numbers, form):
    """Lines of numbers, by thousands."""
    lines = []
    for number in numbers:
        lines.append(form(number))
        if len(lines) == 10000:
            yield "".join(lines).encode()
            lines.clear()
    yield "".join(lines).encode()


# --- Square and rect files ---

def padded_cells(size):
    """Cells 0 with many zeros, of side 100."""
    token = b"0" * (size // 10000 - 1) + b"\n"
    yield b"100\n"
    for _ in range(10000):
        yield token


def one_cell(digit):
    def pieces(size):
        yield b"1\n"
        yield from filled(digit, size)
    return pieces


def short_cells(size):
    """More cells than the side of 1,000 takes, or at 1 MiB fewer."""
    yield b"1000\n"
    yield from filled(b"1 ", size)


def blank(piece):
    def pieces(size):
        yield from filled(piece, size)
    return pieces


def long_header(size):
    yield from filled(b"0", size)
    yield b"1 1\n5\n"


def pairs(size):
    """Pairs, in 1,000 columns and as many rows as there is room for, at most 1,000."""
    rows = min(1000, size // 8000)
    row = b" ".join([b"%d:-%d" % (j % 10, j % 10) for j in range(1000)]) + b"\n"
    yield b"%d 1000\n" % rows
    pad = b" " * max(0, size // rows - len(row))
    for _ in range(rows):
        yield row + pad


# --- Asn files ---

def lines_count(size, line):
    return max(1, size // len(line))


def equal_arcs(size):
    line = b"a 1 2 0\n"
    yield b"p asn 2 %d\nn 1\n" % lines_count(size, line)
    yield from filled(line, size)


def equal_nodes(size):
    yield b"p asn 2 0\n"
    yield from filled(b"n 1\n", size)


def ids(size, bytes_each):
    """As many ids as lines of so many bytes have room for, in an odd order, from high down."""
    for number in range(1, size // bytes_each + 1):
        yield 2**32 - 1 - number * ODD % (2**32 - 1)


def many_sources(size):
    yield b"p asn 4294967295 0\n"
    yield from joined(ids(size, 13), lambda it: f"n {it}\n")


def rising_sources(size):
    yield b"p asn 4294967295 0\n"
    yield from joined(range(2001, 2001 + size // 10), lambda it: f"n {it}\n")


def many_targets(size):
    """Arcs to different nodes, with the right count, and then too many columns."""
    yield b"p asn 4294967295 %d\nn 4294967295\n" % (size // 25)
    yield from joined(ids(size, 25), lambda it: f"a 4294967295 {it} 0\n")


def short_targets(size):
    """The same with the shortest lines."""
    count = size // 15
    yield b"p asn 4294967295 %d\nn 1\n" % count
    yield from joined(range(2001, 2001 + count), lambda it: f"a 1 {it} 0\n")


def spread_targets(size):
    """Ids that are the same in their low 12 bits, against a hash."""
    count = size // 20
    yield b"p asn 4294967295 %d\nn 1\n" % count
    yield from joined(range(1, count + 1), lambda it: f"a 1 {it * 4096 % 4294963200 + 4096} 0\n")


def late_twice(size):
    """All cells of some rows and 1,000 columns again and again, and at the end one at another
    cost."""
    row = b"".join(b"a @ %d 7\n" % j for j in range(1001, 2001))
    rows = min(1000, max(1, size // (2 * len(row))))
    text = b"".join(row.replace(b"@", b"%d" % i) for i in range(1, rows + 1))
    times = max(1, size // len(text))
    yield b"p asn %d %d\n" % (2000, rows * 1000 * times + 1)
    yield b"".join(b"n %d\n" % i for i in range(1, 1001))
    for _ in range(times):
        yield text
    yield b"a 1 1001 8\n"


# --- Scripts ---

def long_edits(line):
    """10,000 lines, each with many spaces."""
    def pieces(size):
        pad = b" " * max(0, size // 10000 - len(line) - 1) + b"\n"
        for _ in range(10000):
            yield line + pad
    return pieces


def long_word(line):
    """One line whose last word is long."""
    def pieces(size):
        yield line
        yield from filled(b"0", size)
    return pieces


def too_many(size):
    yield from filled(b"solve\n", min(size, 60006))
    yield from filled(b"\n", size)


INSTANCES = {
    "square: cells of many zeros": ("square", padded_cells),
    "square: one cell of zeros": ("square", one_cell(b"0")),
    "square: one cell of nines": ("square", one_cell(b"9")),
    "square: short cells": ("square", short_cells),
    "square: spaces": ("square", blank(b" ")),
    "square: line ends": ("square", blank(b"\n")),
    "rect: a long header": ("rect", long_header),
    "rect: pairs and spaces": ("rect", pairs),
    "asn: one arc again and again": ("asn", equal_arcs),
    "asn: one node again and again": ("asn", equal_nodes),
    "asn: many nodes, odd order": ("asn", many_sources),
    "asn: many nodes, rising": ("asn", rising_sources),
    "asn: many arcs, odd order": ("asn", many_targets),
    "asn: many arcs, rising": ("asn", short_targets),
    "asn: many arcs, equal low bits": ("asn", spread_targets),
    "asn: a cost that differs, at the end": ("asn", late_twice),
    "asn: comments": ("asn", blank(b"c\n")),
    "asn: line ends": ("asn", blank(b"\n")),
    "asn: one comment": ("asn", blank(b"c")),
}
SCRIPTS = {
    "line ends": blank(b"\n"),
    "10,000 long costs": long_edits(b"cost 1 2 5"),
    "10,000 long solves": long_edits(b"solve"),
    "a cost of zeros": long_word(b"cost 1 2 "),
    "an id of zeros": long_word(b"forbid "),
    "10,001 solves, line ends": too_many,
}
