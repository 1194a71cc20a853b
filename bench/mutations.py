"""Random small instances and scripts, and random changes of their texts and of documents."""

ENDS = (10**9, -10**9, 10**12, 2**32, 2**62, 2**63, -2**63, 2**64, 2**84, 2**120, 2**127, -2**127,
        2**128)
EDGES = [b"0", b"1", b"2", b"-1", b"-0", b"00", b"+1", b"", b"-", b":", b"1:", b":1", b"1:2",
         b"2:-1", *(str(end + more).encode() for end in ENDS for more in (-1, 0, 1)),
         b"4000000", b"4000001", b"1000", b"1001", b"9" * 60, b"-" + b"9" * 60, b"0" * 50 + b"1"]
WORDS = [b"solve", b"rank", b"edit", b"best", b"none", b"ranked", b"sum", b"sum-max", b"pair",
         b"capped=5", b"capped=0", b"bottleneck", b"bottleneck-max", b"time-cost", b"balanced",
         b"lex", b"below", b"phases", b"windows", b"levels", b"tree", b"hall", b"answered", b"open",
         b"empty", b"proof", b"steps", b"end", b"value", b"cells", b"cost", b"forbid", b"drop-row",
         b"drop-column", b"p", b"asn", b"n", b"a", b"c"]
BYTES = b"\x00\t\n\r\x0b\x0c -+:0123456789aep\x7f\x80\xff"


def cost(chance, objective):
    """A cost that the objective takes, as a token."""
    least = 0 if objective.startswith("capped") else -chance.choice((0, 0, 3, 10**9))
    first = chance.randint(least, chance.choice((2, 5, 9, 10**9)))
    if chance.random() < 0.3 or objective in ("pair", "time-cost"):
        return f"{first}:{chance.randint(0, chance.choice((1, 4, 10**9)))}"
    return str(first)


def table(chance, form, objective):
    """A square or rect file of a side of at most 8."""
    rows = chance.choice((1, 2, 2, 3, 3, 3, 4, 4, 5, 8))
    columns = rows if form == "square" else max(0, rows + chance.randint(-2, 3))
    absent = chance.choice((0, 0, 0.2, 0.6))
    lines = [[cost(chance, objective) if chance.random() >= absent else "-" for _ in range(columns)]
             for _ in range(rows)]
    head = f"{rows}\n" if form == "square" else f"{rows} {columns}\n"
    return (head + "".join(" ".join(line) + "\n" for line in lines)).encode()


def arcs(chance, objective):
    """An asn file."""
    rows, columns = chance.randint(1, 5), chance.randint(0, 5)
    ids = chance.sample(range(1, rows + columns + 1), rows)
    found = [(i, j) for i in ids for j in range(1, rows + columns + 1)
             if j not in ids and chance.random() < 0.8]
    lines = [f"n {i}" for i in ids]
    lines += [f"a {i} {j} {cost(chance, objective).split(':')[0]}" for i, j in found]
    return "\n".join([f"p asn {rows + columns} {len(found)}", *lines, ""]).encode()


def instance(chance, form, objective):
    return arcs(chance, objective) if form == "asn" else table(chance, form, objective)


def script(chance, rows, columns, objective):
    """A script for an instance with these ids."""
    lines = []
    for _ in range(chance.randint(0, 6)):
        row = chance.choice(rows)
        column = chance.choice(columns) if columns else 1
        lines.append(chance.choice((
            f"cost {row} {column} {cost(chance, objective)}", f"forbid {row} {column}",
            f"drop-row {row}", f"drop-column {column}", "solve", "solve")))
    return "".join(line + "\n" for line in [*lines, "solve"]).encode()


def near(chance, word):
    """A number near the one of a word."""
    try:
        return str(int(word) + chance.choice((-2, -1, 1, 1, 2, 10**9, -10**9))).encode()
    except ValueError:
        return chance.choice(WORDS)


def change_word(chance, words):
    """Changes the words of a line in one place."""
    at = chance.randrange(len(words))
    kind = chance.randrange(8)
    if kind == 0:
        del words[at]
    elif kind == 1:
        words.insert(at, chance.choice(words))
    elif kind == 2:
        other = chance.randrange(len(words))
        words[at], words[other] = words[other], words[at]
    elif kind == 3:
        words[at] = chance.choice(EDGES)
    elif kind == 4:
        words[at] = chance.choice(WORDS)
    elif kind == 5:
        words[at] = chance.choice(words)
    else:
        words[at] = near(chance, words[at])


def change_line(chance, lines):
    """Changes one line, or drops, repeats or moves it."""
    at = chance.randrange(len(lines))
    kind = chance.randrange(12)
    if kind == 0:
        del lines[at]
    elif kind == 1:
        lines.insert(chance.randrange(len(lines) + 1), lines[at])
    elif kind == 2:
        other = chance.randrange(len(lines))
        lines[at], lines[other] = lines[other], lines[at]
    else:
        words = lines[at].split(b" ")
        change_word(chance, words)
        lines[at] = b" ".join(words)


def change_byte(chance, text):
    at = chance.randrange(len(text) + 1)
    kind = chance.randrange(4)
    if kind == 0:
        return text[:at]
    if kind == 1:
        return text[:at] + text[at + 1:]
    byte = bytes([chance.choice(BYTES)])
    return text[:at] + byte + text[at + (kind == 2):]


def drop_block(chance, lines):
    """Drops, repeats or moves a few lines, as of a whole phase or node, with their number mended
    now and then."""
    at, length = chance.randrange(len(lines)), chance.choice((1, 3, 3, 4))
    block = lines[at:at + length]
    more = chance.choice((-1, 1, 0))
    if more <= 0:
        del lines[at:at + length]
    if more >= 0:
        where = chance.randrange(len(lines) + 1) if more == 0 else at
        lines[where:where] = block
    heads = [i for i, line in enumerate(lines[:at + 1])
             if line[:5] in (b"proof", b"node ", b"level")]
    if heads and chance.random() < 0.7:
        words = lines[heads[-1]].split(b" ")
        if words[-1].isdigit():
            words[-1] = str(max(0, int(words[-1]) + more)).encode()
            lines[heads[-1]] = b" ".join(words)


def numbers_of(lines):
    """The places of the plain numbers of a text: of the line, and of the word in it."""
    return [(i, k) for i, line in enumerate(lines)
            for k, word in enumerate(line.split(b" ")) if word.lstrip(b"-").isdigit()]


def put_number(lines, at, number):
    words = lines[at[0]].split(b" ")
    words[at[1]] = b"%d" % number
    lines[at[0]] = b" ".join(words)


def number_at(lines, at):
    return int(lines[at[0]].split(b" ")[at[1]])


def change_number(chance, lines):
    """Another number in the place of one: a near one, one that stands elsewhere, or two that keep
    their sum or change their places."""
    found = numbers_of(lines)
    if not found:
        return
    one, other = chance.choice(found), chance.choice(found)
    if chance.random() < 0.6:
        near_lines = [at for at in found if abs(at[0] - one[0]) <= 3 and at[1] == one[1]]
        other = chance.choice(near_lines)
    first, second = number_at(lines, one), number_at(lines, other)
    kind, more = chance.randrange(4), chance.choice((1, 1, 1, 2, 3))
    if kind == 0:
        put_number(lines, one, max(0, first + chance.choice((-more, more))))
    elif kind == 1:
        put_number(lines, one, second)
    elif kind == 2 and one != other and second >= more:
        put_number(lines, one, first + more)
        put_number(lines, other, second - more)
    else:
        put_number(lines, one, second)
        put_number(lines, other, first)


def mutated(chance, text):
    """The text with one to three changes."""
    for _ in range(chance.choice((1, 1, 1, 2, 3))):
        lines = text.split(b"\n")
        kind = chance.randrange(16)
        if kind == 0:
            text = change_byte(chance, text)
            continue
        if kind == 1:
            drop_block(chance, lines)
        elif kind < 6:
            change_line(chance, lines)
        else:
            change_number(chance, lines)
        text = b"\n".join(lines)
    return text
