"""Instances, and the readers of their files and of scripts, plain and slow: docs/FORMATS.md."""
import re
from dataclasses import dataclass

MOST = 1000
GREATEST = 10**9
LONGEST_ID = 2**32 - 1
SIZE = re.compile(rb"[0-9]+")
INTEGER = re.compile(rb"-?[0-9]+")
CELL = re.compile(rb"(-?[0-9]+)(?::(-?[0-9]+))?")
ALGEBRAIC = ("sum", "sum-max", "pair", "capped", "bottleneck", "bottleneck-max", "time-cost")


class Refused(Exception):
    """What is refused, with the status and the numbers of its line."""

    def __init__(self, status, what, *numbers):
        super().__init__(status)
        self.status = status
        self.line = " ".join(map(str, (f"refused {what}", *numbers))) + "\n"


@dataclass
class Instance:
    """Rows and columns have their ids, in order; a cost is a pair."""
    rows: list
    columns: list
    costs: dict
    place: int = 0  # 0 for all
    each: int = 1

    def __post_init__(self):
        self.dropped = set()
        self.closed = set()

    def active(self):
        return [i for i in range(len(self.rows)) if i not in self.dropped]

    def chosen(self):
        """How many rows choose."""
        return self.place or len(self.active())

    def counted(self):
        return list(range(len(self.rows))) if self.place else self.active()

    def is_live(self, i, j):
        return (i, j) in self.costs and i not in self.dropped and j not in self.closed

    def live(self):
        return {cell: cost for cell, cost in sorted(self.costs.items()) if self.is_live(*cell)}

    def side(self):
        places = len(self.columns) * self.each
        return places + len(self.rows) - self.place if self.place else max(len(self.rows), places)

    def copied(self):
        other = Instance(self.rows, self.columns, dict(self.costs), self.place, self.each)
        other.dropped, other.closed = set(self.dropped), set(self.closed)
        return other


def fault(*numbers):
    return Refused(3, "instance", *numbers)


def within(cost):
    return all(-GREATEST <= part <= GREATEST for part in cost)


def size_of(word):
    """A size of at most 32 bits, or none."""
    return int(word) if SIZE.fullmatch(word) and int(word) <= LONGEST_ID else None


def cost_of(word):
    """An integer or a pair of two, as a pair, or none."""
    found = CELL.fullmatch(word)
    return (int(found[1]), int(found[2] or 0)) if found else None


def read_table(text, header):
    """A square file, with one token before its cells, or a rect file, with two."""
    tokens = [it for it in re.split(rb"[ \t\r\n]", text) if it]
    if len(tokens) < header:
        raise fault(11, header, len(tokens))
    sizes = [size_of(it) for it in tokens[:header]]
    for place, size in enumerate(sizes, 1):
        if size is None:
            raise fault(12, place)
    n, m = sizes[0], sizes[-1]
    if n == 0:
        raise fault(10)
    if max(n, m) > MOST:
        raise fault(9, n, m)
    costs = {}
    for at, token in enumerate(tokens[header:header + n * m]):
        cost = cost_of(token)
        if cost is None and token != b"-":
            raise fault(12, header + at + 1)
        if cost and not within(cost):
            raise fault(6, header + at + 1)
        if cost:
            costs[divmod(at, m)] = cost
    if len(tokens) - header != n * m:
        raise fault(11, n * m, len(tokens) - header)
    return Instance(list(range(1, n + 1)), list(range(1, m + 1)), costs)


def lines_of(text):
    """The fields of each line. One CR directly before an LF belongs to the line's end."""
    pieces = text.split(b"\n")
    ended = [it[:-1] if it.endswith(b"\r") else it for it in pieces[:-1]] + pieces[-1:]
    return [[it for it in re.split(rb"[ \t]", line) if it] for line in ended]


class AsnReader:
    """What the lines so far have said."""

    def __init__(self):
        self.nodes = self.stated = None
        self.rows, self.targets, self.arcs, self.count = [], set(), {}, 0

    def problem(self, fields, line):
        if self.nodes is not None:
            raise fault(2, line)
        sizes = [size_of(it) for it in fields[2:]]
        if len(fields) != 4 or fields[1] != b"asn" or None in sizes:
            raise fault(3, line)
        self.nodes, self.stated = sizes

    def node(self, fields, line):
        if self.nodes is None:
            raise fault(3, line)
        found = size_of(fields[1]) if len(fields) == 2 else None
        if found is None or not 1 <= found <= self.nodes or found in self.targets:
            raise fault(4, line)
        if found not in self.rows:
            self.rows.append(found)

    def arc(self, fields, line):
        if self.nodes is None:
            raise fault(3, line)
        self.count += 1
        if len(fields) != 4 or not INTEGER.fullmatch(fields[3]):
            raise fault(5, line)
        source, target = size_of(fields[1]), size_of(fields[2])
        if source not in self.rows or target is None or not 1 <= target <= self.nodes \
                or target in self.rows:
            raise fault(5, line)
        cost = int(fields[3])
        if not within((cost,)):
            raise fault(6, line)
        if self.arcs.setdefault((source, target), cost) != cost:
            raise fault(7, line)
        self.targets.add(target)

    def instance(self):
        if self.nodes is None:
            raise fault(1)
        if self.count != self.stated:
            raise fault(8, self.stated, self.count)
        if not self.rows:
            raise fault(10)
        others = self.nodes - len(self.rows)
        if len(self.rows) > MOST or others > MOST:
            raise fault(9, len(self.rows), others)
        columns = [it for it in range(1, self.nodes + 1) if it not in self.rows]
        costs = {(self.rows.index(source), columns.index(target)): (cost, 0)
                 for (source, target), cost in self.arcs.items()}
        return Instance(self.rows, columns, costs)


def read_asn(text):
    reader = AsnReader()
    forms = {b"p": reader.problem, b"n": reader.node, b"a": reader.arc}
    for line, fields in enumerate(lines_of(text), 1):
        if not fields or fields[0].startswith(b"c"):
            continue
        if fields[0] not in forms:
            raise fault(3, line)
        forms[fields[0]](fields, line)
    return reader.instance()


def refuses(objective, cost):
    """Whether the objective refuses a cost."""
    word = objective.split("=")[0]
    return word == "capped" and cost[0] < 0 or word == "time-cost" and cost[1] < 0


def read_instance(text, form, objective, place=0, each=1):
    """The instance of a file and of the options, or Refused."""
    found = read_asn(text) if form == "asn" else read_table(text, 1 if form == "square" else 2)
    if place > min(len(found.rows), len(found.columns) * each):
        raise fault(13, place)
    found.place, found.each = place, each
    for (i, j), cost in found.live().items():
        if refuses(objective, cost):
            raise fault(14, found.rows[i], found.columns[j])
    if found.side() > 2 * MOST:
        raise fault(15, found.side())
    return found


def read_line(fields):
    """The edit of a line of a script, or none; a cost may be out of range."""
    if fields == [b"solve"]:
        return ("solve",)
    numbers = [size_of(it) for it in fields[1:3]]
    if None in numbers:
        return None
    if fields[0] == b"cost" and len(fields) == 4 and cost_of(fields[3]):
        return ("cost", *numbers, cost_of(fields[3]))
    if (fields[0], len(fields)) in ((b"forbid", 3), (b"drop-row", 2), (b"drop-column", 2)):
        return (fields[0].decode(), *numbers)
    return None


def read_script(text):
    """The edits of a script, each with its line, or Refused."""
    edits = []
    for line, fields in enumerate(lines_of(text), 1):
        if not fields:
            continue
        if len(edits) == 10000:
            raise Refused(4, "script", 2, line)
        edit = read_line(fields)
        if edit is None:
            raise Refused(4, "script", 1, line)
        if edit[0] == "cost" and not within(edit[3]):
            raise Refused(4, "script", 3, line)
        edits.append((line, edit))
    return edits


def refusal(inst, objective, edit):
    """The number of the refusal of an edit, or 0."""
    kind, *ids = edit
    row = ids[0] if kind != "drop-column" else None
    column = ids[0] if kind == "drop-column" else ids[1] if kind in ("cost", "forbid") else None
    if row is not None and row not in inst.rows:
        return 11
    if column is not None and column not in inst.columns:
        return 12
    if row is not None and inst.rows.index(row) in inst.dropped:
        return 13
    if column is not None and inst.columns.index(column) in inst.closed:
        return 14
    if kind == "drop-row" and len(inst.active()) == 1:
        return 16
    return 17 if kind == "cost" and refuses(objective, edit[3]) else 0


def apply(inst, edit):
    """Changes the instance by an edit that isn't refused."""
    kind, *ids = edit
    if kind == "drop-row":
        inst.dropped.add(inst.rows.index(ids[0]))
    elif kind == "drop-column":
        inst.closed.add(inst.columns.index(ids[0]))
    else:
        cell = inst.rows.index(ids[0]), inst.columns.index(ids[1])
        inst.costs.pop(cell, None)
        if kind == "cost":
            inst.costs[cell] = ids[2]


def due_instances(inst, objective, edits):
    """The instance as it is at each `solve` line, or Refused."""
    inst, due = inst.copied(), []
    for line, edit in edits:
        if edit == ("solve",):
            due.append(inst.copied())
            continue
        number = refusal(inst, objective, edit)
        if number:
            raise Refused(4, "script", number, line)
        apply(inst, edit)
    return due
