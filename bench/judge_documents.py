"""Reads the text of a list of documents strictly, by the grammar of docs/FORMATS.md."""
import re
from dataclasses import dataclass, field

LESS_32 = (0, 2**32 - 1)
LESS_64 = (0, 2**64 - 1)
LESS_128 = (0, 2**128 - 1)
SIGNED_64 = (-2**63, 2**63 - 1)
SIGNED_128 = (-2**127, 2**127 - 1)
COMMANDS = ("solve", "rank", "edit")
WORDS = ("sum", "sum-max", "pair", "bottleneck", "bottleneck-max", "time-cost", "balanced", "lex")
NUMBER = re.compile(r"0|-?[1-9][0-9]*")


class BadLine(Exception):
    """The line that is refused."""


@dataclass
class Phase:
    steps: list
    enters: list
    leaves: list


@dataclass
class Answer:
    value: object
    cells: list


@dataclass
class Node:
    parent: int
    branch: int
    kind: str
    answer: int = 0
    rows: list = field(default_factory=list)
    phases: list = field(default_factory=list)


@dataclass
class Level:
    cost: int
    count: int
    phases: list


@dataclass
class Document:
    """A document; of `best` the answers are one, and proof holds what its kind says."""
    command: str
    objective: str
    status: str
    answers: list = field(default_factory=list)
    kind: str = ""
    proof: object = None
    count: int = 0
    perm: list = field(default_factory=list)


def number(word, limits):
    """A number as it is spelled, or ValueError."""
    if not NUMBER.fullmatch(word) or len(word) > 45 or not limits[0] <= int(word) <= limits[1]:
        raise ValueError(word)
    return int(word)


def numbers(words, limits):
    """A list with at least one member."""
    if not words:
        raise ValueError("an empty list")
    return [number(word, limits) for word in words]


def pair(word, first, second):
    left, right = word.split(":")
    return number(left, first), number(right, second)


def objective_of(word):
    if word in WORDS:
        return word
    if not word.startswith("capped="):
        raise ValueError(word)
    number(word[7:], (1, 10**12))
    return word


def value_of(words, objective):
    if objective == "lex":
        return numbers(words, SIGNED_64)
    word, = words
    if objective in ("pair", "time-cost"):
        return pair(word, SIGNED_128, SIGNED_128)
    return number(word, SIGNED_128)


class Reader:
    """Takes the lines one after the other; each call that finds none that fits is a BadLine."""

    def __init__(self, text):
        lines = text.split(b"\n")
        self.lines, self.rest = lines[:-1], lines[-1]
        self.at = 0

    def is_done(self):
        return self.at == len(self.lines) and not self.rest

    def take(self, read):
        """What `read` makes of the words of the next line."""
        try:
            line = self.lines[self.at].decode("ascii")
            found = read(line.split(" "))
        except (IndexError, ValueError) as bad:
            raise BadLine(self.at + 1) from bad
        self.at += 1
        return found

    def words(self, *begin):
        """The words of a line behind those that it begins with."""
        def read(words):
            if words[:len(begin)] != list(begin):
                raise ValueError(words)
            return words[len(begin):]
        return read

    def one(self, *begin, read):
        """The last word of a line, read."""
        def whole(words):
            word, = self.words(*begin)(words)
            return read(word)
        return self.take(whole)

    def sized(self, *begin, limits=LESS_32):
        return self.one(*begin, read=lambda word: number(word, limits))

    def listed(self, begin, limits):
        return self.take(lambda words: numbers(self.words(begin)(words), limits))

    def plain(self, *line):
        def read(words):
            if words != list(line):
                raise ValueError(words)
        self.take(read)

    def choice(self, begin, known):
        def read(word):
            if word not in known:
                raise ValueError(word)
            return word
        return self.one(begin, read=read)

    def documents(self):
        found = []
        while not self.is_done():
            found.append(self.document())
        return found

    def document(self):
        self.plain("assignment", "1")
        found = Document(self.choice("command", COMMANDS),
                         self.one("objective", read=objective_of),
                         self.choice("status", ("best", "none", "ranked")))
        {"best": self.best, "none": self.none, "ranked": self.ranked}[found.status](found)
        self.plain("end")
        return found

    def none(self, found):
        found.proof = self.listed("hall", LESS_32)

    def answer(self, objective, begin):
        value = self.take(lambda words: value_of(self.words(begin)(words), objective))
        count = self.sized("cells", limits=(1, LESS_32[1]))
        cells = [self.take(two_ids) for _ in range(count)]
        return Answer(value, cells)

    def best(self, found):
        found.answers = [self.answer(found.objective, "value")]
        kinds = {"below": LESS_32, "phases": LESS_32, "windows": LESS_32,
                 "levels": (1, LESS_32[1])}

        def head(words):
            kind = self.words("proof")(words)[0]
            members = numbers(words[2:], kinds.get(kind, (1, 0)))
            if kind != "below" and len(members) != 1:
                raise ValueError(words)
            return kind, members
        found.kind, members = self.take(head)
        if found.kind == "below":
            found.proof = members
        elif found.kind == "phases":
            found.proof = self.phases(members[0], found.objective == "time-cost")
        elif found.kind == "windows":
            found.proof = [self.take(self.window) for _ in range(members[0])]
        else:
            found.perm = self.listed("perm", (1, LESS_32[1]))
            found.proof = [self.level() for _ in range(members[0])]

    def window(self, words):
        low, high, *rows = self.words("window")(words)
        return number(low, SIGNED_64), number(high, SIGNED_64), numbers(rows, LESS_32)

    def level(self):
        def head(words):
            cost, count, phases = self.words("level")(words)
            return number(cost, SIGNED_64), number(count, LESS_32), number(phases, LESS_32)
        cost, count, phases = self.take(head)
        return Level(cost, count, self.phases(phases, False))

    def phases(self, count, graded):
        return [self.phase(graded) for _ in range(count)]

    def phase(self, graded):
        def steps(words):
            words = self.words("steps")(words)
            if graded and words:
                return [pair(word, LESS_64, LESS_128) for word in words]
            return numbers(words, LESS_128)
        return Phase(self.take(steps), self.listed("enters", LESS_32),
                     self.listed("leaves", LESS_32))

    def ranked(self, found):
        found.count = self.sized("count", limits=(1, 4000000))
        answers = self.sized("answers", limits=(1, LESS_32[1]))
        found.answers = [self.answer(found.objective, "answer") for _ in range(answers)]
        nodes = self.sized("proof", "tree", limits=(1, LESS_32[1]))
        found.proof = [self.node(found.objective == "time-cost") for _ in range(nodes)]

    def node(self, graded):
        def head(words):
            parent, branch, kind, *rest = self.words("node")(words)
            node = Node(number(parent, LESS_32), number(branch, LESS_32), kind)
            rest = numbers(rest, LESS_32)
            if kind == "empty":
                node.rows = rest
                return node, 0
            if kind == "open" and len(rest) == 1:
                return node, rest[0]
            if kind == "answered" and len(rest) == 2:
                node.answer = rest[0]
                return node, rest[1]
            raise ValueError(words)
        node, phases = self.take(head)
        node.phases = self.phases(phases, graded)
        return node


def two_ids(words):
    row, column = words
    return number(row, LESS_32), number(column, LESS_32)


def read_documents(text):
    """The documents of a text, or BadLine with the refused line."""
    return Reader(text).documents()
