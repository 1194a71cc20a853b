"""Documents of asg, as its formats page has them, read into places of the table."""
import re
from dataclasses import dataclass, field

from .words import Wrong


@dataclass
class Answer:
    """A choice: its value, and the row and the column of each of its cells."""

    value: tuple
    cells: list


@dataclass
class Phase:
    steps: list
    enters: list
    leaves: list


@dataclass
class Document:
    """The answers, of how many were asked for; and the proof: its kind, its rows, windows (low, high, rows), levels
    (cost, count) and phases."""

    status: str
    answers: list = field(default_factory=list)
    kind: str = ''
    rows: list = field(default_factory=list)
    windows: list = field(default_factory=list)
    levels: list = field(default_factory=list)
    phases: list = field(default_factory=list)
    asked: int = 0


def read_value(words):
    return tuple(int(part) for word in words for part in word.split(':'))


def places_of(words, rows):
    """The places of rows, by their ids."""
    places = [int(word) - 1 for word in words]
    if not all(0 <= place < rows for place in places):
        raise ValueError('no such row')
    return places


def read_steps(words):
    """The steps of a phase; those of time-cost, which have a grade, are kept as words."""
    return [int(word) if ':' not in word else word for word in words]


def take_proof(document, words, rows):
    """The head of a proof."""
    document.kind = words[0]
    if words[0] == 'below':
        document.rows = places_of(words[1:], rows)


def take_line(document, word, rest, rows, columns):
    """A line behind the status."""
    if word in ('value', 'answer'):
        document.answers.append(Answer(read_value(rest), []))
    elif word.isdigit():
        document.answers[-1].cells.append((*places_of([word], rows), columns[int(rest[0]) - 1]))
    elif word == 'count':
        document.asked = int(rest[0])
    elif word == 'hall':
        document.kind, document.rows = 'hall', places_of(rest, rows)
    elif word == 'proof':
        take_proof(document, rest, rows)
    elif word == 'window':
        document.windows.append((int(rest[0]), int(rest[1]), places_of(rest[2:], rows)))
    elif word == 'level':
        document.levels.append((int(rest[0]), int(rest[1])))


class PhaseLines:
    """The numbers of the lines of phases. Many of a document are those of the one before, and aren't read again."""

    def __init__(self):
        self.before, self.now = {}, {}

    def turn(self):
        """Another document begins."""
        self.before, self.now = self.now, {}

    def take(self, document, word, line):
        """Takes a line of a phase."""
        found = self.now[line] = self.before.get(line) or read_steps(line.split()[1:])
        if word == 'steps':
            document.phases.append(Phase(found, [], []))
        else:
            setattr(document.phases[-1], word, found)


def each_document(text, rows, columns):
    """The documents of a text, one after the other. There are so many rows, and `columns` tells for each column of the
    file which one of the table it is."""
    document, lines = None, PhaseLines()
    try:
        for found in re.finditer('.+', text):
            word = found[0].split(' ', 1)[0]
            if word == 'status':
                if document:
                    yield document
                document = Document(found[0].split()[1])
                lines.turn()
            elif document and word in ('steps', 'enters', 'leaves'):
                if document.kind == 'phases':
                    lines.take(document, word, found[0])
            elif document:
                take_line(document, word, found[0].split()[1:], rows, columns)
    except (ValueError, IndexError):
        raise Wrong(f'asg wrote a line that plan can\'t read: {found[0][:80]!r}') from None
    if document:
        yield document


def read_documents(text, wanted, rows, columns):
    """The documents of a text, so many as are wanted."""
    found = len(re.findall('^status ', text, re.MULTILINE))
    if found != wanted:
        raise Wrong(f'asg answered with {found} documents, and {wanted} were due')
    return each_document(text, rows, columns)
