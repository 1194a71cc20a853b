"""Runs of the program asg, as the tables in trials/runs say: words, files, status and text, and what check says of it.

    NAME = text              what a name in capitals stands for, in the cases and the names below it in its table;
                             in a text NAME*9 is nine of them with blanks between
    asg word ..              a run: a word that is such a name, or a text in braces, is a file that holds the text
        STATUS text          how each of the runs above it ends, and what it writes; no text is nothing at all
        or text              what it may write instead
        and text             the next document, where a run writes more than one

In a text '/' ends a line, and the blanks beside it don't count; '..' stands for whatever the program may choose there,
and \\r, \\s, \\t and \\v for CR, blank, tab and VT; so too in a word, where \\e is an empty one. A line that ends with
'\\' goes on in the next one, and '#' begins a comment.

Each document that a run of solve, rank or edit writes must be found right by check, with the same options. And no case
may accept a run that ends otherwise: with another status, or with other bytes in the documents.
"""
import glob
import os
import re
import subprocess
from dataclasses import dataclass, field

TABLES = os.path.join(os.path.dirname(os.path.realpath(__file__)), 'runs')
NAME = re.compile(r'\b([A-Z][A-Z0-9_]*)\b(?:\*([0-9]+))?')
WORDS = re.compile(r'\{[^}]*\}|[^\s{}]+')
ESCAPES = {'\\e': '', '\\r': '\r', '\\s': ' ', '\\t': '\t', '\\v': '\v'}
BEGIN = b'assignment 1\n'


def square(side, cost):
    """The text of a square file: the costs of row and column, counted from 1."""
    rows = (' '.join(str(cost(row, column)) for column in range(1, side + 1)) for row in range(1, side + 1))
    return f'{side}\n' + '\n'.join(rows) + '\n'


def stairs(columns):
    """The text of a rect file of 16 rows: each has the cost 2 in its own column and 1 in the next one, if they are there."""
    rows = (' '.join({0: '2', 1: '1'}.get(column - row, '-') for column in range(columns)) for row in range(16))
    return f'16 {columns}\n' + '\n'.join(rows) + '\n'


# files that are too large to be written out
MADE = {
    'COSTS_142': lambda: square(142, lambda row, column: 142 * (row - 1) + column - 1),
    'ZEROS_201': lambda: square(201, lambda row, column: 0),
    'PRODUCTS_40': lambda: square(40, lambda row, column: row * column),
    'PRODUCTS_800': lambda: square(800, lambda row, column: row * column),
    'STAIRS_15': lambda: stairs(15),
    'STAIRS_16': lambda: stairs(16),
    'STAIRS_17': lambda: stairs(17),
    'SOLVES_9999': lambda: 'solve\n' * 9_999,
    'SOLVES_10000': lambda: 'solve\n' * 10_000,
    'SOLVES_10001': lambda: 'solve\n' * 10_001,
    'SOLVES_APART': lambda: '\nsolve\n' * 10_000,
}


@dataclass
class Case:
    """A run: its words, in which a file is its text as bytes, and how it ends."""

    where: str
    words: list
    status: int = 0
    documents: list = field(default_factory=list)  # for each one the texts that it may have
    begin: int = 0  # how many bytes of the first one are told
    told: list = field(default_factory=list)  # the lines of the table that say so


@dataclass
class Ran:
    """How a run ended, and what it wrote."""

    status: int
    wrote: bytes


def escaped(text):
    """A text with what its escapes stand for in their place."""
    return re.sub(r'\\[erstv]', lambda found: ESCAPES[found[0]], text)


def plain(text):
    """What a text of a table stands for."""
    return escaped('\n'.join(line.strip(' ') for line in text.split('/')))


def pattern(text):
    """The expression that matches what a text of a table stands for."""
    return re.compile(b'.*'.join(re.escape(part.encode()) for part in plain(text).split('..')), re.S)


def lines_of(path):
    """The lines of a table with their numbers, without comments; those that go on are joined."""
    begun = ''
    with open(path, encoding='utf-8') as file:
        for number, line in enumerate(file, 1):
            line = begun + (line.strip() if begun else line.rstrip())
            begun = line[:-1] if line.endswith('\\') else ''
            if line.strip() and not begun and not line.startswith('#'):
                yield f'{os.path.basename(path)}, line {number}', line


class Table:
    """The cases of a table, as far as it was read."""

    def __init__(self, path):
        self.names, self.cases, self.open = {}, [], []
        for where, line in lines_of(path):
            if line.startswith(' '):
                self.answer(line.strip())
            elif line.split()[0] == 'asg':
                self.run(where, line[len('asg'):])
            else:
                name, text = line.split('=', 1)
                self.names[name.strip()] = self.named(text.strip())
        self.close()

    def named(self, text):
        """A text with what its names stand for in their place."""
        return NAME.sub(lambda found: ' '.join([self.meaning(found[1])] * int(found[2] or 1)), text)

    def meaning(self, name):
        """What a name stands for, or itself where it is none."""
        return MADE[name]() if name in MADE else self.names.get(name, name)

    def word(self, word):
        is_file = word.startswith('{') or word in MADE or word in self.names
        return plain(self.named(word.strip('{}'))).encode() if is_file else escaped(word)

    def run(self, where, words):
        if self.open and self.open[-1].documents:
            self.close()
        self.open.append(Case(where, [self.word(word) for word in WORDS.findall(words)]))

    def answer(self, line):
        head, text = [*line.split(' ', 1), ''][:2]
        for case in self.open:
            case.told.append(f'expected: {line}')
            if head == 'or':
                case.documents[-1].append(pattern(self.named(text)))
                continue
            case.documents.append([pattern(self.named(text))])
            if head != 'and':
                case.status, case.begin = int(head), len(plain(self.named(text)).split('..')[0])

    def close(self):
        """No further answers are to come for the cases that are open."""
        self.cases += self.open
        self.open = []


def documents_of(wrote):
    """What a run wrote, cut before each line with which a document begins."""
    starts = [0] + [found.start() for found in re.finditer(b'(?<=\n)' + BEGIN, wrote)]
    return [wrote[start:end] for start, end in zip(starts, [*starts[1:], len(wrote)])]


class Runner:
    """Runs of the program, over files in a folder of their own."""

    def __init__(self, bench):
        self.asg, self.folder, self.files = bench.asg, os.path.join(bench.folder, 'runs'), {}
        os.mkdir(self.folder)

    def path(self, content):
        """The file with this content."""
        if content not in self.files:
            name = self.files[content] = f'file-{len(self.files)}'
            with open(os.path.join(self.folder, name), 'wb') as file:
                file.write(content)
        return self.files[content]

    def run(self, words):
        given = [self.path(word) if isinstance(word, bytes) else word for word in words]
        done = subprocess.run([self.asg, *given], cwd=self.folder, capture_output=True, check=False)
        return Ran(done.returncode, done.stdout)

    def is_checked(self, words, ran):
        """Whether check finds each document of a run right."""
        command, objective, instance, *rest = words
        script, options = (['--script', rest[0]], rest[1:]) if command == 'edit' else ([], rest)
        count = ran.wrote.count(BEGIN) if command == 'edit' else 1
        with open(os.path.join(self.folder, 'answer'), 'wb') as file:
            file.write(ran.wrote)
        said = self.run(['check', objective, instance, 'answer', *script, *options])
        return said == Ran(0, f'yes {count}\n'.encode())

    def is_right(self, case, ran):
        """Whether a run ended as a case says."""
        documents = documents_of(ran.wrote)
        is_told = ran.status == case.status and len(documents) == len(case.documents) and all(
            any(text.fullmatch(document) for text in texts) for document, texts in zip(documents, case.documents))
        writes = case.words[:1] and case.words[0] in ('solve', 'rank', 'edit') and '--brief' not in case.words
        return is_told and (not writes or case.status > 1 or self.is_checked(case.words, ran))


def bent(case, ran):
    """Runs that end otherwise, none of which a case may accept: each byte that it tells of, and the last, is another."""
    wrote = ran.wrote
    yield Ran(ran.status + 1, wrote)
    yield Ran(ran.status, wrote + b'\n')
    if wrote:
        yield Ran(ran.status, wrote[:-1])
    for at in {*range(min(case.begin, len(wrote))), len(wrote) - 1} if wrote else ():
        yield Ran(ran.status, wrote[:at] + bytes([wrote[at] ^ 1]) + wrote[at + 1:])


def shown(case, *runs):
    """The words of a case and what is expected, and runs, with the beginnings of files and texts."""
    words = (f'{{{word[:200]!r}}}' if isinstance(word, bytes) else word for word in case.words)
    return [' '.join(['asg', *words]), *case.told, *(f'status {ran.status}, wrote {ran.wrote[:1000]!r}' for ran in runs)]


def trials(bench):
    runner = Runner(bench)
    cases = [case for path in sorted(glob.glob(os.path.join(TABLES, '*.txt'))) for case in Table(path).cases]
    if not cases:
        bench.holds(False, f'no cases in {TABLES}')
    for case in cases:
        ran = runner.run(case.words)
        is_right = runner.is_right(case, ran)
        bench.holds(is_right, f'run: {case.where}', *shown(case, ran))
        if is_right:
            wrongly = [it for it in bent(case, ran) if runner.is_right(case, it)]
            bench.holds(not wrongly, f'wrong run that is accepted: {case.where}', *shown(case, *wrongly))
