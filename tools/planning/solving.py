"""A question to asg: solved by it, checked by it, and looked at once more before anything is shown."""
from dataclasses import dataclass, replace

from . import looks, reasons, shares
from .documents import read_documents
from .instances import Instance, instance_of
from .objectives import Objective
from .program import ending
from .tables import Table
from .words import TooMany, Wrong, counted


RANKED = 'the count times the rows times the side of the square is {:,}, and asg ranks up to 4,000,000'


@dataclass
class Question:
    """What is asked: the table, the objective, and how many rows are to be placed, 0 for all. Files for asg have the
    name."""

    table: Table
    objective: Objective
    place: int
    instance: Instance = None
    name: str = 'table'

    def __post_init__(self):
        if self.instance is None:
            self.instance = instance_of(self.table, self.place)

    @property
    def out(self):
        """How many rows may stay out. With a number to be placed, rows that were dropped count among them."""
        return len(self.table.rows) - self.place if self.place else 0

    @property
    def document_name(self):
        """The file of the answer."""
        return f'{self.name}.{self.objective.kind}.document'

    def file_text(self):
        """The table as asg reads it."""
        return self.instance.text(self.table, self.objective)

    @property
    def size(self):
        return f'{counted(len(self.table.rows), "row")} and {counted(len(self.instance.columns), "column")}'


@dataclass
class Solved:
    """What is known of a question: the document, why nothing is better, and what the check said."""

    question: Question
    document: object
    why: list
    shares: object
    verdict: str

    @property
    def answer(self):
        return self.document.answers[0] if self.document.answers else None


def refusal(question, text):
    """What asg has against the file, in the words of the table."""
    words = text.split()
    if words[:2] != ['refused', 'instance']:
        return f'asg refuses the table: {text.strip()}'
    table, (number, *rest) = question.table, map(int, words[2:])
    if number == 14:
        row, column = table.rows[rest[0] - 1], table.columns[question.instance.columns[rest[1] - 1]]
        part = 'second cost' if question.objective.kind == 'time-cost' else 'cost'
        return f'{table.path}, row {row}, column {column}: {question.objective.kind} takes no negative {part}'
    if number == 18:
        return f'{table.path}: {RANKED.format(rest[0])}'
    return f'{table.path}: ' + {
        13: f'--place {question.place} is more than there are rows or places',
        15: f'rows and places together are too many: {rest[0]:,}, and asg takes 2,000',
        16: f'there are {rest[0]:,} different costs, and balanced takes 20,000',
        17: f'there are {rest[0]:,} rows, and lex takes 200',
    }.get(number, f'asg refuses it: {text.strip()}')


def asked(program, question, command, *options):
    """Has asg answer, and returns its document's text. Where it answers nothing, that is told in words."""
    done = program.run(f'asg works on {question.size}', command, question.objective.word,
                       program.place(f'{question.name}.rect'), *options, *question.instance.options)
    if done.status == 3:
        kind = TooMany if done.text.startswith('refused instance 18 ') else Wrong
        raise kind(refusal(question, done.text))
    if done.status not in (0, 1):
        raise Wrong(ending(done.status))
    return done.text


def document_of(program, question, command='solve', *options):
    """Asks asg, has `asg check` check what it answered, and reads it."""
    table = program.write(f'{question.name}.rect', question.file_text())
    text = asked(program, question, command, *options)
    path = program.write(question.document_name, text)
    verdict = program.check('asg checks the answer', question.objective.word, table, path, *options,
                            *question.instance.options)
    rows = question.instance.file_rows(question.table)
    document = next(read_documents(text, 1, rows, question.instance.columns))
    for answer in document.answers:
        answer.cells = [cell for cell in answer.cells if cell[0] < len(question.table.rows)]
        looks.look_at_answer(question.table, question.objective, answer, question.place)
    return document, verdict


def worst_reason(program, question, kind):
    """Why the worst cost can't be better: asked of asg as a question of its own, and checked as any other."""
    asks = replace(question, objective=Objective(kind))
    document, _ = document_of(program, asks)
    return reasons.below_reason(asks.table, asks.objective.is_greater, document.answers[0].value[0], document.rows,
                                asks.out)


def total_reasons(question, document):
    """Why no total is better, and the shares that show it, where they do."""
    table, objective, answer = question.table, question.objective, document.answers[0]
    found = shares.shares_of(table, objective, question.instance, document)
    if found is None:
        return [f'no choice has less than the cap, {table.scale.show(objective.cap)}, from which on all are alike'], None
    looks.look_at_shares(table, objective, answer, found, question.place)
    return reasons.share_reasons(table, objective, answer, found), found


def explained(program, question, document):
    """Why nothing is better, or why nothing is valid; and shares."""
    table, kind = question.table, question.objective.kind
    if document.status == 'none':
        return reasons.none_reasons(table, document, question.out), None
    if question.objective.is_sum:
        return total_reasons(question, document)
    if kind == 'balanced':
        return reasons.window_reasons(table, document.windows, question.out), None
    if kind == 'lex':
        return reasons.level_reasons(table, document.levels), None
    if document.kind == 'below':
        value = document.answers[0].value[0]
        return [reasons.below_reason(table, question.objective.is_greater, value, document.rows, question.out)], None
    told = [worst_reason(program, question, 'bottleneck' if kind == 'time-cost' else kind)]
    if kind == 'time-cost':
        first, second = map(table.scale.show, document.answers[0].value)
        told.append(f'at {first} the second costs come to {second} at least, by the phases of the proof')
    return told, None


def solve(program, question):
    """Solves a question, and says why nothing is better."""
    document, verdict = document_of(program, question)
    why, found = explained(program, question, document)
    return Solved(question, document, why, found, verdict)
