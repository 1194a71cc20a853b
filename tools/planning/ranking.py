"""The near-best rosters, side by side."""
from dataclasses import dataclass

from . import looks, reasons, texts
from .distinct import Distinct, crowded_rows, distinct_of
from .instances import MOST_SIDE, look_at_size
from .merging import merged_of, put_together
from .solving import Question, document_of
from .words import TooMany, Wrong, counted, listed, named

WIDE = 100


@dataclass
class Asked:
    """What is asked: the table, the objective, and how many rosters."""

    table: object
    objective: object
    count: int


@dataclass
class Ranked:
    """The best rosters of a table, in order; the question to asg, for how many choices; and what the check said."""

    table: object
    question: Question
    answers: list
    count: int
    why: list
    verdict: str


def question_of(asked):
    """The question to asg, and the merged table where it is over one. Each choice of the file is a roster of its own
    where a file of this kind is small enough."""
    table, objective = asked.table, asked.objective
    look_at_size(table)
    rows, most = len(table.rows), {min(count, len(table.rows)) for count in table.capacity}
    if len(most) == 1 and max(rows, max(most) * len(table.columns)) <= MOST_SIDE:
        return Question(table, objective, 0), None
    instance = distinct_of(table)
    if instance.fits(asked.count):
        return Question(table, objective, 0, instance), None
    merged = merged_of(table, objective)
    instance = merged and distinct_of(merged.table)
    if merged and instance.fits(asked.count):
        return Question(merged.table, objective, 0, instance), merged
    return Question(table, objective, 0), None


def different(question, answers):
    """The answers without those whose roster stands there before, by other places of the same columns."""
    columns = question.instance.columns
    if isinstance(question.instance, Distinct) or len(set(columns)) == len(columns):
        return answers
    return list({frozenset(answer.cells): answer for answer in reversed(answers)}.values())[::-1]


def found_by(program, question, count):
    """So many choices of asg's ranking, as different rosters; whether they are all; and the document and its check."""
    document, verdict = document_of(program, question, 'rank', '--count', str(count))
    answers = different(question, document.answers)
    looks.look_at_ranking(question.objective, answers)
    return answers, len(document.answers) < count, document, verdict


def more_found(program, question, count):
    """Asks for more and more, until there are so many different rosters, or all, or asg ranks no more. Rosters come
    more than once where columns stand in its file for each of their places."""
    found = found_by(program, question, count)
    while len(found[0]) < count and not found[1]:
        try:
            found = found_by(program, question, 2 * len(found[2].answers))
        except TooMany:
            break
    return found


def none_ranked(asked, question, document, verdict):
    """No roster at all, and why."""
    if isinstance(question.instance, Distinct):
        document.rows = crowded_rows(question.table, document.rows)
    why = reasons.none_reasons(question.table, document, 0)
    return Ranked(asked.table, question, [], document.asked or asked.count, why, verdict)


def rank(program, asked):
    """The best rosters, so many as are asked for."""
    if not asked.objective.is_ranked:
        raise Wrong(f'asg ranks by each objective but balanced and lex, and not by {asked.objective.kind}')
    question, merged = question_of(asked)
    answers, has_all, document, verdict = more_found(program, question, asked.count)
    if document.status == 'none':
        return none_ranked(asked, question, document, verdict)
    if merged:
        answers, are_whole = put_together(asked.table, asked.objective, merged, answers, asked.count)
        has_all = has_all and are_whole
        for answer in answers:
            looks.look_at_answer(asked.table, asked.objective, answer, 0)
        looks.look_at_ranking(asked.objective, answers)
    why = [last_words(question, answers[:asked.count], has_all and len(answers) <= asked.count)]
    if merged:
        opens = listed((named(asked.table.columns[c]) for c in merged.opens), 6)
        why.append(f'each of {opens} takes all who can take it: asg ranked by the best of them for each '
                   f'{asked.table.row_title}, and plan put the others in its place')
    if len(answers) < asked.count and not has_all:
        why.append(f'asg ranks no more of this table: columns with different capacities stand in its file once for each '
                   f'place, so each roster came several times, in {len(document.answers):,} choices')
    return Ranked(asked.table, question, answers[:asked.count], document.asked, why, verdict)


def last_words(question, answers, are_all):
    """What is known of the rosters that aren't shown."""
    if are_all:
        return 'no other roster is valid'
    last = question.objective.show(question.table.scale, answers[-1].value)
    if len(answers[-1].value) > 1:
        return f'every other roster comes to {last} or worse'
    return f'every other roster comes to {last} or {"less" if question.objective.is_greater else "more"}'


def columns_of(ranked):
    """For each roster its lines: the value, and for each row its column, marked where the first roster has another."""
    question, table = ranked.question, ranked.table
    first = dict(ranked.answers[0].cells)
    for place, answer in enumerate(ranked.answers, 1):
        chosen = dict(answer.cells)
        names = [table.columns[chosen[row]] + ' *' * (chosen[row] != first[row]) for row in range(len(table.rows))]
        yield [str(place), *names, question.objective.show(table.scale, answer.value)]


def blocks(left, columns):
    """The rosters in blocks that are no wider than a page; the row's names stand before each."""
    wide, block = 0, []
    for column in columns:
        more = max(map(texts.width, column)) + 2
        if block and wide + more > WIDE - max(map(texts.width, left)):
            yield block
            wide, block = 0, []
        block.append(column)
        wide += more
    yield block


def ranked_lines(ranked, keep):
    """All that is shown of a ranking."""
    table = ranked.table
    if not ranked.answers:
        return ['No choice is valid.', '', 'Why', *(f'  {line}' for line in ranked.why), '', *checked(ranked, keep)]
    lines = [f'{texts.shown_objective(ranked.question)}: {counted(len(ranked.answers), "best roster")}, in order; '
             '* differs from the first', '']
    left = [table.row_title, *table.rows, 'value']
    for block in blocks(left, columns_of(ranked)):
        lines += texts.table_lines(list(zip(left, *block))) + ['']
    return lines + ['Why none is missing', *(f'  {line}' for line in ranked.why), '', *checked(ranked, keep)]


def checked(ranked, keep):
    """What the check said of the ranking, for as many choices as it was asked for."""
    question = ranked.question
    return texts.checked(ranked.verdict, question, keep, question.document_name, '--count', str(ranked.count))
