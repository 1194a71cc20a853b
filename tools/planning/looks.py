"""The second look: what asg answers, held against the table once more, without asg."""
from operator import add, mul

from .shares import numbers_of
from .words import Wrong

FAULT = 'this is a fault of plan or of asg'


def is_valid(table, answer, wanted):
    """Whether the cells are a choice of the table: so many rows, each once, by cells that are there."""
    rows = [row for row, _ in answer.cells]
    taken = [0] * len(table.columns)
    for _, column in answer.cells:
        taken[column] += 1
    return (len(rows) == len(set(rows)) == wanted and not table.dropped & set(rows)
            and all(table.cost(*cell) is not None for cell in answer.cells)
            and all(count <= most for count, most in zip(taken, table.capacity)))


def look_at_answer(table, objective, answer, place):
    """That the answer is a choice of the table, and has the value that it says."""
    wanted = place or len(table.rows) - len(table.dropped)
    if not is_valid(table, answer, wanted):
        raise Wrong(f'the answer is no choice of the table; {FAULT}')
    if objective.value([table.cost(*cell) for cell in answer.cells]) != answer.value:
        raise Wrong(f'the answer has another value than it says; {FAULT}')


def look_at_ranking(objective, answers):
    """That the answers are different, and none is better than the one before."""
    kept = [frozenset(answer.cells) for answer in answers]
    if len(set(kept)) != len(kept):
        raise Wrong(f'a ranked answer stands there twice; {FAULT}')
    for one, other in zip(answers, answers[1:]):
        if objective.is_better(other.value, one.value):
            raise Wrong(f'a ranked answer is better than the one before; {FAULT}')


def reached(table, rows, holds):
    """The columns of the rows' cells whose first cost holds."""
    return [c for c in range(len(table.columns))
            if any(table.first[r][c] is not None and holds(table.first[r][c]) for r in rows)]


def places_short(table, rows, columns, out):
    """How many places the columns lack for the rows, of which `out` may stay out: above 0, or it proves nothing."""
    short = len(rows) - out - sum(table.capacity[c] for c in columns)
    if len(set(rows)) != len(rows) or short <= 0:
        raise Wrong(f'the rows of the proof have enough places; {FAULT}')
    return short


def look_at_shares(table, objective, answer, shares, place):
    """That no cell costs less than its row's share less its column's, that the chosen ones cost just that, and that
    no row that stays out has a lesser share than one that is placed. So no choice is better."""
    total, chosen = 0, dict(answer.cells)
    for row in table.live_rows():
        numbers = numbers_of(table, objective, row)
        if None in numbers:
            sums = [number + price for number, price in zip(numbers, shares.columns) if number is not None]
        else:
            sums = map(add, numbers, shares.columns)
        if min(sums, default=shares.rows[row]) < shares.rows[row]:
            raise Wrong(f'the shares of the proof do not hold for {table.rows[row]}; {FAULT}')
        total += numbers[chosen[row]] if row in chosen else 0
    placed = list(chosen)
    most = (min(count, len(table.rows)) for count in table.capacity)
    told = sum(shares.rows[row] for row in placed) - sum(map(mul, shares.columns, most))
    left = set(table.live_rows()) - set(placed) if place else ()
    if min(shares.columns) < 0 or total != told \
            or left and min(shares.rows[row] for row in left) < max(shares.rows[row] for row in placed):
        raise Wrong(f'the shares of the proof do not add up; {FAULT}')
