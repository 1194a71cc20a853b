"""What each row and each column adds to the least total, from the phases of a proof."""
from dataclasses import dataclass
from itertools import accumulate, repeat
from operator import add, mul

REACH = 10**9
HALF = 2**41
UNIT = 2 * HALF


@dataclass
class Shares:
    """A number for each row and one, from 0 on, for each column: no cell costs less than the one less the other."""

    rows: list
    columns: list


def numbers_of(table, objective, row):
    """The costs of a row as shares count them, None for those that aren't there: gains are costs below 0, and a pair
    is one number."""
    first = table.first[row]
    if objective.kind == 'pair':
        if None not in first:
            return list(map(add, map(mul, first, repeat(UNIT)), table.second[row]))
        return [None if a is None else a * UNIT + b for a, b in zip(first, table.second[row])]
    if objective.kind == 'sum-max':
        return [None if a is None else -a for a in first]
    return first


def shift_of(objective):
    """What is added to each cost before the phases."""
    return {'pair': REACH * UNIT + REACH, 'capped': 0}.get(objective.kind, REACH)


def sums_from(phases, side, marks):
    """For each row, or each column, of the square: the sum of all steps from its mark on."""
    sums = [0] * side
    for phase in phases:
        before = [0, *accumulate(phase.steps)]
        last, behind = len(phase.steps), [before[-1] - sum_before for sum_before in before]
        found = marks(phase)
        if max(found) > last:
            found = [min(mark, last) for mark in found]
        sums = list(map(add, sums, map(behind.__getitem__, found)))
    return sums


def shares_of(table, objective, instance, document):
    """The shares of a proof of a sum, or None where it comes to the cap: then they say nothing."""
    answer = document.answers[0]
    if objective.kind == 'capped' and answer.value[0] >= objective.cap:
        return None
    side = len(document.phases[0].enters) if document.phases else \
        max(len(table.rows), len(instance.columns) * instance.each)
    falls = sums_from(document.phases, side, lambda phase: phase.enters)
    rises = sums_from(document.phases, side, lambda phase: phase.leaves)
    at = {}
    for place, column in enumerate(instance.columns):
        if column not in table.closed:
            at.setdefault(column, rises[place * instance.each])
    least = min(at.values(), default=0)
    return Shares([fall - least - shift_of(objective) for fall in falls[:len(table.rows)]],
                  [at.get(column, least) - least for column in range(len(table.columns))])


def shown(table, objective, share):
    """A share as numbers of the table."""
    if objective.kind != 'pair':
        return table.scale.show(share)
    first = (share + HALF) // UNIT
    return table.scale.show_all((first, share - first * UNIT))
