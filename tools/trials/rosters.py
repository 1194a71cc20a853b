"""Random tables of every objective, against a search through all choices."""
import csv
import random

from planning.texts import OUT

from . import search
from .tables import sample


def told_value(made, right):
    """A value of the search as plan shows it."""
    sign = -1 if made.kind.endswith('-max') else 1
    return (' ' if made.kind == 'lex' else ':').join(made.show(sign * part) for part in right)


def roster_of(path, delimiter):
    """The lines of a roster that was written, without their head."""
    with open(path, encoding='utf-8-sig', newline='') as file:
        return list(csv.reader(file, delimiter=delimiter))[1:]


def is_roster(made, lines, right):
    """Whether the lines are a choice of the table, with its costs, and of this value."""
    costs, taken = [], []
    for name, (told, column, cost) in zip(made.rows, lines, strict=True):
        if told != name:
            return False
        if column != OUT:
            row, place = made.rows.index(name), made.columns.index(column)
            found = made.costs[row][place]
            if found is None or cost != made.cell(found):
                return False
            costs.append(found)
            taken.append(place)
    return (len(costs) == made.place and all(taken.count(c) <= most for c, most in enumerate(made.capacity))
            and search.value(made.kind, made.cap, costs) == right)


def one(bench, made, name):
    """A table, its roster and its reason."""
    table, out = bench.file('table.csv', made.text()), f'{bench.folder}/roster.csv'
    shown = bench.plan('solve', made.objective, table, '--csv', out, *made.words())
    right = search.best(made.kind, made.cap, made.costs, made.capacity, made.place)
    lines = roster_of(out, made.delimiter) if shown.status in (0, 1) else []
    if right is None:
        is_so = shown.status == 1 and shown.out.startswith('No choice is valid.\n\nWhy\n') and not lines
    else:
        head = f'{made.objective} {told_value(made, right)}: '
        is_so = shown.status == 0 and shown.out.startswith(head) and is_roster(made, lines, right) \
            and 'Why nothing is better\n' in shown.out
    is_so = is_so and 'Checked by asg check: yes 1\n' in shown.out and not shown.err
    bench.holds(is_so, name, made.text(), f'{made.objective} {made.words()}: {right} expected', shown)


def trials(bench):
    for kind in search.OBJECTIVES:
        chance = random.Random(f'{bench.seed} {kind}')
        for number in range(bench.count):
            one(bench, sample(kind, chance), f'{kind}, table {number}')
