"""Columns that take whoever can take them, as one column: a table for which asg's file is small enough; and the rosters
of the whole table from those of this one."""
import heapq
import itertools
from copy import copy
from dataclasses import dataclass

from .distinct import is_open
from .documents import Answer
from .words import listed, named


@dataclass
class Merged:
    """A table whose last column stands for all open ones, each row with its best cell of them; the columns that it has
    besides, and the open ones; and for each row those that it can take of these, the best first."""

    table: object
    kept: list
    opens: list
    options: list


def merged_of(table, objective):
    """The table with its open columns in one; None where there is but one."""
    columns = range(len(table.columns))
    opens, kept = ([c for c in columns if is_open(table, c) == is_free] for is_free in (True, False))
    if len(opens) < 2:
        return None
    sign = -1 if objective.is_greater else 1
    options = [sorted((c for c in opens if first[c] is not None), key=lambda c: (sign * first[c], second[c]))
               for first, second in zip(table.first, table.second)]
    made = copy(table)
    made.columns = [table.columns[c] for c in kept] + [listed((named(table.columns[c]) for c in opens), 6, 'or')]
    made.capacity = [table.capacity[c] for c in kept] + [len(table.rows)]
    made.first, made.second = ([[row[c] for c in kept] + [row[found[0]] if found else none]
                                for row, found in zip(side, options)]
                               for side, none in ((table.first, None), (table.second, 0)))
    return Merged(made, kept, opens, options)


class Fillings:
    """The rosters of the whole table that belong to one of the merged one. `places` tells which of their options rows
    take that are in the last column, where it isn't the first."""

    def __init__(self, table, objective, merged, answer):
        self.table, self.objective, self.merged, self.answer = table, objective, merged, answer
        self.costs = [table.cost(*cell) for cell in self.cells({})]

    def cells(self, places):
        kept, options = self.merged.kept, self.merged.options
        return [(row, kept[column] if column < len(kept) else options[row][places.get(row, 0)])
                for row, column in self.answer.cells]

    def value(self, places):
        """The value of such a roster. All rows are placed, in order."""
        costs = self.costs[:]
        for row, place in places.items():
            costs[row] = self.table.cost(row, self.merged.options[row][place])
        return self.objective.value(costs)

    def after(self, places):
        """What comes after it: the next option of one row, none of those before the last that has changed. So each comes
        once, and none is better than the one that it comes after."""
        last = max(places, default=0)
        for row, column in self.answer.cells[last:]:
            place = places.get(row, 0) + 1
            if column == len(self.merged.kept) and place < len(self.merged.options[row]):
                yield {**places, row: place}


def put_together(table, objective, merged, answers, count):
    """The best rosters of the whole table, so many as are wanted, from as many of the merged one; and whether there is
    none besides. One that belongs to none of these is no better than they are."""
    fillings, order = [Fillings(table, objective, merged, answer) for answer in answers], itertools.count()

    def waits(filling, places):
        value = filling.value(places)
        return tuple(-part for part in value) if objective.is_greater else value, next(order), filling, places, value

    waiting, found = [waits(filling, {}) for filling in fillings], []
    heapq.heapify(waiting)
    while waiting and len(found) < count:
        _, _, filling, places, value = heapq.heappop(waiting)
        found.append(Answer(value, filling.cells(places)))
        for following in filling.after(places):
            heapq.heappush(waiting, waits(filling, following))
    return found, not waiting
