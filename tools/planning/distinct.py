"""Files for asg in which each roster is one choice, where columns take different numbers of rows. All of the file's
columns have as many places. A column that takes fewer gets further rows that can take it alone, one for each place that
it lacks. A column that takes all who can take it gets more columns, and each row has its cell in one of them."""
from dataclasses import dataclass, field

from .instances import MOST, MOST_SIDE, Instance

MOST_RANKED = 4000000


@dataclass
class Distinct(Instance):
    """Such an instance: for each row of the table the file's columns of its cells, by the table's columns; and for
    each further row the file's column that it takes."""

    places: list = field(default_factory=list)
    fillers: list = field(default_factory=list)

    def file_rows(self, table):
        return len(table.rows) + len(self.fillers)

    def text(self, table, objective):
        return distinct_text(table, objective, self)

    def fits(self, count):
        """Whether asg ranks so many choices of it."""
        rows = len(self.places) + len(self.fillers)
        side = max(rows, len(self.columns) * self.each)
        return rows <= MOST >= len(self.columns) and side <= MOST_SIDE and count * rows * side <= MOST_RANKED


def is_open(table, column):
    """Whether a column takes all who can take it."""
    return table.capacity[column] >= sum(row[column] is not None for row in table.first)


def distinct_of(table):
    """The instance of a table in which each roster is one choice, whatever its size."""
    opens = [is_open(table, column) for column in range(len(table.columns))]
    each = max((most for most, is_free in zip(table.capacity, opens) if not is_free), default=len(table.rows))
    made = Distinct([], each, 0, [[] for _ in table.rows])
    for column, (most, is_free) in enumerate(zip(table.capacity, opens)):
        first, taken = len(made.columns), 0
        for row, cells in enumerate(table.first):
            made.places[row].append(first + taken // each if is_free else first)
            taken += cells[column] is not None
        copies = max(1, -(-taken // each)) if is_free else 1
        made.columns += [column] * copies
        made.fillers += [] if is_free else [first] * (each - most)
    return made


def filler_cost(table, objective):
    """What a further row costs, so that the value is that of the others alone."""
    live = [a for row in table.first for a in row if a is not None]
    if objective.is_sum or not live:
        return 0
    return max(live) if objective.is_greater else min(live)


def distinct_text(table, objective, instance):
    """The rect file."""
    lines, cost = [f'{instance.file_rows(table)} {len(instance.columns)}'], filler_cost(table, objective)
    for row, places in enumerate(instance.places):
        line = ['-'] * len(instance.columns)
        for place, a, b in zip(places, table.first[row], table.second[row]):
            if a is not None:
                line[place] = f'{a}:{b}' if b else str(a)
        lines.append(' '.join(line))
    for column in instance.fillers:
        lines.append('- ' * column + str(cost) + ' -' * (len(instance.columns) - column - 1))
    return '\n'.join(lines) + '\n'


def crowded_rows(table, rows):
    """Of rows that can't all be placed, those of the table that no column takes for certain: these can't either."""
    opens = [column for column in range(len(table.columns)) if is_open(table, column)]
    return [row for row in rows if row < len(table.rows) and all(table.first[row][c] is None for c in opens)]
