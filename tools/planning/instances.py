"""What asg is given: the table as a rect file, and its options."""
from dataclasses import dataclass

from .words import Wrong

MOST = 1000
MOST_SIDE = 2000


@dataclass
class Instance:
    """The columns of the file by the table's columns, how many rows each of them takes, and the place rule."""

    columns: list
    each: int
    place: int

    @property
    def options(self):
        """The options of asg that belong to it."""
        each = ['--each', str(self.each)] if self.each != 1 else []
        return ['--format', 'rect', *each, *(['--place', str(self.place)] if self.place else [])]

    def file_rows(self, table):
        """How many rows the file has."""
        return len(table.rows)

    def text(self, table, _):
        """The file."""
        return text_of(table, self)

    def copies(self, column):
        """The file's columns, from 1, that stand for a column of the table."""
        return [place for place, found in enumerate(self.columns, 1) if found == column]


def look_at_size(table):
    """That asg takes so many rows and columns."""
    rows, columns = len(table.rows), len(table.columns)
    if max(rows, columns) > MOST:
        raise Wrong(f'{table.path}: {rows:,} rows and {columns:,} columns; asg takes {MOST:,} of each')


def instance_of(table, place):
    """The table's instance: a column that takes several rows stands several times, unless all take as many."""
    look_at_size(table)
    most = [min(count, len(table.rows)) for count in table.capacity]
    if len(set(most)) == 1:
        made = Instance(list(range(len(table.columns))), most[0], place)
    else:
        made = Instance([c for c, count in enumerate(most) for _ in range(count)], 1, place)
    rows, columns, places = len(table.rows), len(made.columns), sum(table.capacity)
    if columns > MOST:
        raise Wrong(f'{table.path}: columns with different capacities stand in the file for asg once for each place: '
                    f'{columns:,} here, and asg takes {MOST:,}')
    if place and place > min(rows, places):
        raise Wrong(f'--place {place}: {table.path} has {rows:,} rows and {places:,} places')
    return made


def number_line(first):
    """A line of cells with one cost each. Python's own text of the list is the quickest."""
    return str(first)[1:-1].replace(', ', ' ').replace('None', '-')


def pair_line(first, second):
    """A line of cells with two costs each."""
    if None in first:
        return ' '.join(['-' if a is None else f'{a}:{b}' for a, b in zip(first, second)])
    parts = [*first, *second]
    parts[::2], parts[1::2] = first, second
    return ' '.join(['%d:%d'] * len(first)) % tuple(parts)


def text_of(table, instance):
    """The rect file. A dropped row has no cell in it, as one that stays away has none to be placed by."""
    lines = [f'{len(table.rows)} {len(instance.columns)}']
    is_plain = instance.columns == list(range(len(table.columns)))
    for first, second in zip(table.first, table.second):
        if not is_plain:
            first, second = [first[c] for c in instance.columns], [second[c] for c in instance.columns]
        lines.append(pair_line(first, second) if any(second) else number_line(first))
    return '\n'.join(lines) + '\n'
