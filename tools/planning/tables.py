"""The table of a planner: names, capacities and costs."""
import re
from dataclasses import dataclass, field

from .cells import HOLES, read_plain
from .scale import Scale
from .sheets import read_sheet
from .words import Faults, Wrong, at, counted

MOST_CAPACITY = 1000
CAPACITY = re.compile('capacit(?:y|ies) ?:?', re.IGNORECASE)
NO_COMMENT = ' (a line that begins with # is a comment only where no separator stands in it)'


@dataclass
class Table:
    """Rows and columns by name. A cell has its first and its second cost, or None and 0 where it can't be chosen."""

    path: str
    delimiter: str
    has_mark: bool
    scale: Scale
    row_title: str = 'row'
    column_title: str = 'column'
    columns: list = field(default_factory=list)
    capacity: list = None
    rows: list = field(default_factory=list)
    first: list = field(default_factory=list)
    second: list = field(default_factory=list)
    dropped: set = field(default_factory=set)
    closed: set = field(default_factory=set)

    @property
    def with_comma(self):
        """Whether a comma may stand before decimals."""
        return self.delimiter != ','

    def cost(self, row, column):
        """Both parts of a cell's cost, or None."""
        a = self.first[row][column]
        return None if a is None else (a, self.second[row][column])

    def show_cost(self, cost, is_paired):
        return self.scale.show_all(cost) if is_paired else self.scale.show(cost[0])

    def live_rows(self):
        return [row for row in range(len(self.rows)) if row not in self.dropped]


def read_cell(text, table):
    """The two parts of a cell's cost, or None and 0."""
    if text in HOLES:
        return None, 0
    first, is_pair, second = text.partition(':')
    if not is_pair and not any(map(str.isdecimal, text)):
        raise Wrong(f'{text!r} is no number; a cell that can\'t be chosen is empty, - or x')
    return (table.scale.read_cost(first.strip(), table.with_comma),
            table.scale.read_cost(second.strip(), table.with_comma) if is_pair else 0)


def read_capacity(text):
    if not re.fullmatch('[0-9]+', text) or not 1 <= int(text) <= MOST_CAPACITY:
        raise Wrong(f'the capacity is {text or "missing"}; it is a number from 1 to {MOST_CAPACITY:,}')
    return int(text)


def read_name(where, place, name, seen):
    """The name of a column."""
    if not name:
        raise Wrong(f'{where}: column {place} has no name')
    if name in seen:
        raise Wrong(f'{where}: two columns are named {name}')
    seen.add(name)


def take_header(table, where, fields, faults):
    """The line that names the columns; its first field may name both sides."""
    titles = re.split(r'\s*[/\\]\s*', fields[0] or 'row', maxsplit=1)
    table.row_title = titles[0] or 'row'
    table.column_title = (titles[1] if len(titles) == 2 else '') or 'column'
    names = fields[1:]
    while names and not names[-1]:
        names.pop()
    if not names:
        raise Wrong(f'{where}: no column is named (columns are separated by commas, semicolons or tabs)')
    seen = set()
    for place, name in enumerate(names, 1):
        faults.note(read_name, where, place, name, seen)
    table.columns = names


def cells_of(table, where, fields):
    """The fields behind a line's name: one for each column, and behind them none that says anything."""
    cells, wanted = fields[1:], len(table.columns)
    while len(cells) > wanted and not cells[-1]:
        cells.pop()
    if len(cells) != wanted:
        more = NO_COMMENT if '#' in (fields[0][:1], table.row_title[:1]) else ''
        raise Wrong(f'{where}: {fields[0] or "the line"} has {counted(len(cells), "cell")}, and there '
                    f'{"is" if wanted == 1 else "are"} {counted(wanted, "column")}{more}')
    return cells


def read_cells(table, where, cells, faults):
    """The costs of a row: plain ones at once, others one by one."""
    plain = read_plain(cells, table.scale, table.with_comma)
    if plain:
        return plain
    found = [faults.note(at, f'{where}, column {name}', read_cell, text, table) or (None, 0)
             for name, text in zip(table.columns, cells)]
    return [a for a, _ in found], [b for _, b in found]


def take_capacities(table, where, cells, faults):
    """The line of capacities."""
    if table.capacity is not None:
        raise Wrong(f'{where}: a second line of capacities')
    table.capacity = [faults.note(at, f'{where}, column {name}', read_capacity, text)
                      for name, text in zip(table.columns, cells)]


def look_at_row(where, name, seen):
    """That a row has a name of its own, which isn't almost the word of the line of capacities."""
    if not name:
        raise Wrong(f'{where}: the row has no name')
    if name in seen:
        raise Wrong(f'{where}: two rows are named {name}')
    if name.lower().startswith('capacit'):
        raise Wrong(f'{where}: the row is named {name}: the line of capacities begins with the word capacity alone, '
                    'and a row needs another name')
    seen.add(name)


def take_row(table, where, fields, seen, faults):
    """A line behind the header: capacities, or a row with its costs."""
    cells, name = cells_of(table, where, fields), fields[0]
    if CAPACITY.fullmatch(name):
        take_capacities(table, where, cells, faults)
        return
    faults.note(look_at_row, where, name, seen)
    first, second = read_cells(table, f'{where}, row {name}' if name else where, cells, faults)
    table.rows.append(name)
    table.first.append(first)
    table.second.append(second)


def read_table(path, scale):
    """The table of a file."""
    sheet, faults, seen = read_sheet(path), Faults(), set()
    table = Table(path, sheet.delimiter, sheet.has_mark, scale)
    for number, fields in sheet.lines:
        where = f'{path}, line {number}'
        if table.columns:
            faults.note(take_row, table, where, fields, seen, faults)
        else:
            take_header(table, where, fields, faults)
    faults.tell(path)
    if not table.columns:
        raise Wrong(f'{path}: the table is empty')
    if not table.rows:
        raise Wrong(f'{path}: the table has no row')
    if table.capacity is None:
        table.capacity = [1] * len(table.columns)
    return table


def two_costs(scale, cost, objective):
    """What is wrong with a pair where one cost counts: a time of day may be meant."""
    return (f'{scale.show_all(cost)} is two costs, and {objective.kind} counts one: write hours and minutes as minutes, '
            'or say --first to leave second costs aside')


def look_at_pairs(table, objective):
    """That no second cost is left aside where nobody said so."""
    for row, second in enumerate(table.second):
        if any(second):
            column = next(place for place, part in enumerate(second) if part)
            cost = table.cost(row, column)
            if objective.leaves_aside(cost):
                raise Wrong(f'{table.path}, row {table.rows[row]}, column {table.columns[column]}: '
                            + two_costs(table.scale, cost, objective))
