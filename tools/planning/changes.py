"""Changes of a table, in blocks: who is ill, what costs more; and what asg is told of them."""
from copy import copy
from dataclasses import dataclass, field

from .scale import Scale
from .sheets import read_sheet
from .tables import NO_COMMENT, read_cell, two_costs
from .words import Faults, Wrong, at, named

FORMS = {
    'cost': 'cost,ROW,COLUMN,COST',
    'forbid': 'forbid,ROW,COLUMN',
    'drop-row': 'drop-row,ROW',
    'drop-column': 'drop-column,COLUMN',
    'solve': 'solve,NAME (of the block; it may be left out)',
}
MOST_LINES = 10000


@dataclass
class Change:
    """One change: its word, and the places and the cost that it names."""

    word: str
    row: int = None
    column: int = None
    cost: tuple = None


@dataclass
class Block:
    """The changes before a roster that is due."""

    name: str
    changes: list = field(default_factory=list)


def place_of(names, gone, name, side, what):
    """The place of a row or a column that is still there."""
    if name not in names:
        raise Wrong(f'no {side} is named {name or "(nothing)"}')
    place = names.index(name)
    if place in gone:
        raise Wrong(f'{name} was {what} before')
    return place


def read_new_cost(text, table, objective):
    """The cost of a change."""
    cost = read_cell(text, table)
    if cost[0] is None:
        raise Wrong('a cell that can\'t be chosen any more is changed by forbid')
    if objective.refuses(cost):
        raise Wrong(f'{objective.kind} takes no negative {"second " * (objective.kind == "time-cost")}cost')
    if objective.leaves_aside(cost):
        raise Wrong(two_costs(table.scale, cost, objective))
    return cost


def read_change(fields, table, objective):
    """A change of a line's fields; `table` is as the changes before leave it."""
    word, *rest = fields
    while rest and not rest[-1]:
        rest.pop()
    if word not in FORMS or word == 'solve' or len(rest) != FORMS[word].count(','):
        raise Wrong('the line is none of: ' + '; '.join(FORMS.values()) + NO_COMMENT * word.startswith('#'))
    change = Change(word)
    if word != 'drop-column':
        change.row = place_of(table.rows, table.dropped, rest[0], table.row_title, 'dropped')
    if word != 'drop-row':
        change.column = place_of(table.columns, table.closed, rest[-1 - (word == 'cost')], table.column_title, 'closed')
    if word == 'cost':
        change.cost = read_new_cost(rest[2], table, objective)
    if word == 'drop-row' and len(table.dropped) + 1 == len(table.rows):
        raise Wrong(f'{rest[0]} is the only {table.row_title} that is left')
    return change


def apply(change, table):
    """Changes the table, in place."""
    if change.word == 'drop-row':
        table.dropped.add(change.row)
        table.first[change.row] = [None] * len(table.columns)
    elif change.word == 'drop-column':
        table.closed.add(change.column)
        for row in table.first:
            row[change.column] = None
    else:
        a, b = change.cost or (None, 0)
        table.first[change.row][change.column], table.second[change.row][change.column] = a, b


def taken_line(fields, after, objective, blocks, changes):
    """Takes a line: the end of a block, or a change, which tells what is left for those behind it."""
    if fields[0] == 'solve' and not any(fields[2:]):
        name = fields[1] if len(fields) > 1 and fields[1] else f'block {len(blocks) + 1}'
        blocks.append(Block(name, changes[:]))
        changes.clear()
        return
    change = read_change(fields, after, objective)
    after.dropped |= {change.row} if change.word == 'drop-row' else set()
    after.closed |= {change.column} if change.word == 'drop-column' else set()
    changes.append(change)


def read_changes(path, table, objective):
    """The blocks of a file. Its end is the end of a block too, where changes stand before it."""
    sheet, after, faults = read_sheet(path), copy(table), Faults()
    after.dropped, after.closed, after.scale = set(), set(), Scale(table.scale.decimals)
    blocks, changes = [], []
    for number, fields in sheet.lines:
        faults.note(at, f'{path}, line {number}', taken_line, fields, after, objective, blocks, changes)
    faults.tell(path)
    table.scale.mark = table.scale.mark or after.scale.mark
    if changes:
        blocks.append(Block(f'block {len(blocks) + 1}', changes))
    if not blocks:
        raise Wrong(f'{path}: the file has no change')
    return blocks


def script_lines(change, instance):
    """The lines of asg's script for a change: one for each copy of the column in its file."""
    row = '' if change.row is None else f' {change.row + 1}'
    if change.column is None:
        return [f'{change.word}{row}']
    a, b = change.cost or (None, 0)
    cost = '' if a is None else f' {a}:{b}' if b else f' {a}'
    return [f'{change.word}{row} {copy_of}{cost}' for copy_of in instance.copies(change.column)]


def script_of(blocks, instance, path):
    """The script: a roster before any change, and one after each block."""
    lines = ['solve']
    for block in blocks:
        for change in block.changes:
            lines += script_lines(change, instance)
        lines.append('solve')
    if len(lines) > MOST_LINES:
        raise Wrong(f'{path}: the script for asg has {len(lines):,} lines, and it takes {MOST_LINES:,}')
    return '\n'.join(lines) + '\n'


def told(change, table):
    """A change in words."""
    row = '' if change.row is None else named(table.rows[change.row])
    column = '' if change.column is None else named(table.columns[change.column])
    if change.word == 'cost':
        cost = table.scale.show_all(change.cost) if change.cost[1] else table.scale.show(change.cost[0])
        return f'{row}, {column} costs {cost}'
    return {'forbid': f'{row} can\'t take {column}', 'drop-row': f'{row} is out',
            'drop-column': f'{column} is closed'}[change.word]
