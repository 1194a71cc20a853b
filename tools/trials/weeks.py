"""Random tables and changes: each roster against a search through all choices of the table as it is by then."""
import os
import random
import re
import subprocess
import sys

from planning.program import TOP

from . import search
from .rosters import told_value
from .tables import sample

SHARE = 6
# tells the kilobytes that a run of plan had at most; a copy of the table for each block takes 50,000 more
MEASURED = '''import gc, re, sys
sys.path.insert(0, sys.argv[1])
from planning import commands, program
gc.disable()
program.FIRST_TICK = 3600
status = commands.main(sys.argv[2:])
print(re.search('VmHWM: *\t *([0-9]+)', open('/proc/self/status').read())[1], file=sys.stderr)
sys.exit(status)
'''
MOST_KILOBYTES = 45000


def quoted(fields):
    return ','.join('"' + field.replace('"', '""') + '"' for field in fields)


def changed(made, chance, rows, columns):
    """One change: its fields; the costs of the sample are changed with it."""
    word = chance.choice(['cost', 'cost', 'forbid', 'drop-row', 'drop-column'])
    row, column = chance.choice(rows), chance.choice(columns)
    if word == 'drop-row' and len(rows) > 1:
        rows.remove(row)
        made.costs[row] = [None] * len(made.columns)
        return [word, made.rows[row]]
    if word == 'drop-column' and len(columns) > 1:
        columns.remove(column)
        for line in made.costs:
            line[column] = None
        return [word, made.columns[column]]
    if word == 'forbid':
        made.costs[row][column] = None
        return [word, made.rows[row], made.columns[column]]
    made.costs[row][column] = (chance.randint(0, 9), chance.randint(0, 5) if made.kind in search.PAIRED else 0)
    return ['cost', made.rows[row], made.columns[column], made.cell(made.costs[row][column])]


def one(bench, made, chance, name):
    """A table, three blocks of changes, and four rosters."""
    table = bench.file('table.csv', made.text())
    all_rows = made.place == len(made.costs)
    rows, columns, lines, right = list(range(len(made.rows))), list(range(len(made.columns))), [], []
    for block in range(4):
        place = len(rows) if all_rows else made.place
        right.append(search.best(made.kind, made.cap, made.costs, made.capacity, place))
        if block < 3:
            lines += [quoted(changed(made, chance, rows, columns)) for _ in range(chance.randint(0, 2))]
            lines.append(f'solve,day {block}')
    changes = bench.file('changes.csv', '\n'.join(lines) + '\n')
    shown = bench.plan('edit', made.objective, table, changes, *made.words())
    before = r'(?:, .* before; \d+ changes? in the roster)?'
    told = re.findall(rf'^(?:{re.escape(made.kind)}\S* (.*?){before}|No choice is valid\.)$', shown.out, re.M)
    is_so = told == ['' if value is None else told_value(made, value) for value in right] \
        and shown.status == (None in right) and 'Checked by asg check: yes' in shown.out and not shown.err
    bench.holds(is_so, name, made.text(), '\n  '.join(lines), f'{made.objective} {made.words()}: {right} expected', shown)


def long_week(bench):
    """Many blocks of changes over a table: memory doesn't hold the table once for each of them."""
    chance, side, blocks = random.Random(f'{bench.seed} long'), 200, 80
    table = bench.file('table.csv', 'p,' + ','.join(f'c{column}' for column in range(side)) + '\n' + ''.join(
        f'p{row},' + ','.join(str(chance.randint(1, 999)) for _ in range(side)) + '\n' for row in range(side)))
    changes = bench.file('changes.csv', ''.join(
        f'cost,p{chance.randrange(side)},c{chance.randrange(side)},{chance.randint(1, 999)}\nsolve\n'
        for _ in range(blocks)))
    words = ['edit', 'sum', table, changes, '--asg', bench.asg]
    done = subprocess.run([sys.executable, '-c', MEASURED, os.path.join(TOP, 'tools'), *words], capture_output=True,
                          text=True, check=False)
    told = done.stderr.split()
    bench.holds(not done.returncode and done.stdout.count('Why nothing is better') == blocks + 1 and len(told) == 1
                and int(told[0]) < MOST_KILOBYTES, f'edit: {blocks} blocks', done.returncode, done.stderr)


def trials(bench):
    long_week(bench)
    for kind in search.OBJECTIVES:
        chance = random.Random(f'{bench.seed} edit {kind}')
        for number in range(bench.count // SHARE):
            one(bench, sample(kind, chance), chance, f'edit {kind}, table {number}')
