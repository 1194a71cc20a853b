"""Random tables ranked, against all choices in order."""
import random
import re

from planning import distinct, program, ranking

from . import search
from .rosters import told_value
from .tables import sample

SHARE = 4
RANKED = [kind for kind in search.OBJECTIVES if kind not in ('balanced', 'lex')]


def values_of(text):
    """The values of the rosters that are shown, in order."""
    return [value for line in re.findall(r'^value +(.*)$', text, re.M) for value in line.split()]


def one(bench, made, count, name):
    """A table and its first rosters."""
    table = bench.file('table.csv', made.text())
    shown = bench.plan('rank', made.objective, table, '--count', count, *made.words())
    right = search.ranked(made.kind, made.cap, made.costs, made.capacity, made.place)
    if right:
        values = [told_value(made, value) for value in right[:count]]
        says_all = 'no other roster is valid' in shown.out
        is_so = shown.status == 0 and values_of(shown.out) == values \
            and (len(right) == count or says_all == (len(right) < count))
    else:
        is_so = shown.status == 1 and shown.out.startswith('No choice is valid.')
    bench.holds(is_so and not shown.err, name, made.text(), f'{made.objective} {made.words()}: {right[:count]} expected',
                shown)


def rosters_of(text):
    """The rosters that are shown in one block, each as its columns' names."""
    block = [*text.split('\n\n'), ''][1].splitlines()
    lines = [re.split('  +', line.replace(' *', '').strip()) for line in block[1:-1]]
    return list(zip(*(line[1:] for line in lines)))


def crowded(bench):
    """A table whose rosters come so often that asg ranks no second one: that is told, and the first one is shown."""
    head = ','.join(f'c{column}' for column in range(110))
    text = f'r,{head}\ncapacity,20{",1" * 109}\n' + ''.join(f'r{row},1{",2" * 109}\n' for row in range(21))
    shown = bench.plan('rank', 'sum', bench.file('table.csv', text), '--count', '60')
    found = re.match(r'sum: (\d+) best rosters?, in order', shown.out)
    bench.holds(shown.status == 0 and found and 1 <= int(found[1]) < 60 and not shown.err
                and 'asg ranks no more of this table' in shown.out, 'rank: a crowded table', shown)


def different(bench, objective):
    """Columns of 6, 5 and 4 places: five rosters of twelve people, asked of asg but once, and none twice."""
    chance, asked, true = random.Random(f'{bench.seed} different'), [], program.Program.run
    text = 'p,a,b,c\ncapacity,6,5,4\nfirst,1,30,30\n' + ''.join(
        f'p{row},' + ','.join(str(chance.randint(1, 20)) for _ in range(3)) + '\n' for row in range(11))
    program.Program.run = lambda self, told, *words: asked.append(words[0]) or true(self, told, *words)
    try:
        shown = bench.plan('rank', objective, bench.file('table.csv', text), '--count', '5')
    finally:
        program.Program.run = true
    rosters = rosters_of(shown.out)
    bench.holds(shown.status == 0 and len(rosters) == len(set(rosters)) == 5 and asked == ['rank', 'check'],
                f'rank {objective}: different capacities', text, shown, asked)


def large(bench):
    """900 people on 20 columns, of which three take all."""
    chance = random.Random(f'{bench.seed} large')
    most = ','.join('900' if column in (3, 7, 15) else '1' for column in range(20))
    text = 'p,' + ','.join(f'c{column}' for column in range(20)) + f'\ncapacity,{most}\n' + ''.join(
        f'p{row},' + ','.join(str(chance.randint(1, 1000)) for _ in range(20)) + '\n' for row in range(900))
    shown = bench.plan('rank', 'sum', bench.file('table.csv', text), '--count', '3')
    rosters = rosters_of(shown.out)
    bench.holds(shown.status == 0 and len(rosters) == len(set(rosters)) == 3 and len(rosters[0]) == 900
                and 'each of c3, c7 and c15 takes all who can take it' in shown.out, 'rank: a large table', shown)


def merged(bench):
    """Small tables that are ranked as large ones are: with the columns that take all as one."""
    most = distinct.MOST_SIDE, ranking.MOST_SIDE
    try:
        for kind in RANKED:
            chance = random.Random(f'{bench.seed} merged {kind}')
            for number in range(max(3, bench.count // (3 * SHARE))):
                distinct.MOST_SIDE = ranking.MOST_SIDE = chance.randint(3, 8)
                one(bench, sample(kind, chance, is_whole=True), chance.randint(1, 9), f'rank {kind}, merged {number}')
    finally:
        distinct.MOST_SIDE, ranking.MOST_SIDE = most


def trials(bench):
    crowded(bench)
    for kind in RANKED:
        different(bench, 'capped=90' if kind == 'capped' else kind)
    large(bench)
    merged(bench)
    for kind in RANKED:
        chance = random.Random(f'{bench.seed} rank {kind}')
        for number in range(bench.count // SHARE):
            one(bench, sample(kind, chance, is_whole=True), chance.randint(1, 6), f'rank {kind}, table {number}')
