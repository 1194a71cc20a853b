"""Tables as planners save them: what is read of each, and what is told besides."""
import os

from .bench import run

COSTS = 'Anna,4,1,3\nBen,2,0,5\nCarla,3,2,2\n'
ROSTER = ['Anna late 1', 'Ben early 2', 'Carla night 2']
NUMBERS = ['#1 late 1', '#2 early 2', '#3 night 2']
LEFT_OUT = ("plan: {path}, line {line}: {name!r} is left out, as a comment; a name does not begin with #, or has some cell "
            'beside it\n')


def table(head='crew,early,late,night\n', costs=COSTS, sign=','):
    return (head + costs).replace(',', sign)


def numbered(sign=','):
    """A table whose header and rows begin with #."""
    return table('#,early,late,night\n', COSTS.replace('Anna', '#1').replace('Ben', '#2').replace('Carla', '#3'), sign)


# a name, the file, more words, lines of the roster, what is told on standard error
READ = [
    ('a header that begins with #', table('#,early,late,night\n'), [], ROSTER, ''),
    ('names that begin with #', numbered(), [], NUMBERS, ''),
    ('the same with semicolons', numbered(';'), [], NUMBERS, ''),
    ('decimal commas in such a table', '#;early;late\nAnna;1,5;2,5\nBen;2,5;9,5\n', ['--decimals', '1'],
     ['Anna late 2,5', 'Ben early 2,5'], ''),
    ('a comment', '# hours of overtime\n' + table(), [], ROSTER, ''),
    ('a quoted comment', '"# hours, of overtime"\n' + table(), [], ROSTER, ''),
    ('a comment that is filled up', table() + '# away,,,\n', [], ROSTER, LEFT_OUT.format(path='{path}', line=5,
                                                                                         name='# away')),
    ('capacities', table('crew,early,late,night\nCapacities,2,1,1\n'), [], ['Ben early 2'], ''),
    ('capacity with a colon', table('crew,early,late,night\ncapacity:,2,1,1\n'), [], ['Ben early 2'], ''),
    ('a little table of UTF-16', table().encode('utf-16-le'), [], ROSTER, ''),
    ('one of the other kind', table().encode('utf-16-be'), [], ROSTER, ''),
    ('one with other signs', table().replace('Anna', '李一').encode('utf-16-le'), [], ['Ben early 2'], ''),
    ('thousands in whole', table(costs=COSTS.replace('4', '4000')), [], ROSTER, ''),
    ('three decimals that were asked for', 'crew;a\nAnna;1.250\n', ['--decimals', '3'], ['Anna a 1.250'], ''),
    ('a second cost that is left aside', 'crew,a\nAnna,7:30\n', ['--first'], ['Anna a 7'], ''),
]


def kept_apart(bench):
    """Files that plan didn't write stay as they are; those that it kept are written anew."""
    folder, path = os.path.join(bench.folder, 'mine'), bench.file('t.csv', table())
    os.mkdir(folder)
    mine = bench.file('mine/table.rect', 'mine')
    shown = bench.plan('solve', 'sum', path, '--keep', folder)
    with open(mine, encoding='utf-8') as file:
        bench.holds(shown.status == 2 and file.read() == 'mine' and os.listdir(folder) == ['table.rect'],
                    'sheets: a folder with other files', shown)
    again = [bench.plan('solve', 'sum', path, '--keep', os.path.join(bench.folder, 'anew')).status for _ in range(2)]
    bench.holds(again == [0, 0], 'sheets: a folder kept twice', again)


def trials(bench):
    for name, text, words, lines, told in READ:
        path = bench.file('sheet.csv', text)
        shown = run('solve', 'bottleneck', path, *words, '--asg', bench.asg)
        wrote = [' '.join(line.split()) for line in shown.out.splitlines()]
        is_so = shown.status == 0 and shown.err == told.format(path=path) and set(lines) <= set(wrote)
        bench.holds(is_so, f'sheets: {name}', text, lines, shown)
    kept_apart(bench)
