"""Planted faults: each is put into a copy of plan, or of its pages, and the trials must fail there.

And programs that give what asg gives but for one thing: each of the runs that are tabled must fail there.
"""
import os
import shlex
import shutil
import subprocess
import sys

from planning.program import TOP

FAULTS = (
    ('a column off by one as asg\'s answer is read', 'tools/planning/documents.py',
     'columns[int(rest[0]) - 1]', 'columns[int(rest[0]) - 2]', 'rosters'),
    ('a column off by one as the roster is shown', 'tools/planning/texts.py',
     'table.columns[chosen[row]], cost]', 'table.columns[chosen[row] - 1], cost]', 'rosters'),
    ('a row off by one in the file for asg', 'tools/planning/instances.py',
     "lines = [f'{len(table.rows)} {len(instance.columns)}']\n",
     "lines = [f'{len(table.rows)} {len(instance.columns)}']\n    table.first = table.first[1:] + table.first[:1]\n",
     'rosters'),
    ('asg check left out', 'tools/planning/program.py', 'if done.status or not', 'if done.status == 99 and not', 'errors'),
    ('the answer\'s value not looked at', 'tools/planning/looks.py', '!= answer.value:', '== ():', 'errors'),
    ('a column taken once too often', 'tools/planning/looks.py', 'all(count <= most for', 'all(count <= most + 1 for',
     'errors'),
    ('a weakened look at a Hall set', 'tools/planning/looks.py', 'or short <= 0:', 'or short < 0:', 'errors'),
    ('a row that counts twice in a Hall set', 'tools/planning/looks.py', 'len(set(rows)) != len(rows) or', '', 'errors'),
    ('a weakened look at shares', 'tools/planning/looks.py', 'rows[row]) < shares.rows[row]',
     'rows[row]) + 1 < shares.rows[row]', 'errors'),
    ('a ranking not looked at', 'tools/planning/ranking.py',
     '    looks.look_at_ranking(question.objective, answers)\n', '', 'errors'),
    ('decimals that are not moved', 'tools/planning/scale.py', "part.ljust(self.decimals, '0')", 'part', 'rosters'),
    ('decimals that are not moved, in plain rows', 'tools/planning/cells.py', "after.ljust(decimals, '0')", 'after',
     'rosters'),
    ('numbers with too few decimals, read at once', 'tools/planning/cells.py', '[{mark}][0-9]{{{decimals}}}',
     '[{mark}][0-9]{{1,{decimals}}}', 'rosters'),
    ('a decimal comma for nothing', 'tools/planning/scale.py', "found[3] == ',' and not with_comma", 'False', 'errors'),
    ('capacities left aside', 'tools/planning/instances.py', 'for _ in range(count)]', 'for _ in range(1)]', 'rosters'),
    ('rows placed, whatever is said', 'tools/planning/commands.py', 'args.place)', '0)', 'rosters'),
    ('rosters ranked twice', 'tools/planning/ranking.py', 'or len(set(columns)) == len(columns):', 'or columns:',
     'rankings'),
    ('a place that is lacking taken for one', 'tools/planning/distinct.py', '(each - most)', '(each - most - 1)',
     'rankings'),
    ('a row that is to fill a place and counts', 'tools/planning/distinct.py', 'else min(live)', 'else max(live)',
     'rankings'),
    ('columns in one, each row with its worst cell of them', 'tools/planning/merging.py',
     '-1 if objective.is_greater else 1', '1 if objective.is_greater else -1', 'rankings'),
    ('rosters that come twice from those of fewer columns', 'tools/planning/merging.py', 'cells[last:]', 'cells',
     'rankings'),
    ('two marks of decimals', 'tools/planning/scale.py', 'if self.mark and mark != self.mark:', 'if False:', 'errors'),
    ('thousands as decimals', 'tools/planning/scale.py', 'if len(part) == THOUSAND > self.decimals:', 'if False:',
     'errors'),
    ('rows that begin with # left out', 'tools/planning/sheets.py', ' or any(fields[1:]):', ':', 'sheets'),
    ('a table copied for each block', 'tools/planning/editing.py', "    yield 'before any change', []\n",
     "    yield 'before any change', []\n    kept = []\n"
     '    blocks = [kept.append([row[:] for row in question.table.first * 2]) or block for block in blocks]\n', 'weeks'),
    ('a change of the first copy alone', 'tools/planning/changes.py', 'in instance.copies(change.column)]',
     'in instance.copies(change.column)[:1]]', 'weeks'),
    ('a closed column that stays open', 'tools/planning/changes.py', 'row[change.column] = None', 'pass', 'weeks'),
    ('a ring in the next column', 'tools/planning/pictures.py', 'for row, column in cells:\n',
     'for row, column in cells[1:]:\n', 'pictures'),
    ('a refusal that the manual page lacks', 'docs/asg.1', '17 N|LexTooLarge|', '19 N|LexTooLarge|', 'formats'),
    ('a reason that plan lacks', 'tools/planning/refusals.py', "    13: 'answer {0}", "    14: 'answer {0}", 'formats'),
    ('an option that is not completed', 'tools/asg.bash', "rank) options='--count ", "rank) options='", 'formats'),
)
# how many random tables of each objective find a fault; of weeks there are a sixth as many
COUNT, WEEKS = 12, 72

PROGRAM = """told=$({asg} "$@"; echo " $?")
status=${{told##* }}
wrote=${{told% *}}
{change}
printf %s "$wrote"
exit "$status"
"""
PROGRAMS = (
    ('a status that is one more', 'status=$((status + 1))'),
    ('another first byte', 'wrote="~${wrote#?}"'),
    ('another last byte', 'wrote="${wrote%?}~"'),
)


def copied(folder):
    """A copy of what the trials stand on."""
    for name in ('tools', 'docs', 'examples'):
        shutil.copytree(os.path.join(TOP, name), os.path.join(folder, name),
                        ignore=shutil.ignore_patterns('__pycache__'))


def planted(path, old, new):
    """Puts a fault into a file, in which the old text stands once."""
    with open(path, encoding='utf-8') as file:
        text = file.read()
    if text.count(old) != 1:
        return False
    with open(path, 'w', encoding='utf-8') as file:
        file.write(text.replace(old, new))
    return True


def tried(words, tools=os.path.join(TOP, 'tools')):
    """Runs the trials with these words."""
    return subprocess.run([sys.executable, os.path.join(tools, 'test'), *words], capture_output=True, text=True, check=False)


def wrong_programs(bench):
    """Each of the runs that are tabled must fail over a program that does one thing wrongly."""
    for name, change in PROGRAMS:
        program = bench.script('wrong-asg', PROGRAM.format(asg=shlex.quote(bench.asg), change=change), by='/bin/sh')
        done = tried(['--asg', program, 'runs'])
        is_caught = done.returncode == 1 and done.stdout.splitlines()[-1].startswith('0 passed, ')
        bench.holds(is_caught, f'wrong program: {name}', done.stdout[-2000:], done.stderr[-2000:])


def trials(bench):
    wrong_programs(bench)
    for number, (name, file, old, new, part) in enumerate(FAULTS):
        folder = os.path.join(bench.folder, f'fault-{number}')
        copied(folder)
        if not planted(os.path.join(folder, file), old, new):
            bench.holds(False, f'planted fault: {name}', f'{file} does not have it just once: {old!r}')
            continue
        count = str(WEEKS if part == 'weeks' else COUNT)
        done = tried(['--asg', bench.asg, '--count', count, part], os.path.join(folder, 'tools'))
        is_caught = done.returncode == 1 and 'FAILED: ' in done.stdout and 'Traceback' not in done.stderr
        bench.holds(is_caught, f'planted fault: {name}', done.stdout[-2000:], done.stderr[-2000:])
        shutil.rmtree(folder)
