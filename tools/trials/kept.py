"""Kept files: the line that says how to check again is a command that finds the answer right."""
import os
import shlex
import subprocess

from planning.program import TOP

AGAIN = 'The files are kept; to check again: asg '


def trials(bench):
    table, changes = (os.path.join(TOP, 'examples', name) for name in ('week.csv', 'week-changes.csv'))
    for words in (['solve', 'lex', table], ['solve', 'sum', table, '--place', '4'], ['rank', 'pair', table, '--count', '3'],
                  ['edit', 'bottleneck', table, changes]):
        kept = os.path.join(bench.folder, f'kept {words[1]}')
        shown = bench.plan(*words, '--decimals', '2', '--keep', kept)
        again = shown.out.splitlines()[-1] if shown.out else ''
        done = subprocess.run([bench.asg, *shlex.split(again.removeprefix(AGAIN))], capture_output=True, text=True,
                              check=False)
        bench.holds(again.startswith(AGAIN) and f'Checked by asg check: {done.stdout}' in shown.out and not done.returncode,
                    f'kept: {words[:2]}', shown, done)
