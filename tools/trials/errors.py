"""A case for each error: what is told, the status 2, and no traceback. Each `raise Wrong` of plan must be tried."""
import ast
import contextlib
import glob
import io
import os
import sys
import time

from planning import program, words
from planning.program import TOP

from .error_cases import CASES
from .fakes import FAKES
from .bench import run

PLANNING = os.path.join(TOP, 'tools', 'planning')


def raising_lines():
    """Where plan says that something is wrong: each file with the first line of each such statement, and its last."""
    found = {}
    for path in glob.glob(os.path.join(PLANNING, '*.py')):
        with open(path, encoding='utf-8') as file:
            tree = ast.parse(file.read())
        for node in ast.walk(tree):
            is_raise = isinstance(node, ast.Raise) and isinstance(node.exc, ast.Call) \
                and getattr(node.exc.func, 'id', '') in ('Wrong', 'kind')
            if is_raise:
                found[os.path.basename(path), node.lineno] = node.end_lineno
    return found


class Watch:
    """Notes where each Wrong is made."""

    def __init__(self):
        self.seen, self.made = set(), words.Wrong.__init__

    def __enter__(self):
        def noted(wrong, *given):
            frame = sys._getframe(1)
            self.seen.add((os.path.basename(frame.f_code.co_filename), frame.f_lineno))
            self.made(wrong, *given)
        words.Wrong.__init__ = noted
        return self

    def __exit__(self, *_):
        words.Wrong.__init__ = self.made

    def missing(self):
        """The statements that no case came to."""
        return [f'{name}, line {first}' for (name, first), last in sorted(raising_lines().items())
                if not any(name == seen and first <= line <= last for seen, line in self.seen)]


def is_told(shown, told):
    """Whether a run ended by just this error."""
    return shown.status == 2 and shown.err == f'plan: {told}\n' and not shown.out and 'Traceback' not in shown.err


def one(bench, case):
    """A case over the program asg, or over a fake one."""
    name, files, given, told = case
    for file, text in files.items():
        bench.file(file, text)
    at = {'folder': bench.folder, 'asg': bench.asg, 'top': TOP}
    given = [word.format(**at) for word in given]
    if given[0] in ('solve', 'rank', 'edit') and '--asg' not in given:
        given += ['--asg', bench.asg]
    shown = run(*given)
    bench.holds(is_told(shown, told.format(**at)), f'error: {name}', given, f'expected: {told.format(**at)}', shown)


def faked(bench, case):
    """A case over what stands in for asg, and answers wrongly."""
    name, fake, table, given, told = case
    bench.file('t.csv', table)
    bench.file('week.csv', 'drop-row,Ben\n')
    true = program.Program.run
    program.Program.run = lambda self, said, *words: fake(words[0], lambda: true(self, said, *words))
    try:
        shown = bench.plan(*(word.format(folder=bench.folder) for word in given))
    finally:
        program.Program.run = true
    bench.holds(is_told(shown, told.format(folder=bench.folder)), f'error: {name}', given, f'expected: {told}', shown)


def by_argparse(bench):
    """Words that are no request end with 2 too."""
    for given in ([], ['solve'], ['solve', 'sum'], ['rank', 'sum', 't.csv'], ['rank', 'sum', 't.csv', '--count', '0'],
                  ['solve', 'sum', 't.csv', '--place', '-1'], ['solve', 'sum', 't.csv', '--decimals', 'x'],
                  ['explain'], ['edit', 'sum', 't.csv'], ['flee']):
        shown = run(*given)
        bench.holds(shown.status == 2 and shown.err.startswith('usage: plan') and not shown.out, f'words: {given}', shown)


def unbuilt(bench):
    """Where there is no program at all; and where the variable ASG names none."""
    built, named = program.BUILT, os.environ.pop('ASG', None)
    table = bench.file('t.csv', 'a,b\nr,1\n')
    try:
        program.BUILT = f'{bench.folder}/none'
        shown = run('solve', 'sum', table)
        told = (f'the program asg is not built: {program.BUILT} is not there. Build it by ./asg in the folder {TOP}, as '
                'README.md says, or name another one by --asg PROGRAM or the variable ASG')
        bench.holds(is_told(shown, told), 'error: no program', shown)
        os.environ['ASG'] = 'no-such-program'
        shown = run('solve', 'sum', table)
        bench.holds(is_told(shown, 'the variable ASG names no-such-program, which is no program'), 'error: ASG', shown)
        os.environ['ASG'] = bench.script('wrong', '', by='/none/python')
        shown = run('solve', 'sum', table)
        told = f'{bench.folder}/wrong does not start: No such file or directory'
        bench.holds(is_told(shown, told), 'error: a program that does not start', shown)
    finally:
        program.BUILT = built
        os.environ.pop('ASG', None)
        if named is not None:
            os.environ['ASG'] = named


def ticks(bench):
    """What takes its time is told."""
    first, after, told = program.FIRST_TICK, program.NEXT_TICKS, io.StringIO()
    program.FIRST_TICK, program.NEXT_TICKS = .01, .02
    with contextlib.redirect_stderr(told), program.Ticks('asg works'):
        time.sleep(.5)
    program.FIRST_TICK, program.NEXT_TICKS = first, after
    bench.holds(told.getvalue().startswith('plan: asg works, 0.01 s\nplan: asg works, 0.03 s\n'), 'progress', told)


def trials(bench):
    os.makedirs(f'{bench.folder}/kept/table.rect')
    with Watch() as watch:
        for case in CASES:
            one(bench, case)
        for fake in FAKES:
            faked(bench, fake)
        by_argparse(bench)
        unbuilt(bench)
    ticks(bench)
    bench.holds(not watch.missing(), 'each error has a case', *watch.missing())
