"""The manual page, the completion and plan's own words, against docs/FORMATS.md."""
import os
import re
import subprocess

from planning import objectives, refusals
from planning.commands import COMMANDS, parser
from planning.program import TOP

FORMATS, MANUAL, COMPLETION = (os.path.join(TOP, *path) for path in
                               (('docs', 'FORMATS.md'), ('docs', 'asg.1'), ('tools', 'asg.bash')))


def read(path):
    with open(path, encoding='utf-8') as file:
        return file.read()


def table(text, head):
    """The lines of the table of FORMATS.md with this head, each as its cells."""
    after = text[text.index(head):].split('\n\n')[0].splitlines()[2:]
    return [[cell.strip().replace('\\|', '|') for cell in re.split(r'(?<!\\)\|', line.strip('| '))] for line in after]


def named(cells):
    """Numbers with their names; one cell may have several of both."""
    return [(int(number), name.strip()) for number, name in zip(cells[0].split(','), cells[1].split(','), strict=True)]


def behind(cell):
    """How many numbers stand behind a refusal."""
    return 0 if cell == 'none' else 1 if ' else ' in cell else cell.count(',') + 1


def section(text, title):
    """The tabled lines of a section of the manual page."""
    part = text[text.index(f'.SH {title}\n') + 4:].split('\n.SH ')[0].split('.TS\ntab(|);\n')[1].split('.TE')[0]
    part = part.replace('T{\n', '').replace('\nT}', '')
    return [line.replace('\\-', '-').split('|') for line in part.splitlines()[1:]]


def manual_numbers(text, title):
    """Number, name and how many letters stand behind the number."""
    return [(int(cells[0].split()[0]), cells[1], len(cells[0].split()) - 1) for cells in section(text, title)]


def holes(sentence):
    """How many numbers a sentence of plan takes."""
    return len(set(re.findall(r'\{(\d|at)\}', sentence)))


def numbers(bench, formats, manual):
    """Refusals, reasons and statuses: the same numbers and names, with as many numbers behind them."""
    told = [(number, name, behind(cells[2])) for cells in table(formats, '| Number | Name | Numbers behind it |')
            for number, name in named(cells)]
    bench.holds(manual_numbers(manual, 'REFUSED INSTANCES') == sorted(told), 'refused instances of asg.1')
    bench.holds({number: holes(words) for number, words in refusals.INSTANCE.items()}
                == {number: many for number, _, many in told}, 'refused instances of plan')
    for title, head, mine in (('REFUSED SCRIPTS', '| Number | Name | When |', refusals.SCRIPT),
                              ('REASONS', '| Reason | Name | Holds where | Place |', refusals.REASONS),
                              ('EXIT STATUS', '| Status | Name | When | Written |', refusals.STATUSES)):
        told = [pair for cells in table(formats, head) for pair in named(cells)]
        bench.holds([(number, name) for number, name, _ in manual_numbers(manual, title)] == told, f'{title} of asg.1')
        bench.holds(sorted(mine) == sorted(number for number, _ in told), f'{title} of plan')


def request_words(formats):
    """The commands with their words and options, and the objectives."""
    commands = {cells[0].strip('`'): (cells[1].split(',')[0], set(re.findall(r'--\w+', cells[2])))
                for cells in table(formats, '| Command | Words behind it | Options |')}
    kinds = [cells[0].strip('`') for cells in table(formats, '| Word | The value of a choice | Better is |')]
    return commands, kinds


def synopses(manual):
    """The commands of the manual page, with their words and options."""
    part = re.sub(r'\\f.|\\', '', manual[manual.index('.SH SYNOPSIS'):manual.index('.SH DESCRIPTION')])
    found = {}
    for line in part.split('.B asg ')[1:]:
        words = line.split('\n')
        found[words[0]] = (words[1].removeprefix('.I '), set(re.findall(r'--\w+', line)))
    return found


def completed(*words):
    """What bash completes."""
    script = ('source "$0"; COMP_WORDS=("$@"); COMP_CWORD=$(($# - 1)); COMPREPLY=(); "_$1"; '
              'printf "%s\\n" "${COMPREPLY[@]}"')
    done = subprocess.run(['bash', '-c', script, COMPLETION, *words], capture_output=True, text=True, check=False,
                          cwd=os.path.join(TOP, 'examples'))
    return set(done.stdout.split())


def requests(bench, formats, manual):
    """Commands, options and objectives."""
    commands, kinds = request_words(formats)
    bench.holds(synopses(manual) == commands, 'commands of asg.1', synopses(manual), commands)
    names = [cells[0].replace('\\fI', '').replace('\\fR', '') for cells in section(manual, 'OBJECTIVES')]
    bench.holds(names == kinds, 'objectives of asg.1', names, kinds)
    bench.holds([kind.removesuffix('=C') for kind in kinds] == list(objectives.SAYS), 'objectives of plan')
    bench.holds(completed('asg', '') == set(commands), 'commands of the completion')
    every = {kind.removesuffix('C') if '=' in kind else kind for kind in kinds}
    for command, (_, options) in commands.items():
        bench.holds(completed('asg', command, '--') == options, f'options of {command} in the completion')
        right = set() if command == 'make' else every if command in ('solve', 'check') else every - {'balanced', 'lex'}
        bench.holds(completed('asg', command, '') == right, f'objectives of {command} in the completion')
    forms = set(re.findall(r'`--format (\S+)`', formats)[0].split('|'))
    bench.holds(completed('asg', 'solve', '--format', '') == forms, 'formats of the completion')
    places(bench, commands, every, forms)


def places(bench, commands, every, forms):
    """The completion tells by its place what a word is, whatever options stand before it; an equals sign is a word."""
    files = {'week.csv', 'week-changes.csv', 'week.script', 'week.document'}
    for words, right in ((['--format', 'rect', ''], set(commands)), (['--brief', 'solve', ''], every),
                         (['solve', '--format', 'rect', ''], every), (['--format', '=', 'rect', 'solve', ''], every),
                         (['--format=rect', 'solve', ''], every), (['solve', '--format', '='], forms),
                         (['solve', '--format', '=', 're'], {'rect'}), (['solve', '--format=re'], {'--format=rect'}),
                         (['solve', 'sum', '--each', '3', 'week'], files), (['solve', 'capped', '=', '5'], set()),
                         (['solve', 'capped', '=', '5', 'week'], files), (['--place', ''], set()),
                         (['check', 'sum', '--script', 'week.s'], {'week.script'})):
        bench.holds(completed('asg', *words) == right, f'completion of {words}', completed('asg', *words), right)


def words_of_plan(bench):
    """The completion of plan: its commands, their options, and what stands where."""
    bench.holds(completed('plan', '') == set(COMMANDS), 'commands of plan in the completion')
    kinds = {kind + '=' * (kind == 'capped') for kind in objectives.SAYS}
    for command, made in parser()._subparsers._group_actions[0].choices.items():
        options = {name for name in made._option_string_actions if name.startswith('--')}
        bench.holds(completed('plan', command, '--') == options, f'options of plan {command} in the completion', options)
        right = set() if command in ('explain', 'example') else \
            kinds - {'balanced', 'lex'} if command == 'rank' else kinds
        bench.holds(completed('plan', command, '--decimals', '2', '') == right, f'objectives of plan {command}')
    bench.holds(completed('plan', 'solve', 'sum', 'week.c') == {'week.csv'}, 'tables in the completion')


def trials(bench):
    formats, manual = read(FORMATS), read(MANUAL)
    numbers(bench, formats, manual)
    requests(bench, formats, manual)
    words_of_plan(bench)
