"""The commands of plan, by their words."""
import argparse
import os
import sys

from . import editing, outputs, ranking, solving, texts
from .changes import read_changes
from .explaining import explain
from .objectives import SAYS, read_objective
from .program import Program, program_path
from .scale import Scale
from .tables import look_at_pairs, read_table
from .words import Wrong

SHOWN, NOTHING, WRONG = 0, 1, 2
EXAMPLE = """crew / duty,early,late,night
capacity,1,1,1
Anna,4,1,3
Ben,2,0,5
Carla,3,2,2
"""
ABOUT = """Plans from a spreadsheet: names in, names out.

TABLE.csv is what a spreadsheet saves, with commas, semicolons or tabs. The first line names the columns; its first
field may say what rows and columns are, as crew / duty. Each other line begins with the name of a row. A cell is a
cost, or two as 3:5; an empty cell, - or x is one that can't be chosen. A line that begins with the word capacity says
how many rows each column takes; without it each takes one.

This program is not proved. It has the proved program asg solve the table, has asg check check the answer, looks at
it once more itself, and only then shows it."""
ENDS = """Ends with 0 where it showed a choice, with 1 where no choice is valid (with edit: after some block), and with 2
where it says what is wrong."""


def whole_number(least, most):
    """A reader of numbers in a range, for argparse."""
    def read(text):
        if not text.isdecimal() or not text.isascii() or not least <= int(text) <= most:
            raise argparse.ArgumentTypeError(f'{text!r} is no number from {least} to {most:,}')
        return int(text)
    return read


def add_question(commands, name, says, with_place=True):
    """A command over an objective and a table."""
    command = commands.add_parser(name, help=says, description=says[:1].upper() + says[1:] + '.')
    command.add_argument('objective', metavar='OBJECTIVE', help='what best means (plan --help lists them)')
    command.add_argument('table', metavar='TABLE.csv')
    if with_place:
        command.add_argument('--place', type=whole_number(1, 1000), default=0, metavar='K',
                             help='place exactly K rows instead of all')
    command.add_argument('--decimals', type=whole_number(0, 9), default=0, metavar='D',
                         help='numbers have up to D decimals')
    command.add_argument('--first', action='store_true',
                         help='of cells with two costs count the first, where the objective counts one')
    command.add_argument('--keep', metavar='DIR', help='keep the files that asg was given and that it gave')
    command.add_argument('--asg', metavar='PROGRAM', help='the program asg; without it the one that the variable ASG '
                                                          'names, or that was built in this clone')
    return command


def parser():
    """The words that plan takes."""
    objectives = '\n'.join(f'  {kind + "=C" * (kind == "capped"):15} {says}' for kind, says in SAYS.items())
    made = argparse.ArgumentParser(prog='plan', description=ABOUT, epilog=f'objectives:\n{objectives}\n\n{ENDS}',
                                   formatter_class=argparse.RawDescriptionHelpFormatter)
    commands = made.add_subparsers(dest='command', required=True, metavar='COMMAND')
    solve = add_question(commands, 'solve', 'show a best roster, and why none is better')
    solve.add_argument('--csv', metavar='FILE', help='write the roster for a spreadsheet')
    solve.add_argument('--svg', metavar='FILE', help='draw the table with the roster')
    solve.add_argument('--html', metavar='FILE', help='write a page with all of it')
    rank = add_question(commands, 'rank', 'show the K best rosters side by side', with_place=False)
    rank.add_argument('--count', type=whole_number(1, 4000000), required=True, metavar='K', help='how many rosters')
    edit = add_question(commands, 'edit', 'show a roster that is kept through changes')
    edit.add_argument('changes', metavar='CHANGES.csv', help='lines cost,ROW,COLUMN,COST; forbid,ROW,COLUMN; '
                      'drop-row,ROW; drop-column,COLUMN; and solve,NAME behind each block')
    words = commands.add_parser('explain', help='say in words what a line of asg says',
                                description='Says in words what a line of asg says.')
    words.add_argument('line', nargs='+', metavar='LINE', help='the line, as refused instance 12 5')
    words.add_argument('--file', metavar='FILE', help='the instance\'s file, to tell where in it')
    words.add_argument('--format', default='square', choices=['square', 'rect', 'asn'], help='its format')
    commands.add_parser('example', help='write a table to begin with', description='Writes a table to begin with.')
    return made


def table_of(args):
    """The table, and what is best."""
    scale, scale_of_cap = Scale(args.decimals), Scale(args.decimals)
    objective = read_objective(args.objective, scale_of_cap, args.first)
    table = read_table(args.table, scale)
    scale.mark = scale.mark or scale_of_cap.mark
    look_at_pairs(table, objective)
    return table, objective


def question_of(args):
    """The table and what is asked of it."""
    return solving.Question(*table_of(args), args.place)


def solve(args):
    question = question_of(args)
    outputs.look_at_paths(question.table, args)
    with Program(program_path(args.asg), args.keep) as program:
        solved = solving.solve(program, question)
    outputs.write_all(solved, args)
    print('\n'.join(texts.solved_lines(solved, args.keep)))
    return SHOWN if solved.answer else NOTHING


def rank(args):
    asked = ranking.Asked(*table_of(args), args.count)
    with Program(program_path(args.asg), args.keep) as program:
        ranked = ranking.rank(program, asked)
    print('\n'.join(ranking.ranked_lines(ranked, args.keep)))
    return SHOWN if ranked.answers else NOTHING


def edit(args):
    question = question_of(args)
    blocks = read_changes(args.changes, question.table, question.objective)
    with Program(program_path(args.asg), args.keep) as program:
        steps, verdict = editing.edit(program, question, blocks, args.changes)
    print('\n'.join(editing.edit_lines(question, steps, verdict, args.keep)))
    return SHOWN if all(step.roster for step in steps) else NOTHING


def in_words(args):
    print(explain(args.line, args.file, args.format))
    return SHOWN


def example(_):
    print(EXAMPLE, end='')
    return SHOWN


COMMANDS = {'solve': solve, 'rank': rank, 'edit': edit, 'explain': in_words, 'example': example}


def fault(text):
    print('\n'.join(f'plan: {line}' for line in str(text).split('\n')), file=sys.stderr)
    return WRONG


def main(words=None):
    """Does what the words ask, and returns the exit status. What is wrong is told in words, and never by a traceback."""
    for stream in (sys.stdout, sys.stderr):
        stream.reconfigure(errors='replace')
    try:
        args = parser().parse_args(words)
        status = COMMANDS[args.command](args)
        sys.stdout.flush()
        return status
    except Wrong as wrong:
        return fault(wrong)
    except KeyboardInterrupt:
        return fault('stopped')
    except BrokenPipeError:
        os.dup2(os.open(os.devnull, os.O_WRONLY), sys.stdout.fileno())
        return WRONG
    except MemoryError:
        return fault('there is not enough memory for this table')
    except OSError as error:
        return fault(f'{error.filename or "standard output"}: {error.strerror}')
    except Exception as error:  # a fault of plan: told in words, as any other
        return fault(f'this is a fault of plan: {type(error).__name__}: {error}')
