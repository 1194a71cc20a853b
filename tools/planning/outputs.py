"""The files that plan writes: the roster for a spreadsheet, the picture, the page."""
import csv
import io
import os

from . import texts
from .pages import drawn, page
from .pictures import MOST_CELLS, is_drawn
from .program import is_kept_name
from .words import Wrong


def look_at_path(option, path, others):
    """Refuses a file that can't be written, or that is also one of the others, by their options."""
    folder = os.path.dirname(path) or '.'
    if not os.path.isdir(folder):
        raise Wrong(f'{option} {path}: there is no folder {folder}')
    for other, found in others:
        if os.path.realpath(found) == os.path.realpath(path) \
                or os.path.exists(path) and os.path.exists(found) and os.path.samefile(path, found):
            raise Wrong(f'{option} {path}: this is {other} itself, and is not written over')


def look_at_paths(table, args):
    """Refuses before any work what can't be written: over the table, two files of one path, one among those that are
    kept, or a picture of too large a table."""
    others = [('the table', table.path)]
    for option in ('csv', 'svg', 'html'):
        path = getattr(args, option)
        if path:
            look_at_path(f'--{option}', path, others)
            others.append((f'the file of --{option}', path))
            if args.keep and is_kept_name(path, args.keep):
                raise Wrong(f'--{option} {path}: the folder of --keep has files of such names')
    if args.svg and not is_drawn(table):
        raise Wrong(f'--svg {args.svg}: {table.path} has more than {MOST_CELLS:,} cells, too many for a picture')


def write(path, text):
    try:
        with open(path, 'w', encoding='utf-8', newline='') as file:
            file.write(text)
    except OSError as error:
        raise Wrong(f'{path}: {error.strerror}') from None


def roster_csv(solved):
    """The roster as a table of the planner's own kind; where no choice is valid, the heads alone."""
    table, out = solved.question.table, io.StringIO()
    writer = csv.writer(out, delimiter=table.delimiter, lineterminator='\r\n' if table.has_mark else '\n')
    writer.writerow(texts.heads(table))
    if solved.answer:
        writer.writerows(texts.roster(solved.question, solved.answer))
    return '\ufeff' * table.has_mark + out.getvalue()


def write_all(solved, args):
    """Writes each file that was asked for."""
    for path, made in ((args.csv, roster_csv), (args.svg, drawn), (args.html, page)):
        if path:
            write(path, made(solved))
