"""One HTML page with the roster, why nothing is better, and the picture."""
from html import escape

from . import shares, texts
from .pictures import MOST_CELLS, is_drawn, picture

STYLE = ('body{font:15px sans-serif;margin:2em}ul,p{max-width:70em}table{border-collapse:collapse;margin:1em 0}'
         'td,th{padding:.15em 1.2em .15em 0;text-align:start}td.n,th.n{text-align:end}tr{border-bottom:1px solid #ddd}'
         '.wide{overflow-x:auto}h2{margin-top:1.5em}small{color:#555}')


def cells(tag, parts, numbers):
    """A line of a table; the parts that are numbers end in line."""
    return '<tr>' + ''.join(f'<{tag}{" class=n" if place in numbers else ""}><bdi>{escape(part)}</bdi></{tag}>'
                            for place, part in enumerate(parts)) + '</tr>'


def grid(heads, lines, numbers):
    body = '\n'.join(cells('td', line, numbers) for line in lines)
    return f'<table>\n<thead>{cells("th", heads, numbers)}</thead>\n<tbody>\n{body}\n</tbody></table>\n'


def roster_part(solved):
    if solved.answer is None:
        return ''
    return grid(texts.heads(solved.question.table), texts.roster(solved.question, solved.answer), (2,))


def shares_part(solved):
    """What each row adds, and each column takes off, where the proof tells it."""
    if solved.shares is None:
        return ''
    table, objective = solved.question.table, solved.question.objective
    sign = -1 if objective.is_greater else 1
    rows = [[table.rows[row], shares.shown(table, objective, sign * solved.shares.rows[row])]
            for row in table.live_rows()]
    columns = [[table.columns[c], shares.shown(table, objective, share)]
               for c, share in enumerate(solved.shares.columns)]
    adds, off = 'adds', 'a place is contested by'
    if objective.is_greater:
        adds, off = 'brings at most', 'a place brings at most'
    return (f'<details><summary>The number of each {escape(table.row_title)} and each {escape(table.column_title)}'
            f'</summary>\n{grid([table.row_title, adds], rows, (1,))}'
            f'{grid([table.column_title, off], columns, (1,))}</details>\n')


def marked_rows(solved):
    """The rows that the proof names."""
    return set(solved.document.rows)


def drawn(solved):
    """The picture of a question's answer."""
    cells_of = solved.answer.cells if solved.answer else []
    question = solved.question
    return picture(question.table, question.objective.is_paired, cells_of, marked_rows(solved))


def picture_part(solved):
    if not is_drawn(solved.question.table):
        return f'<p>The table has more than {MOST_CELLS:,} cells, too many for a picture.</p>\n'
    legend = 'Darker is more; a ring is chosen; white can\'t be chosen'
    legend += '; a bar marks the rows that the proof names.' if marked_rows(solved) else '.'
    return f'<p><small>{legend}</small></p>\n<div class="wide">\n{drawn(solved)}</div>\n'


def page(solved):
    """The whole page."""
    head = escape(texts.headline(solved))
    title = 'Why nothing is better' if solved.answer else 'Why'
    why = '\n'.join(f'<li><bdi>{escape(line)}</bdi></li>' for line in solved.why)
    return (f'<!doctype html>\n<html lang="en">\n<meta charset="utf-8">\n<title>{head}</title>\n<style>{STYLE}</style>\n'
            f'<h1>{head}</h1>\n{roster_part(solved)}<h2>{title}</h2>\n<ul>\n{why}\n</ul>\n{shares_part(solved)}'
            f'<h2>The table</h2>\n{picture_part(solved)}'
            f'<p><small>Checked by asg check: {escape(solved.verdict)}. Made by tools/plan of '
            f'{escape(solved.question.table.path)}.</small></p>\n</html>\n')
