"""What is shown on a terminal."""
import shlex
import unicodedata

from .words import is_rightward

OUT = '(stays out)'


def width(text):
    """How many places of a terminal a text takes."""
    if text.isascii():
        return len(text)
    return sum(0 if unicodedata.combining(sign) or unicodedata.category(sign) in ('Cf', 'Mn', 'Me')
               else 2 if unicodedata.east_asian_width(sign) in 'WF' else 1 for sign in text)


def padded(text, wide, to_right=False):
    """The text with blanks to a width. Behind a name that runs to the left a mark keeps the line's order."""
    blanks = ' ' * (wide - width(text))
    text += '\u200e' * is_rightward(text)
    return blanks + text if to_right else text + blanks


def aligned(parts, to_right):
    """The parts of a column, all as wide as the widest."""
    if all(map(str.isascii, parts)):
        wide = max(map(len, parts))
        return [part.rjust(wide) if to_right else part.ljust(wide) for part in parts]
    wide = max(map(width, parts))
    return [padded(part, wide, to_right) for part in parts]


def table_lines(lines, to_right=()):
    """Lines of parts in columns; those numbered in `to_right` end in line."""
    columns = [aligned(parts, place in to_right) for place, parts in enumerate(zip(*lines))]
    return ['  '.join(parts).rstrip() for parts in zip(*columns)]


def headline(solved):
    """What was found, in a line."""
    question = solved.question
    if solved.answer is None:
        return 'No choice is valid.'
    objective, scale = question.objective, question.table.scale
    return f'{shown_objective(question)} {objective.show(scale, solved.answer.value)}: {objective.says}'


def shown_objective(question):
    """The objective as the planner said it."""
    kind, cap = question.objective.kind, question.objective.cap
    return f'capped={question.table.scale.show(cap)}' if kind == 'capped' else kind


def roster(question, answer):
    """The choice by names: a line for each row of the table that isn't dropped."""
    table, chosen = question.table, dict(answer.cells)
    lines = []
    for row in table.live_rows():
        if row in chosen:
            cost = table.show_cost(table.cost(row, chosen[row]), question.objective.is_paired)
            lines.append([table.rows[row], table.columns[chosen[row]], cost])
        else:
            lines.append([table.rows[row], OUT, ''])
    return lines


def heads(table):
    """The names of the three parts of a roster's lines."""
    return [table.row_title, table.column_title, 'cost']


def why_lines(solved):
    """Why nothing is better, as lines."""
    title = 'Why nothing is better' if solved.answer else 'Why'
    return [title, *(f'  {line}' for line in solved.why)]


def solved_lines(solved, keep):
    """All that is shown of a question."""
    question, lines = solved.question, [headline(solved), '']
    if solved.answer:
        lines += table_lines([heads(question.table), *roster(question, solved.answer)], to_right=(2,)) + ['']
    lines += why_lines(solved)
    return lines + ['', *checked(solved.verdict, question, keep, question.document_name)]


def checked(verdict, question, keep, document, *options):
    """What the check said; and where the files are kept, how to check again."""
    lines = [f'Checked by asg check: {verdict}']
    if keep:
        words = ['asg', 'check', question.objective.word, f'{keep}/{question.name}.rect', f'{keep}/{document}', *options,
                 *question.instance.options]
        lines.append(f'The files are kept; to check again: {shlex.join(words)}')
    return lines
