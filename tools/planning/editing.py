"""A roster that is kept through changes: repaired after each block, with what is different."""
from copy import copy
from dataclasses import dataclass

from . import looks, texts
from .changes import apply, script_of, told
from .documents import Answer, read_documents
from .program import ending
from .solving import Question, document_of, explained, refusal, worst_reason
from .words import Wrong, counted, listed

SCRIPT, ANSWERS = 'changes.script', 'week.document'


@dataclass
class Step:
    """A roster that was due, by names; none where no choice is valid; and its value, and why nothing is better."""

    name: str
    changes: list
    roster: list
    value: tuple
    why: list


def step_of(question, name, words, answer, why):
    """What is kept of a roster, whose table goes on to change."""
    if answer is None:
        return Step(name, words, None, None, why)
    return Step(name, words, texts.roster(question, answer), answer.value, why)


def moments(question, blocks):
    """For each roster that is due its block's name and the changes in words. The table is then as it is by then: there
    is one for all blocks, which changes in place."""
    yield 'before any change', []
    for block in blocks:
        for change in block.changes:
            apply(change, question.table)
        yield block.name, [told(change, question.table) for change in block.changes]


def compacted(table):
    """The table without what was dropped or closed, and which rows and columns of the whole table are left."""
    rows = table.live_rows()
    columns = [c for c in range(len(table.columns)) if c not in table.closed]
    made = copy(table)
    made.rows, made.columns = [table.rows[r] for r in rows], [table.columns[c] for c in columns]
    made.capacity = [table.capacity[c] for c in columns]
    made.first = [[table.first[r][c] for c in columns] for r in rows]
    made.second = [[table.second[r][c] for c in columns] for r in rows]
    made.dropped, made.closed = set(), set()
    return made, rows, columns


def left_question(question, number):
    """The same question over what is left of the table."""
    table, rows, columns = compacted(question.table)
    return Question(table, question.objective, question.place, name=f'table-{number}'), rows, columns


def why_of(program, question, document, number):
    """Why nothing is better. For worst costs a question over what is left of the table is asked besides."""
    if document.status == 'none' or question.objective.is_sum:
        return explained(program, question, document)[0]
    left, _, _ = left_question(question, number)
    if question.objective.kind == 'time-cost':
        return explained(program, left, document)[0]
    return [worst_reason(program, left, question.objective.kind)]


def repaired(program, question, blocks, path):
    """The rosters as asg repairs them, all checked by `asg check` in one go."""
    script = program.write(SCRIPT, script_of(blocks, question.instance, path))
    table = program.write('table.rect', question.file_text())
    options, word = question.instance.options, question.objective.word
    done = program.run(f'asg works on {question.size}', 'edit', word, table, script, *options)
    if done.status == 3:
        raise Wrong(refusal(question, done.text))
    if done.status:
        raise Wrong(f'{path}: asg refuses the changes: {done.text.strip()}' if done.status == 4 else ending(done.status))
    answers = program.write(ANSWERS, done.text)
    verdict = program.check('asg checks the answers', word, table, answers, '--script', script, *options)
    steps = []
    documents = read_documents(done.text, len(blocks) + 1, len(question.table.rows), question.instance.columns)
    for number, ((name, words), document) in enumerate(zip(moments(question, blocks), documents)):
        if document.answers:
            looks.look_at_answer(question.table, question.objective, document.answers[0], question.place)
        why = why_of(program, question, document, number)
        steps.append(step_of(question, name, words, document.answers[0] if document.answers else None, why))
    return steps, verdict


def too_few(question):
    """Why not as many can be placed as are to be, where too few rows or places are left; else nothing."""
    table, rows, _ = compacted(question.table)
    places = sum(min(count, len(rows)) for count in table.capacity)
    if question.place <= min(len(rows), places):
        return ''
    return f'{counted(len(rows), "row")} and {counted(places, "place")} are left, and {question.place} are to be placed'


def solved_anew(program, question, blocks):
    """The rosters solved one by one, for objectives whose answers asg doesn't repair."""
    steps = []
    for number, (name, words) in enumerate(moments(question, blocks)):
        if too_few(question):
            steps.append(step_of(question, name, words, None, [too_few(question)]))
            continue
        left, rows, columns = left_question(question, number)
        document, _ = document_of(program, left)
        why, _ = explained(program, left, document)
        answer = None
        if document.answers:
            value, cells = document.answers[0].value, document.answers[0].cells
            answer = Answer(value, [(rows[r], columns[c]) for r, c in cells])
        steps.append(step_of(question, name, words, answer, why))
    return steps, 'yes 1, for each roster'


def edit(program, question, blocks, path):
    """The rosters before and after each block of changes, and what the check said."""
    if question.objective.is_ranked:
        return repaired(program, question, blocks, path)
    return solved_anew(program, question, blocks)


def changed_lines(table, step, before):
    """The roster, with what each row had before where that was something else; and how many had."""
    if before is None or before.roster is None:
        return texts.table_lines([texts.heads(table), *step.roster], to_right=(2,)), None
    had = {name: column for name, column, _ in before.roster}
    marks = [f'was {had[name]}' if had[name] != column else '' for name, column, _ in step.roster]
    parts = [[*line, mark] for line, mark in zip(step.roster, marks)]
    return texts.table_lines([[*texts.heads(table), 'before'], *parts], to_right=(2,)), sum(map(bool, marks))


def step_lines(question, step, before):
    """All that is shown of a roster."""
    scale, objective = question.table.scale, question.objective
    lines = [f'{step.name}: {listed(step.changes)}' if step.changes else step.name]
    if step.roster is None:
        return lines + ['No choice is valid.', '', 'Why', *(f'  {line}' for line in step.why), '']
    roster, changed = changed_lines(question.table, step, before)
    head = f'{texts.shown_objective(question)} {objective.show(scale, step.value)}'
    if changed is not None:
        head += f', {objective.show(scale, before.value)} before; {counted(changed, "change")} in the roster'
    return lines + [head, '', *roster, '', 'Why nothing is better', *(f'  {line}' for line in step.why), '']


def edit_lines(question, steps, verdict, keep):
    """All that is shown of a table and its changes."""
    lines = []
    for before, step in zip([None, *steps], steps):
        lines += step_lines(question, step, before) + ['-' * 20, '']
    if question.objective.is_ranked:
        return lines[:-2] + texts.checked(verdict, question, keep, ANSWERS, '--script', f'{keep}/{SCRIPT}')
    return lines[:-2] + texts.checked(verdict, question, '', '')
