"""What stands in for asg, and answers wrongly: a name, the stand-in, the table, the words, and what plan tells."""
from planning.program import Run

GOOD = 'crew / duty,early,late,night\nAnna,4,1,3\nBen,2,0,5\nCarla,3,2,2\n'
STUCK = 'crew / duty,early,late\nAnna,4,\nBen,2,\n'
FAULT = 'this is a fault of plan or of asg'
PLACED = f'the rows of the proof have enough places; {FAULT}'


def changed(*pairs, says='yes 1'):
    """Answers with other words for some, and finds all well in its check."""
    def fake(command, done):
        if command == 'check':
            return Run(0, f'{says}\n')
        text = done().text
        for old, new in pairs:
            text = text.replace(old, new)
        return Run(0, text)
    return fake


def refusing(status, text):
    """Answers rightly, and finds no answer right."""
    return lambda command, done: Run(status, text) if command == 'check' else done()


def ends(status, text=''):
    """Ends at once."""
    return lambda command, done: Run(status, text)


def solve(name, fake, objective, told, table=GOOD):
    return (name, fake, table, ['solve', objective, '{folder}/t.csv'], told)


EDIT = ['edit', 'sum', '{folder}/t.csv', '{folder}/week.csv']
RANK = ['rank', 'sum', '{folder}/t.csv', '--count', '2']
FIRST, SECOND = 'answer 5\ncells 3\n1 2\n2 1\n3 3\n', 'answer 6\ncells 3\n1 1\n2 2\n3 3\n'

CHECKS = [
    solve('the check refuses', refusing(6, 'no 1 4 0\n'), 'sum', 'asg check does not accept the answer of asg: no 1 4 0'),
    solve('the check says nothing', refusing(0, ''), 'sum',
          'asg check does not accept the answer of asg: answered; of check: each document certifies'),
    solve('the check has no memory', refusing(9, ''), 'sum',
          'asg check does not accept the answer of asg: memory was wanting'),
    ('the check refuses a ranking', refusing(6, 'no 1 11 1\n'), GOOD, RANK,
     'asg check does not accept the answer of asg: no 1 11 1'),
    ('the check refuses a week', refusing(6, 'no 2 4 0\n'), GOOD, EDIT,
     'asg check does not accept the answer of asg: no 2 4 0'),
]
ANSWERS = [
    solve('another value', changed(('value 5', 'value 4')), 'sum', f'the answer has another value than it says; {FAULT}'),
    solve('another column', changed(('1 2\n', '1 1\n')), 'sum', f'the answer is no choice of the table; {FAULT}'),
    solve('a row twice', changed(('3 3\n', '2 3\n')), 'sum', f'the answer is no choice of the table; {FAULT}'),
    solve('no such row', changed(('3 3\n', '9 3\n')), 'sum', "asg wrote a line that plan can't read: '9 3'"),
    solve('no such column', changed(('3 3\n', '3 9\n')), 'sum', "asg wrote a line that plan can't read: '3 9'"),
    solve('no number', changed(('value 5', 'value five')), 'sum', "asg wrote a line that plan can't read: 'value five'"),
    solve('nothing at all', changed(('assignment 1\n', ''), ('status best\n', '')), 'sum',
          'asg answered with 0 documents, and 1 were due'),
    ('a document too few', changed(('status best\nvalue 5\ncells 3', 'cells 3'), says='yes 2'), GOOD, EDIT,
     'asg answered with 1 documents, and 2 were due'),
    ('ranked twice', changed((SECOND, FIRST)), GOOD, RANK, f'a ranked answer stands there twice; {FAULT}'),
    ('ranked in no order', changed((FIRST + SECOND, SECOND + FIRST)), GOOD, RANK,
     f'a ranked answer is better than the one before; {FAULT}'),
]
PROOFS = [
    solve('no Hall set', changed(('below 3', 'below 2')), 'bottleneck', PLACED),
    solve('a row twice in a Hall set', changed(('hall 2 1', 'hall 2 2')), 'sum', PLACED, STUCK),
    solve('a Hall set too small', changed(('hall 2 1', 'hall 2')), 'sum', PLACED, STUCK),
    solve('no window', changed(('window 3 4 2', 'window 3 4 3')), 'balanced', PLACED),
    solve('another step', changed(('steps 1 1000000002', 'steps 2 1000000002')), 'sum',
          f'the shares of the proof do not hold for Anna; {FAULT}'),
    solve('a step less', changed(('steps 1 1000000002', 'steps 1 1000000001')), 'sum',
          f'the shares of the proof do not add up; {FAULT}'),
]
ENDINGS = [
    solve('a full disk', ends(8), 'sum', 'the output could not be written whole (is the disk full?)'),
    solve('no memory', ends(9), 'sum', 'memory was wanting'),
    solve('another refusal', ends(3, 'refused instance 12 1'), 'sum',
          '{folder}/t.csv: asg refuses it: refused instance 12 1'),
    solve('an empty refusal', ends(3), 'sum', 'asg refuses the table: '),
    solve('a signal', ends(-9), 'sum', 'asg was ended by the signal 9'),
    solve('another status', ends(77), 'sum', 'asg ended with the status 77'),
    solve('a place out of range', ends(3, 'refused instance 13 3'), 'sum',
          '{folder}/t.csv: --place 0 is more than there are rows or places'),
    ('a refused script', ends(4, 'refused script 11 2'), GOOD, EDIT,
     '{folder}/week.csv: asg refuses the changes: refused script 11 2'),
    ('a refused table', ends(3, 'refused instance 15 2001'), GOOD, EDIT,
     '{folder}/t.csv: rows and places together are too many: 2,001, and asg takes 2,000'),
    ('a full disk while edited', ends(8), GOOD, EDIT, 'the output could not be written whole (is the disk full?)'),
]
FAKES = [*CHECKS, *ANSWERS, *PROOFS, *ENDINGS]
