"""Errors: a name, the files that are there, the words, and what plan tells."""

GOOD = 'crew / duty,early,late\nAnna,4,1\nBen,2,0\n'
SOLVE = ['solve', 'sum', '{folder}/t.csv']


def table(name, text, told, *more):
    """A case over a table."""
    return (name, {'t.csv': text}, [*SOLVE, *more], told)


def change(name, text, told, objective='sum', good=GOOD):
    """A case over changes of a table."""
    return (name, {'t.csv': good, 'week.csv': text}, ['edit', objective, '{folder}/t.csv', '{folder}/week.csv'],
            '{folder}/week.csv' + told)


def line(name, words, told):
    """A case over a line of asg's."""
    return (name, {}, ['explain', *words], told)


FORMS = ('explain takes a line of asg, as: refused instance 12 5, refused script 11 3, refused document 4, no 1 4 0, '
         'yes 1, or status 7')
CHANGE_FORMS = ('the line is none of: cost,ROW,COLUMN,COST; forbid,ROW,COLUMN; drop-row,ROW; drop-column,COLUMN; '
                'solve,NAME (of the block; it may be left out)')
HOLES = "; a cell that can't be chosen is empty, - or x"
NO_COMMENT = ' (a line that begins with # is a comment only where no separator stands in it)'


def thousands(text, whole, column='a'):
    return (f'{{folder}}/t.csv, line 2, row Anna, column {column}: {text} has three digits behind its mark: where that parts '
            f'thousands, write {whole}, and else say --decimals 3')


def marks(text, mark, line=2):
    return (f"{{folder}}/t.csv, line {line}, row Anna, column b: {text} has another mark than the numbers before it, which "
            f"have '{mark}': write all decimals behind one mark, and thousands without any")


def two(cost):
    return (f'{cost} is two costs, and sum counts one: write hours and minutes as minutes, or say --first to leave second '
            'costs aside')


AT = 'plan: {folder}/t.csv, line'
WRONGS = '\n'.join([
    f'{AT} 1: two columns are named a', f"{AT} 2, row Anna, column a: 'soon' is no number{HOLES}",
    f'{AT} 2, row Anna, column a: 1.5 has decimals: say --decimals 1', f'{AT} 3: Anna has 1 cell, and there are 2 columns',
    f'{AT} 4: the row has no name', f'{AT} 5, column a: the capacity is 0; it is a number from 1 to 1,000',
    f'{AT} 5, column a: the capacity is x; it is a number from 1 to 1,000', f'{AT} 7: two rows are named Ben',
    f"{AT} 7, row Ben, column a: '1e3' is no number"]).removeprefix('plan: ')
MUCH = '\n'.join([f"{AT} {row + 2}, row r{row}, column a: '1h' is no number" for row in range(19)]
                 + ['plan: {folder}/t.csv: and 983 more faults']).removeprefix('plan: ')
WIDE = 'r,' + ','.join(f'c{c}' for c in range(1001)) + '\na,' + ','.join(['1'] * 1001) + '\n'
SPREAD = 'r,a,b\ncapacity,1000,999\n' + ''.join(f'r{r},1,1\n' for r in range(1000))
SQUARE = 'r,' + ','.join(f'c{c}' for c in range(201)) + '\n' + ''.join(f'r{r}' + ',1' * 201 + '\n' for r in range(201))
MANY = 'r,' + ','.join(f'c{c}' for c in range(150)) + '\n' + ''.join(
    f'r{r},' + ','.join(str(150 * r + c) for c in range(150)) + '\n' for r in range(150))

TABLES = [
    ('no file', {}, ['solve', 'sum', '{folder}/none.csv'], '{folder}/none.csv: No such file or directory'),
    ('a folder', {}, ['solve', 'sum', '{folder}'], '{folder}: Is a directory'),
    table('an empty file', '', '{folder}/t.csv: the table is empty'),
    table('bytes', b'crew,a\nB\xff,1\n', '{folder}/t.csv, line 2: this is no UTF-8 text; save it as CSV UTF-8'),
    table('half a sign', b'\xff\xfea\x00,', '{folder}/t.csv, line 1: this is no UTF-16-LE text; save it as CSV UTF-8'),
    table('an open quote', 'crew,a\n"Anna,1\n', '{folder}/t.csv, line 2: a quoted field does not end'),
    table('behind a quote', 'crew,a\n"Anna" B,1\n', '{folder}/t.csv, line 2: a field is not as spreadsheets save it '
          '(\',\' expected after \'"\')'),
    table('no column', 'crew\nAnna\n', '{folder}/t.csv, line 1: no column is named (columns are separated by commas, '
          'semicolons or tabs)'),
    table('a column without a name', 'crew,a,,b\nAnna,1,2,3\n', '{folder}/t.csv, line 1: column 2 has no name'),
    table('a column twice', 'crew,a,a\nAnna,1,2\n', '{folder}/t.csv, line 1: two columns are named a'),
    table('no row', 'crew,a,b\n', '{folder}/t.csv: the table has no row'),
    table('a row twice', 'crew,a\nAnna,1\nAnna,2\n', '{folder}/t.csv, line 3: two rows are named Anna'),
    table('a row without a name', 'crew,a\n,1\n', '{folder}/t.csv, line 2: the row has no name'),
    table('too few cells', 'crew,a,b\nAnna,1\n', '{folder}/t.csv, line 2: Anna has 1 cell, and there are 2 columns'),
    table('too many cells', 'crew,a\nAnna,1,2\n', '{folder}/t.csv, line 2: Anna has 2 cells, and there is 1 column'),
    table('no number', 'crew,a\nAnna,soon\n', f"{{folder}}/t.csv, line 2, row Anna, column a: 'soon' is no number{HOLES}"),
    table('no hole', 'crew,a\nAnna,n/a\n', f"{{folder}}/t.csv, line 2, row Anna, column a: 'n/a' is no number{HOLES}"),
    table('a unit', 'crew,a\nAnna,5 h\n', "{folder}/t.csv, line 2, row Anna, column a: '5 h' is no number"),
    table('half a pair', 'crew,a\nAnna,3:\n', "{folder}/t.csv, line 2, row Anna, column a: '' is no number"),
    table('a hole in a pair', 'crew,a,b\nAnna,1,x:3\n', "{folder}/t.csv, line 2, row Anna, column b: 'x' is no number"),
    table('half a number', 'crew,a,b\nAnna,1,1-3\n', "{folder}/t.csv, line 2, row Anna, column b: '1-3' is no number"),
    table('three parts', 'crew,a,b\nAnna,1:2,1:2:3\n',
          "{folder}/t.csv, line 2, row Anna, column b: '2:3' is no number"),
    table('a pair with decimals', 'crew,a,b\nAnna,1:2,1:2.5\n', '{folder}/t.csv, line 2, row Anna, column b: 2.5 has '
          'decimals: say --decimals 1'),
    table('a second part out of range', 'crew,a,b\nAnna,1,1:-1000000001\n', '{folder}/t.csv, line 2, row Anna, column b: '
          '-1000000001 is out of range: costs lie between -1000000000 and 1000000000'),
    table('a comma', 'crew,a\nAnna,"1,5"\n', "{folder}/t.csv, line 2, row Anna, column a: '1,5' is no number"),
    table('decimals', 'crew;a\nAnna;1,5\n', '{folder}/t.csv, line 2, row Anna, column a: 1,5 has decimals: '
          'say --decimals 1'),
    table('more decimals', 'crew,a\nAnna,1.5055\n', '{folder}/t.csv, line 2, row Anna, column a: 1.5055 has more than '
          '2 decimals: say --decimals 4', '--decimals', '2'),
    table('thousands', 'crew;a\nAnna;1.000\n', thousands('1.000', '1000')),
    table('thousands behind a comma', 'crew\ta\nAnna\t1,000\n', thousands('1,000', '1000')),
    table('thousands in a pair', 'crew;a;b\nAnna;1;2:3.000\n', thousands('3.000', '3000', 'b')),
    table('thousands or decimals', 'crew;a\nAnna;1.500\n', thousands('1.500', '1500')),
    table('thousands beside decimals', 'crew;a;b\nAnna;1.250;9,50\n', thousands('1.250', '1250'), '--decimals', '2'),
    table('three decimals', 'crew,a\nAnna,-0.500\n', '{folder}/t.csv, line 2, row Anna, column a: -0.500 has three digits '
          'behind its mark: say --decimals 3', '--decimals', '1'),
    ('thousands in a cap', {'t.csv': GOOD}, ['solve', 'capped=1.000', '{folder}/t.csv'], '1.000 has three digits behind its '
     'mark: where that parts thousands, write 1000, and else say --decimals 3'),
    table('two marks', 'crew;a;b\nAnna;9,50;1.2\n', marks('1.2', ','), '--decimals', '2'),
    table('two marks in even rows', 'crew;a;b\nBen;1;2\nAnna;9.50;1,25\n', marks('1,25', '.', 3), '--decimals', '2'),
    table('two marks with three decimals', 'crew;a;b\nAnna;9,50;1.250\n', marks('1.250', ','), '--decimals', '3'),
    table('two marks of whole numbers', 'crew;a;b\nAnna;9,0;1.0\n', marks('1.0', ',')),
    table('parted twice', 'crew;a\nAnna;1.000.000,5\n', "{folder}/t.csv, line 2, row Anna, column a: '1.000.000,5' is no "
          'number: thousands are not parted; write 1000000,5', '--decimals', '1'),
    table('parted by blanks', 'crew;a\nAnna;-12 500\n', "{folder}/t.csv, line 2, row Anna, column a: '-12 500' is no "
          'number: thousands are not parted; write -12500'),
    table('parted by the separator', 'crew,a\nAnna,"1,500"\n', "{folder}/t.csv, line 2, row Anna, column a: '1,500' is no "
          'number: thousands are not parted; write 1500'),
    table('a time', 'crew,a,b\nAnna,8,7:30\n', f'{{folder}}/t.csv, row Anna, column b: {two("7:30")}'),
    table('a time with decimals', 'crew,a\nAnna,7.5:30\n', f'{{folder}}/t.csv, row Anna, column a: {two("7.50:30.00")}',
          '--decimals', '2'),
    table('a remark before the header', '# costs, in hours\ncrew,a,b\nAnna,1,2\n',
          '{folder}/t.csv, line 2: crew has 2 cells, and there is 1 column' + NO_COMMENT + '\nplan: {folder}/t.csv, '
          'line 3: Anna has 2 cells, and there is 1 column' + NO_COMMENT),
    table('a remark among rows', 'crew,a,b\nAnna,1,2\n# Ben, away\n',
          '{folder}/t.csv, line 3: # Ben has 1 cell, and there are 2 columns' + NO_COMMENT),
    table('almost capacities', 'crew,a\ncapacity per duty,1\nAnna,1\n', '{folder}/t.csv, line 2: the row is named capacity '
          'per duty: the line of capacities begins with the word capacity alone, and a row needs another name'),
    table('bytes of 0', b'crew,a\nAn\x00na,1\n', '{folder}/t.csv: this has bytes of 0, and is no UTF-16 text; save it as '
          'CSV UTF-8'),
    table('all that is wrong', 'crew,a,a\nAnna,soon,1.5\nAnna,1\n,1,2\ncapacity,0,x\nBen,1,2\nBen,9,1e3\n', WRONGS),
    table('much that is wrong', 'crew,a\n' + ''.join(f'r{row},1h\n' for row in range(1002)), MUCH),
    table('out of range', 'crew,a\nAnna,1000000001\n', '{folder}/t.csv, line 2, row Anna, column a: 1000000001 is out '
          'of range: costs lie between -1000000000 and 1000000000'),
    table('out of range with decimals', 'crew,a\nAnna,-10000001\n', '{folder}/t.csv, line 2, row Anna, column a: '
          '-10000001 is out of range: costs lie between -10000000.00 and 10000000.00', '--decimals', '2'),
    table('a capacity', 'crew,a\ncapacity,0\nAnna,1\n', '{folder}/t.csv, line 2, column a: the capacity is 0; it is a '
          'number from 1 to 1,000'),
    table('no capacity', 'crew,a\ncapacity,\nAnna,1\n', '{folder}/t.csv, line 2, column a: the capacity is missing; it '
          'is a number from 1 to 1,000'),
    table('capacities twice', 'crew,a\ncapacity,1\ncapacity,1\nAnna,1\n',
          '{folder}/t.csv, line 3: a second line of capacities'),
    table('too wide', WIDE, '{folder}/t.csv: 1 rows and 1,001 columns; asg takes 1,000 of each'),
    table('too many places', SPREAD, '{folder}/t.csv: columns with different capacities stand in the file for asg once '
          'for each place: 1,999 here, and asg takes 1,000'),
]

WORDS = [
    ('an objective', {'t.csv': GOOD}, ['solve', 'least', '{folder}/t.csv'], "'least' is no objective; they are sum, "
     'sum-max, pair, capped, bottleneck, bottleneck-max, time-cost, balanced, lex (capped=C with its cap C)'),
    ('no cap', {'t.csv': GOOD}, ['solve', 'capped', '{folder}/t.csv'], 'capped needs its cap, as capped=40'),
    ('a cap', {'t.csv': GOOD}, ['solve', 'capped=0', '{folder}/t.csv'],
     'the cap of capped lies between 1 and 1000000000000'),
    table('a place', GOOD, '--place 3: {folder}/t.csv has 2 rows and 2 places', '--place', '3'),
    table('no program', GOOD, '--asg names {folder}/none, which is no program', '--asg', '{folder}/none'),
    table('over the table', GOOD, '--csv {folder}/t.csv: this is the table itself, and is not written over', '--csv',
          '{folder}/t.csv'),
    table('a picture over the roster', GOOD, '--svg {folder}/./out: this is the file of --csv itself, and is not written over',
          '--csv', '{folder}/out', '--svg', '{folder}/./out'),
    table('a page over the picture', GOOD, '--html {folder}/out: this is the file of --svg itself, and is not written over',
          '--svg', '{folder}/out', '--html', '{folder}/out'),
    table('a roster among the kept files', GOOD, '--csv {folder}/kept/table.rect: the folder of --keep has files of such '
          'names', '--csv', '{folder}/kept/table.rect', '--keep', '{folder}/kept'),
    table('kept among other files', GOOD, '--keep {folder}: the folder has other files; name one that is new or empty',
          '--keep', '{folder}'),
    table('no folder', GOOD, '--svg {folder}/none/t.svg: there is no folder {folder}/none', '--svg',
          '{folder}/none/t.svg'),
    table('a picture', SQUARE, '--svg {folder}/t.svg: {folder}/t.csv has more than 40,000 cells, too many for a '
          'picture', '--svg', '{folder}/t.svg'),
    table('a folder to be written', GOOD, '{folder}: Is a directory', '--csv', '{folder}'),
    ('kept where a folder is', {'t.csv': GOOD, 'kept/kept-by-plan.txt': ''}, [*SOLVE, '--keep', '{folder}/kept'],
     '{folder}/kept/table.rect: Is a directory'),
    table('kept nowhere', GOOD, '{folder}/t.csv: File exists', '--keep', '{folder}/t.csv'),
    ('ranked', {'t.csv': GOOD}, ['rank', 'lex', '{folder}/t.csv', '--count', '2'],
     'asg ranks by each objective but balanced and lex, and not by lex'),
    ('ranked too far', {'t.csv': GOOD}, ['rank', 'sum', '{folder}/t.csv', '--count', '1000001'], '{folder}/t.csv: the '
     'count times the rows times the side of the square is 4,000,004, and asg ranks up to 4,000,000'),
    ('below 0', {'t.csv': 'crew,a\nAnna,-1\n'}, ['solve', 'capped=4', '{folder}/t.csv'],
     '{folder}/t.csv, row Anna, column a: capped takes no negative cost'),
    ('second below 0', {'t.csv': 'crew,a\nAnna,1:-1\n'}, ['solve', 'time-cost', '{folder}/t.csv'],
     '{folder}/t.csv, row Anna, column a: time-cost takes no negative second cost'),
    ('rows of lex', {'t.csv': SQUARE}, ['solve', 'lex', '{folder}/t.csv'],
     '{folder}/t.csv: there are 201 rows, and lex takes 200'),
    ('costs of balanced', {'t.csv': MANY}, ['solve', 'balanced', '{folder}/t.csv'],
     '{folder}/t.csv: there are 22,500 different costs, and balanced takes 20,000'),
]

CHANGES = [
    change('no change', '# nothing\n', ': the file has no change'),
    change('a word', 'ill,Anna\n', f', line 1: {CHANGE_FORMS}'),
    change('too short', 'solve\ncost,Anna,late\n', f', line 2: {CHANGE_FORMS}'),
    change('a row', 'drop-row,Dora\n', ', line 1: no crew is named Dora'),
    change('a column', 'forbid,Anna,noon\n', ', line 1: no duty is named noon'),
    change('no name', 'drop-row,\n', f', line 1: {CHANGE_FORMS}'),
    change('dropped', 'drop-row,Ben\nforbid,Ben,late\n', ', line 2: Ben was dropped before'),
    change('closed', 'drop-column,late\nforbid,Ben,late\n', ', line 2: late was closed before'),
    change('the last row', 'drop-row,Ben\ndrop-row,Anna\n', ', line 2: Anna is the only crew that is left'),
    change('no cost', 'cost,Ben,late,x\n', ", line 1: a cell that can't be chosen any more is changed by forbid"),
    change('a number', 'cost,Ben,late,soon\n', f", line 1: 'soon' is no number{HOLES}"),
    change('thousands', 'cost;Ben;late;1.000\n', thousands('1.000', '1000').removeprefix('{folder}/t.csv').replace(
        'line 2, row Anna, column a', 'line 1'), good=GOOD.replace(',', ';')),
    change('a time', 'cost,Ben,late,7:30\n', f', line 1: {two("7:30")}'),
    change('two at once', 'drop-row,Dora\nforbid,Anna,late\ncost,Ben,noon,1\n', ', line 1: no crew is named Dora\nplan: '
           '{folder}/week.csv, line 3: no duty is named noon'),
    change('a remark', '#drop-row,Ben\n', f', line 1: {CHANGE_FORMS}{NO_COMMENT}'),
    change('below 0', 'cost,Ben,late,-1\n', ', line 1: capped takes no negative cost', 'capped=4'),
    change('second below 0', 'cost,Ben,late,1:-1\n', ', line 1: time-cost takes no negative second cost', 'time-cost'),
    change('too long', 'cost,Ben,late,1\n' * 10000, ': the script for asg has 10,002 lines, and it takes 10,000'),
]

LINES = [
    line('no line of asg', ['hello'], FORMS),
    line('a refusal', ['refused', 'instance', '19'], 'no instance is refused by the number 19; they are 1 to 18'),
    line('a refused script', ['refused', 'script', '4', '1'],
         'no script is refused by the number 4; they are 1, 2, 3, 11, 12, 13, 14, 16, 17'),
    line('too few numbers', ['refused', 'instance', '8', '1'], FORMS.replace('explain', 'the line has too few numbers; '
         'explain', 1)),
    line('no place', ['refused', 'instance', '12'], FORMS.replace('explain', 'the line has too few numbers; explain', 1)),
    line('no reason', ['no', '1', '14', '0'], FORMS),
    line('half a brief line', ['ranked', 'sum', '2'], FORMS),
    line('no file', ['refused', 'instance', '12', '5', '--file', '{folder}/none'],
         '{folder}/none: No such file or directory'),
]

CASES = [*TABLES, *WORDS, *CHANGES, *LINES]
