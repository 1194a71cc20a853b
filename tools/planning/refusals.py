"""The lines and statuses of asg in words. The numbers behind a refusal or a reason stand for the braces."""

STATUSES = {
    0: 'answered; of check: each document certifies',
    1: 'no choice is valid; the document names rows that show it',
    2: 'the words ask for nothing that asg does',
    3: 'the instance is refused',
    4: 'the script is refused',
    5: 'the answer\'s file is not one document, or with a script not one for each solve line',
    6: 'a document does not certify',
    7: 'a file could not be read',
    8: 'the output could not be written whole (is the disk full?)',
    9: 'memory was wanting',
    10: 'a file is longer than 268,435,456 bytes',
}
INSTANCE = {
    1: 'the file has no line p asn NODES ARCS',
    2: 'line {0} is a second line p asn NODES ARCS',
    3: 'line {0} has no form that a line may have, or stands before the line p asn NODES ARCS',
    4: 'line {0} is not n ID with an ID from 1 to NODES, or an earlier arc goes to its node',
    5: 'line {0} is not a SOURCE TARGET COST from a node of a line n to a node of none',
    6: '{at} has a cost below -1,000,000,000 or above 1,000,000,000',
    7: 'line {0} has the same arc as an earlier line, at another cost',
    8: 'the file states {0} arcs, and has {1}',
    9: 'there are {0} rows and {1} columns, and at most 1,000 of each are taken',
    10: 'the file has no row',
    11: '{0} numbers and cells were expected, and {1} are there',
    12: '{at} is not a cost (a whole number, two as 3:5, or - for none), or in the header not a size',
    13: '--place {0} is above the number of rows, or above what the columns can take',
    14: 'row {0} has a negative cost in column {1}, where the objective takes none',
    15: 'the square over rows and places has a side of {0}, and at most 2,000 is taken',
    16: 'there are {0} different costs, and balanced takes at most 20,000',
    17: 'there are {0} rows, and lex takes at most 200',
    18: 'the count times the rows times the side of the square is {0}, and rank takes at most 4,000,000',
}
SCRIPT = {
    1: 'line {0} has no form that a line may have',
    2: 'line {0} is one more than the 10,000 lines that a script may have',
    3: 'line {0} has a cost below -1,000,000,000 or above 1,000,000,000',
    11: 'line {0} names a row that is not there',
    12: 'line {0} names a column that is not there',
    13: 'line {0} names a row that was dropped before',
    14: 'line {0} names a column that was closed before',
    16: 'line {0} drops the only row that is left',
    17: 'line {0} has a negative cost, where the objective takes none',
}
REASONS = {
    1: 'it is for another objective',
    2: 'it answers another command or another count, or its proof is of a kind that the objective does not take',
    3: 'the cells{answer} are no valid choice, or not in the order of the rows',
    4: 'the value{answer} is not that of its cells',
    5: 'the rows{window} have columns with enough places, so they prove nothing',
    6: 'phase {0} has the wrong length or steps, or is not admitted after those before it',
    7: 'the phases come to another value than the costs of the cells',
    8: 'no window covers the costs from {0} on',
    9: '{level} not hold after what stands before it',
    10: '{node}',
    11: 'node {0} of the tree is open, and may hold a better choice than the last answer',
    12: 'answer {0} has the cells of an earlier one',
    13: 'answer {0} is better than the one before',
}


def reason_words(reason, place):
    """Why a document doesn't certify."""
    return REASONS[reason].format(
        place,
        answer=f' of answer {place}' if place else '',
        window=f' of window {place}' if place else '',
        level=f'level {place} does' if place else 'the columns of perm do',
        node=f'node {place} of the tree is not as it must be' if place else 'some answer has no node in the tree')
