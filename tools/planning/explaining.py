"""What a line of asg's says, in words; with the file also where in it."""
import re

from .refusals import INSTANCE, REASONS, SCRIPT, STATUSES, reason_words
from .words import Wrong

FORMS = ('a line of asg, as: refused instance 12 5, refused script 11 3, refused document 4, no 1 4 0, yes 1, '
         'or status 7')
WITH_PLACE = (6, 12)
HEADER = {'square': 1, 'rect': 2}


def token_place(token, path, form):
    """Where a token of a square or rect file stands, and what it is."""
    if not path:
        return f'number {token} of the file (the header counts)'
    try:
        with open(path, encoding='latin-1', newline='\n') as file:
            tokens = [(word, line) for line, text in enumerate(file, 1) for word in re.findall(r'[^ \t\r\n]+', text)]
    except OSError as error:
        raise Wrong(f'{path}: {error.strerror}') from None
    if token > len(tokens):
        return f'number {token} of the file, which has {len(tokens)},'
    word, line = tokens[token - 1]
    place, header = token - HEADER[form] - 1, HEADER[form]
    columns = tokens[header - 1][0]
    if place < 0 or not columns.isdecimal() or not int(columns):
        return f'{path}, line {line}: {word!r}'
    row, column = divmod(place, int(columns))
    return f'{path}, line {line}, row {row + 1}, column {column + 1}: {word!r}'


def filled(words, numbers, **more):
    """A sentence with its numbers; with too few of them the line isn't one of asg's."""
    try:
        return words.format(*numbers, **more)
    except IndexError:
        raise Wrong(f'the line has too few numbers; explain takes {FORMS}') from None


def instance_words(numbers, path, form):
    """A refused instance."""
    number, *rest = numbers
    if number not in INSTANCE:
        raise Wrong(f'no instance is refused by the number {number}; they are 1 to {max(INSTANCE)}')
    place = ''
    if number in WITH_PLACE and rest:
        place = f'line {rest[0]}' if form == 'asn' else token_place(rest[0], path, form)
    elif number in WITH_PLACE:
        raise Wrong(f'the line has too few numbers; explain takes {FORMS}')
    return filled(INSTANCE[number], rest, at=place)


def script_words(numbers):
    number, *rest = numbers
    if number not in SCRIPT:
        raise Wrong(f'no script is refused by the number {number}; they are {", ".join(map(str, SCRIPT))}')
    return filled(SCRIPT[number], rest)


def document_words(line):
    return f'line {line} of the answer\'s file can\'t stand there, or the file ends too early' if line else \
        'the answer\'s file has another number of documents than are asked for'


def verdict_words(numbers):
    """A document that doesn't certify."""
    if len(numbers) != 3 or numbers[1] not in REASONS:
        raise Wrong(f'explain takes {FORMS}')
    return f'document {numbers[0]} does not certify: {reason_words(numbers[1], numbers[2])}'


def brief_words(words):
    """A line that stands in place of a document."""
    kind, objective, *rest = words
    if kind == 'none' and not rest:
        return f'no choice is valid, by {objective}'
    if kind == 'best' and len(rest) > 1:
        return f'the best choices by {objective} place {rest[0]} rows and have the value {" ".join(rest[1:])}'
    if kind == 'ranked' and len(rest) == 4:
        return (f'{rest[0]} choices of {rest[1]} that were asked for, ranked by {objective}: the first has the value '
                f'{rest[2]}, the last {rest[3]}')
    raise Wrong(f'explain takes {FORMS}')


def explain(words, path, form):
    """The words of a line."""
    words = ' '.join(words).split()
    numbers = [int(word) for word in words if re.fullmatch('-?[0-9]{1,30}', word)]
    head = words[:2]
    if head == ['refused', 'instance'] and numbers:
        return instance_words(numbers, path, form)
    if head == ['refused', 'script'] and numbers:
        return script_words(numbers)
    if head == ['refused', 'document'] and numbers:
        return document_words(numbers[0])
    if head[:1] == ['no'] and numbers:
        return verdict_words(numbers)
    if head[:1] == ['yes'] and numbers:
        return 'each document certifies: what it claims is true of the instance'
    if head[:1] == ['status'] and numbers and numbers[0] in STATUSES:
        return STATUSES[numbers[0]]
    if head[:1] == ['usage:']:
        return STATUSES[2]
    if head[:1] in (['best'], ['none'], ['ranked']) and len(words) > 1:
        return brief_words(words)
    raise Wrong(f'explain takes {FORMS}')
