"""Rows of cells read in one go, where all are plain: numbers of few digits, pairs of these, and holes."""
import re
from functools import lru_cache

from .scale import MOST

HOLES = frozenset(('', '-', 'x', 'X', '\u2013', '\u2014'))
MOST_DIGITS = 9
HALVES = ('\n:', '\n-:', '\nx:', '\nX:', ':\n', ':-\n', ':x\n', ':X\n')
SIGNS = frozenset('0123456789:-xX\n')


@lru_cache
def plain_decimals(decimals, mark):
    """A pattern of rows whose cells are plain, each with a line end behind it: no number of theirs is out of range, and
    all decimals stand behind this mark."""
    number = rf'-?[0-9]{{1,{MOST_DIGITS - decimals}}}(?:[{mark}][0-9]{{1,{decimals}}})?'
    return re.compile(rf'(?:(?:{number}(?::{number})?|[-xX]?)\n)*')


@lru_cache
def even_decimals(decimals, mark):
    """A pattern of such rows without holes and pairs, all of whose numbers have just so many decimals."""
    return re.compile(rf'(?:-?[0-9]{{1,{MOST_DIGITS - decimals}}}[{mark}][0-9]{{{decimals}}}\n)*')


def whole(text, decimals):
    """The whole number that stands for a plain text; a hole has none."""
    if text in HOLES:
        return None
    before, _, after = text.replace(',', '.').partition('.')
    return int(before + after.ljust(decimals, '0'))


def whole_numbers(texts):
    """The whole numbers of texts of digits and signs; a ValueError where one isn't a number, or is out of range."""
    try:
        found = list(map(int, texts))
        is_far = max(found) > MOST or min(found) < -MOST
    except ValueError:
        found = [None if text in HOLES else int(text) for text in texts]
        is_far = any(number is not None and abs(number) > MOST for number in found)
    if is_far:
        raise ValueError('out of range')
    return found


def numbers(texts, decimals):
    """The whole numbers that stand for texts."""
    return [whole(text, decimals) for text in texts] if decimals else whole_numbers(texts)


def parts_of(cells, joined):
    """The first and the second parts of the cells. A ValueError says that one has but half a pair, or three parts."""
    if any(half in joined for half in HALVES):
        raise ValueError('half a pair')
    parts = ':'.join([cell if ':' in cell else f'{cell}:0' for cell in cells]).split(':')
    if len(parts) != 2 * len(cells):
        raise ValueError('three parts')
    return parts[::2], parts[1::2]


def is_plain(joined, scale):
    """Whether the cells of a row, a line each, have no signs but those of plain ones."""
    if not scale.decimals:
        return SIGNS.issuperset(joined)
    return scale.decimals < MOST_DIGITS and plain_decimals(scale.decimals, scale.mark or '.').fullmatch(joined)


def note_mark(joined, scale, with_comma):
    """Notes the mark before decimals that comes first."""
    found = re.search(r'[0-9]([.,])[0-9]' if with_comma else r'[0-9]([.])[0-9]', joined)
    scale.mark = found[1] if found else ''


def read_plain(cells, scale, with_comma):
    """The first and the second costs of a row of plain cells, or None where some cell isn't plain."""
    joined, mark = '\n'.join(['', *cells, '']), scale.mark
    if scale.decimals and not mark:
        note_mark(joined, scale, with_comma)
    found = plain_numbers(cells, joined, scale)
    if found is None:
        scale.mark = mark
    return found


def plain_numbers(cells, joined, scale):
    """The same, where the mark of decimals is known."""
    if 0 < scale.decimals < MOST_DIGITS and even_decimals(scale.decimals, scale.mark or '.').fullmatch(joined, 1):
        return list(map(int, joined.replace('.', '').replace(',', '').split())), [0] * len(cells)
    if not is_plain(joined[1:], scale):
        return None
    try:
        if ':' not in joined:
            return numbers(cells, scale.decimals), [0] * len(cells)
        first, second = parts_of(cells, joined)
        return numbers(first, scale.decimals), numbers(second, scale.decimals)
    except ValueError:
        return None
