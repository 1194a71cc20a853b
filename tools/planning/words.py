"""Sentences: what is wrong, and things that are named, listed or counted."""
import unicodedata

MOST_TOLD = 20


class Wrong(Exception):
    """What is wrong with the words, the table or an answer, in words."""


class TooMany(Wrong):
    """So many choices that asg doesn't rank them."""


class Faults:
    """What is wrong with a file: all of it, to be told at once."""

    def __init__(self):
        self.told = []

    def note(self, call, *given):
        """Calls, and notes what is wrong in place of an answer."""
        try:
            return call(*given)
        except Wrong as wrong:
            self.told.append(str(wrong))
            return None

    def tell(self, path):
        """Ends with what was noted, the first ones of many."""
        if len(self.told) > MOST_TOLD:
            self.told[MOST_TOLD - 1:] = [f'{path}: and {len(self.told) - MOST_TOLD + 1:,} more faults']
        if self.told:
            raise Wrong('\n'.join(self.told))


def listed(names, most=12, last='and'):
    """The names as a list in a sentence; of more than `most` the last ones are counted."""
    names = list(names)
    if len(names) > most:
        names = names[:most - 1] + [f'{len(names) - most + 1:,} more']
    if len(names) < 2:
        return names[0] if names else 'none'
    return f'{", ".join(names[:-1])} {last} {names[-1]}'


def is_rightward(text):
    """Whether a text has letters that run from right to left."""
    return not text.isascii() and any(unicodedata.bidirectional(sign) in ('R', 'AL') for sign in text)


def named(name):
    """A name within a sentence: marks keep one that runs to the left from what stands beside it."""
    return f'\u2068{name}\u2069' if is_rightward(name) else name


def counted(number, noun):
    """The noun with its number: 1 place, 5 places."""
    return f'{number:,} {noun}{"s" * (number != 1)}'


def at(where, call, *given):
    """Calls, and tells the place too where something is wrong."""
    try:
        return call(*given)
    except Wrong as wrong:
        raise Wrong(f'{where}: {wrong}') from None
