"""Numbers of tables: whole ones inside, so many decimals outside."""
import re
from dataclasses import dataclass

from .words import Wrong

MOST = 10**9
NUMBER = re.compile(r'([-+\u2212]?)([0-9]+)(?:([.,])([0-9]+))?')
PARTED = re.compile(r'([-+\u2212]?[0-9]{1,3}(?:([.,\' \u2019_])[0-9]{3})(?:\2[0-9]{3})*)([.,][0-9]+)?')
THOUSAND = 3


@dataclass
class Scale:
    """How many decimals are moved, and the mark before them, as the table has it first."""

    decimals: int = 0
    mark: str = ''

    def read(self, text, with_comma):
        """The whole number that stands for a field's text."""
        found = NUMBER.fullmatch(text)
        if not found or found[3] == ',' and not with_comma:
            raise Wrong(f'{text!r} is no number{parted(text)}')
        sign, whole, mark, part = found.groups()
        if mark:
            self.look_at_mark(text, mark, part)
        part = (part or '').rstrip('0')
        if len(part) > self.decimals:
            raise Wrong(f'{text} has more than {self.decimals} decimals: say --decimals {len(part)}'
                        if self.decimals else f'{text} has decimals: say --decimals {len(part)}')
        value = int(whole + part.ljust(self.decimals, '0'))
        return -value if sign and sign != '+' else value

    def look_at_mark(self, text, mark, part):
        """Refuses what may part thousands: three digits behind a mark, and another mark than the table has first."""
        if len(part) == THOUSAND > self.decimals:
            is_part = re.match('[^0-9]?0', text)  # no thousands begin with 0
            raise Wrong(f'{text} has three digits behind its mark: ' + ('say --decimals 3' if is_part else
                        f'where that parts thousands, write {text.replace(mark, "")}, and else say --decimals 3'))
        if self.mark and mark != self.mark:
            raise Wrong(f'{text} has another mark than the numbers before it, which have {self.mark!r}: write all '
                        'decimals behind one mark, and thousands without any')
        self.mark = mark

    def read_cost(self, text, with_comma):
        """The same, within the range of costs."""
        value = self.read(text, with_comma)
        if abs(value) > MOST:
            raise Wrong(f'{text} is out of range: costs lie between {self.show(-MOST)} and {self.show(MOST)}')
        return value

    def show(self, value):
        """A number as the table would have it."""
        if not self.decimals:
            return str(value)
        digits = str(abs(value)).rjust(self.decimals + 1, '0')
        return '-' * (value < 0) + digits[:-self.decimals] + (self.mark or '.') + digits[-self.decimals:]

    def show_all(self, values):
        """The parts of a cost or a value, joined as they are written in a table."""
        return ':'.join(map(self.show, values))


def parted(text):
    """What to write in place of a number whose thousands are parted."""
    found = PARTED.fullmatch(text)
    if not found:
        return ''
    return f': thousands are not parted; write {found[1].replace(found[2], "")}{found[3] or ""}'
