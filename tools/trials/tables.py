"""Random tables, as a spreadsheet would save them."""
import random
from dataclasses import dataclass

from .search import PAIRED

NAMES = ('Ada', 'Bo, the elder', 'Cléo "C."', 'ד״ר דן', 'Ève; Finn', '李娜')
COLUMNS = ('early', 'late; long', 'nuit', 'ראשון, שני')


@dataclass
class Sample:
    """A table that was made, with all that it says; numbers are whole, and stand for `decimals` more."""

    kind: str
    cap: int
    costs: list
    capacity: list
    place: int
    decimals: int
    delimiter: str
    mark: str
    chance: random.Random
    saved: str = ''

    @property
    def rows(self):
        return NAMES[:len(self.costs)]

    @property
    def columns(self):
        return COLUMNS[:len(self.capacity)]

    @property
    def objective(self):
        return f'capped={self.show(self.cap)}' if self.kind == 'capped' else self.kind

    def show(self, number):
        """A number as the table has it."""
        if not self.decimals:
            return str(number)
        whole, part = divmod(abs(number), 10**self.decimals)
        return f'{"-" * (number < 0)}{whole}{self.mark}{part:0{self.decimals}}'

    def cell(self, cost):
        if cost is None:
            return self.chance.choice(['', '-', 'x', '\u2013'])
        return ':'.join(map(self.show, cost)) if self.kind in PAIRED else self.show(cost[0])

    def written(self, cost):
        """A cell as somebody may have typed it: with fewer decimals where these are 0."""
        text = self.cell(cost)
        if cost is None or not self.decimals or self.chance.random() < .5:
            return text
        return ':'.join(part.rstrip('0').rstrip('.,') for part in text.split(':'))

    def text(self):
        """The file, made once. Where no number in it has a mark, plan shows points."""
        if not self.saved:
            cells = [list(map(self.written, row)) for row in self.costs]
            if self.kind != 'capped' and not any(self.mark in cell for row in cells for cell in row):
                self.mark = '.'
            self.saved = self.saved_as(cells)
        return self.saved

    def saved_as(self, cells):
        """The file, as one of the spreadsheets would save it."""
        def line(fields):
            return self.delimiter.join('"' + field.replace('"', '""') + '"' if set(field) & set(',;"\t') else field
                                       for field in fields)
        lines = [line(['who / what', *self.columns])]
        if self.capacity != [1] * len(self.capacity) or self.chance.random() < .3:
            lines.append(line(['capacity', *map(str, self.capacity)]))
        lines += [line([name, *row]) for name, row in zip(self.rows, cells)]
        end = self.chance.choice(['\n', '\r\n'])
        return self.chance.choice(['', '\ufeff']) + end.join(lines) + end

    def words(self):
        """The options that belong to it."""
        return (['--decimals', self.decimals] if self.decimals else []) \
            + (['--place', self.place] if self.place != len(self.costs) else [])


def sample(kind, chance, is_whole=False):
    """A table for an objective; a whole one places all rows."""
    rows, columns = chance.randint(1, 5), chance.randint(1, 4)
    least = 0 if kind in ('time-cost', 'capped') else -6
    most = chance.choice([3, 9, 120])
    holes, decimals = chance.choice([0, .15, .4]), chance.choice([0, 0, 1, 2])
    unit = 10 if decimals and chance.random() < .5 else 1
    costs = [[None if chance.random() < holes else
              (unit * chance.randint(least, most), chance.randint(0, 7) if kind in PAIRED else 0)
              for _ in range(columns)] for _ in range(rows)]
    capacity = [chance.choice([1, 1, 2, 3]) for _ in range(columns)] if chance.random() < .7 else [1] * columns
    if chance.random() < .2:
        capacity = [capacity[0]] * columns
    place = rows if is_whole or chance.random() < .6 else chance.randint(1, max(1, min(rows, sum(capacity))))
    if place > min(rows, sum(capacity)):
        place = rows
    delimiter = chance.choice(',;\t')
    mark = '.' if delimiter == ',' else chance.choice('.,')
    cap = chance.randint(1, 3 * unit * most)
    return Sample(kind, cap, costs, capacity, place, decimals, delimiter, mark, chance)
