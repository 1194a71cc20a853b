"""What `best` means: the objectives of asg, and the value that each gives to chosen costs."""
from dataclasses import dataclass

from .words import Wrong

SAYS = {
    'sum': 'the total cost is as small as possible',
    'sum-max': 'the total gain is as great as possible',
    'pair': 'the total of the first costs is as small as possible, and then that of the second',
    'capped': 'the total cost is as small as possible, all from the cap on being alike',
    'bottleneck': 'the worst cost is as small as possible',
    'bottleneck-max': 'the least gain is as great as possible',
    'time-cost': 'the worst first cost is as small as possible, and then the total of the second costs that go with it',
    'balanced': 'the difference between the dearest and the cheapest is as small as possible',
    'lex': 'the worst cost is as small as possible, then the next worst, and so on',
}
MOST_CAP = 10**12


@dataclass(frozen=True)
class Objective:
    """An objective: its kind, as in SAYS, the cap of `capped`, and whether of two costs the first may count alone."""

    kind: str
    cap: int = 0
    takes_first: bool = False

    @property
    def word(self):
        """As asg takes it."""
        return f'capped={self.cap}' if self.kind == 'capped' else self.kind

    @property
    def says(self):
        return SAYS[self.kind]

    @property
    def is_paired(self):
        """Whether both parts of a cost count."""
        return self.kind in ('pair', 'time-cost')

    @property
    def is_greater(self):
        """Whether more is better."""
        return self.kind.endswith('-max')

    @property
    def is_sum(self):
        return self.kind in ('sum', 'sum-max', 'pair', 'capped')

    @property
    def is_ranked(self):
        """Whether asg ranks its choices, and repairs them after edits."""
        return self.kind not in ('balanced', 'lex')

    def value(self, costs):
        """The value of these costs, each a pair, as a tuple."""
        first, second = [a for a, _ in costs], [b for _, b in costs]
        if self.kind in ('sum', 'sum-max'):
            return (sum(first),)
        if self.kind == 'pair':
            return (sum(first), sum(second))
        if self.kind == 'capped':
            return (min(sum(first), self.cap),)
        if self.kind == 'time-cost':
            worst = max(first)
            return (worst, sum(b for a, b in costs if a == worst))
        if self.kind == 'lex':
            return tuple(sorted(first, reverse=True))
        if self.kind == 'balanced':
            return (max(first) - min(first),)
        return (min(first) if self.is_greater else max(first),)

    def refuses(self, cost):
        """Whether asg takes no such cost."""
        return self.kind == 'capped' and cost[0] < 0 or self.kind == 'time-cost' and cost[1] < 0

    def leaves_aside(self, cost):
        """Whether a second cost would not count, and nobody said that this is meant."""
        return cost[1] != 0 and not self.is_paired and not self.takes_first

    def is_better(self, one, other):
        """Whether a value is strictly better than another."""
        return one > other if self.is_greater else one < other

    def show(self, scale, value):
        """A value as it is shown."""
        return ' '.join(map(scale.show, value)) if self.kind == 'lex' else scale.show_all(value)


def read_objective(text, scale, takes_first=False):
    """The objective of a word, as sum or capped=7.50."""
    kind, is_given, cap = text.partition('=')
    if kind not in SAYS or is_given and kind != 'capped':
        raise Wrong(f'{text!r} is no objective; they are {", ".join(SAYS)} (capped=C with its cap C)')
    if kind != 'capped':
        return Objective(kind, 0, takes_first)
    if not cap:
        raise Wrong('capped needs its cap, as capped=40')
    number = scale.read(cap, with_comma=True)
    if not 1 <= number <= MOST_CAP:
        raise Wrong(f'the cap of capped lies between {scale.show(1)} and {scale.show(MOST_CAP)}')
    return Objective(kind, number, takes_first)
