"""The best of all choices, by trying each: written apart from what it is held against."""
import itertools

OBJECTIVES = ('sum', 'sum-max', 'pair', 'capped', 'bottleneck', 'bottleneck-max', 'time-cost', 'balanced', 'lex')
PAIRED = ('pair', 'time-cost')


def choices(costs, capacity, place):
    """All valid choices: for each row a column, or None where it stays out."""
    options = [[None] + [c for c, cost in enumerate(row) if cost is not None] for row in costs]
    for chosen in itertools.product(*options):
        if sum(c is not None for c in chosen) == place \
                and all(chosen.count(c) <= most for c, most in enumerate(capacity)):
            yield chosen


def value(kind, cap, cells):
    """The value of chosen costs, as a tuple that is less where it is better."""
    a = sorted(cell[0] for cell in cells)
    if kind in ('sum', 'capped', 'sum-max'):
        total = sum(a)
        return (min(total, cap) if kind == 'capped' else -total if kind == 'sum-max' else total,)
    if kind == 'pair':
        return (sum(a), sum(cell[1] for cell in cells))
    if kind == 'time-cost':
        return (a[-1], sum(cell[1] for cell in cells if cell[0] == a[-1]))
    if kind == 'balanced':
        return (a[-1] - a[0],)
    if kind == 'lex':
        return tuple(a[::-1])
    return (-a[0],) if kind == 'bottleneck-max' else (a[-1],)


def ranked(kind, cap, costs, capacity, place):
    """The values of all valid choices, the best first."""
    return sorted(value(kind, cap, [costs[r][c] for r, c in enumerate(chosen) if c is not None])
                  for chosen in choices(costs, capacity, place))


def best(kind, cap, costs, capacity, place):
    """The best value, or None where no choice is valid."""
    return min((value(kind, cap, [costs[r][c] for r, c in enumerate(chosen) if c is not None])
                for chosen in choices(costs, capacity, place)), default=None)
