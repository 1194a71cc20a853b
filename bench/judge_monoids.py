"""The monoids of the objectives, the square of an instance, and the replay of phases."""

TOP = 2**120


class Sums:
    """Sums that stop at a top."""
    unit = 0

    def __init__(self, top):
        self.top = top

    def is_value(self, x):
        return isinstance(x, int) and 0 <= x <= self.top

    def product(self, x, y):
        return min(self.top, x + y)

    def difference(self, x, c):
        return max(0, x - c)


class Maxima:
    """The greater of two numbers below 2^64."""
    unit = 0

    def is_value(self, x):
        return isinstance(x, int) and 0 <= x < 2**64

    def product(self, x, y):
        return max(x, y)

    def difference(self, x, c):
        return x if x > c else 0


class Grades:
    """A grade before a sum."""
    unit = (0, 0)
    sums = Sums(TOP)

    def is_value(self, x):
        return isinstance(x, tuple) and x[0] < 2**64 and self.sums.is_value(x[1])

    def product(self, x, y):
        if x[0] != y[0]:
            return max(x, y)
        return x[0], self.sums.product(x[1], y[1])

    def difference(self, x, c):
        if x <= c:
            return self.unit
        return x if x[0] > c[0] else (x[0], x[1] - c[1])


def monoid_of(objective):
    word, _, cap = objective.partition("=")
    if word == "capped":
        return Sums(int(cap))
    if word == "time-cost":
        return Grades()
    return Maxima() if word.startswith("bottleneck") else Sums(TOP)


def entered(objective, cost):
    """The value as which a cost enters."""
    word, _, cap = objective.partition("=")
    a, b = cost
    if word in ("sum-max", "bottleneck-max"):
        return 10**9 - a
    if word == "pair":
        return (a + 10**9) * 2**42 + b + 10**9
    if word == "capped":
        return min(a, int(cap))
    return (a + 10**9, b) if word == "time-cost" else a + 10**9


def square(inst, unit, value):
    """The rows of the square: dicts from columns to values, those of live cells by `value`."""
    side, each, places = inst.side(), inst.each, len(inst.columns) * inst.each
    rows = []
    for i in range(side):
        row = {}
        if i < len(inst.rows):
            for j in range(len(inst.columns)):
                if inst.is_live(i, j):
                    row.update({j * each + k: value(inst.costs[i, j]) for k in range(each)})
        if inst.place:
            free = range(places, side) if i < len(inst.rows) else range(places)
        else:
            is_free = i >= len(inst.rows) or i in inst.dropped
            free = range(side) if is_free else ()
        row.update({j: unit for j in free})
        rows.append(row)
    return rows


def step(monoid, cells, rows, columns, value):
    """The cells after a step, or none where it isn't admitted."""
    if not monoid.is_value(value) or len(rows) + len(columns) != len(cells) + 1:
        return None
    after = []
    for i, row in enumerate(cells):
        new = dict(row)
        for j, cell in row.items():
            if i in rows and j in columns:
                if cell < value:
                    return None
                new[j] = monoid.difference(cell, value)
            elif i not in rows and j not in columns:
                new[j] = monoid.product(value, cell)
        after.append(new)
    return after


def replay_phase(monoid, cells, phase):
    """The cells after a phase, or none where it isn't admitted."""
    side = range(len(cells))
    if not len(phase.enters) == len(phase.leaves) == len(cells):
        return None
    for t, value in enumerate(phase.steps):
        rows = {i for i in side if phase.enters[i] <= t}
        columns = {j for j in side if t < phase.leaves[j]}
        cells = step(monoid, cells, rows, columns, value)
        if cells is None:
            return None
    return cells


def replay(monoid, cells, phases):
    """The cells after all phases and 0, or none and the number of the first that isn't admitted."""
    for number, phase in enumerate(phases, 1):
        cells = replay_phase(monoid, cells, phase)
        if cells is None:
            return None, number
    return cells, 0


def product(monoid, values):
    found = monoid.unit
    for value in values:
        found = monoid.product(found, value)
    return found


def index(monoid, phases):
    """The product of all steps."""
    return product(monoid, [value for phase in phases for value in phase.steps])
