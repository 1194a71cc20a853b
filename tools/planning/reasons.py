"""Why nothing is better, or why nothing is valid, in sentences: each is held against the table before it is shown."""
from . import looks, shares
from .words import counted, listed, named

SHOWN = 5
REACH = 10**9
OTHERS = '; 0 where none is named'


def shortage(table, rows, holds, out):
    """Why these rows can't all be placed by cells whose first cost holds."""
    columns = looks.reached(table, rows, holds)
    looks.places_short(table, rows, columns, out)
    names = listed(named(table.rows[row]) for row in sorted(rows))
    stay = f', and {out} may stay out' if out else ''
    if not columns:
        many = f'; these are {len(rows)}{stay}' if out else ''
        return f'{names} can take no {table.column_title} at all{many}'
    places = sum(table.capacity[column] for column in columns)
    return (f'{names} can only take {listed(named(table.columns[column]) for column in columns)}: '
            f'{counted(places, "place")} for {len(rows)}{stay}')


def ways_out(table, rows, out):
    """What would give such rows their places."""
    columns = looks.reached(table, rows, lambda cost: True)
    short = looks.places_short(table, rows, columns, out)
    more = 'one more' if short == 1 else f'{short} more'
    names = listed((named(table.rows[row]) for row in sorted(rows)), 6)
    where = listed((named(table.columns[c]) for c in columns), 6, 'or')
    ways = [f'{counted(short, "place")} more in {where}'] if columns else []
    who = 'one of them' if len(rows) > 1 else names
    ways += [f'{more} {table.column_title}{"s" * (short > 1)} that {who} can take',
             f'{short if short > 1 else "one"} of them less' if len(rows) > 1 else f'{names} left out']
    return f'{counted(short, "place")} short; what would do: ' + ', or '.join(ways)


def none_reasons(table, document, out):
    """Why no choice is valid."""
    return [shortage(table, document.rows, lambda cost: True, out), ways_out(table, document.rows, out)]


def below_reason(table, is_greater, value, rows, out):
    """Why the worst cost can't be better."""
    holds = (lambda cost: cost > value) if is_greater else (lambda cost: cost < value)
    return f'{"above" if is_greater else "below"} {table.scale.show(value)}: ' + shortage(table, rows, holds, out)


def band(scale, low, high):
    """A band of costs in words."""
    if low == high:
        return f'at {scale.show(low)}'
    if low <= -REACH:
        return f'up to {scale.show(high)}' if high < REACH else 'at any cost'
    return f'from {scale.show(low)} on' if high >= REACH else f'from {scale.show(low)} to {scale.show(high)}'


def window_reasons(table, windows, out):
    """Why no choice lies within the bands of costs; the first few."""
    told = []
    for low, high, rows in windows[:SHOWN]:
        why = shortage(table, rows, lambda cost, low=low, high=high: low <= cost <= high, out)
        told.append(f'{band(table.scale, low, high)}: {why}')
    if len(windows) > SHOWN:
        told.append(f'and {len(windows) - SHOWN:,} more such bands')
    return told or ['all chosen costs are alike']


def level_reasons(table, levels):
    """Why the sorted costs can't be less; the first few."""
    told = [('one with just so many has at least' if place else
             f'a choice with no cost above {table.scale.show(cost)} has at least')
            + f' {count} that cost{"s" * (count == 1)} {table.scale.show(cost)}'
            for place, (cost, count) in enumerate(levels[:SHOWN])]
    if len(levels) > SHOWN:
        told.append(f'and so on, {len(levels) - SHOWN:,} more costs')
    return told


def most_contested(table, objective, found):
    """The columns whose share is above 0, the greatest first, each with its share."""
    order = sorted((c for c in range(len(table.columns)) if found.columns[c]), key=lambda c: -found.columns[c])
    return [(named(table.columns[c]), shares.shown(table, objective, found.columns[c])) for c in order]


def row_shares(table, objective, found, rows):
    """What each of these rows adds; for gains what it can bring."""
    sign = -1 if objective.is_greater else 1
    return [(named(table.rows[row]), shares.shown(table, objective, sign * found.rows[row])) for row in rows]


def left_out(table, objective, found, placed):
    """What those who stay out would add: no less than anyone who is placed."""
    left = set(table.live_rows()) - set(placed)
    if not left:
        return []
    least = min(found.rows[row] for row in left)
    share = shares.shown(table, objective, -least if objective.is_greater else least)
    return [f'each {table.row_title} that stays out would '
            f'{"bring at most" if objective.is_greater else "add at least"} {share}']


def share_reasons(table, objective, answer, found):
    """Why no total is better, by what rows add and columns take off."""
    placed = [row for row, _ in answer.cells]
    rows = listed((f'{name} ({share})' for name, share in row_shares(table, objective, found, placed)), 10)
    contested = most_contested(table, objective, found)
    columns = listed((f'{name} ({share})' for name, share in contested), 10)
    is_gain = objective.is_greater
    who, what, more = table.row_title, table.column_title, 'greater' if is_gain else 'less'
    told = [f'each {who} {"brings at most" if is_gain else "adds"}: {rows}',
            *left_out(table, objective, found, placed)]
    if not contested:
        return told + [f'no cell is {more} than the number of its {who}, so no choice has a {more} total']
    both = f'{"and" if is_gain else "less"} that of its {what}{" together" if is_gain else ""}'
    return told + [
        f'each place in a {what} {"brings at most" if is_gain else "is contested by"}: {columns}{OTHERS}',
        f'no cell is {more} than the number of its {who} {both}, so no choice has a {more} total',
        f'one more place in {contested[0][0]} would {"gain" if is_gain else "save"} at most {contested[0][1]}']
