"""The table as a picture: darker is dearer, a ring is chosen, a bar marks the rows of the proof."""
from html import escape

from .texts import width

MOST_CELLS = 40000
MOST_TITLES = 10000
MOST_NAME = 34
HEIGHT = 22
LETTER = 6.6
LOW, HIGH = (216, 230, 244), (33, 102, 172)
SHADES = 16
STYLE = ('text{font:11px sans-serif;unicode-bidi:plaintext}.n{text-anchor:end}.h{fill:#fff;stroke:#ddd}'
         '.c{fill:none;stroke:#d95f02;stroke-width:2.5}.b{fill:#b30000}.t{text-anchor:middle;font-size:10px}.l{fill:#fff}')


def short(name):
    """A name without its middle where it is too long for a picture; its end often tells it from others."""
    while width(name) > MOST_NAME:
        half = min(len(name) - 2, MOST_NAME - 2) * 2 // 3
        name = name[:half].rstrip() + '\u2026' + name[-(half // 2):].lstrip()
    return name


def room(names):
    """How long the longest of the names is, drawn."""
    return LETTER * max(width(short(name)) for name in names)


class Plot:
    """Where everything stands, and the number of each cost's shade, from the palest on: by its place among the costs in
    order, so that one that is far from all others leaves these their shades."""

    def __init__(self, table, is_paired):
        self.table, self.is_paired = table, is_paired
        live = sorted({cost for row in table.first for cost in row if cost is not None})
        self.shade_of = {cost: (SHADES - 1) * place // max(1, len(live) - 1) for place, cost in enumerate(live)}
        told = max((len(self.told(r, c)) for r in range(len(table.rows)) for c in range(len(table.columns))), default=0)
        self.has_numbers = len(table.columns) <= 40 and len(table.rows) <= 60 and told <= 9
        self.side = max(HEIGHT, round(LETTER * told) + 8) if self.has_numbers else HEIGHT
        self.left = round(room(table.rows)) + 20
        slant = room(table.columns)
        self.top = round(slant * 0.87) + 16
        self.width = self.left + self.side * len(table.columns) + max(10, round(slant * 0.5 - self.side / 2) + 14)
        self.height = self.top + HEIGHT * len(table.rows) + 10

    def told(self, row, column):
        """A cell's cost, as it is written into it."""
        cost = self.table.cost(row, column)
        return '' if cost is None else self.table.show_cost(cost, self.is_paired)

    def x(self, column):
        return self.left + self.side * column

    def y(self, row):
        return self.top + HEIGHT * row


def shades():
    """The styles of the shades."""
    parts = [tuple(round(a + (b - a) * place / (SHADES - 1)) for a, b in zip(LOW, HIGH)) for place in range(SHADES)]
    return ''.join(f'.s{place}{{fill:#{r:02x}{g:02x}{b:02x}}}' for place, (r, g, b) in enumerate(parts))


def column_names(plot):
    """The names of the columns, aslant above them."""
    for column, name in enumerate(plot.table.columns):
        yield (f'<text transform="translate({plot.x(column) + plot.side / 2 + 4:g},{plot.top - 6}) rotate(-60)">'
               f'<title>{escape(name)}</title>{escape(short(name))}</text>')


def row_name(plot, row, is_marked):
    name, y = plot.table.rows[row], plot.y(row)
    bar = f'<rect class="b" x="{plot.left - 7}" y="{y + 1}" width="3" height="{HEIGHT - 2}"/>' if is_marked else ''
    return (f'{bar}<text class="n" x="{plot.left - 11}" y="{y + 15}"><title>{escape(name)}</title>'
            f'{escape(short(name))}</text>')


def cell(plot, row, column, has_title):
    """A cell: its shade, its cost where there is room, and its names where they are shown on pointing."""
    cost, x, y = plot.table.first[row][column], plot.x(column), plot.y(row)
    look = 'h' if cost is None else f's{plot.shade_of[cost]}'
    title = (f'<title>{escape(plot.table.rows[row])}, {escape(plot.table.columns[column])}: '
             f'{plot.told(row, column) or "not allowed"}</title>') if has_title else ''
    drawn = f'<rect class="{look}" x="{x}" y="{y}" width="{plot.side - 1}" height="{HEIGHT - 1}"'
    drawn += f'>{title}</rect>' if title else '/>'
    if plot.has_numbers and cost is not None:
        pale = ' l' if plot.shade_of[cost] > SHADES // 2 else ''
        drawn += f'<text class="t{pale}" x="{x + plot.side / 2:g}" y="{y + 15}">{plot.told(row, column)}</text>'
    return drawn


def rings(plot, cells):
    """The rings round the chosen cells."""
    for row, column in cells:
        x, y = plot.x(column), plot.y(row)
        yield (f'<rect class="c" x="{x + 1}" y="{y + 1}" width="{plot.side - 3}" height="{HEIGHT - 3}" '
               f'rx="{HEIGHT / 2 - 1.5:g}"/>')


def picture(table, is_paired, cells, marked):
    """The picture as SVG: `cells` are chosen, `marked` are the rows of the proof."""
    plot = Plot(table, is_paired)
    has_titles = len(table.rows) * len(table.columns) <= MOST_TITLES
    out = [f'<svg xmlns="http://www.w3.org/2000/svg" width="{plot.width}" height="{plot.height}" '
           f'viewBox="0 0 {plot.width} {plot.height}">', f'<style>{STYLE}{shades()}</style>',
           f'<rect width="{plot.width}" height="{plot.height}" fill="#fff"/>', *column_names(plot)]
    for row in range(len(table.rows)):
        out.append(row_name(plot, row, row in marked))
        out.extend(cell(plot, row, column, has_titles) for column in range(len(table.columns)))
    return '\n'.join([*out, *rings(plot, cells), '</svg>']) + '\n'


def is_drawn(table):
    """Whether the table is small enough for a picture."""
    return len(table.rows) * len(table.columns) <= MOST_CELLS
