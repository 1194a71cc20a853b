"""Pictures and pages: well formed, with all cells, rings and names."""
import random
import re
import xml.etree.ElementTree as tree

from .tables import sample

SVG = '{http://www.w3.org/2000/svg}'
KINDS = ('sum', 'bottleneck', 'time-cost', 'lex', 'sum-max')


def drawn(path):
    """How many cells, rings and bars a picture has, and its names."""
    root = tree.parse(path).getroot()
    looks = [found.get('class') or '' for found in root.iter(f'{SVG}rect')]
    names = [found.text for found in root.iter(f'{SVG}title')]
    return (sum(bool(re.fullmatch(r'h|s\d+', look)) for look in looks), looks.count('c'), looks.count('b'), names)


def one(bench, made, name):
    table = bench.file('table.csv', made.text())
    svg, html, out = (f'{bench.folder}/out.{end}' for end in ('svg', 'html', 'csv'))
    shown = bench.plan('solve', made.objective, table, '--svg', svg, '--html', html, '--csv', out, *made.words())
    cells, rings, _, names = drawn(svg)
    with open(html, encoding='utf-8') as file:
        text = file.read()
    is_so = cells == len(made.rows) * len(made.columns) and set(made.rows) | set(made.columns) <= set(names) \
        and rings == (made.place if shown.status == 0 else 0) and '<svg' in text and text.endswith('</html>\n') \
        and text.count('<ul>') == text.count('</ul>') == 1
    bench.holds(is_so and shown.status in (0, 1), name, made.text(), shown, cells, rings)


def outlier(bench):
    """A cost that is far from all others leaves these their shades, and the dearer ones the darker."""
    table = bench.file('table.csv', 'r,a,b,c,d,e,f,g,h,i\nx,1,2,3,4,5,6,7,8,1000000\ny,8,7,6,5,4,3,2,1,1\n')
    svg = f'{bench.folder}/out.svg'
    shown = bench.plan('solve', 'sum', table, '--svg', svg)
    looks = [found.get('class') or '' for found in tree.parse(svg).getroot().iter(f'{SVG}rect')]
    shades = [int(look[1:]) for look in looks if re.fullmatch(r's\d+', look)]
    bench.holds(shown.status == 0 and shades[:9] == sorted(set(shades[:9])) and shades[9:17] == shades[7::-1]
                and shades[0] == 0 and shades[8] == 15, 'picture with an outlier', shades)


def trials(bench):
    outlier(bench)
    chance = random.Random(f'{bench.seed} pictures')
    for number in range(60):
        one(bench, sample(chance.choice(KINDS), chance), f'picture {number}')
