"""Writes an instance file: instance.py KIND FORMAT ROWS COLUMNS SEED

KIND says what the costs are, for row i and column j from 1:
  uniform    random from 0 to 10^9
  narrow     random from 0 to 100, so that many are equal
  middle     random from 0 to 19,999
  near       distances as below, of points of a square of side 14,000
  distance   the rounded distances of random points of a square of side 10^6
  product    i * j, on which many methods are slow [Machol and Wien 1976]
  sparse     random from 1 to 10^6, in about ten cells a row; some choice places all rows
  pair       two random parts, from 0 to 20 and from 0 to 1,000
FORMAT is square, rect or asn; a square file has ROWS columns, and an asn file no pairs.
"""
import random
import sys


def costs_of(kind, rows, columns, chance):
    """The lists of the rows' costs, a pair as its text; None for an absent cell."""
    if kind == "product":
        return [[i * j for j in range(1, columns + 1)] for i in range(1, rows + 1)]
    if kind in ("distance", "near"):
        side = {"distance": 1e6, "near": 14000}[kind]
        points = [[(chance.uniform(0, side), chance.uniform(0, side)) for _ in range(n)]
                  for n in (rows, columns)]
        return [[round(((x - u) ** 2 + (y - v) ** 2) ** 0.5) for u, v in points[1]]
                for x, y in points[0]]
    if kind == "sparse":
        own = chance.sample(range(columns), rows)
        return [[chance.randint(1, 10**6) if j == own[i] or chance.random() * columns < 10 else None
                 for j in range(columns)] for i in range(rows)]
    if kind == "pair":
        return [[f"{chance.randint(0, 20)}:{chance.randint(0, 1000)}" for _ in range(columns)]
                for _ in range(rows)]
    greatest = {"uniform": 10**9, "narrow": 100, "middle": 19999}[kind]
    return [[chance.randint(0, greatest) for _ in range(columns)] for _ in range(rows)]


def write(form, costs, columns, out):
    if form == "asn":
        arcs = [(i, j, cost) for i, row in enumerate(costs, 1)
                for j, cost in enumerate(row, len(costs) + 1) if cost is not None]
        out.write(f"p asn {len(costs) + columns} {len(arcs)}\n")
        out.writelines(f"n {i}\n" for i in range(1, len(costs) + 1))
        out.writelines(f"a {i} {j} {cost}\n" for i, j, cost in arcs)
        return
    out.write(f"{len(costs)}\n" if form == "square" else f"{len(costs)} {columns}\n")
    out.writelines(" ".join("-" if cost is None else str(cost) for cost in row) + "\n"
                   for row in costs)


kind, form, rows, columns, seed = sys.argv[1], sys.argv[2], *map(int, sys.argv[3:6])
if form == "square":
    columns = rows
write(form, costs_of(kind, rows, columns, random.Random(seed)), columns, sys.stdout)
