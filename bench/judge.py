"""A second judge of documents, plain and slow, for small instances: docs/FORMATS.md."""
from judge_documents import BadLine, read_documents
from judge_instances import Refused, due_instances, read_instance, read_script
from judge_monoids import Sums, TOP, entered, index, monoid_of, product, replay, square
from judge_trees import node_reasons

BOTTLENECKS = ("bottleneck", "bottleneck-max")


def word_of(objective):
    return objective.split("=")[0]


def choice_of(inst, cells):
    """The columns of the rows, or none where the cells aren't those of a valid choice, in order."""
    if not all(i in inst.rows and j in inst.columns for i, j in cells):
        return None
    places = [(inst.rows.index(i), inst.columns.index(j)) for i, j in cells]
    rows = [i for i, _ in places]
    if rows != sorted(set(rows)):
        return None
    return dict(places) if is_valid(inst, dict(places)) else None


def is_valid(inst, choice):
    columns = list(choice.values())
    return (all(inst.is_live(*cell) for cell in choice.items())
            and all(columns.count(j) <= inst.each for j in columns)
            and len(choice) == inst.chosen())


def value(objective, costs):
    """The value of the costs that were chosen, by the order of the rows."""
    word, _, cap = objective.partition("=")
    firsts = [a for a, _ in costs]
    if word == "pair":
        return sum(firsts), sum(b for _, b in costs)
    if word == "capped":
        return min(sum(firsts), int(cap))
    if word == "time-cost":
        return max(firsts), sum(b for a, b in costs if a == max(firsts))
    return {"sum": sum(firsts), "sum-max": sum(firsts), "bottleneck": max(firsts),
            "bottleneck-max": min(firsts), "balanced": max(firsts) - min(firsts),
            "lex": sorted(firsts, reverse=True)}[word]


def is_better(objective, x, y):
    return x > y if word_of(objective) in ("sum-max", "bottleneck-max") else x < y


def is_hall(inst, rows, allows=lambda a: True):
    """Whether ids are a Hall set by the live cells whose costs are allowed."""
    if len(set(rows)) != len(rows) or not set(rows) <= set(inst.rows):
        return False
    places = [inst.rows.index(it) for it in rows]
    counted = inst.counted()
    if not set(places) <= set(counted):
        return False
    reached = {j for i, j in inst.live() if i in places and allows(inst.costs[i, j][0])}
    open_places = sum(inst.each for j in reached)
    return open_places + len(counted) - inst.chosen() < len(places)


def costs_of(inst, choice):
    return [inst.costs[cell] for cell in sorted(choice.items())]


def best_reasons(inst, objective, doc, choice):
    """The reasons of the proof of a best choice."""
    if doc.kind == "below":
        bound = doc.answers[0].value
        if not is_hall(inst, doc.proof, lambda a: is_better(objective, a, bound)):
            yield 5, 0
    elif doc.kind == "windows":
        yield from window_reasons(inst, doc)
    elif doc.kind == "phases":
        monoid = monoid_of(objective)
        cells = square(inst, monoid.unit, lambda cost: entered(objective, cost))
        _, bad = replay(monoid, cells, doc.proof)
        if bad:
            yield 6, bad
        fold = product(monoid, [entered(objective, cost) for cost in costs_of(inst, choice)])
        if index(monoid, doc.proof) != fold:
            yield 7, 0
    else:
        yield from level_reasons(inst, doc, choice)


def window_reasons(inst, doc):
    for place, (low, high, rows) in enumerate(doc.proof, 1):
        if not is_hall(inst, rows, lambda a: low <= a <= high):
            yield 5, place
    spread = doc.answers[0].value
    if spread > 0:
        for v in sorted({a for a, _ in inst.live().values()}):
            if not any(low <= v and v + spread - 1 <= high for low, high, _ in doc.proof):
                yield 8, v


def level_cell(inst, i, j):
    """The cost of a cell of the square, or none where it is free."""
    column = j // inst.each
    is_copy = i < len(inst.rows) and column < len(inst.columns)
    return inst.costs[i, column][0] if is_copy and inst.is_live(i, column) else None


def level_reasons(inst, doc, choice):
    side = inst.side()
    perm = [j - 1 for j in doc.perm]
    if sorted(perm) != list(range(side)):
        yield 9, 0
        return
    left = {(i, j) for i, row in enumerate(square(inst, 0, lambda cost: 0)) for j in row}
    last, sums = None, Sums(TOP)

    def without(low, high):
        """What is left without the costs between the two."""
        costs = {cell: level_cell(inst, *cell) for cell in left}
        return {cell for cell, a in costs.items() if a is None or not
                ((low is None or low < a) and (high is None or a < high))}
    for place, level in enumerate(doc.proof, 1):
        if last is not None and level.cost >= last:
            yield 9, place
            return
        left, last = without(level.cost, last), level.cost
        cells = [{j: int(level_cell(inst, i, j) == level.cost)
                  for j in range(side) if (i, j) in left} for i in range(side)]
        after, bad = replay(sums, cells, level.phases)
        used = sum(level_cell(inst, i, j) == level.cost for i, j in enumerate(perm))
        if bad or level.count == 0 or not level.count == used == index(sums, level.phases):
            yield 9, place
            return
        left = {(i, j) for i, row in enumerate(after) for j, x in row.items() if x == 0}
    left = without(None, last)
    chosen = {i: j // inst.each for i, j in enumerate(perm)
              if level_cell(inst, i, j) is not None}
    if not {*enumerate(perm)} <= left or chosen != choice \
            or sum(level.count for level in doc.proof) != inst.chosen():
        yield 9, 0


def fits(doc, objective, form, count):
    """Whether the document has the asked form."""
    if doc.command != form or doc.status == "ranked" and doc.count != count:
        return False
    if doc.status == "best":
        kinds = {"balanced": ("windows",), "lex": ("levels",)}.get(objective, ("phases",))
        if objective in BOTTLENECKS and form == "solve":
            kinds += ("below",)
        return count == 0 and doc.kind in kinds
    return len(doc.answers) <= count or doc.status == "none"


def order_reasons(objective, doc):
    for at, answer in enumerate(doc.answers):
        if any(answer.cells == other.cells for other in doc.answers[:at]):
            yield 12, at + 1
    for at, answer in enumerate(doc.answers[1:], 1):
        if is_better(objective, answer.value, doc.answers[at - 1].value):
            yield 13, at + 1


def reasons(inst, objective, form, count, doc):
    """What stands against the document, in the order in which it is told."""
    if doc.objective != objective:
        yield 1, 0
    if not fits(doc, objective, form, count):
        yield 2, 0
        return
    if doc.status == "none":
        if not is_hall(inst, doc.proof):
            yield 5, 0
        return
    choices = [choice_of(inst, answer.cells) for answer in doc.answers]
    is_ranked = int(doc.status == "ranked")
    for place, choice in enumerate(choices, 1):
        if choice is None:
            yield 3, place * is_ranked
    for place, (answer, choice) in enumerate(zip(doc.answers, choices), 1):
        if answer.value != value(objective, costs_of(inst, choice)):
            yield 4, place * is_ranked
    if is_ranked:
        yield from order_reasons(objective, doc)
        yield from node_reasons(inst, objective, doc, choices, is_valid, is_hall)
    else:
        yield from best_reasons(inst, objective, doc, choices[0])


def verdict(due, objective, form, count, documents):
    """The line of `check`, where so many documents are due for these instances, and its status."""
    for number, (inst, doc) in enumerate(zip(due, documents), 1):
        first = next(reasons(inst, objective, form, count, doc), None)
        if first:
            return 6, f"no {number} {first[0]} {first[1]}\n"
    return 0, f"yes {len(due)}\n"


def checked(files, objective, form="square", place=0, each=1, count=0):
    """The status and the text of `check` for the texts of an instance, an answer and maybe a
    script."""
    instance, answer, *script = files
    try:
        inst = read_instance(instance, form, objective, place, each)
        due = due_instances(inst, objective, read_script(script[0])) if script else [inst]
        documents = read_documents(answer)
    except Refused as refused:
        return refused.status, refused.line
    except BadLine as bad:
        return 5, f"refused document {bad}\n"
    if len(documents) != len(due):
        return 5, "refused document 0\n"
    command = "edit" if script else "rank" if count else "solve"
    return verdict(due, objective, command, count, documents)
