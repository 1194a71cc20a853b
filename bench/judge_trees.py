"""The search trees of ranked documents, judged node by node: docs/FORMATS.md."""
from judge_monoids import entered, index, monoid_of, product, replay, square


def child(inst, choice, branch):
    """The child of an instance by an answer and a branch."""
    other = inst.copied()
    active = inst.active()
    for i in active[:branch - 1]:
        other.costs = {cell: cost for cell, cost in other.costs.items()
                       if cell[0] != i or cell[1] == choice[i]}
    i = active[branch - 1]
    other.costs.pop((i, choice[i]))
    return other


class Tree:
    """The nodes so far, with the instance, the trail and the answer of each."""

    def __init__(self, inst, objective, doc, choices, is_valid, is_hall):
        self.inst, self.objective, self.doc = inst, objective, doc
        self.choices, self.is_valid, self.is_hall = choices, is_valid, is_hall
        self.monoid = monoid_of(objective)
        self.nodes = doc.proof
        self.instances, self.trails, self.taken = [], [], set()

    def parent(self, node):
        """The place of the parent, an answered node before it, or none."""
        at = node.parent - 1
        is_there = 0 <= at < len(self.instances) and self.nodes[at].kind == "answered"
        return at if is_there else None

    def enter(self, node):
        """Whether the node stands where it may; then it has an instance and a trail."""
        if not self.instances:
            self.instances.append(self.inst)
            self.trails.append(node.phases)
            return node.parent == node.branch == 0
        at = self.parent(node)
        if at is None or not 1 <= node.branch <= self.inst.chosen():
            return False
        choice = self.choices[self.nodes[at].answer - 1]
        self.instances.append(child(self.instances[at], choice, node.branch))
        self.trails.append(self.trails[at] + node.phases)
        return True

    def is_admitted(self):
        cells = square(self.instances[-1], self.monoid.unit,
                       lambda cost: entered(self.objective, cost))
        return not replay(self.monoid, cells, self.trails[-1])[1]

    def is_answered_right(self, node, number):
        if not 1 <= node.answer <= len(self.choices) or node.answer in self.taken:
            return False
        if not self.is_valid(self.instances[-1], self.choices[node.answer - 1]):
            return False
        self.taken.add(node.answer)
        branches = sorted(it.branch for it in self.nodes if it.parent == number)
        wanted = set(range(1, self.inst.chosen() + 1))
        return all(branches.count(it) == 1 for it in wanted)

    def is_right(self, node, number):
        """Whether the node, behind right ones, is as it must be."""
        if not self.enter(node):
            return False
        if node.kind == "empty":
            return self.is_hall(self.instances[-1], node.rows)
        return (node.kind == "open" or self.is_answered_right(node, number)) \
            and self.is_admitted()


def node_reasons(inst, objective, doc, choices, is_valid, is_hall):
    tree = Tree(inst, objective, doc, choices, is_valid, is_hall)
    for number, node in enumerate(doc.proof, 1):
        if not tree.is_right(node, number):
            yield 10, number
            return
    if len(tree.taken) < len(choices):
        yield 10, 0
    costs = [inst.costs[cell] for cell in choices[-1].items()]
    last = product(tree.monoid, [entered(objective, cost) for cost in costs])
    for number, node in enumerate(doc.proof, 1):
        if node.kind == "open":
            if index(tree.monoid, tree.trails[number - 1]) < last or len(choices) < doc.count:
                yield 11, number
