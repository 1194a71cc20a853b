"""Rankings that a stranger may send, as hostile_documents.py has other documents."""
import itertools

from hostile_files import filled, lines_count

HEAD = b"assignment 1\ncommand rank\nobjective sum\nstatus ranked\ncount 4000000\n"


def ranked(answers, nodes, count):
    return HEAD + b"answers %d\n%bproof tree %d\n%b" % (
        len(answers), b"".join(answers), count, nodes)


def answer(columns, value=b"0", first=1):
    """The answer that gives the rows these columns, by their places; the first has an id."""
    cells = b"".join(b"%d %d\n" % (i, j + first) for i, j in enumerate(columns, 1))
    return b"answer %b\ncells %d\n%b" % (value, len(columns), cells)


def nodes_below(node):
    """Nodes that all name the root, which is at fault for it."""
    def pieces(size):
        yield ranked([answer([0], b"5")], b"node 0 0 answered 1 0\n", 1 + lines_count(size, node))
        yield from filled(node, size)
        yield b"end\n"
    return pieces


def many_answers(size):
    """Different choices of ten rows, and a tree of one node."""
    count = min(3628800, size // 70)
    yield HEAD + b"answers %d\n" % count
    chosen = itertools.islice(itertools.permutations(range(10)), count)
    while piece := b"".join(answer(it) for it in itertools.islice(chosen, 1000)):
        yield piece
    yield b"proof tree 1\nnode 0 0 open 0\nend\n"


def repeated_answers(line):
    """One answer again and again."""
    def pieces(size):
        yield HEAD + b"answers %d\n" % lines_count(size, line)
        yield from filled(line, size)
        yield b"proof tree 1\nnode 0 0 open 0\nend\n"
    return pieces


def diagonal():
    """An asn file of 1,000 rows with a cell each, whose columns have the ids from 1001 on."""
    return (b"p asn 2000 1000\n" + b"".join(b"n %d\n" % i for i in range(1, 1001))
            + b"".join(b"a %d %d 0\n" % (i, i + 1000) for i in range(1, 1001)))


def chain(side):
    """Answers of which each is allowed by a branch of the one before it, as many as there are: the
    columns of each, and that branch. A row takes its columns from the least up, as the rows behind
    it do once it has its greatest."""
    yield list(range(side)), 0
    before = []
    for row in range(side - 1):
        left = [j for j in range(side) if j not in before]
        for column in left[1:]:
            yield before + [column] + [j for j in left if j != column], row + 1
        before.append(left[-1])


def deep_tree(side, phase=b""):
    """A tree in which each answered node is a child of the one before it. The first of them below
    the root has the phase as its own, again and again, for half of the file."""
    def pieces(size):
        share = size // 2 if phase else size
        chosen = list(itertools.islice(chain(side), max(2, share // (side * 22))))
        branches = [branch for _, branch in chosen[1:]] + [0]
        nodes, number, parent = [b"node 0 0 answered 1 0\n"], 1, 1
        for answer_number, taken in enumerate(branches, 2):
            below = number + taken
            own = share // len(phase) if phase and answer_number == 2 else 0
            for branch in range(1, side + 1):
                mark = b"answered %d %d" % (answer_number, own) if branch == taken else b"open 0"
                nodes.append(b"node %d %d %b\n" % (parent, branch, mark))
                if branch == taken:
                    nodes.append(phase * own)
            number, parent = number + side, below
        yield ranked([answer(columns) for columns, _ in chosen], b"".join(nodes), number)
        yield b"end\n"
    return pieces


def wide_tree(side, phase, count):
    """An answered root whose children have so many phases, the more the larger the file."""
    def pieces(size):
        each = max(1, size // (side * len(phase))) if count is None else count
        yield ranked([answer(range(side))], b"node 0 0 answered 1 0\n", side + 1)
        for branch in range(1, side + 1):
            yield b"node 1 %d open %d\n" % (branch, each)
            yield from filled(phase, each * len(phase))
        yield b"end\n"
    return pieces
