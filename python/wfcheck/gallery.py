"""The tasks of the gallery, each from one predicate: what theory and the program say of them is in gallery/rows.tsv."""
import itertools
from typing import Any, Dict, Iterable, Iterator, List, Sequence, Set, Tuple

from .tasks import Legal, Simplex, Task, faces, task

Values = Dict[int, int]
Inputs = List[Tuple[int, ...]]
Edges = Sequence[Tuple[int, int]]
Cells = Sequence[Tuple[int, ...]]

# Inputs


def own(n: int) -> Inputs:
    """Each process begins with its number."""
    return [tuple(range(n))]


def all_of(n: int, values: Iterable[int]) -> Inputs:
    """Each process begins with any of the values."""
    return list(itertools.product(values, repeat=n))


def same(n: int) -> Inputs:
    """There is nothing to begin with: all have 0."""
    return [(0,) * n]


# Predicates


def agreement(k: int) -> Legal:
    """Each decides what some participant began with, and there are at most k different decisions."""
    return lambda start, end: set(end.values()) <= set(start.values()) and len(set(end.values())) <= k


def all_differ(_start: Values, end: Values) -> bool:
    """No two of those that take part decide the same."""
    return len(set(end.values())) == len(end)


def symmetry_broken(n: int) -> Legal:
    """Where all n take part, they don't all decide the same."""
    return lambda _start, end: len(end) < n or len(set(end.values())) > 1


def one_stands_out(n: int) -> Legal:
    """In each execution one decides 1, and where all n take part, one decides 0, too."""
    return lambda _start, end: 1 in end.values() and (len(end) < n or 0 in end.values())


def all_slots(n: int, values: int) -> Legal:
    """Where all n take part, each of so many values is decided."""
    return lambda _start, end: len(end) < n or len(set(end.values())) == values


def adaptive_names(_start: Values, end: Values) -> bool:
    """Different names, and where k take part these are below 2k - 1."""
    return all_differ(_start, end) and max(end.values()) < 2 * len(end) - 1


def one_leader(n: int) -> Legal:
    """Nowhere are there two leaders (1), and where all n take part there is one."""
    return lambda _start, end: sum(end.values()) == 1 if len(end) == n else sum(end.values()) <= 1


def one_winner(_start: Values, end: Values) -> bool:
    """One of those that take part wins (0), whoever they are."""
    return list(end.values()).count(0) == 1


def winners(most: int) -> Legal:
    """One or more of those that take part win (0), but at most so many."""
    return lambda _start, end: 1 <= list(end.values()).count(0) <= most


def splitter(_start: Values, end: Values) -> bool:
    """Stop is 0, right 1, down 2: at most one stops, who is alone does, and neither all go right nor all go down."""
    decided = list(end.values())
    alone = len(decided) > 1 or decided == [0]
    return alone and decided.count(0) <= 1 and set(decided) not in ({1}, {2})


def near(whole: int) -> Legal:
    """Inputs 0 and 1, and decisions between them in steps of 1/whole: within the inputs, and at most one step apart."""
    def legal(start: Values, end: Values) -> bool:
        """Between the least and the largest input, and at most one step apart."""
        low, high = whole * min(start.values()), whole * max(start.values())
        return low <= min(end.values()) and max(end.values()) <= min(high, min(end.values()) + 1)
    return legal


def quasi_consensus(start: Values, end: Values) -> bool:
    """Two processes decide as in consensus, or process 0 decides 1 and process 1 decides 0."""
    return set(end.values()) <= set(start.values()) and (len(set(end.values())) == 1 or end == {0: 1, 1: 0})


def equality_negated(start: Values, end: Values) -> bool:
    """Two processes decide the same if their inputs differ, and else not. Who is alone decides anything."""
    return len(end) < 2 or (start[0] == start[1]) == (end[0] != end[1])


def commit_adopt(start: Values, end: Values) -> bool:
    """Value v is adopted as 2v, and committed to as 2v + 1. Who sees v alone about commits; with a commitment all have v."""
    taken = {a // 2 for a in end.values()}
    committed = {a // 2 for a in end.values() if a % 2}
    one_input = len(set(start.values())) > 1 or all(a % 2 for a in end.values())
    return taken <= set(start.values()) and one_input and (not committed or len(taken) == 1)


def comparable_sets(_start: Values, end: Values) -> bool:
    """Sets of participants as bits: each has its owner, and of two one holds the other."""
    everyone = sum(1 << p for p in end)
    owned = all(a >> p & 1 and a | everyone == everyone for p, a in end.items())
    return owned and all(a & b in (a, b) for a in end.values() for b in end.values())


def majority(start: Values, end: Values) -> bool:
    """Where all three take part, they decide the input that most have; else each some participant's."""
    most = {int(sum(start.values()) >= 2)} if len(start) == 3 else set(start.values())
    return set(end.values()) <= most


def no_minority(start: Values, end: Values) -> bool:
    """Each decides a participant's input, and where all three take part, not all of them the one that fewer have."""
    most = int(sum(start.values()) >= 2)
    return set(end.values()) <= set(start.values()) and (len(start) < 3 or most in end.values())


def on_loop(triangles: Cells, paths: Cells) -> Legal:
    """Inputs 0, 1, 2 are three corners of a loop. With one input all decide its corner, with two they stay on one edge of
    the path between, with three in one triangle. paths[i] goes from corner i to the next one."""
    cells = {1: [{path[0]} for path in paths], 3: [set(each) for each in triangles]}

    def legal(start: Values, end: Values) -> bool:
        """On the corner, the path or the triangles that the inputs leave."""
        inputs = sorted(set(start.values()))
        if len(inputs) == 2:
            path = paths[2 if inputs == [0, 2] else inputs[0]]
            allowed = [set(edge) for edge in zip(path, path[1:])]
        else:
            allowed = cells[3] if len(inputs) == 3 else [cells[1][inputs[0]]]
        return any(set(end.values()) <= cell for cell in allowed)
    return legal


def on_edge(edges: Edges) -> Legal:
    """Inputs and decisions are the vertices of a graph: all decide vertices of one edge, and where the inputs are one vertex, or
    the ends of one edge, none but these."""
    cells = [{v} for edge in edges for v in edge] + [set(edge) for edge in edges]

    def legal(start: Values, end: Values) -> bool:
        """On one edge, and where the inputs are one cell, on that."""
        begun, ended = set(start.values()), set(end.values())
        return any(ended <= cell for cell in cells) and (begun not in cells or ended <= begun)
    return legal


def in_star(start: Values, end: Values) -> bool:
    """Inputs and decisions are the vertices of a star with the centre 0: all decide vertices of one edge, and none but inputs and what
    lies between them."""
    between = set(start.values()) | ({0} if len(set(start.values())) > 1 else set())
    return set(end.values()) <= between and len(set(end.values()) - {0}) <= 1


# a simplex for each choice of those that take part, with its decisions; two triangles on one edge and a third meet in one vertex,
# 1 at process 0
HOURGLASS: Dict[Tuple[int, ...], List[Tuple[int, ...]]] = {
    (0,): [(0,)], (1,): [(1,)], (2,): [(1,)], (1, 2): [(1, 1)],
    (0, 1): [(0, 2), (1, 2), (1, 1)], (0, 2): [(0, 2), (1, 2), (1, 1)], (0, 1, 2): [(0, 2, 2), (1, 2, 2), (1, 1, 1)],
}


def in_hourglass(_start: Values, end: Values) -> bool:
    """Those that take part decide a simplex of the hourglass that is theirs."""
    return tuple(end.values()) in HOURGLASS[tuple(end)]


# Subdivisions and surfaces


def blocks(n: int) -> List[Tuple[int, ...]]:
    """The ordered partitions of n processes, as the number of each one's block."""
    return [word for word in itertools.product(range(n), repeat=n) if set(word) == set(range(max(word) + 1))]


def subdivision(n: int, rounds: int) -> Set[Simplex]:
    """The simplices of the chromatic subdivision, made so many times, of the simplex of n processes and of its faces.
    Its vertices are numbered for each process by itself."""
    numbers: List[Dict[Any, int]] = [{} for _ in range(n)]
    simplices: Set[Simplex] = set()
    for some in faces(range(n)):
        for run in itertools.product(blocks(len(some)), repeat=rounds):
            views: List[Any] = [*some]
            for word in run:
                views = [tuple(v for v, b in zip(views, word) if b <= mine) for mine in word]
            simplices.add(tuple((p, numbers[p].setdefault(v, len(numbers[p]))) for p, v in zip(some, views)))
    return simplices


def simplex_agreement(name: str, n: int, rounds: int) -> Task:
    """Those that take part decide vertices of one simplex of the subdivision of their face."""
    simplices = subdivision(n, rounds)
    values = {v for simplex in simplices for _, v in simplex}
    return task(name, n, same(n), lambda _start, end: tuple(sorted(end.items())) in simplices, values)


def loop_agreement(name: str, inputs: Inputs, triangles: Cells, paths: Cells) -> Task:
    """Loop agreement of three processes on a surface of triangles, along the paths of a loop."""
    return task(name, 3, inputs, on_loop(triangles, paths), {v for each in triangles for v in each})


SIDES = [(0, 1), (1, 2), (2, 0)]
HOLLOW = SIDES
# A triangle with a vertex 3, 4, 5 in the middle of each side and 6 in the middle: six triangles about 6.
DISC_SIDES = [(0, 3, 1), (1, 4, 2), (2, 5, 0)]
DISC = [(6, a, b) for side in DISC_SIDES for a, b in zip(side, side[1:])]
# Outside 0, 1, 2 and inside 3, 4, 5: six triangles with a hole.
ANNULUS = [(0, 1, 3), (1, 3, 4), (1, 2, 4), (2, 4, 5), (2, 0, 5), (0, 5, 3)]
# A sock: the annulus with its hole closed, and one that is twice as long.
CAPPED = ANNULUS + [(3, 4, 5)]
SOCK = ANNULUS + [tuple(v + 3 for v in each) for each in CAPPED]
# The projective plane with six vertices: each two are an edge. 0, 1, 2 is no triangle of it, and 0, 1, 4 is one.
PLANE = [(0, 1, 4), (0, 1, 5), (0, 2, 3), (0, 2, 4), (0, 3, 5), (1, 2, 3), (1, 2, 5), (1, 3, 4), (2, 4, 5), (3, 4, 5)]

# The torus with seven vertices: each two are an edge. 0, 1, 4 is no triangle of it, and 0, 1, 3 is one.
TORUS = [tuple(sorted((i + v) % 7 for v in corner)) for i in range(7) for corner in [(0, 1, 3), (0, 2, 3)]]
PUNCTURED = [each for each in TORUS if each != (0, 1, 3)]
# A Klein bottle: three rows of three vertices, each row a circle. After the last row comes the first one, the other way round.
ROWS = [[0, 1, 2], [3, 4, 5], [6, 7, 8], [0, 2, 1]]
KLEIN = [corner for row, after in zip(ROWS, ROWS[1:]) for i, k in SIDES
         for corner in [(row[i], row[k], after[k]), (row[i], after[i], after[k])]]


# All of them

BITS = (0, 1)


def agreements() -> Iterator[Task]:
    """Consensus and set agreement, also with first blocks."""
    for n in (2, 3, 4):
        yield task(f"consensus-{n}", n, own(n), agreement(1), range(n))
        yield task(f"consensus-{n}-bits", n, all_of(n, BITS), agreement(1), BITS)
    yield task("quasi-consensus-2", 2, all_of(2, BITS), quasi_consensus, BITS)
    for n, k in [(3, 2), (3, 3), (4, 2), (4, 3), (4, 4)]:
        yield task(f"set-agreement-{n}-{k}", n, own(n), agreement(k), range(n))
    yield task("set-agreement-4-2-condition", 4, [(0, 0, 1, 2)], agreement(2), range(3))
    for k in (2, 3):
        yield task(f"set-agreement-3-{k}-all", 3, all_of(3, range(3)), agreement(k), range(3))
    for n in (2, 3):
        yield task(f"consensus-{n}-first-block-2", n, own(n), agreement(1), range(n), first_block=2)
    for n, k, first in [(3, 2, 2), (4, 3, 2), (4, 2, 3)]:
        yield task(f"set-agreement-{n}-{k}-first-block-{first}", n, own(n), agreement(k), range(n), first_block=first)


def names_and_leaders() -> Iterator[Task]:
    """Renaming, symmetry breaking and leader election."""
    for n, names in [(2, 2), (2, 3), (3, 3), (3, 4), (3, 5), (3, 6), (4, 6), (4, 7), (4, 8), (4, 9), (4, 10)]:
        yield task(f"renaming-{n}-names-{names}", n, same(n), all_differ, range(names), symmetric=True)
    for n in (3, 4):
        yield task(f"renaming-{n}-names-{n}-named", n, same(n), all_differ, range(n))
    yield task("renaming-3-adaptive", 3, same(3), adaptive_names, range(5), symmetric=True)
    for n in (2, 3, 4):
        yield task(f"symmetry-breaking-{n}", n, same(n), symmetry_broken(n), BITS, symmetric=True)
    yield task("symmetry-breaking-3-named", 3, same(3), symmetry_broken(3), BITS)
    for n in (3, 4):
        yield task(f"symmetry-breaking-{n}-values-3", n, same(n), symmetry_broken(n), range(3), symmetric=True)
    yield task("symmetry-breaking-3-strong", 3, same(3), one_stands_out(3), BITS, symmetric=True)
    yield task("slots-4-values-3", 4, same(4), all_slots(4, 3), range(3), symmetric=True)
    for n in (2, 3):
        yield task(f"leader-election-{n}", n, same(n), one_leader(n), BITS, symmetric=True)
    yield task("leader-election-3-named", 3, same(3), one_leader(3), BITS)


def objects() -> Iterator[Task]:
    """Objects, approximate agreement and snapshots."""
    for n in (2, 3):
        yield task(f"test-and-set-{n}", n, same(n), one_winner, BITS)
        yield task(f"splitter-{n}", n, same(n), splitter, range(3), symmetric=True)
    yield task("test-and-set-3-winners-2", 3, same(3), winners(2), BITS)
    yield task("equality-negation-2", 2, all_of(2, range(3)), equality_negated, BITS)
    yield task("equality-negation-2-bits", 2, all_of(2, BITS), equality_negated, BITS)
    for n, whole in [(2, 3), (2, 9), (2, 27), (3, 2), (3, 3), (3, 9), (3, 27)]:
        yield task(f"approximate-{n}-by-{whole}", n, all_of(n, BITS), near(whole), range(whole + 1))
    yield task("approximate-3-by-27-mixed", 3, [(0, 0, 1)], near(27), range(28))
    for n in (2, 3):
        yield task(f"commit-adopt-{n}", n, all_of(n, BITS), commit_adopt, range(4))
    for n in (3, 4):
        yield task(f"lattice-agreement-{n}", n, same(n), comparable_sets, range(1, 1 << n))
    for n, rounds in [(2, 1), (2, 2), (3, 1), (3, 2)]:
        yield simplex_agreement(f"simplex-agreement-{n}-level-{rounds}", n, rounds)


def loops_and_graphs() -> Iterator[Task]:
    """Agreement on loops and on graphs."""
    yield loop_agreement("loop-disc", own(3), DISC, DISC_SIDES)
    yield loop_agreement("loop-disc-all", all_of(3, range(3)), DISC, DISC_SIDES)
    yield loop_agreement("loop-annulus", own(3), ANNULUS, SIDES)
    yield loop_agreement("loop-annulus-capped", own(3), CAPPED, SIDES)
    yield loop_agreement("loop-sock", own(3), SOCK, SIDES)
    yield loop_agreement("loop-hollow", own(3), HOLLOW, SIDES)
    yield loop_agreement("loop-projective", own(3), PLANE, SIDES)
    yield loop_agreement("loop-projective-face", own(3), PLANE, [(0, 1), (1, 4), (4, 0)])
    yield loop_agreement("loop-klein", own(3), KLEIN, SIDES)
    yield loop_agreement("loop-torus", own(3), TORUS, [(0, 1), (1, 4), (4, 0)])
    yield loop_agreement("loop-torus-punctured", own(3), PUNCTURED, [(0, 1), (1, 3), (3, 0)])
    yield task("edge-agreement-3-cycle-4", 3, [(1, 2, 3)], on_edge([(0, 1), (1, 2), (2, 3), (3, 0)]), range(4))
    yield task("edge-agreement-3-cycle-4-all", 3, all_of(3, range(4)), on_edge([(0, 1), (1, 2), (2, 3), (3, 0)]), range(4))
    yield task("edge-agreement-3-star", 3, all_of(3, range(4)), in_star, range(4))


def others() -> Iterator[Task]:
    """The hourglass and majorities."""
    yield task("hourglass", 3, same(3), in_hourglass, range(3))
    yield task("majority-3", 3, all_of(3, BITS), majority, BITS)
    yield task("no-minority-3", 3, all_of(3, BITS), no_minority, BITS)


def gallery() -> Iterator[Task]:
    """The tasks of the gallery."""
    yield from agreements()
    yield from names_and_leaders()
    yield from objects()
    yield from loops_and_graphs()
    yield from others()
