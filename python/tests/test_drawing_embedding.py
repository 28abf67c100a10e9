"""Where points and executions are drawn: coordinates, triangles, and each execution once."""
import itertools
import json
import math
import pathlib
import unittest

from wfcheck.drawing import embedding, graphs, scene, subdivision
from wfcheck.tasks import Task, read, task

TASKS = pathlib.Path(__file__).resolve().parents[2] / "gallery/tasks"
NEAR = 1e-9


def complex_of(name, rounds):
    return subdivision.Complex(subdivision.rules_of(read(TASKS / f"{name}.json")), rounds)


def triangles_of(made):
    """The places of the executions of three processes, over a triangle of area 1."""
    corners = {it: (x, y / embedding.HEIGHT * 2) for it, (x, y) in zip(made.rules.facets[0], embedding.TRIANGLE)}
    places = [embedding.place(it, corners) for it in embedding.shares(made)]
    return [[places[view] for view in it.ends] for it in made.executions if len(it.simplex) == 3]


def overlap(one, other):
    """Whether two triangles share more than a border: else some side of one has the other beyond it."""
    for triangle, rest in ((one, other), (other, one)):
        for a, b, c in ((0, 1, 2), (1, 2, 0), (2, 0, 1)):
            inner = graphs.area([triangle[a], triangle[b], triangle[c]])
            if all(graphs.area([triangle[a], triangle[b], it]) * math.copysign(1, inner) <= NEAR for it in rest):
                return False
    return True


def overlaps(triangles):
    """Pairs of triangles that overlap, among those whose boxes do."""
    boxed = sorted((min(x for x, _ in it), max(x for x, _ in it), number) for number, it in enumerate(triangles))
    for at, (_, right, one) in enumerate(boxed):
        for left, _, other in itertools.takewhile(lambda it: it[0] < right, boxed[at + 1:]):
            if overlap(triangles[one], triangles[other]):
                yield one, other


class Places(unittest.TestCase):
    """The standard embedding."""

    def test_of_a_vertex(self):
        made = complex_of("consensus-3", 1)
        shares = embedding.shares(made)
        found = {made.view_text(view): {p: share for (p, _), share in shares[view].items()} for view in made.points}
        self.assertEqual(found["p0 saw {p0=0}"], {0: 1.0})
        self.assertEqual(found["p0 saw {p0=0, p1=1}"], {0: 1 / 3, 1: 2 / 3})
        self.assertEqual(found["p1 saw {p0=0, p1=1, p2=2}"], {0: 2 / 5, 1: 1 / 5, 2: 2 / 5})

    def test_coordinates_are_distinct(self):
        for name, most in (("consensus-2", 5), ("consensus-3", 3), ("renaming-3-names-5", 3)):
            for rounds in range(most + 1):
                made = complex_of(name, rounds)
                places = dict(zip(made.rules.facets[0], embedding.TRIANGLE))
                shares = embedding.shares(made)
                found = [embedding.place(shares[view], places) for view in made.points]
                self.assertGreater(scene.nearest(found), 1e-3 / 5 ** rounds, (name, rounds))

    def test_triangles_tile(self):
        for rounds in range(4):
            triangles = triangles_of(complex_of("consensus-3", rounds))
            self.assertEqual(len(triangles), 13 ** rounds)
            self.assertLess(abs(sum(abs(graphs.area(it)) for it in triangles) - 1), NEAR)
            self.assertEqual([*overlaps(triangles)], [])

    def test_overlaps_are_found(self):
        triangles = triangles_of(complex_of("consensus-3", 1))
        moved = [[(x + 0.01, y) for x, y in triangles[4]]]
        self.assertNotEqual([*overlaps(triangles + moved)], [])


class Executions(unittest.TestCase):
    """What is drawn of a complex."""

    def test_numbers_are_those_of_the_program(self):
        path = read(TASKS.parent.parent / "examples/path-3.json")
        made = subdivision.Complex(subdivision.rules_of(path), 2)
        self.assertEqual(made.execution_text(3), "{p0=0 p1=0} ; {p0}{p1}")
        self.assertEqual([made.points[it] for it in made.executions[6].ends], [0, 7])

    def test_each_is_drawn_once(self):
        for name, rounds in (("consensus-2", 3), ("consensus-2-bits", 2), ("consensus-3", 0), ("consensus-3", 2), ("majority-3", 1),
                             ("renaming-3-names-5", 1), ("consensus-3-first-block-2", 2), ("slots-4-values-3", 0)):
            made = complex_of(name, rounds)
            if made.rules.processes == 4:
                made = subdivision.Complex(made.rules, rounds, 3)
            drawn = scene.drawn(made, made.rules.facets, name)
            found = [it.execution for it in drawn.cells if not it.is_copy]
            self.assertEqual(sorted(found), [*range(len(made.executions))], name)
            for it in drawn.cells:
                self.assertEqual(tuple(drawn.spots[at].view for at in it.spots), made.executions[it.execution].ends)

    def test_nothing_is_drawn_twice_at_a_place(self):
        made = complex_of("majority-3", 1)
        drawn = scene.drawn(made, made.rules.facets, "")
        self.assertEqual(len({(it.execution, it.spots) for it in drawn.cells}), len(drawn.cells))
        self.assertGreater(scene.nearest([it.at for it in drawn.spots]), 2 * drawn.radius)

    def test_shared_faces_have_one_letter(self):
        made = complex_of("majority-3", 0)
        notes = [it.text for it in scene.drawn(made, made.rules.facets, "").notes if it.kind == "face"]
        self.assertEqual(sorted(notes), sorted("abcdefghijkl" * 2))

    def test_the_boundary_of_a_tetrahedron(self):
        rules = subdivision.rules_of(read(TASKS / "consensus-4.json"))
        drawn = scene.drawn(subdivision.Complex(rules, 1, 3), rules.facets, "")
        self.assertEqual(sum(len(it.spots) == 3 for it in drawn.cells), 4 * 13)
        self.assertGreater(scene.nearest([it.at for it in drawn.spots]), 2 * drawn.radius)

    def test_triangles_that_fit_in_the_plane(self):
        both = task("both", 3, [(0, 0, 0), (0, 0, 1), (0, 1, 1)], lambda start, end: True, [0])
        made = subdivision.Complex(subdivision.rules_of(both), 1)
        drawn = scene.drawn(made, made.rules.facets, "")
        self.assertEqual(len(drawn.spots), len(made.points))
        triangles = [[drawn.spots[at].at for at in it.spots] for it in drawn.cells if len(it.spots) == 3]
        self.assertEqual(len(triangles), 39)
        self.assertEqual([*overlaps(triangles)], [])


class Graphs(unittest.TestCase):
    """Places of vertices that share edges."""

    def test_a_cycle_is_a_polygon(self):
        rules = subdivision.rules_of(read(TASKS / "consensus-2-bits.json"))
        found = graphs.graph(rules.facets)
        self.assertEqual({round(math.dist(found[one], found[other]), 6) for one, other in rules.facets}, {1.0})

    def test_a_path_is_a_line(self):
        found = graphs.graph([((0, 0), (1, 0)), ((0, 1), (1, 0)), ((0, 1), (1, 1))])
        self.assertEqual(sorted(found.values()), [(0.0, 0.0), (1.0, 0.0), (2.0, 0.0), (3.0, 0.0)])

    def test_other_graphs_have_places_of_their_own(self):
        edges = [((0, one), (1, other)) for one in range(3) for other in range(3)]
        self.assertGreater(scene.nearest([*graphs.graph(edges).values()]), 0.3)

    def test_what_is_no_disc(self):
        rules = subdivision.rules_of(read(TASKS / "majority-3.json"))
        self.assertIsNone(graphs.disc(rules.facets))
        self.assertIsNotNone(graphs.disc(rules.facets[:2]))

    def test_a_task_of_one_process(self):
        one = Task("one", json.dumps({"version": 1, "processes": 1, "symmetric": False, "inputs": [[[0, 0]], [[0, 1]]],
                                      "outputs": [[[0, 0]]], "delta": [{"in": [[0, 0]], "out": [[0]]}, {"in": [[0, 1]], "out": [[0]]}]}))
        made = subdivision.Complex(subdivision.rules_of(one), 1)
        self.assertEqual(len(scene.drawn(made, made.rules.facets, "").spots), 2)


if __name__ == "__main__":
    unittest.main()
