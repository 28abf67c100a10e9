"""The texts of pictures: the same bytes each time, well-formed, and not too large."""
import json
import math
import pathlib
import re
import tempfile
import time
import unittest
import unittest.mock
import xml.etree.ElementTree

import wfcheck
from wfcheck.answers import obstruction_of
from wfcheck.drawing import argument, counting, graphs, labels, main, outputs, page, palette, pictures, scene, subdivision
from wfcheck.drawing.svg import svg
from wfcheck.names import names_of
from wfcheck.tasks import read
from wfcheck.views import Unreadable

TOP = pathlib.Path(__file__).resolve().parents[2]
TASKS = TOP / "gallery/tasks"
SVG = "{http://www.w3.org/2000/svg}"
# of majority-3 after one round, and the cases of renaming-2-names-2
THREE = """No decision map after 1 round: 3 steps over 3 of 146 executions.

Points
  v5 is p2 saw {p2=1}
Argument
  1. v5 is not 0: in execution 5, {p2=1}, no tuple at (v5) has it. So v5 is 1.
  2. v33 is not 1: in execution 55, {p0=0 p1=0 p2=1}, no tuple at (v33, v34, v35) has it. So v33 is 0.
  3. v33 is not 0: in execution 64, {p2=1}{p0=0 p1=0}, (v33, v34, v5) would be (0, 0, 0), but v5 is not 0 [1].
  v33 has no value left.
In all: 3 steps over 3 executions of p0, p1 and p2: 1 of one process, 2 of three processes.
"""
CASES = """No decision map after 1 round: 7 steps over 3 of 5 executions.

Argument
  1. v0 is 0 or 1.
    Case v0 = 0
    2. v2 is not 0: in execution 3, {#0=0}{#1=0}, (v0, v2) would be (1, 0), but v0 is not 1 in this case. So v2 is 1.
    v1 has no value left.
    Case v0 = 1
    3. v2 is not 1: in execution 3, {#0=0}{#1=0}, (v0, v2) would be (0, 1), but v0 is not 0 in this case. So v2 is 0.
    4. v1 is 2 or 3.
      Case v1 = 2
      5. v2 is not 0: in execution 2, {#0=0 #1=0}, (v1, v2) would be one of 9 tuples, but v2 is not 1 [3].
      v2 has no value left.
In all: 5 steps over 2 executions of at most two processes: 2 of two processes.
"""


def known(name):
    return read(TASKS / f"{name}.json")


def parsed(text):
    return xml.etree.ElementTree.fromstring(text)


class Arguments(unittest.TestCase):
    """What `explain` writes, read again."""

    def test_steps(self):
        found = argument.argument_of(THREE)
        self.assertEqual([(it.number, it.point, it.left, it.execution, it.cites) for it in found.steps()],
                         [(1, 5, "1", 5, ()), (2, 33, "0", 55, ()), (3, 33, None, 64, (1,))])
        self.assertEqual(found.steps()[2].points, (33, 34, 5))
        self.assertEqual((found.emptied(), argument.values_left(found)), ([33], {5: "1", 33: "0"}))

    def test_cases(self):
        found = argument.argument_of(CASES)
        self.assertEqual([(it.outer, it.point, it.value) for it in found.cases], [(-1, None, None), (0, 0, 0), (0, 0, 1), (2, 1, 2)])
        self.assertEqual([it.case for it in found.steps()], [0, 1, 2, 2, 3])
        self.assertEqual([it.left for it in found.steps()], ["0 or 1", "1", "0", "2 or 3", None])

    def test_cases_in_cases_beyond_the_indentation(self):
        lines = [line for at in range(15) for line in (f"{at + 1}. v{at} is 0 or 1.", f"Case v{at} = 0")]
        lines += [line for at in reversed(range(15)) for line in ("v99 has no value left.", f"Case v{at} = 1")]
        told = "\n".join(f"{' ' * 26}{it}" for it in [*lines, "v99 has no value left."])
        found = argument.argument_of(f"No map.\n\nArgument\n{told}\nIn all: 15 steps.\n")
        self.assertEqual([it.outer for it in found.cases], [*range(-1, 15), *range(14, -1, -1)])
        self.assertEqual([it.depth for it in found.cases], [*range(16), *range(15, 0, -1)])

    def test_other_texts(self):
        for text in ("", CASES.replace("Case v0 = 1", "Case v7 = 1"), "accepted none\n", THREE.replace("  2. v33", "  2. w33")):
            self.assertRaises(Unreadable, argument.argument_of, text)


def known_weights(made):
    """The weights of the gallery's obstruction of a task."""
    text = (TOP / f"gallery/answers/{made.name}.obstruction").read_text()
    return counting.weights_of(subdivision.rules_of(made), obstruction_of(made, text))


class Texts(unittest.TestCase):
    """SVG and HTML."""

    def scenes(self):
        choice, majority, agreement = pictures.Choice(), known("majority-3"), known("set-agreement-3-2")
        weights = known_weights(agreement)
        return [pictures.of_complex(known("consensus-2-bits"), 2, choice), pictures.of_complex(known("consensus-4"), 1, choice),
                pictures.of_map(known("no-minority-3"), 0, [0, 1] * 3, choice),
                pictures.of_refutation(majority, 1, argument.argument_of(THREE), choice),
                pictures.of_obstruction(agreement, 1, weights, 1, False, choice), outputs.of_outputs(known("hourglass"), None)]

    def test_the_same_bytes(self):
        self.assertEqual([*map(svg, self.scenes())], [*map(svg, self.scenes())])

    def test_well_formed_and_told(self):
        for it in self.scenes():
            root = parsed(svg(it))
            titles = [each.text for each in root.iter(f"{SVG}title")]
            for spot in it.spots:
                self.assertIn(spot.title, titles)
            self.assertEqual(len([each for each in root.iter(f"{SVG}g") if "data-v" in each.attrib]), len(it.spots))
            self.assertNotRegex(svg(it), r"(?:href|src|url)\s*[=(]|<script")

    def test_titles_are_the_words_of_points(self):
        titles = [it.title for it in pictures.of_complex(known("majority-3"), 1, pictures.Choice()).spots]
        self.assertIn("v33: p0 saw {p0=0, p1=0, p2=1}", titles)
        symmetric = pictures.of_complex(known("renaming-2-names-2"), 1, pictures.Choice())
        self.assertEqual(sorted({it.title for it in symmetric.spots}),
                         ["v0: #0 saw {#0=0}", "v1: #0 saw {#0=0, #1=0}", "v2: #1 saw {#0=0, #1=0}"])

    def test_a_refutation(self):
        found = pictures.of_refutation(known("majority-3"), 1, argument.argument_of(THREE), pictures.Choice())
        self.assertEqual({it.execution: it.label for it in found.cells if it.label}, {5: "1", 55: "2", 64: "3"})
        self.assertEqual({it.point for it in found.spots if "empty" in it.marks}, {33})
        self.assertEqual({it.point: it.value for it in found.spots if it.value is not None}, {5: 1})
        whole = pictures.of_refutation(known("majority-3"), 1, argument.argument_of(THREE), pictures.Choice(all=True))
        self.assertEqual(len({it.execution for it in whole.cells}), 146)

    def test_executions_in_which_all_decide_the_same(self):
        found = pictures.of_map(known("consensus-3"), 0, [0, 0, 2], pictures.Choice())
        self.assertEqual([it.value for it in sorted(found.cells, key=lambda it: it.execution)], [0, 0, 2, 0, None, None, None])

    def test_a_pinch_point(self):
        found = outputs.of_outputs(known("hourglass"), None)
        self.assertEqual([(it.process, it.value) for it in found.spots if it.marks], [(0, 1)])
        self.assertEqual(sum("lit" in it.marks for it in found.cells), 3)

    def test_pages(self):
        found = argument.argument_of(CASES)
        task = known("renaming-2-names-2")
        text = page.page(pictures.of_refutation(task, 1, found, pictures.Choice()), page.of_argument(found))
        self.assertEqual(text.count('<button type="button" data-item='), 5)
        data = json.loads(re.search(r'id="data">(.*?)</script>', text)[1])
        self.assertEqual([it["c"] for it in data["items"]], [[], [], [], [], [2]])
        self.assertEqual(set(re.findall(r"https?://[^\"' ]+", text)), {"http://www.w3.org/2000/svg"})
        parsed(re.search(r"<svg.*?</svg>", text, re.S)[0])

    def test_each_execution_of_a_page_can_be_lit(self):
        task = known("consensus-3")
        drawn = pictures.of_complex(task, 1, pictures.Choice())
        text = page.page(drawn, page.of_participants(drawn, subdivision.Complex(subdivision.rules_of(task), 1)))
        self.assertEqual(sorted(map(int, re.findall(r'data-e="(\d+)"', text))), [*range(25)])


class Labels(unittest.TestCase):
    """Where labels stand."""

    def test_in_a_triangle(self):
        corners = [(0.0, 0.0), (300.0, 0.0), (20.0, 40.0)]
        (x, y), room = labels.roomiest(corners, 10)
        self.assertGreater(room, 5)
        self.assertGreater(min(math.dist((x, y), it) for it in corners), 15)
        parts = [graphs.area([(x, y), corners[at], corners[(at + 1) % 3]]) for at in range(3)]
        self.assertGreater(min(parts), 0)

    def test_beside_an_edge(self):
        for one, other in (((0, 0), (40, 0)), ((40, 0), (0, 0))):
            self.assertEqual(labels.beside_edge(one, other, (100, 0), 12)[0], 20)
            self.assertLess(labels.beside_edge(one, other, (100, 0), 12)[1], -12)
            self.assertGreater(labels.beside_edge(one, other, (20, -90), 12)[1], 12)


class Sizes(unittest.TestCase):
    """What is drawn in time, and what is not drawn."""

    def test_three_processes_after_three_rounds(self):
        begun = time.process_time()
        text = svg(pictures.of_complex(known("consensus-3"), 3, pictures.Choice()))
        self.assertLess(len(text), 3_000_000)
        self.assertLess(time.process_time() - begun, 4)
        self.assertEqual(len(re.findall(r'<path class="cell"', text)), 2197)

    def test_too_large(self):
        for name, rounds in (("majority-3", 3), ("consensus-3", 4), ("consensus-2", 8)):
            self.assertRaises(scene.TooLarge, pictures.of_complex, known(name), rounds, pictures.Choice())
        self.assertRaises(scene.TooLarge, pictures.of_complex, known("consensus-3"), 1, pictures.Choice(((0, 7),)))

    def test_the_boundary_of_large_ones(self):
        found = pictures.of_complex(known("consensus-3"), 4, pictures.Choice(faces=True))
        self.assertEqual(sum(len(it.spots) == 2 for it in found.cells), 3 * 81)


class Words(unittest.TestCase):
    """The command line."""

    def test_a_file_is_whole_or_as_it_was(self):
        with tempfile.TemporaryDirectory() as room:
            file = pathlib.Path(room) / "a.svg"
            main.keep("one", str(file))
            self.assertEqual(file.read_text(), "one")
            with unittest.mock.patch("os.replace", side_effect=OSError("no")):
                self.assertRaises(OSError, main.keep, "two", str(file))
            self.assertEqual([(it.name, it.read_text()) for it in file.parent.iterdir()], [("a.svg", "one")])

    def test_a_map_in_a_notebook(self):
        task = known("no-minority-3")
        views = {(p, value): value for p in range(3) for value in (0, 1)}
        found = wfcheck.Map(task, 0, views, (), "")
        self.assertEqual(found._repr_svg_(), svg(pictures.of_map(task, 0, [0, 1] * 3, pictures.Choice())))
        self.assertIsNone(wfcheck.Map(known("consensus-3"), 4, {}, (), "")._repr_svg_())

    def test_inputs(self):
        task, named = known("consensus-3"), known("consensus-3")._replace(names=names_of({}, {0: "lo", 1: "a, b"}))
        self.assertEqual(main.simplex_of(main.inputs("p2=1,p0=10"), task), ((0, 10), (2, 1)))
        self.assertEqual(main.simplex_of(main.inputs("p0=lo,p1=a, b, p2=2"), named), ((0, 0), (1, 1), (2, 2)))
        for text in ("", "p0", "p0=x", "0=1", "p0=1,,p1=1", "p0=\u0661"):
            self.assertRaises(Exception, lambda it: main.simplex_of(main.inputs(it), task), text)

    def test_colours_of_many_values(self):
        found = [palette.colour(it, range(30)) for it in range(30)]
        self.assertEqual(len(set(found)), 30)
        self.assertEqual((palette.ink(found[0]), palette.ink(found[-1])), ("#ffffff", "#1b1f24"))

    def test_rules_are_those_of_the_file(self):
        found = subdivision.rules_of(known("consensus-3-first-block-2"))
        self.assertEqual((found.first_block, found.processes, len(found.facets)), (2, 3, 1))


if __name__ == "__main__":
    unittest.main()
