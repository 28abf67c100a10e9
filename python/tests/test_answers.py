"""Answers as objects: maps, refutations, obstructions and proofs, and what is refused."""
import itertools
import json

from .support import ANSWERS, Case, known, needs_program, wfcheck

import second_opinion
from wfcheck import views

# tasks and rounds of which the points are compared; two are symmetric, and one has a first block
POINTS = [
    ("consensus-2", 0), ("consensus-2", 2), ("consensus-3-bits", 1), ("renaming-3-names-5", 2), ("symmetry-breaking-4", 1),
    ("consensus-3-first-block-2", 2),
]
MAPS = [("renaming-3-names-5", 2), ("approximate-2-by-9", 2), ("consensus-3-first-block-2", 2), ("set-agreement-3-3-all", 1)]
NONES = [("consensus-2", 0), ("majority-3", 1), ("symmetry-breaking-3", 1)]
LETTERS = {wfcheck.Taken: "p", wfcheck.Branching: "b", wfcheck.Closed: "z"}


class WithoutProgram(Case):
    """What needs no program."""

    def test_some_processes_have_the_executions_of_the_whole(self):
        """By the definitions: the executions in which others take no part, in their order, with as many points and what is allowed there."""
        for task, rounds in [*POINTS, ("renaming-4-names-7", 1), ("approximate-3-by-2", 2), ("set-agreement-4-2-first-block-3", 1)]:
            whole = second_opinion.Complex(json.loads(known(task).text), rounds)
            processes = json.loads(known(task).text)["processes"]
            for kept in [some for size in range(1, processes) for some in itertools.combinations(range(processes), size)]:
                with self.subTest(task=task, rounds=rounds, kept=kept):
                    small = second_opinion.Complex(json.loads(wfcheck.restrict(known(task), kept).text), rounds)
                    there = [it for it in whole.executions if set(it[0]) <= set(kept)]
                    pairs = {(mine, its) for one, other in zip(small.executions, there) for mine, its in zip(one[1], other[1])}
                    told = [([kept[p] for p in it[0]], sorted(it[2])) for it in small.executions]
                    self.assertEqual(told, [([*it[0]], sorted(it[2])) for it in there])
                    self.assertEqual([len(pairs), len({it for it, _ in pairs}), len({it for _, it in pairs})], [small.points] * 3)

    def test_views_are_told_and_read(self):
        for task, rounds in POINTS:
            letter = "#" if json.loads(known(task).text)["symmetric"] else "p"
            for view in second_opinion.Complex(json.loads(known(task).text), rounds).numbers:
                self.assertEqual(views.view_of(views.words_of(view, letter)), view)

    def test_a_map_in_a_notebook(self):
        """A table of views and values, of which 200 are shown. Names are quoted."""
        values = {(0, number): number % 2 for number in range(203)}
        shown = wfcheck.Map(wfcheck.Task("a<b", '{"symmetric": false}'), 1, values, (), "")._repr_html_()
        self.assertIn("<caption>a&lt;b: a decision map after 1 round</caption><tr><th>view</th><th>value</th></tr>", shown)
        self.assertIn("<tr><td>p0=199</td><td>1</td></tr>", shown)
        self.assertTrue(shown.endswith('<tr><td colspan="2">.. and 3 more views</td></tr></table>'))
        self.assertEqual(shown.count("<tr>"), 202)

    def test_a_refutation_in_a_notebook(self):
        steps = (wfcheck.Taken(5, 2, 0), wfcheck.Branching(7), wfcheck.Closed(33))
        shown = wfcheck.Refutation(wfcheck.Task("mine", "{}"), 2, steps, "")._repr_html_()
        self.assertIn("mine: no decision map after 2 rounds", shown)
        self.assertIn("<td>1</td><td>in execution 5 no allowed tuple gives process 2 the value 0</td>", shown)
        self.assertIn("<td>3</td><td>point 33 has no value left</td>", shown)
        self.assertNotIn("more steps", shown)
        self.assertIn("1 more steps", wfcheck.Refutation(wfcheck.Task("mine", "{}"), 2, steps * 67, "")._repr_html_())


@needs_program
class Answers(Case):
    """Answers of the program."""

    def test_points_are_those_of_the_definitions(self):
        for task, rounds in POINTS:
            with self.subTest(task=task, rounds=rounds):
                made = second_opinion.Complex(json.loads(known(task).text), rounds)
                self.assertEqual(wfcheck.points(known(task), rounds), [*made.numbers])

    def test_maps_go_from_views_to_values(self):
        for task, rounds in MAPS:
            with self.subTest(task=task, rounds=rounds):
                found = wfcheck.solve(known(task), rounds)
                values = [int(line[2:]) for line in found.report.split("\n") if line.startswith("m ")]
                self.assertEqual([*found.values.items()], [*zip(wfcheck.points(known(task), rounds), values)])
                self.assertEqual(second_opinion.judge(json.loads(known(task).text), found.report), ("map", None))
                self.assertEqual((found.steps, found.rounds), ((), rounds))

    def test_a_notebook_tells_views_as_the_program_does(self):
        for task, rounds in [("renaming-3-names-5", 2), ("approximate-2-by-9", 2)]:
            found = wfcheck.solve(known(task), rounds)
            letter = "#" if json.loads(known(task).text)["symmetric"] else "p"
            told = [f"{number} {views.words_of(view, letter)}" for number, view in enumerate(found.values)]
            ran = wfcheck.running.run(["points", "--rounds", rounds], known(task).text)
            self.assertEqual(told, ran.written.split("\n")[:-1])
            self.assertEqual(found._repr_html_().count("<tr>"), 1 + min(200, len(told)) + (len(told) > 200))

    def test_refutations_have_their_steps(self):
        for task, rounds in NONES:
            with self.subTest(task=task, rounds=rounds):
                found = wfcheck.solve(known(task), rounds)
                lines = [" ".join(map(str, [LETTERS[type(step)], *step])) for step in found.steps]
                self.assertEqual(lines, found.report.split("\n")[6:-2])
                self.assertEqual(wfcheck.verify(known(task), found), "accepted none")
                self.refused(36, wfcheck.verify, known(task), found, rounds + 1)
                trimmed = wfcheck.trim(known(task), found)
                rest = iter(found.steps)
                self.assertTrue(all(step in rest for step in trimmed.steps))
                self.assertEqual(wfcheck.verify(known(task), trimmed), "accepted none")

    def test_a_map_that_is_the_least(self):
        found = wfcheck.solve(known("renaming-2-names-3"), 1, least=True, workers=2)
        self.assertEqual(wfcheck.verify(known("renaming-2-names-3"), found, 1), "accepted least at 1 round")
        self.assertIs(type(found.steps[0]), wfcheck.Branching)

    def test_an_answer_without_lines(self):
        found = wfcheck.solve(known("consensus-2"), 1, lines=False)
        self.assertEqual(found.steps, ())
        self.refused(28, wfcheck.verify, known("consensus-2"), found)

    def test_an_argument_in_words(self):
        found = wfcheck.explain(known("majority-3"), wfcheck.solve(known("majority-3"), 1))
        self.assertEqual(found.split("\n")[0], "No decision map after 1 round: 3 steps over 3 of 146 executions.")

    def test_an_obstruction_has_its_nodes(self):
        task = known("consensus-2")
        found = wfcheck.obstruction(task)
        zero, one = (0, 0), (1, 1)
        self.assertEqual([(it.name, it.numbers, len(it.lines)) for it in found.nodes], [("balance", (2, 1), 3)])
        self.assertEqual([*map(tuple, found.multipliers())], [((one,), 1, (), 1), ((zero, one), 0, (1,), 1), ((zero, one), 1, (1,), 1)])
        self.assertEqual(found.text, (ANSWERS / "consensus-2.obstruction").read_text())
        self.assertEqual(wfcheck.verify(task, found), "accepted none at every number of rounds")
        self.assertIsNone(wfcheck.obstruction(known("symmetry-breaking-3"), 2))
        self.refused(50, wfcheck.obstruction, known("consensus-3-first-block-2"))

    def test_an_obstruction_with_a_cover(self):
        task = known("loop-torus-punctured")
        self.assertIsNone(wfcheck.obstruction(task))
        for modulus in (None, 2):
            found = wfcheck.obstruction(task, modulus, covers=1)
            self.assertEqual([(it.name, it.numbers) for it in found.nodes], [("cover", (6, 2, 0)), ("balance", (2, 1))])
        self.assertRaises(ValueError, wfcheck.obstruction, task, covers=-1)

    def test_a_report_that_does_not_hold(self):
        found = wfcheck.solve(known("approximate-2-by-9"), 2)
        self.refused(23, wfcheck.verify, known("approximate-2-by-9"), found.report.replace("m 0\n", "m 9\n", 1))

    def test_what_is_refused(self):
        broken = wfcheck.Task("broken", "{}")
        for number, call, given in [
                (3, wfcheck.solve, (broken, 1)), (16, wfcheck.solve, (known("consensus-2"), 9)), (3, wfcheck.decide, (broken, 1)),
                (16, wfcheck.decide, (known("renaming-2-names-3"), 9)), (3, wfcheck.points, (broken, 1)),
                (20, wfcheck.verify, (known("consensus-2"), "nothing"))]:
            self.refused(number, call, *given)
        error = self.refused(3, wfcheck.solve, broken, 1)
        self.assertEqual(error.words, "Shape version 0")
        self.assertRegex(str(error), "^3 Shape version 0 [(].*`tools/lint.py FILE` says in words why a file is no task[)]$")

    def test_a_negative_number_of_rounds(self):
        for call in wfcheck.solve, wfcheck.points:
            with self.assertRaisesRegex(ValueError, "^-1 is negative: rounds and workers are not$"):
                call(known("consensus-2"), -1)

    def test_questions_are_decided(self):
        task, proof = known("set-agreement-3-2"), ANSWERS / "set-agreement-3-2-2.drat"
        never, none = wfcheck.decide(task, 2), wfcheck.decide(task, 1, use_obstructions=False, solver="search")
        self.assertEqual((type(never), len(never.multipliers())), (wfcheck.Obstruction, 9))
        self.assertEqual((type(none), none.rounds), (wfcheck.Refutation, 1))
        solver = f"sh -c 'echo s UNSATISFIABLE; cat {proof} > {{proof}}'"
        proved = wfcheck.decide(task, 2, use_obstructions=False, solver=solver)
        self.assertEqual((type(proved), proved.text), (wfcheck.Proof, proof.read_text()))
        self.assertEqual(wfcheck.verify(task, proved), "accepted none at 2 rounds")
        found = wfcheck.decide(known("renaming-3-names-5"), 2, solver="search")
        self.assertEqual(found.values, wfcheck.solve(known("renaming-3-names-5"), 2).values)

    def test_a_map_of_fewer_rounds_is_lifted(self):
        found = wfcheck.decide(known("edge-agreement-3-cycle-4"), 2, solver="search")
        self.assertEqual((type(found), len(found.values), found.rounds), (wfcheck.Map, 99, 2))

    def test_nobody_has_an_answer(self):
        with self.assertRaises(wfcheck.NoAnswer):
            wfcheck.decide(known("set-agreement-3-2"), 2, use_obstructions=False, solver="search", seconds=1)
        with self.assertRaises(wfcheck.NoAnswer):
            wfcheck.solve(known("set-agreement-3-2"), 2, seconds=0.5)

    def test_the_largest_tasks_are_made_and_read(self):
        """64 vertices, and a file with each value of version 2."""
        largest = wfcheck.task("largest", 1, [(it,) for it in range(64)], lambda start, end: True, range(256), first_block=1)
        self.assertEqual(len(wfcheck.points(largest, 0)), 64)
        self.assertIs(type(wfcheck.solve(largest, 1)), wfcheck.Map)
