"""What obstructions count: beside the scripts of oracle/, and by hand."""
import pathlib
import random
import sys
import unittest

from wfcheck import answers
from wfcheck.drawing import counting, pictures, subdivision
from wfcheck.tasks import read

TOP = pathlib.Path(__file__).resolve().parents[2]
sys.path.insert(1, str(TOP / "oracle"))
import obstructions  # noqa: E402
import second_opinion  # noqa: E402
import task_file  # noqa: E402

TASKS, ANSWERS = TOP / "gallery/tasks", TOP / "gallery/answers"
COUNTED = [("consensus-2", 3), ("consensus-3-bits", 1), ("set-agreement-3-2", 2), ("symmetry-breaking-3", 2), ("renaming-3-names-4", 2),
           ("consensus-4", 1), ("loop-klein", 1)]


def given(name):
    """A task, and its obstruction, as the module and as the oracle read them."""
    made, text = read(TASKS / f"{name}.json"), (ANSWERS / f"{name}.obstruction").read_text()
    task, _ = task_file.read((TASKS / f"{name}.json").read_bytes())
    weights = counting.weights_of(subdivision.rules_of(made), answers.obstruction_of(made, text))
    return made, weights, task, obstructions.judge(task, text)


class Counts(unittest.TestCase):
    """The count of a choice of values."""

    def test_counts_are_those_of_the_oracle(self):
        for name, most in COUNTED:
            made, weights, task, found = given(name)
            balance, = found
            first = {balance.hand.kin(it): it for it in reversed(balance.hand.inputs)}
            for rounds in range(most + 1):
                mine, oracle = subdivision.Complex(subdivision.rules_of(made), rounds), second_opinion.Complex(task, rounds)
                self.assertEqual([[mine.points[view] for view in it.ends] for it in mine.executions], [it[1] for it in oracle.executions])
                self.assertEqual([(it.simplex, mine.sign(at)) for at, it in enumerate(mine.executions)], oracle.signed)
                for seed in range(3):
                    values = counting.drawn_values(counting.choices(mine, seed > 0), seed)
                    signed = [(sign, balance.count(s, tuple(values[v] for v in points)))
                              for (s, sign), (_, points, _) in zip(oracle.signed, oracle.executions) if first[balance.hand.kin(s)] == s]
                    counted = counting.count(mine, weights, values)
                    self.assertEqual([(it.sign, it.weight) for it in counted], [it for it in signed if it[1]])
                    self.assertEqual(sum(sign * weight for sign, weight in signed) % weights.modulus, weights.sum, (name, rounds, seed))

    def test_the_picture_has_the_count(self):
        made, weights, _, _ = given("set-agreement-3-2")
        for rounds, any_value in ((0, True), (1, False), (2, True)):
            scene = pictures.of_obstruction(made, rounds, weights, 4, any_value, pictures.Choice())
            marked = [int(it.label.replace("−", "-")) for it in scene.cells if it.label]
            plus, minus = sum(it for it in marked if it > 0), -sum(it for it in marked if it < 0)
            self.assertEqual(scene.count, f"{plus} - {minus} = {plus - minus}, and {plus - minus} modulo 2 is 1")

    def test_the_count_in_words(self):
        counted = [counting.Counted(0, 1, 5), counting.Counted(3, -1, 2)]
        self.assertEqual(counting.count_text(counted, 2), "5 - 2 = 3, and 3 modulo 2 is 1")

    def test_values_are_those_that_the_inputs_allow(self):
        made, _, _, _ = given("set-agreement-3-2")
        mine = subdivision.Complex(subdivision.rules_of(made), 1)
        self.assertEqual(counting.choices(mine, False)[:4], [[0], [1], [2], [0, 1]])
        self.assertEqual(counting.choices(mine, True)[0], [0, 1, 2])


class Balances(unittest.TestCase):
    """Weights of multipliers, by hand: consensus of two processes."""

    def test_weights_of_consensus(self):
        # p0 decides 0 on the edge as often as alone: 1. p1 decides 0 on the edge as often as alone: -1. p0 is alone once: 1.
        one, other, edge = ((0, 0),), ((1, 1),), ((0, 0), (1, 1))
        rules = subdivision.rules_of(read(TASKS / "consensus-2.json"))
        multipliers = {(edge, 1, (0,)): 1, (edge, 0, (0,)): -1, (one, 0, ()): 1}
        weights = counting.balanced(rules, 3, multipliers)
        self.assertEqual(weights, counting.Weights(3, 1, {(one, (1,)): 1, (other, (0,)): 1, (edge, (0, 1)): 1, (edge, (1, 0)): 2}))
        self.assertFalse([it for it in weights.tuples if it[1] in rules.allowed[it[0]]])
        for rounds in range(4):
            made, chance = subdivision.Complex(rules, rounds), random.Random(7)
            for _ in range(5):
                values = [chance.choice(rules.values) for _ in made.classes]
                self.assertEqual(sum(it.sign * it.weight for it in counting.count(made, weights, values)) % 3, 1)

    def test_a_tree_of_more_nodes_has_none(self):
        self.assertEqual([given(name)[1] for name in ("hourglass", "loop-torus-punctured")], [None, None])

    def test_modulo_two_they_are_those_of_the_gallery(self):
        made, known, _, _ = given("consensus-2")
        one, edge = ((0, 0),), ((0, 0), (1, 1))
        multipliers = {(edge, 1, (0,)): 1, (edge, 0, (0,)): 1, (one, 0, ()): 1}
        self.assertEqual(counting.balanced(subdivision.rules_of(made), 2, multipliers), known)


if __name__ == "__main__":
    unittest.main()
