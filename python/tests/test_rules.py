"""Decision maps as rules: known protocols read well, each list decides as its map does, and what has no rules is told."""
import random

from .support import TASKS, Case, known, needs_program, wfcheck
from .test_commands import DOOR

from wfcheck.ruling import facts, grammar, search, telling
from wfcheck.views import view_of

# tasks and rounds, and how many rules there may be
LISTS = [("set-agreement-3-3-all", 1, 1), ("approximate-2-by-3", 1, 3), ("approximate-2-by-9", 2, 7), ("approximate-3-by-2", 1, 5), ("commit-adopt-2", 1, 3),
         ("commit-adopt-3", 2, 3), ("renaming-2-names-3", 1, 2), ("renaming-3-names-5", 2, 16), ("renaming-3-names-6", 1, 3), ("lattice-agreement-3", 1, 6),
         ("edge-agreement-3-star", 1, 2), ("consensus-3-first-block-2", 2, 3)]


def decided(rules, view):
    """What the first rule decides that fits a view."""
    it = facts.facts_of(view)
    return next(rule for rule in rules if rule.fits(it)).outcome.value(it)


class WithoutProgram(Case):
    """What needs no program."""

    def test_large_values_cost_no_time(self):
        """Values 0 and 255: numbers and factors are those alone that two points have."""
        points = [facts.facts_of((p, ((0, a), (1, b)))) for p in (0, 1) for a in (0, 1) for b in (0, 255)]
        values = [255 * (it.own > 0) for it in points]
        about = grammar.About(False, 2, 1, [0, 1, 255], [0, 255], wfcheck.Task("", "").names)
        self.assertLess(len(grammar.outcomes(about, points, values)), 60)
        self.assertEqual(grammar.lines_through({(0, 1), (2, 5), (2, 6)}), {(2, 1)})

    def test_the_time_is_over(self):
        points = [facts.facts_of((0, it)) for it in range(30)]
        about = grammar.About(False, 1, 0, [*range(30)], [*range(30)], wfcheck.Task("", "").names)
        values = [it * it % 29 for it in range(30)]
        with self.assertRaisesRegex(wfcheck.NoAnswer, "no rules were found within 1e-06 s"):
            search.rules_of(points, values, grammar.tests(about), grammar.outcomes(about, points, values), search.Watch(1e-6))

    def test_what_a_view_knows(self):
        """A view by hand: in round 1 process 2 was alone, and process 0 saw itself and 2; in round 2 process 0 saw both."""
        it = facts.facts_of(view_of("p0 saw {p0 saw {p0=4, p2=7}, p2 saw {p2=7}}"))
        self.assertEqual((it.process, it.known, it.values, it.own, it.place), (0, [0, 2], [4, 7], 4, 0))
        self.assertEqual((it.seen(0), it.seen(1), it.place_in(0)), ({0, 2}, {0, 2}, 0))
        self.assertEqual((it.others(0), it.others(1), it.others_knew(0)), ([{2}], [], [{7}]))

    def test_tests_that_fit_that_view(self):
        about = grammar.About(False, 3, 2, [4, 7], [0, 1], wfcheck.Task("", "").names)
        it = facts.facts_of(view_of("p0 saw {p0 saw {p0=4, p2=7}, p2 saw {p2=7}}"))
        fitting = [test.words for test in grammar.tests(about) if test.fits(it)]
        self.assertEqual(fitting, [
            "p0", "the lowest it knows", "knows p0", "doesn't know p1", "knows p2", "knows two", "saw two in round 1", "saw p0 in round 1", "saw p2 in round 1",
            "not alone in round 1", "the lowest it saw in round 1", "saw two in round 2", "saw p0 in round 2", "saw p2 in round 2", "not alone in round 2",
            "the lowest it saw in round 2", "another was alone in round 1", "p2 was alone in round 1", "no other saw two in round 1", "p0 saw two in round 1",
            "no other saw three in round 1", "another saw less in round 1", "its input is 4", "knows the input 4", "knows the input 7",
            "knows several inputs", "no other knew only the input 4 after round 1", "another knew only the input 7 after round 1",
            "another knew one input after round 1"])

    def test_no_rules(self):
        """Values without any order at 128 views, by a generator of numbers."""
        chance = random.Random(1)
        values = {(process, number): chance.randrange(9) for number in range(64) for process in (0, 1)}
        most, search.MOST_CHOICES = search.MOST_CHOICES, 2000
        self.addCleanup(setattr, search, "MOST_CHOICES", most)
        made = wfcheck.Map(wfcheck.Task("odd", '{"symmetric":false}'), 0, values, (), "")
        self.assertIsNone(wfcheck.rules(made))
        self.assertEqual(telling.too_many(made), "odd after 0 rounds: more than 40 rules would be needed for 128 points\n")


@needs_program
class Rules(Case):
    """Rules of the maps that the program finds."""

    def test_each_list_decides_as_its_map(self):
        for task, rounds, many in LISTS:
            with self.subTest(task=task, rounds=rounds):
                found = wfcheck.solve(known(task), rounds)
                rules = telling.ruled(found)
                self.assertLessEqual(len(rules), many)
                self.assertEqual({view: decided(rules, view) for view in found.values}, found.values)
                self.assertEqual(sum(it.points for it in rules), len(found.values))
                self.assertEqual(wfcheck.rules(found).count("\n"), len(rules) + 1)

    def test_a_protocol_that_reads_well(self):
        self.assertEqual(wfcheck.rules(wfcheck.solve(known("renaming-3-names-6"), 1)),
                         "renaming-3-names-6 after 1 round: 3 rules for 6 points. The first that fits decides.\n"
                         "  1. saw three: its rank + 3  [3 points]\n  2. saw two: its rank + 1  [2 points]\n  3. else: 0  [1 point]\n")
        self.assertEqual(wfcheck.rules(wfcheck.solve(known("set-agreement-3-3"), 1)).split("\n")[1], "  1. always: the least input it knows  [12 points]")

    def test_rules_by_names(self):
        named = wfcheck.task("bits", 1, [(0,), (1,)], lambda start, end: start == end, (0, 1), names={0: "off", 1: "on"}, input_names={1: "hot"})
        self.assertEqual(wfcheck.rules(wfcheck.solve(named, 1)).split("\n")[1:3], ["  1. its input is 0: off  [1 point]", "  2. else: on  [1 point]"])

    def test_rules_as_a_command(self):
        (self.folder / "map").write_text(wfcheck.solve(known("renaming-3-names-6"), 1).report)
        (self.folder / "none").write_text(wfcheck.solve(known("majority-3"), 1).report)
        for door in (["-m", "wfcheck", "rules"], ["-c", DOOR.format("rules")]):
            status, said = self.python(*door, TASKS / "renaming-3-names-6.json", "map")
            self.assertEqual((status, said.count("\n")), (0, 4))
            for task, report, told in [("majority-3", "none", "none is a report of none, and has no map"), ("majority-3", "map", "21 Header 4"),
                                       ("majority-3", "nowhere", "nowhere can't be read: No such file or directory")]:
                status, said = self.python(*door, TASKS / f"{task}.json", report)
                self.assertEqual((status, told in said), (2, True), said)

    def test_more_rules_than_are_told(self):
        most, search.MOST_RULES = search.MOST_RULES, 2
        self.addCleanup(setattr, search, "MOST_RULES", most)
        self.assertIsNone(wfcheck.rules(wfcheck.solve(known("renaming-3-names-6"), 1)))
