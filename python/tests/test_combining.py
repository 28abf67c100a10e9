"""Tasks with values of any kind, and tasks from other tasks."""
import inspect
import warnings

from .support import Case, known, needs_program, wfcheck


def agree(start, end):
    """All decide one participant's input."""
    return len(set(end.values())) == 1 and set(end.values()) <= set(start.values())


class Values(Case):
    """Values and inputs that are no numbers."""

    def test_they_are_numbered_and_named(self):
        made = wfcheck.task("mine", 2, [("no", "yes")], agree, values=["no", "yes"])
        self.assertEqual(made.text, known("consensus-2").text)
        self.assertEqual((made.names.values, made.names.inputs), (((0, "no"), (1, "yes")),) * 2)
        tuples = wfcheck.task("mine", 1, [(None,)], lambda start, end: True, values=[("adopt", 0), ("hold", 1), 7])
        self.assertEqual((tuples.names.values, tuples.names.inputs), (((0, "adopt 0"), (1, "hold 1"), (2, "7")), ((0, "None"),)))

    def test_names_that_are_given_or_none(self):
        made = wfcheck.task("mine", 1, [(0,)], lambda start, end: True, values=["a", "", "1", 1, "x" * 61], names={"a": "first"})
        self.assertEqual(made.names.values, ((0, "first"), (1, "number 1"), (2, "1"), (3, "number 3"), (4, "number 4")))
        with self.assertRaises(wfcheck.Mistake):
            wfcheck.task("mine", 1, [(0,)], lambda start, end: True, values=[["a"]])

    def test_names_of_another_task_go(self):
        """They go with the task that had them; names that somebody wrote stay, and are warned of."""
        named = wfcheck.task("mine", 2, [("no", "yes")], agree, values=["no", "yes"])
        plain = wfcheck.task("mine", 2, [(0, 1)], agree, values=[0, 1])
        for made in (named, plain, named):
            self.assertEqual(wfcheck.read(wfcheck.write(made, self.folder)), made)
        (self.folder / "mine.names.json").write_text('{ "values": {"0": "by hand"} }')
        with self.assertWarnsRegex(UserWarning, "mine.names.json is there, and the task has no names"):
            wfcheck.write(plain, self.folder)
        self.assertEqual(wfcheck.read(self.folder / "mine.json").names.values, ((0, "by hand"),))

    def test_the_predicate_gets_what_was_given(self):
        asked = []
        wfcheck.task("mine", 2, [{0: "a", 1: ("b", 1)}], lambda start, end: asked.append((start, end)) or True, values=[frozenset([1])])
        self.assertIn(({0: "a", 1: ("b", 1)}, {0: frozenset([1]), 1: frozenset([1])}), asked)

    def test_one_who_is_alone_and_may_decide_nothing_is_warned_of(self):
        with self.assertWarnsRegex(UserWarning, "allows nothing where process 0 runs alone, as from {0: 0}: then no number of rounds has a map"):
            wfcheck.task("mine", 2, [(0, 1)], lambda start, end: len(end) > 1, values=[0])
        with warnings.catch_warnings():
            warnings.simplefilter("error")
            wfcheck.task("mine", 2, [(0, 1)], agree, values=[0, 1])

    def test_a_task_says_what_it_is(self):
        self.assertEqual(repr(known("consensus-2")), "<Task 'consensus-2', 2 processes, 1 input facet, values 0, 1>")
        self.assertEqual(repr(known("renaming-3-names-6")), "<Task 'renaming-3-names-6', symmetric, 3 processes, 1 input facet, values 0 to 5>")
        self.assertEqual(repr(wfcheck.Task("a", "none")), "<Task 'a', 4 bytes>")
        named = wfcheck.task("mine", 2, [("no", "yes")], agree, values=["no", "yes"])
        self.assertEqual(repr(named), "<Task 'mine', 2 processes, 1 input facet, values no, yes>")

    def test_a_task_is_a_picture(self):
        for name in ("consensus-2", "hourglass", "consensus-4"):
            self.assertTrue(known(name)._repr_svg_().startswith("<svg "), name)
        self.assertIsNone(wfcheck.Task("a", "none")._repr_svg_())

    def test_help_begins_with_an_example(self):
        self.assertIn("task(\"consensus\", 2, [(\"no\", \"yes\")], legal", "".join(inspect.getdoc(wfcheck.task).split("\n")[:7]))

    def test_names_are_for_users(self):
        self.assertEqual(dir(wfcheck), sorted(wfcheck.__all__))
        self.assertNotIn("arguments", dir(wfcheck))


class Combined(Case):
    """Products, some of the inputs, and unions."""

    def setUp(self):
        super().setUp()
        self.agree = wfcheck.task("agree", 2, [("no", "yes")], agree, values=["no", "yes"])
        self.free = wfcheck.task("free", 2, [("a", "b"), ("b", "b")], lambda start, end: True, values=[("at", 1)])

    @needs_program
    def test_a_product_has_a_map_if_both_have(self):
        quasi, path = known("quasi-consensus-2"), known("approximate-2-by-3")
        both = wfcheck.product(quasi, path)
        self.assertEqual([str(wfcheck.ask(it, 0, 2)).rpartition(": ")[2] for it in (quasi, path, both)], ["from 1"] * 3)
        self.assertIsInstance(wfcheck.ask(wfcheck.product(self.agree, self.free), 0), wfcheck.Never)

    def test_a_product_by_names(self):
        made = wfcheck.product(self.agree, self.free)
        self.assertEqual(made.names.values, ((0, "no and at 1"), (1, "yes and at 1")))
        self.assertEqual(len(wfcheck.read(wfcheck.write(made, self.folder)).simplices()), len(made.simplices()))

    def test_some_of_the_inputs(self):
        made = wfcheck.restrict_inputs(self.free, [("b", "b")])
        self.assertEqual(repr(made), "<Task 'free-some-inputs', 2 processes, 1 input facet, value at 1>")
        self.assertEqual(wfcheck.restrict_inputs(self.free, [(1, 1)]).text, made.text)
        self.assertEqual(wfcheck.restrict_inputs(self.free, [("a", "b"), ("b", "b")]).text, self.free.text)
        for wrong in ([("b", "a")], []):
            with self.assertRaises(wfcheck.Mistake):
                wfcheck.restrict_inputs(self.free, wrong)

    @needs_program
    def test_a_union_allows_both(self):
        abort = wfcheck.task("abort", 2, [("no", "yes")], lambda start, end: {*end.values()} == {"abort"}, values=["abort"])
        made = wfcheck.union(self.agree, abort)
        self.assertEqual(made.names.values, ((0, "no"), (1, "yes"), (2, "abort")))
        self.assertEqual(str(wfcheck.ask(made, 0)), "agree-or-abort: from 0")
        self.assertEqual(wfcheck.union(self.agree, self.agree).text, self.agree.text)

    def test_tasks_of_other_kinds(self):
        for call in (wfcheck.product, wfcheck.union):
            for other in (known("consensus-3"), known("renaming-2-names-3"), known("consensus-2-first-block-2")):
                with self.assertRaises(wfcheck.Mistake):
                    call(self.agree, other)
            with self.assertRaises(TypeError):
                call(self.agree, "consensus-2")
            with self.assertRaises(wfcheck.Mistake):
                call(self.agree, wfcheck.Task("a", "{}"))
        with self.assertRaises(wfcheck.Mistake):
            wfcheck.union(self.agree, self.free)
        large = known("approximate-3-by-27")
        with self.assertRaises(wfcheck.Mistake):
            wfcheck.product(large, large)
