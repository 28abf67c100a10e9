"""What the calls of the module refuse before anything is run, files that can't be read or written, and what an answer looks like."""
import os

from .support import TASKS, Case, known, needs_program, wfcheck

CONSENSUS = TASKS / "consensus-2.json"
# calls with a number of rounds
IN_ROUNDS = [wfcheck.solve, wfcheck.points, wfcheck.decide, wfcheck.ask]


class Arguments(Case):
    """Nothing is run by odd arguments: no program is there for these tests."""

    def setUp(self):
        super().setUp()
        program = os.environ.get("WFCHECK")
        os.environ["WFCHECK"] = str(self.folder / "nowhere")
        self.addCleanup(lambda: os.environ.pop("WFCHECK") if program is None else os.environ.update(WFCHECK=program))

    def fails(self, kind, said, call, *words, **named):
        """A call raises an error of a kind that says something."""
        with self.subTest(call=call.__name__, words=words, named=named), self.assertRaisesRegex(kind, said):
            call(*words, **named)

    def test_rounds(self):
        for call in IN_ROUNDS:
            for rounds in ("0..3", "2", 2.0, True, None, [1]):
                self.fails(TypeError, "^the number of rounds is a whole number, and not ", call, known("consensus-2"), rounds)
            self.fails(ValueError, "^-1 is negative", call, known("consensus-2"), -1)
        self.fails(TypeError, "last number of rounds is a whole number", wfcheck.ask, known("consensus-2"), 0, "3")
        self.fails(ValueError, "1, is below the first, 2", wfcheck.ask, known("consensus-2"), 2, 1)
        self.fails(TypeError, "whole number", wfcheck.verify, known("consensus-2"), "text", 2.0)

    def test_tasks(self):
        calls = [(it, (1,)) for it in IN_ROUNDS] + [(wfcheck.verify, ("text",)), (wfcheck.explain, ("text",)), (wfcheck.obstruction, ())]
        for call, words in [*calls, (wfcheck.trim, (None,)), (wfcheck.write, ()), (wfcheck.restrict, ([0],))]:
            for odd in (str(CONSENSUS), CONSENSUS, None, ("consensus-2", "{}")):
                self.fails(TypeError, "^a task is what `task` or `read` returns, and not ", call, odd, *words)
        self.fails(TypeError, "name and the text of a task are strings", wfcheck.solve, wfcheck.Task("mine", None), 1)

    def test_views_and_maps(self):
        task = known("consensus-2")
        for odd in (1, "consensus-2", None):
            self.fails(TypeError, "^a task is what", wfcheck.tell, odd, (0, 1))
            self.fails(TypeError, "^rules are those of a Map", wfcheck.rules, odd)
        for odd in (1, "view", (0,), (0, ()), (0, (1,)), (0, "lo"), ("p0", 1), (0, ((0, 1), (1, "lo")))):
            self.fails(TypeError, "^a view is ", wfcheck.tell, task, odd)
        for text in ("", "{}", "[]", "null", "[" * 9000):
            self.fails(wfcheck.Mistake, "the text is that of no task", wfcheck.tell, wfcheck.Task("mine", text), (0, 1))
        self.assertEqual(wfcheck.tell(task, (0, ((0, 0), (1, 1)))), "p0 saw {p0=0, p1=1}")

    def test_an_empty_text(self):
        for call in (wfcheck.verify, wfcheck.explain):
            self.fails(wfcheck.Mistake, "an empty text is no answer: did the command fail", call, known("consensus-2"), "")

    def test_other_arguments(self):
        task = known("consensus-2")
        for odd in (None, 5, CONSENSUS):
            self.fails(TypeError, "^an answer is a Map, Refutation, Proof or Obstruction, or the text of one", wfcheck.explain, task, odd)
            self.fails(TypeError, "^an answer is ", wfcheck.verify, task, odd)
        for call in (wfcheck.solve, wfcheck.points, wfcheck.decide):
            self.fails(TypeError, "^seconds is a number", call, task, 1, seconds="5")
            for seconds in (0, -1, float("nan"), float("inf")):
                self.fails(ValueError, "^seconds is above 0", call, task, 1, seconds=seconds)
        self.fails(TypeError, "^seconds is a number", wfcheck.decide, task, 1, seconds=None)
        self.fails(ValueError, "^workers is 1 or more", wfcheck.solve, task, 1, workers=0)
        self.fails(TypeError, "^workers is a whole number", wfcheck.solve, task, 1, workers="2")
        self.fails(TypeError, "^least is True or False", wfcheck.solve, task, 1, least=2)
        self.fails(TypeError, "^lines is True or False", wfcheck.solve, task, 1, lines=None)
        self.fails(TypeError, "^solver is a string", wfcheck.decide, task, 1, solver=["cadical"])
        self.fails(ValueError, "^solver names no command", wfcheck.decide, task, 1, solver=" ")
        self.fails(TypeError, "^use_obstructions is", wfcheck.decide, task, 1, use_obstructions=1)
        self.fails(ValueError, "^a modulus is 2 or more", wfcheck.obstruction, task, 1)
        self.fails(TypeError, "^a predicate is", wfcheck.task, "a", 1, [(0,)], None, [0])
        self.fails(TypeError, "^symmetric is", wfcheck.task, "a", 1, [(0,)], lambda start, end: True, [0], "no")

    def test_files(self):
        """Of another kind, or not there: an error at once, which is an `Error` and an OSError."""
        os.mkfifo(self.folder / "pipe")
        (self.folder / "bytes").write_bytes(b"\xff")
        for name, said in {"nowhere": "No such file", "pipe": "no regular file", ".": "Is a directory", "bytes": "utf-8", "a\0b": "null"}.items():
            self.fails(wfcheck.NoFile, f"can't be read: .*{said}", wfcheck.read, f"{self.folder}/{name}")
        self.assertTrue(issubclass(wfcheck.NoFile, wfcheck.Error) and issubclass(wfcheck.NoFile, OSError) and issubclass(wfcheck.Mistake, wfcheck.Error))
        self.fails(wfcheck.NoFile, "can't be written: No such file", wfcheck.write, known("consensus-2"), self.folder / "nowhere")
        self.fails(TypeError, "named by a string or a path", wfcheck.read, None)

    def test_a_name_is_no_path(self):
        (self.folder / "inside").mkdir()
        (self.folder / "x.json").write_text("mine")
        for name in ("../x", f"{self.folder}/x", "", "..", "a\0b", 5):
            self.fails(wfcheck.Mistake, "a name is that of the file", wfcheck.write, wfcheck.Task(name, "{}"), self.folder / "inside")
        self.assertEqual((self.folder / "x.json").read_text(), "mine")

    def test_a_text_of_no_task(self):
        for text in ("", "[]", "{}", '{"processes": null}', "[" * 100_000, '{"processes": 2, "delta": [{}]}'):
            self.fails(wfcheck.Mistake, "the text is that of no task", wfcheck.restrict, wfcheck.Task("broken", text), [0])

    def test_what_an_answer_looks_like(self):
        """Three lines of a screen at most, however large it is."""
        task, steps = wfcheck.Task("x" * 10_000, "y" * 10_000), (wfcheck.Closed(1),) * 10_000
        texts = [repr(it) for it in (
            task, wfcheck.Map(task, 1, {(0, it): it for it in range(1000)}, steps, "z" * 10_000), wfcheck.Refutation(task, 2, steps, "z" * 10_000),
            wfcheck.Proof(task, 2, "z" * 10_000, True), wfcheck.Obstruction(task, steps, "z" * 10_000))]
        for text in texts:
            self.assertLessEqual((len(text), text.count("\n")), (240, 0))
        self.assertRegex(texts[1], r"^<Map of <Task 'x.*, 10,000 bytes> after 1 round: 1,000 views, values 0 to 999>$")
        self.assertRegex(texts[2], r"after 2 rounds: 10,000 steps>$")

    def test_the_first_value_list_too_many_ends_the_task(self):
        """The predicate is not asked on: 32 choices of one, 1,024 of two and 32,768 of three, for each of two inputs."""
        asked = []
        self.fails(wfcheck.Mistake, "there are more than 65536 value lists", wfcheck.task, "a", 3, [(0, 0, 0), (1, 0, 0)],
                   lambda start, end: asked.append(1) or True, range(32))
        self.assertEqual(len(asked), 65537)


@needs_program
class Outcomes(Case):
    """What several numbers of rounds come to."""

    def test_ask_says_what_the_last_line_says(self):
        never = wfcheck.ask(known("consensus-2"), 0, 3, solver="search")
        self.assertEqual((type(never), str(never)), (wfcheck.Never, "consensus-2: never, by 1 balance modulo 2"))
        self.assertEqual(wfcheck.verify(known("consensus-2"), never.obstruction), "accepted none at every number of rounds")
        task = known("renaming-3-names-5")
        found = wfcheck.ask(task, 0, 3, solver="search")
        self.assertEqual((type(found), found.rounds, found.map.rounds, found.none.rounds, str(found)), (wfcheck.From, 2, 2, 1, "renaming-3-names-5: from 2"))
        self.assertEqual((wfcheck.verify(task, found.map, 2), wfcheck.verify(task, found.none, 1)), ("accepted map at 2 rounds", "accepted none at 1 round"))
        self.assertEqual(found.map.values, wfcheck.solve(task, 2).values)
        none, there = wfcheck.ask(task, 0, 1, solver="search"), wfcheck.ask(task, 2, solver="search")
        self.assertEqual((type(none), none.rounds, none.none.rounds), (wfcheck.NoneUpTo, 1, 1))
        self.assertEqual((type(there), there.rounds, str(there)), (wfcheck.MapAt, 2, "renaming-3-names-5: map at 2"))
        zero = wfcheck.ask(known("set-agreement-3-3"), 0, 3, solver="search")
        self.assertEqual((type(zero), zero.rounds, zero.none), (wfcheck.From, 0, None))

    def test_ask_of_rounds_that_are_refused(self):
        found = wfcheck.ask(known("consensus-4"), 3, 4, use_obstructions=False, solver="search")
        self.assertEqual(str(found), "consensus-4: none up to 3; 4 rounds have too many executions")
        self.assertEqual((type(found), found.refused), (wfcheck.NoneUpTo, "4 rounds have too many executions"))
        self.refused(16, wfcheck.ask, known("consensus-2"), 9, 11, use_obstructions=False)

    def test_ask_that_decides_nothing(self):
        found = wfcheck.ask(known("set-agreement-3-2"), 2, use_obstructions=False, solver="search", seconds=1)
        self.assertEqual((type(found), str(found)), (wfcheck.NotDecided, "set-agreement-3-2: not decided"))

    def test_a_solver_that_is_not_there(self):
        with self.assertRaisesRegex(ValueError, "^--solver: 'no-such-solver' is not on the path$"):
            wfcheck.decide(known("consensus-2"), 1, solver="no-such-solver")

    def test_a_task_whose_name_is_a_path(self):
        """It is asked about, and nothing is written outside."""
        task = wfcheck.Task("../../x", known("consensus-2").text)
        self.assertIs(type(wfcheck.decide(task, 1)), wfcheck.Obstruction)
        self.assertEqual(wfcheck.verify(task, wfcheck.solve(task, 1)), "accepted none")
