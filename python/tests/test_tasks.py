"""Tasks from predicates, and the task of some processes alone. Most of it needs no program."""
import json
import re

from .support import PYTHON, ROOT, Case, known, needs_program, wfcheck

FENCES = re.compile(r"^```(\w*)\n(.*?)^```$", re.M | re.S)
# a task of three processes, and that of processes 0 and 2: its entries without process 1, and process 2 is process 1
WHOLE = {"version": 2, "first_block": 2, "processes": 3, "symmetric": True, "inputs": [[[1, 5]], [[0, 3], [2, 4]]],
         "outputs": [[[0, 1], [1, 1], [2, 2]], [[1, 1], [2, 0]], [[0, 1]]],
         "delta": [{"in": [[1, 5]], "out": [[1]]}, {"in": [[2, 4]], "out": [[2], [0], [2]]}, {"in": [[0, 3], [2, 4]], "out": [[1, 2]]},
                   {"in": [[0, 3]], "out": []}]}
SMALL = ('{"delta":[{"in":[[0,3]],"out":[]},{"in":[[1,4]],"out":[[0],[2]]},{"in":[[0,3],[1,4]],"out":[[1,2]]}],"first_block":2,'
         '"inputs":[[[0,3],[1,4]]],"outputs":[[[1,0]],[[0,1],[1,2]]],"processes":2,"symmetric":true,"version":2}\n')


class Tasks(Case):
    """Tasks that are made."""

    def test_the_example_of_writing_a_task(self):
        """The file that docs/TASKS.md shows writes the task of consensus of two."""
        scripts = [text for kind, text in FENCES.findall((ROOT / "docs/TASKS.md").read_text()) if kind == "python"]
        (self.folder / "mine.py").write_text(scripts[0])
        self.assertEqual(self.python(self.folder / "mine.py"), (0, ""))
        self.assertEqual((self.folder / "mine.json").read_text(), known("consensus-2").text)

    @needs_program
    def test_the_example_of_the_document(self):
        (_, script), (_, output), (_, named), (_, last) = FENCES.findall((PYTHON / "README.md").read_text())[:4]
        (self.folder / "example.py").write_text(script)
        self.assertEqual(self.python(self.folder / "example.py", WFCHECK=str(wfcheck.running.program())), (0, output))
        (self.folder / "ca.py").write_text(named)
        status, said = self.python(self.folder / "ca.py", WFCHECK=str(wfcheck.running.program()))
        self.assertEqual((status, said.endswith(last), (self.folder / "ca.names.json").is_file()), (0, True, True), said)

    def test_no_task_is_made_by_mistake(self):
        def fair(start, end):
            return True
        one, zero = [(0,)], [0]
        calls = {
            "looks up process 1": ("a", 2, [(0, 1)], lambda start, end: start[1] == 0, zero),
            "is a `return` missing": ("a", 1, one, lambda start, end: None, zero),
            "allows nothing": ("a", 1, one, lambda start, end: False, zero),
            "has 1 to 4 processes": ("a", 5, one, fair, zero), "a name is that of the file": ("a/b", 1, one, fair, zero),
            "no value that may be decided": ("a", 1, one, fair, []), "an input is of process 1": ("a", 1, [(0, 1)], fair, zero),
            "no input": ("a", 1, [], fair, zero), "the value 64": ("a", 1, [(64,)], fair, zero), "inputs are a list": ("a", 1, zero, fair, zero),
            "65 input vertices": ("a", 1, [(it,) for it in range(65)], fair, zero, False, 1),
            "more than 65536 value lists": ("a", 3, [(0, 0, 0), (1, 0, 0)], fair, range(32)),
            "a first block is 1 to 4": ("a", 1, one, fair, zero, False, 5),
            "is a set, which has no order": ("a", 2, [{0, 1}], fair, zero), "has 1 of 2 values": ("a", 2, [(0,)], fair, zero),
        }
        for said, given in calls.items():
            with self.subTest(said), self.assertRaises(wfcheck.Mistake) as caught:
                wfcheck.task(*given)
            self.assertIn(said, str(caught.exception))

    def test_choices_are_asked_place_by_place(self):
        """With a predicate of beginnings the task is the same, and most choices are never asked about."""
        asked = []

        def close(start, end):
            asked.append(end)
            return max(end.values()) - min(end.values()) <= 1

        plain = wfcheck.task("close", 3, [(0, 0, 0)], close, range(12))
        whole = len(asked)
        pruned = wfcheck.task("close", 3, [(0, 0, 0)], close, range(12), partial=lambda start, end: max(end.values()) - min(end.values()) <= 1)
        self.assertEqual(pruned.text, plain.text)
        self.assertEqual((whole, len(asked) - whole), (3 * 12 + 3 * 144 + 1728, 3 * 12 + 3 * 144 + 34 * 12))

    def test_a_task_of_some_processes(self):
        """One by hand, which the command writes, too; and what has no such task."""
        whole = wfcheck.Task("whole", json.dumps(WHOLE))
        self.assertEqual(wfcheck.restrict(whole, [2, 0]), wfcheck.Task("whole-p0-p2", SMALL))
        for kept in ([], [3], [0, "1"]):
            with self.assertRaises(wfcheck.Mistake):
                wfcheck.restrict(whole, kept)
        said = {
            ("0,2", whole.text): (0, SMALL), ("0,3", whole.text): (2, "restrict: task: the processes are 0 to 2, and not 3\n"),
            ("0,1", ""): (2, "restrict: an empty text: did the command before it fail?\n"),
            ("0,1", "{}"): (2, "restrict: what is read is no task: tools/lint.py FILE says where it is wrong\n"),
        }
        for (words, text), wanted in said.items():
            self.assertEqual(self.python("-m", "wfcheck", "restrict", "--processes", words, given_text=text), wanted)
        status, told = self.python("-m", "wfcheck", "restrict", "--processes", "x", given_text=whole.text)
        self.assertEqual((status, told.split("\n")[-2]), (2, "python3 -m wfcheck restrict: error: argument --processes: invalid numbers value: 'x'"))

    @needs_program
    def test_a_process_that_may_decide_nothing_alone(self):
        """Process 0 of the task by hand."""
        self.assertIs(type(wfcheck.solve(wfcheck.restrict(wfcheck.Task("whole", json.dumps(WHOLE)), [0]), 1)), wfcheck.Refutation)
