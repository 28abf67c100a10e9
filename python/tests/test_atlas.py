"""The atlas: how tasks are listed, what codes tell, and what is written and read again."""
import itertools
import json
import pathlib
import subprocess
import sys
import unittest.mock

from .support import ROOT, Case, known, needs_program, wfcheck

import classes as oracle
import task_file
import trying
import two_processes
from wfcheck.atlas import classes, deciding, drawing, files, main, shapes, symmetric, tables, totals


class Listing(Case):
    """All tasks of a shape, once each, and as many as another script counts."""

    def test_as_many_as_are_counted(self):
        for processes, values in [(2, 1), (2, 2), (2, 3), (3, 1)]:
            shape = shapes.Shape("x", ((0,) * processes,), values)
            found = [*classes.classes(shape)]
            self.assertEqual((sum(many for _, many in found), len(found)), oracle.counted(processes, values))

    def test_by_definition(self):
        """Two processes with two values: each choice of masks, and what each symmetry makes of it."""
        shape = shapes.Shape("x", ((0, 0),), 2)
        every = {it for it in ((a, b, c) for a in range(1, 16) for b in (1, 2, 3) for c in (1, 2, 3)) if self.is_pruned(*it)}
        self.assertEqual(len(every), 79)
        listed = [shape.rules(code) for code, _ in classes.classes(shape)]
        masks = [tuple(rules.values()) for rules in listed]
        self.assertTrue({*masks} <= every)
        self.assertEqual(masks, sorted({min(self.images(*it)) for it in every}))

    def is_pruned(self, edge, first, second):
        """Whether each value of a process alone is decided in some tuple of the edge."""
        tuples = [(place % 2, place // 2) for place in range(4) if edge >> place & 1]
        return all(mask & ~sum({1 << each[p] for each in tuples}) == 0 for p, mask in enumerate((first, second)))

    def images(self, edge, first, second):
        """What the eight symmetries make of the masks of a task."""
        for swapped in (False, True):
            for flips in range(4):
                ends = [(place % 2 ^ flips & 1, place // 2 ^ flips >> 1) for place in range(4) if edge >> place & 1]
                alone = [sum(1 << (v ^ flips >> p & 1) for v in (0, 1) if mask >> v & 1) for p, mask in enumerate((first, second))]
                ends, alone = ([it[::-1] for it in ends], alone[::-1]) if swapped else (ends, alone)
                yield (sum(1 << a + 2 * b for a, b in ends), *alone)

    def test_order_and_classes(self):
        """Of three processes with two values, codes ascend."""
        found = [*classes.classes(shapes.BINARY)]
        self.assertEqual((len(found), sum(many for _, many in found)), (23_670, 1_060_465))
        codes = [code for code, _ in found]
        self.assertEqual(codes, sorted(set(codes)))


class Codes(Case):
    """A code and its task."""

    def test_a_task(self):
        task = shapes.BINARY.task("b-7e-f.6.9-3.1.2")
        value, rules = task_file.read(task.text.encode())
        self.assertEqual((value["processes"], value["symmetric"], value["inputs"]), (3, False, [[[0, 0], [1, 0], [2, 0]]]))
        bits = {it for it in ((a, b, c) for a in (0, 1) for b in (0, 1) for c in (0, 1)) if 0 < sum(it) < 3}
        self.assertEqual(rules[(0, 0), (1, 0), (2, 0)], bits)
        self.assertEqual(rules[(0, 0), (2, 0)], {(1, 0), (0, 1)})
        self.assertEqual(rules[(1, 0), (2, 0)], {(0, 0), (1, 1)})
        self.assertEqual([rules[((p, 0),)] for p in range(3)], [{(0,), (1,)}, {(0,)}, {(1,)}])

    def test_there_and_back(self):
        """The masks that a task's text says are those of its code."""
        for shape, code in [(shapes.BINARY, "b-7e-f.6.9-3.1.2"), (shapes.EDGE, "p-1ab-7.3"),
                            (shapes.TERNARY, "t-1111111-1ff.0a1.011-7.5.1"), (shapes.CYCLE, "c-1ff.1fe.0fe.001-7.5.1.2")]:
            rules = {tuple(map(tuple, it["in"])): sum(1 << sum(v * shape.values ** at for at, v in enumerate(each)) for each in it["out"])
                     for it in json.loads(shape.task(code).text)["delta"]}
            self.assertEqual(shape.code(rules), code)

    def test_no_code(self):
        for code in ["b-7e-f.6.9-3.1", "b-7e-f.6.9-3.1.4", "b-7e-f.6.0-3.1.2", "b-7E-f.6.9-3.1.2", "b-07e-f.6.9-3.1.2",
                     "t-7e-f.6.9-3.1.2", ""]:
            with self.assertRaises(wfcheck.Mistake):
                shapes.BINARY.task(code)


class Families(Case):
    """The tasks of the other tables."""

    def test_symmetry_breaking_by_definition(self):
        """All bounds of three processes, by the numbers that they allow, up to the order of the values, if each value can be decided."""
        for values, many in [(1, 1), (2, 5), (3, 19)]:
            every = set()
            for bounds in itertools.product([(a, b) for b in range(4) for a in range(b + 1)], repeat=values):
                inside = [it for it in itertools.product(range(4), repeat=values)
                          if sum(it) == 3 and all(a <= number <= b for number, (a, b) in zip(it, bounds))]
                if inside and all(max(numbers) for numbers in zip(*inside)):
                    every.add(min(tuple(sorted(zip(*order))) for order in itertools.permutations([*zip(*inside)])))
            found = [it for it in symmetric.codes(3) if len(symmetric.read(it)[1]) == values]
            self.assertEqual((len(every), len(found), len({*found})), (many, many, many))

    def test_known_symmetry_breaking(self):
        for code, name in [("gsb2-11.11", "renaming-2-names-2"), ("gsb3-12.12", "symmetry-breaking-3"),
                           ("gsb4-13.13", "symmetry-breaking-4"), ("gsb3-01.01.01.01.01", "renaming-3-names-5"),
                           ("gsb4-01.01.01.01.01.01.01", "renaming-4-names-7")]:
            self.assertEqual(tables.task_of(code).text, known(name).text)

    def test_no_code_of_symmetry_breaking(self):
        for code in ["gsb3", "gsb3-", "gsb3-12", "gsb3-12,12", "gsb5-13.13", "gsb3-21.12", "gsb3-11.11", "gsb3-1212", "x-1-1.1"]:
            with self.assertRaises(wfcheck.Mistake):
                tables.task_of(code)

    def test_what_is_drawn_is_pruned(self):
        for shape in (shapes.TERNARY, shapes.EIGHT, shapes.CYCLE):
            codes = drawing.codes(shape, 1, 20)
            self.assertEqual(codes, drawing.codes(shape, 1, 20))
            self.assertNotEqual(codes, drawing.codes(shape, 2, 20))
            for code in codes:
                _, rules = task_file.read(tables.task_of(code).text.encode())
                for whole, face in itertools.product(rules, repeat=2):
                    if {*face} < {*whole}:
                        left = {tuple(v for vertex, v in zip(whole, each) if vertex in face) for each in rules[whole]}
                        self.assertTrue(rules[face] and rules[face] <= left)

    def test_two_processes(self):
        """Tasks of the gallery, whose answers are known by theory."""
        answers = {"consensus-2": "never", "consensus-2-bits": "never", "quasi-consensus-2": "from 1", "approximate-2-by-9": "from 2",
                   "approximate-2-by-27": "from 3", "equality-negation-2": "never", "equality-negation-2-bits": "from 0"}
        self.assertEqual({it: two_processes.answer(known(it).text.encode()) for it in answers}, answers)
        with self.assertRaises(task_file.Refused):
            two_processes.answer(known("consensus-3").text.encode())

    def test_trying(self):
        """Tasks of the gallery, whose least numbers of rounds are known by theory."""
        for name, answers in {"consensus-2": [False, False], "quasi-consensus-2": [False, True], "set-agreement-3-2": [False, False],
                              "renaming-3-names-5": [False, False, True]}.items():
            task, rules = task_file.read(known(name).text.encode())
            made = [trying.Trying(task, rounds) for rounds in range(len(answers))]
            found = [it.map(rules, sorted(it.made.values)) for it in made]
            self.assertEqual([it is not None for it in found], answers)
            self.assertEqual([it.made.wrong_map(values) for it, values in zip(made, found) if values], [None] * sum(answers))


class Tables(Case):
    """What is kept of a run, and a run that goes on after a stop."""

    LINES = [deciding.Line("p-001-1.1", "from 0"), deciding.Line("p-018-2.1", "never", "case balance balance", "2 3", "3 5")]

    def setUp(self):
        super().setUp()
        self.table = tables.Table("small", "two tasks", lambda: [it.code for it in self.LINES], 1, 10)

    def test_there_and_back(self):
        (self.folder / "small.tsv").write_text(files.text_of("two tasks", self.LINES[::-1]))
        self.assertEqual(files.read(self.folder / "small.tsv"), ("two tasks", self.LINES))

    def test_no_table(self):
        text = files.text_of("two tasks", self.LINES)
        for wrong in [text[:-1], text.replace("# ", ""), text.replace("\tmoduli", ""), text.replace("\t3 5", "")]:
            (self.folder / "small.tsv").write_text(wrong)
            with self.assertRaises(wfcheck.Mistake):
                files.read(self.folder / "small.tsv")

    def test_a_stop(self):
        """What was decided before a stop stays, but for a line that is not whole. Another program begins anew."""
        part = files.Part(self.folder / "small.tsv.part", "one")
        _, writer = part.open()
        writer.write(self.LINES[0])
        writer.close()
        with part.path.open("a") as file:
            file.write("p-018-2.1\tfrom")
        self.assertEqual(part.begun(), {"p-001-1.1": self.LINES[0]})
        self.assertEqual(files.Part(part.path, "another").begun(), {})

    def test_going_on(self):
        """A run that is stopped after one line decides the other alone when it goes on."""
        asked, by_code = [], {it.code: it for it in self.LINES}

        def decided(task, _rounds, _seconds):
            """Decides one line, and is stopped at the second."""
            asked.append(task.name)
            if len(asked) == 2:
                raise KeyboardInterrupt
            return by_code[task.name]

        with unittest.mock.patch.object(main, "decided", decided), unittest.mock.patch.object(main, "named", lambda: "one"), \
                unittest.mock.patch("builtins.print"):
            with self.assertRaises(KeyboardInterrupt):
                main.write(self.table, self.folder, 1)
            self.assertFalse((self.folder / "small.tsv").exists())
            main.write(self.table, self.folder, 1)
        self.assertEqual(asked, ["p-001-1.1", "p-018-2.1", "p-018-2.1"])
        self.assertEqual(files.read(self.folder / "small.tsv").lines, self.LINES)
        self.assertEqual([it.name for it in self.folder.iterdir()], ["small.tsv"])

    def test_totals(self):
        self.assertEqual(totals.row("small", [*self.LINES, deciding.Line("p-003-1.1", "none up to 1")]),
                         ["[small](small.tsv)", "3", "1", "0", "0", "0", "1", "0", "0", "1 none up to 1"])

    def test_what_answers_come_to(self):
        for found, told in [({0: True}, "from 0"), ({0: False, 1: False, 2: True}, "from 2"),
                            ({0: False, 1: None, 2: True}, "none up to 0, map at 2"), ({0: False, 1: False}, "none up to 1"),
                            ({0: None, 1: None}, "not decided"), ({0: None, 1: True}, "map at 1")]:
            self.assertEqual(deciding.summed(found), told)

    def test_what_the_search_leaves_open(self):
        """If the search has no answer, `ask` is asked, and the line has these rounds."""
        task = tables.task_of("p-0bb-1.4")
        answers = [wfcheck.NoneUpTo(task, 0, None), wfcheck.NoAnswer(), wfcheck.MapAt(task, 2, None)]
        with unittest.mock.patch.object(deciding.Asked, "searched", return_value=None), \
                unittest.mock.patch.object(deciding.Asked, "obstruction", return_value=None), \
                unittest.mock.patch.object(deciding, "ask", side_effect=answers):
            line = deciding.decided(task, 3, 10)
        self.assertEqual(line, deciding.Line("p-0bb-1.4", "none up to 0, map at 2", asked="0 1 2"))

    @needs_program
    def test_known_answers(self):
        """All may decide anything; the first two have to agree; a walk of three edges; weak symmetry breaking."""
        for code, answer in [("b-ff-f.f.f-3.3.3", "from 0"), ("b-81-9.f.f-1.2.3", "never"), ("p-0bb-1.4", "from 1"),
                             ("gsb3-12.12", "never")]:
            self.assertEqual(deciding.decided(tables.task_of(code), 2, 60).answer, answer)

    def test_words(self):
        """The script writes the task of a code, and refuses what is none."""
        def run(*words):
            ran = subprocess.run([sys.executable, ROOT / "tools/atlas", *words], capture_output=True, text=True, check=False)
            return ran.returncode, ran.stdout
        self.assertEqual(run("--task", "gsb3-12.12"), (0, known("symmetry-breaking-3").text))
        for words in [["--task", "b-0"], [], ["nothing"], ["--workers", "0", "two-edge"]]:
            self.assertEqual(run(*words), (2, ""))
        self.assertEqual(run("--list")[1].count("\n"), len(tables.TABLES))
        self.assertTrue(pathlib.Path(ROOT / "tools/atlas").stat().st_mode & 0o100)
