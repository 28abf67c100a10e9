"""Names for values and inputs: in the file beside a task, in answers, in words, and in pictures."""
import json
import re

from .support import ROOT, TASKS, Case, known, needs_program, wfcheck
from .test_commands import DOOR

from wfcheck import gallery, names
from wfcheck.views import words_of

VALUES = {0: "adopt no", 1: "commit to no", 2: "adopt yes", 3: "commit to yes"}
INPUTS = {0: "no", 1: "yes"}


def commit_adopt(**named):
    """Commit-adopt of two processes with the names above, or others."""
    return wfcheck.task("ca", 2, gallery.all_of(2, (0, 1)), gallery.commit_adopt, range(4), **{"names": VALUES, "input_names": INPUTS, **named})


class WithoutProgram(Case):
    """What needs no program."""

    def test_names_are_kept_beside_the_task(self):
        """The task file is the same; the names stand in a file of their own, and are read again."""
        named = commit_adopt()
        self.assertEqual(named.text, known("commit-adopt-2").text)
        self.assertEqual(wfcheck.write(named, self.folder), self.folder / "ca.json")
        self.assertEqual((self.folder / "ca.json").read_text(), named.text)
        self.assertEqual(json.loads((self.folder / "ca.names.json").read_text()),
                         {"inputs": {"0": "no", "1": "yes"}, "values": {str(number): name for number, name in VALUES.items()}})
        self.assertEqual(wfcheck.read(self.folder / "ca.json"), named)
        wfcheck.write(wfcheck.Task("other", named.text), self.folder)
        self.assertEqual(sorted(it.name for it in self.folder.iterdir()), ["ca.json", "ca.names.json", "other.json"])
        self.assertEqual(wfcheck.read(self.folder / "other.json").names, names.Names())
        self.assertEqual(wfcheck.restrict(named, [0]).names, named.names)

    def test_names_that_are_none(self):
        calls = {
            "7 has a name, and is no value of the task": {"names": {7: "seven"}}, "2 has a name, and is no input of the task": {"input_names": {2: "two"}},
            "two values have one name": {"names": {0: "same", 1: "same"}}, "a name has 1 to 60 letters on one line": {"names": {0: "two\nlines"}},
            "'0' is none": {"names": {"0": "zero"}}, "are a dictionary by number": {"names": ["zero"]}, "is ' '": {"input_names": {0: " "}},
            f"is '{'long' * 16}'": {"names": {0: "long" * 16}},
        }
        for said, given in calls.items():
            with self.subTest(said), self.assertRaises(wfcheck.Mistake) as caught:
                commit_adopt(**given)
            self.assertIn(said, str(caught.exception))
        wfcheck.write(known("consensus-2"), self.folder)
        for text in ("", "[]", '{"value":{}}', '{"values":[]}', '{"values":{"00":"a"}}', '{"values":{"0":1}}', "[" * 100_000):
            (self.folder / "consensus-2.names.json").write_text(text)
            with self.subTest(text[:20]), self.assertRaises(wfcheck.NoFile):
                wfcheck.read(self.folder / "consensus-2.json")

    def test_words_of_the_program_by_names(self):
        """Each text that the rows expect of `explain`: numbers of values and inputs are named, and all other numbers stay."""
        called = names.names_of({0: "zero", 1: "one", 2: "two"}, {0: "left", 1: "right"})
        text = ("  3. v25 is not 0 to 2 or 13: in execution 1, {p1=0}{p2=1}, (v2, v25) would be (0, 12) or (2, 2), but v2 is not 2 [1]. So v25 is 1.\n"
                "    Case v10 = 1\n  v1 is not 2, 4 and 1 more: in execution 0, {#0=0 #1=1}, no tuple at (v1) has it.\n12 p1 saw {p1=1} decides 1\n"
                "In all: 2 steps over 2 executions of p0 and p1: 2 of one process.\n")
        self.assertEqual(names.told(text, called), (
            "  3. v25 is not zero to two or 13: in execution 1, {p1=left}{p2=right}, (v2, v25) would be (zero, 12) or (two, two), but v2 is not two [1]. "
            "So v25 is one.\n    Case v10 = one\n  v1 is not two, 4 and 1 more: in execution 0, {#0=left #1=right}, no tuple at (v1) has it.\n"
            "12 p1 saw {p1=right} decides one\nIn all: 2 steps over 2 executions of p0 and p1: 2 of one process.\n"))
        back = names.names_of({number: f"value{number}" for number in range(64)}, {number: f"input{number}" for number in range(64)})
        for row in sorted((ROOT / "tests/rows").glob("explain-*/stdout")):
            plain = row.read_text()
            told = names.told(plain, back)
            if plain.startswith(names.EVERY):
                # of several values the tuple stands in brackets
                told = re.sub(r"\((value[^)]*)\)", lambda it: it[1].replace(", ", " "), told)
                self.assertIn("input", told, row)
                self.assertEqual(told.replace("value", "").replace("input", ""), plain.replace("value", "").replace("input", ""), row)
                continue
            self.assertEqual(told.replace("value", "").replace("input", ""), plain.replace("value", "").replace("input", ""), row)
            self.assertEqual("value" in told and "input" in told, plain.startswith("No decision map after ") or "decides" in plain, row)

    def test_a_name_is_no_number_to_be_named(self):
        called = names.names_of({0: "v1 is 1", 1: "p0=0"}, {0: "Case v0 = 1"})
        self.assertEqual(names.told("0 p0 saw {p0=0} decides 1\n", called), "0 p0 saw {p0=Case v0 = 1} decides p0=0\n")
        self.assertEqual(words_of((0, ((0, 0), (1, 1))), "#", called), "#0 saw {#0=Case v0 = 1, #1=1}")

    def test_names_as_a_command(self):
        wfcheck.write(commit_adopt(), self.folder)
        text = "3 p1 saw {p0=0, p1=1} decides 2\n"
        for door in (["-m", "wfcheck", "names"], ["-c", DOOR.format("names")]):
            self.assertEqual(self.python(*door, "ca.json", given_text=text), (0, "3 p1 saw {p0=no, p1=yes} decides adopt yes\n"))
            status, said = self.python(*door, TASKS / "consensus-2.json", given_text=text)
            self.assertEqual((status, said.count("no names stand beside"), text in said), (0, 1, True))
            self.assertEqual(self.python(*door, "nowhere.json", given_text=text)[0], 2)
            status, said = self.python(*door, "ca.json", given_text="")
            self.assertEqual((status, said.partition(": ")[2]), (2, "an empty text: did the command before it fail?\n"))

    def test_an_answer_in_three_lines(self):
        """The `repr` of each answer, with the longest names: a line of a terminal has 80 letters."""
        task = wfcheck.Task("long\n" * 100, "{}", names.names_of({it: f"{it} {'w' * 56}" for it in range(60)}, {}))
        values = {(0, number): number % 60 for number in range(500_000)}
        for it in (wfcheck.Map(task, 8, values, (), ""), wfcheck.Refutation(task, 8, (wfcheck.Closed(1),) * 10**6, ""), wfcheck.Proof(task, 8, "x" * 10**7, True),
                   wfcheck.Map(wfcheck.Task("a", "{}"), 8, {}, (), "")):
            self.assertLessEqual(len(repr(it)), 240)
            self.assertNotIn("\n", repr(it))


@needs_program
class Named(Case):
    """What the program answers about a task with names."""

    def test_a_map(self):
        task = commit_adopt()
        found, plain = wfcheck.solve(task, 1), wfcheck.solve(known("commit-adopt-2"), 1)
        self.assertEqual(found.report, plain.report)
        self.assertEqual(repr(found), "<Map of <Task 'ca', 2 processes, 4 input facets, values adopt no, commit to no, adopt yes, commit to yes> after 1 round: 12 views, values adopt no, commit to no, adopt yes, commit to yes>")
        self.assertEqual(str(found).split("\n")[:2], ["p0 saw {p0=no} decides commit to no", "p0 saw {p0=yes} decides commit to yes"])
        self.assertEqual(str(plain).split("\n")[1], "p0 saw {p0=1} decides 3")
        self.assertIn("<td>p0 saw {p0=yes}</td><td>commit to yes</td>", found._repr_html_())
        self.assertIn("adopt yes", found._repr_svg_())
        told = wfcheck.explain(task, found)
        self.assertEqual([line.split(" ", 1)[1] for line in told.split("\n")[:-1]], str(found).split("\n"))
        self.assertEqual([wfcheck.tell(task, it) for it in wfcheck.points(task, 1)], [line.partition(" decides ")[0] for line in str(found).split("\n")])

    def test_a_refutation(self):
        task = commit_adopt()
        told = wfcheck.explain(task, wfcheck.solve(task, 0))
        self.assertIn("1. v0 is not adopt no, adopt yes or commit to yes: in execution 0, {p0=no}, no tuple at (v0) has it. So v0 is commit to no.", told)

    def test_an_obstruction(self):
        """In words, and as a page. A tuple of several values stands in brackets."""
        def agree(start, end):
            return len({*end.values()}) == 1 and {*end.values()} <= {*start.values()}
        task = wfcheck.task("lohi", 3, [("lo", "mid", "hi")], agree, values=["lo", "mid", "hi"])
        found = wfcheck.obstruction(task)
        told = wfcheck.explain(task, found)
        self.assertRegex(told, r"p\d decides (lo|mid|hi) as often on \{p\d=(lo|mid), p\d=(mid|hi)\} as on \{p")
        self.assertNotRegex(told, r"decides? \d|=\d")
        pair = wfcheck.task("pair", 3, [("lo", "mid", "hi")], lambda start, end: {*end.values()} <= {*start.values()} and len({*end.values()}) < 3,
                            values=["lo", "mid", "hi"])
        self.assertRegex(wfcheck.explain(pair, wfcheck.obstruction(pair)), r"decide \(\w+, \w+\)")
        wfcheck.write(task, self.folder)
        (self.folder / "never").write_text(found.text)
        status, said = self.python("-m", "wfcheck", "draw", "lohi.json", "never", "--html")
        self.assertEqual((status, "{p0=lo, p1=mid}, weight" in said), (0, True))
        status, said = self.python("-m", "wfcheck", "draw", "lohi.json", "--rounds", "1", "--input", "p0=lo,p1=mid, p2=hi")
        self.assertEqual((status, said[:5]), (0, "<svg "))
        self.assertEqual(self.python("-m", "wfcheck", "draw", "lohi.json", "--outputs", "--input", "p0=lo,p1=mid,p2=2")[0], 0)
        self.assertEqual(self.python("-m", "wfcheck", "draw", "lohi.json", "--rounds", "1", "--input", "p0=none"),
                         (2, "draw: --input: p0=none is no input: the inputs are lo, mid, hi\n"))

    def test_rules(self):
        """They tell inputs and values by their names."""
        task = wfcheck.task("safe", 2, [("lo", "hi"), ("lo", "lo"), ("hi", "hi")], lambda start, end: {*end.values()} <= {*start.values()}, values=["lo", "hi"])
        self.assertRegex(wfcheck.rules(wfcheck.solve(task, 0)), r"(?m)its input is lo: lo|knows the input lo: lo|its input is hi: hi")

    def test_a_legend_of_long_names_fits(self):
        long = {number: f"{number} {'w' * 56}" for number in range(4)}
        picture = wfcheck.solve(commit_adopt(names=long), 1)._repr_svg_()
        keys = [(float(x), text) for x, text in re.findall(r'<text class="key" x="([\d.]+)"[^>]*>([^<]*)<', picture)]
        self.assertEqual([text for _, text in keys][2:], [f"{number} {name}" for number, name in long.items()] + ["decided values"])
        wide = float(re.search(r'width="([\d.]+)"', picture)[1])
        self.assertEqual([text for x, text in keys if x + 6.5 * len(text) > wide - 24], [])

    def test_pictures(self):
        """A map, a refutation as a page, and outputs."""
        task = commit_adopt()
        wfcheck.write(task, self.folder)
        (self.folder / "map").write_text(wfcheck.solve(task, 1).report)
        (self.folder / "none").write_text(wfcheck.solve(task, 0).report)
        for words, wanted in [(["map"], ["p1 saw {p0=no, p1=yes} decides adopt no", ">2 adopt yes</text>", "p0 = yes"]),
                              (["none", "--html"], ["So v0 is commit to no.", "{p0=no p1=yes}"]),
                              (["--outputs"], ["p0 decides commit to yes", "{p0=no, p1=no}"]), (["--rounds", "1", "--html"], ["{p0=no, p1=yes}: 3 executions"])]:
            status, said = self.python("-m", "wfcheck", "draw", "ca.json", *words)
            self.assertEqual((status, [it for it in wanted if it not in said]), (0, []), words)
