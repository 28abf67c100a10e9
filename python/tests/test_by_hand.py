"""examples/by-hand.py, which docs/WHY.md speaks of: its answers, and what likely slips make of it. The solver is a small one of this file."""
import os
import re
import sys

from .support import ROOT, TASKS, Case

SCRIPT, PAGE = ROOT / "examples/by-hand.py", ROOT / "docs/WHY.md"
# the questions at which it is right, and one of a symmetric task at which it is wrong
ANSWERS = {
    ("consensus-2", 1): "none", ("consensus-2", 2): "none", ("approximate-2-by-3", 0): "none", ("approximate-2-by-3", 1): "map",
    ("simplex-agreement-2-level-2", 1): "none", ("simplex-agreement-2-level-2", 2): "map", ("set-agreement-3-3", 0): "map", ("commit-adopt-2", 0): "none",
    ("commit-adopt-2", 1): "map", ("renaming-2-names-2", 1): "map",
}
# DPLL over a DIMACS file, for formulas of some hundred variables
SOLVER = """#!{python}
import sys
sys.setrecursionlimit(10_000)
lines = open(sys.argv[1]).read().split("\\n")[1:]
clauses = [[int(it) for it in line.split()[:-1]] for line in lines if line]

def holds(clauses):
    while True:
        if [] in clauses:
            return False
        unit = next((it[0] for it in clauses if len(it) == 1), None)
        if unit is None:
            break
        clauses = [[x for x in it if x != -unit] for it in clauses if unit not in it]
    if not clauses:
        return True
    literal = min(clauses, key=len)[0]
    return holds(clauses + [[literal]]) or holds(clauses + [[-literal]])

sys.exit(10 if holds(clauses) else 20)
"""


class ByHand(Case):
    """Runs of the script with a solver of the name `cadical`."""

    def setUp(self):
        super().setUp()
        (self.folder / "cadical").write_text(SOLVER.format(python=sys.executable))
        (self.folder / "cadical").chmod(0o755)

    def said(self, script, task, rounds):
        """What a script says of a question."""
        status, told = self.python(script, TASKS / f"{task}.json", rounds, PATH=f"{self.folder}:{os.environ['PATH']}")
        self.assertEqual(status, 0, told)
        return told.rstrip()

    def test_its_answers(self):
        for (task, rounds), answer in ANSWERS.items():
            with self.subTest(task=task, rounds=rounds):
                self.assertEqual(self.said(SCRIPT, task, rounds), answer)

    def test_it_is_short(self):
        self.assertLessEqual(SCRIPT.read_text().count("\n"), 40)

    def test_the_slips_of_the_page(self):
        """Each row of the page's table of slips: one line of the script is changed, and it says what the row says."""
        rows = re.findall(r"^\| (.*?) \| `(.*?)` becomes `(.*?)` \| (\S+) after (\d) .*?\| (map|none) \| .* \|$", PAGE.read_text(), re.M)
        self.assertEqual(len(rows), 4)
        for slip, line, other, task, rounds, answer in rows:
            with self.subTest(slip):
                text = SCRIPT.read_text()
                self.assertEqual(text.count(line), 1)
                (self.folder / "slip.py").write_text(text.replace(line, other))
                self.assertEqual(self.said(self.folder / "slip.py", task, rounds), answer)
