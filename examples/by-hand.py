"""The lines that one would write first: by-hand.py TASK.json ROUNDS asks a SAT solver on the path whether there is a decision map. They know
no symmetric task and no first block. docs/WHY.md says when they are enough."""
import collections
import itertools
import json
import shutil
import subprocess
import sys
import tempfile


def words(n):
    return [it for it in itertools.product(range(n), repeat=n) if {*it} == {*range(max(it) + 1)}]


def ends(start, rounds):
    """The views in which each execution ends of those that begin so."""
    found = [tuple((p, value) for p, value in start)]
    for _ in range(rounds):
        found = [tuple((p, tuple(view for view, block in zip(views, word) if block <= mine)) for (p, _), mine in zip(start, word))
                 for views in found for word in words(len(start))]
    return found


task, rounds = json.load(open(sys.argv[1])), int(sys.argv[2])
variables, clauses, at = {}, [], collections.defaultdict(set)
for entry in task["delta"]:
    for views in ends(entry["in"], rounds):
        choices = [variables.setdefault((views, *out), len(variables) + 1) for out in entry["out"]]
        clauses.append(choices)
        for choice, out in zip(choices, entry["out"]):
            for view, value in zip(views, out):
                at[view].add(variables.setdefault((view, value), len(variables) + 1))
                clauses.append([-choice, variables[view, value]])
clauses += [[-one, -other] for those in at.values() for one, other in itertools.combinations(those, 2)]
with tempfile.NamedTemporaryFile("w", suffix=".cnf") as file:
    print("p cnf", len(variables), len(clauses), *(f"\n{' '.join(map(str, it))} 0" for it in clauses), file=file, flush=True)
    solver = next(it for it in ("cadical", "kissat", "minisat", "picosat") if shutil.which(it))
    print({10: "map", 20: "none"}[subprocess.run([solver, file.name], stdout=subprocess.DEVNULL).returncode])
