#!/usr/bin/env python3
"""formula.py TASK ROUNDS: the question of a task as a formula in DIMACS, straight from the definitions.

What `wfcheck cnf` writes, byte for byte, and slowly: it shares nothing with the program, and is here to be read. A variable says
that a point has a value. There is a clause for each point: it has one of the values. And in each execution there is one for each
minimal forbidden pattern: values at some of its places that no allowed tuple has together, and each choice of fewer of them some
tuple has."""
import argparse
import itertools
import signal
import sys

sys.dont_write_bytecode = True
import second_opinion  # noqa: E402
import task_file  # noqa: E402


def patterns(size, values, allowed):
    """The minimal forbidden patterns of the tuples: by how many places, then by the places, then by the values."""
    had = {places: {tuple(t[p] for p in places) for t in allowed}
           for n in range(size + 1) for places in itertools.combinations(range(size), n)}
    for places in sorted(had, key=lambda it: (len(it), it)):
        for chosen in itertools.product(values, repeat=len(places)):
            fewer = ((places[:i] + places[i + 1:], chosen[:i] + chosen[i + 1:]) for i in range(len(places)))
            if chosen not in had[places] and all(rest in had[left] for left, rest in fewer):
                yield list(zip(places, chosen))


def text(task, rounds):
    """The whole text, with the comments that say which variable says what."""
    made = second_opinion.Complex(task, rounds)
    values = sorted(made.values)
    variable = {(v, a): len(values) * v + i for v in range(made.points) for i, a in enumerate(values, 1)}
    clauses = [[variable[v, a] for a in values] for v in range(made.points)]
    rules = {}
    for processes, points, allowed in made.executions:
        if id(allowed) not in rules:
            rules[id(allowed)] = list(patterns(len(processes), values, allowed))
        clauses += [[-variable[points[p], a] for p, a in pattern] for pattern in rules[id(allowed)]]
    comments = [
        "wfcheck formula 1", f"processes {task['processes']}", f"rounds {rounds}", f"points {made.points}",
        f"executions {len(made.executions)}", " ".join(["values", *map(str, values)]),
        f"variable {len(values)} * point + place of the value",
    ]
    lines = [*(f"c {it}" for it in comments), f"p cnf {len(variable)} {len(clauses)}"]
    return "".join(f"{it}\n" for it in [*lines, *(" ".join(map(str, [*clause, 0])) for clause in clauses)])


def main():
    words = argparse.ArgumentParser(
        description=__doc__, formatter_class=argparse.RawDescriptionHelpFormatter, usage="formula.py TASK ROUNDS")
    words.add_argument("task")
    words.add_argument("rounds", type=int, choices=range(second_opinion.MOST_ROUNDS + 1), metavar="ROUNDS")
    asked = words.parse_args()
    try:
        with open(asked.task, "rb") as file:
            sys.stdout.write(text(task_file.read(file.read())[0], asked.rounds))
    except OSError as error:
        words.error(str(error))
    except task_file.Refused as refused:
        words.error(f"the task is refused, {refused.line}: {refused.words}")


if __name__ == "__main__":
    signal.signal(signal.SIGPIPE, signal.SIG_DFL)
    main()
