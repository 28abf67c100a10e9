#!/usr/bin/env python3
"""model.py TASK ROUNDS < OUTPUT: the map in what a SAT solver says of the question of a task, straight from docs/FORMAT.md.

What `wfcheck model` answers, byte for byte: the report of the map, or the line of a refusal. It shares nothing with the program. Its
status is 0 where there is a report, else 2."""
import argparse
import json
import pathlib
import re
import signal
import sys

import second_opinion

SKIPPED = (b"c", b"s", b"SAT", b"UNSAT", b"INDET")
LITERAL = re.compile(rb"-?[1-9][0-9]*")


class Refused(Exception):
    """A text without a model, or a model that is no decision map, with the line that says so."""


def words_of(text):
    """The words that are to be literals, each with the number of its line."""
    for number, line in enumerate(text.split(b"\n"), 1):
        words = [word for word in re.split(rb"[ \t\r]", line) if word]
        if words and words[0] not in SKIPPED:
            yield from ((number, word) for word in words[words[0] == b"v":])


def true_variables(text, variables):
    """The variables that stand without a minus."""
    true, found, last = set(), 0, text.count(b"\n") + 1
    for number, word in words_of(text):
        if word == b"0":
            last = number
            break
        if not LITERAL.fullmatch(word):
            raise Refused(f"38 NotALiteral {number}")
        digits = word.lstrip(b"-")
        if len(digits) > 10 or int(digits) > variables:
            raise Refused(f"39 NoSuchVariable {number}")
        found += 1
        if word == digits:
            true.add(int(digits))
    if not found:
        raise Refused(f"37 NoModel {last}")
    return true


def report(task, made, rounds, text):
    """The report of the map in a solver's text, about a task and its complex after some rounds."""
    values = sorted(made.values)
    true = true_variables(text, made.points * len(values))
    chosen = [[a for i, a in enumerate(values, 1) if len(values) * point + i in true] for point in range(made.points)]
    decided = [min(those, default=0) for those in chosen]
    for number, (_, points, allowed) in enumerate(made.executions):
        if tuple(decided[point] for point in points) not in {tuple(one) for one in allowed}:
            raise Refused(f"23 Violates {number}")
    head = f"wfcheck report 1\nprocesses {task['processes']}\nrounds {rounds}\npoints {made.points}\nexecutions {len(made.executions)}\nanswer map\n"
    return head + "".join(f"m {value}\n" for value in decided) + "end\n"


def main():
    script = argparse.ArgumentParser(prog="model.py", description=__doc__, formatter_class=argparse.RawDescriptionHelpFormatter)
    script.add_argument("task", type=pathlib.Path, metavar="TASK")
    script.add_argument("rounds", type=int, metavar="ROUNDS")
    asked = script.parse_args()
    try:
        task, rounds = json.loads(asked.task.read_text()), asked.rounds
    except (OSError, ValueError) as error:
        script.error(f"{asked.task} is no task that can be read: {error}")
    try:
        print(report(task, second_opinion.Complex(task, rounds), rounds, sys.stdin.buffer.read()), end="")
    except Refused as refused:
        print(f"wfcheck: {refused}", file=sys.stderr)
        return 2
    return 0


if __name__ == "__main__":
    signal.signal(signal.SIGPIPE, signal.SIG_DFL)
    sys.exit(main())
