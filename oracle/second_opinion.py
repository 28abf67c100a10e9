#!/usr/bin/env python3
"""second_opinion.py TASK REPORT: whether the report about the task holds, straight from the definitions.

It shares nothing with the program: it is here to be read in ten minutes, and is slow. The task is read by task_file.py, and the report's
text by reports.py. It says `holds: map`, `holds: least` or `holds: none`, and ends with status 0. Or it says in words what is wrong, as
with a report of none that has no lines, or why it can't read the report, and ends with status 1. The status is 2 where a file can't be
opened or is empty, or the task is refused. Whether a map is the least one it looks at where the report has the lines for it.

The report may be an obstruction, which obstructions.py judges. Then it says `holds: none at every number of rounds`, or what is
wrong. It also gives random values to the points after 0, 1 and 2 rounds, and counts the executions as each balance says, if that
is to count at most 20,000."""
import argparse
import functools
import itertools
import os
import random
import signal
import sys

sys.dont_write_bytecode = True
import obstructions  # noqa: E402
import reports  # noqa: E402
import task_file  # noqa: E402


def faces(simplex):
    return [f for n in range(1, len(simplex) + 1) for f in itertools.combinations(simplex, n)]


def simplex_of(listed):
    return tuple((p, v) for p, v in listed)


def inputs_of(task):
    """The simplices of the input complex, by size and then as lists."""
    return sorted({f for s in task["inputs"] for f in faces(simplex_of(s))}, key=lambda s: (len(s), s))


@functools.cache
def words(n, first_block):
    """The ordered partitions of n participants, as block numbers with none left out, whose first block has so many, or all."""
    every = [w for w in itertools.product(range(n), repeat=n) if set(w) == set(range(max(w) + 1))]
    return [w for w in every if w.count(0) >= min(first_block, n)]


def words_of(task, simplex):
    """In version 1 any block may be first."""
    return words(len(simplex), task["first_block"] if task["version"] == 2 else 1)


def seen_after(views, word):
    """Each process sees the views of its own block and of the earlier ones."""
    return [(v[0], tuple(u for u, b in zip(views, word) if b <= word[i])) for i, v in enumerate(views)]


def processes_in(view):
    process, rest = view
    return {process} if isinstance(rest, int) else {process}.union(*map(processes_in, rest))


def ranked(view, order):
    process, rest = view
    return order[process], rest if isinstance(rest, int) else tuple(ranked(v, order) for v in rest)


def point_of(view, symmetric):
    return ranked(view, {p: i for i, p in enumerate(sorted(processes_in(view)))}) if symmetric else view


class Complex:
    """The points of a task after some rounds, by number; and its executions: for each the points at its processes, and what is
    allowed there; and for each its input simplex and its sign. The sign is 1 if participants times rounds less blocks is even."""

    def __init__(self, task, rounds):
        inputs = inputs_of(task)
        allowed = {simplex_of(e["in"]): {tuple(t) for t in e["out"]} for e in task["delta"]}
        self.numbers, self.executions, self.signed = {}, [], []
        point = functools.cache(lambda view: point_of(view, True)) if task["symmetric"] else lambda view: view
        for s in inputs:
            for round_words in itertools.product(words_of(task, s), repeat=rounds):
                views = [(p, v) for p, v in s]
                for word in round_words:
                    views = seen_after(views, word)
                points = [self.numbers.setdefault(point(v), len(self.numbers)) for v in views]
                self.executions.append(([p for p, _ in s], points, allowed[s]))
                self.signed.append((s, (-1) ** sum(len(s) - len(set(word)) for word in round_words)))
        self.points = len(self.numbers)
        self.values = {v for s in task["outputs"] for _, v in s}

    def wrong_map(self, values):
        if len(values) != self.points:
            return f"{len(values)} values for {self.points} points"
        for n, (_, points, allowed) in enumerate(self.executions):
            if tuple(values[v] for v in points) not in allowed:
                return f"execution {n} decides {[values[v] for v in points]}"
        return None

    def wrong_lines(self, lines, least=None):
        """Boxes that are still to be refuted, the next one last: each a set of candidates for every point, and the point at which it
        was branched last. With the values of a map the first box isn't refuted: the map stays in it, its branches above the map's
        are left out, and `f` ends it."""
        boxes = [(0, [set(self.values) for _ in range(self.points)])]
        for at, (kind, *numbers) in lines:
            if not boxes:
                return f"line {at}: all is said already"
            (before, box), has_map = boxes[-1], least is not None and len(boxes) == 1
            if kind == "p":
                e, process, value = numbers
                if e >= len(self.executions) or process not in self.executions[e][0]:
                    return f"line {at}: no such execution, or the process takes no part in it"
                processes, points, allowed = self.executions[e]
                place = processes.index(process)
                if any(t[place] == value and all(x in box[v] for x, v in zip(t, points)) for t in allowed):
                    return f"line {at}: the value can still be decided there"
                box[points[place]].discard(value)
            elif kind == "f":
                if not has_map or box != [{value} for value in least]:
                    return f"line {at}: the values that are left are not the map"
                boxes.pop()
            elif numbers[0] >= self.points:
                return f"line {at}: no such point"
            elif kind == "z":
                if box[numbers[0]]:
                    return f"line {at}: the point has values left"
                boxes.pop()
            elif kind == "b":
                point, candidates = numbers[0], sorted(box[numbers[0]])
                if len(candidates) < 2:
                    return f"line {at}: the point has fewer than two values left"
                if least is not None and any(len(c) > 1 for c in box[before:point]):
                    return f"line {at}: an earlier point has two values or more left"
                branches = [value for value in candidates if not has_map or value <= least[point]]
                boxes[-1:] = [(point, [set(c) for c in box]) for _ in branches[1:]] + [(point, box)]
                for (_, branch), value in zip(reversed(boxes), branches):
                    branch[point] = {value}
            else:
                return f"line {at}: there are no such lines"
        return f"{len(boxes)} cases are not closed" if boxes else None


MOST_ROUNDS, MOST_EXECUTIONS, MOST_COUNTED = 8, 500_000, 20_000


def executions_of(task, rounds):
    return sum(len(words_of(task, s)) ** rounds for s in inputs_of(task))


def wrong_count(task, balances):
    """Tries what balances say: whichever values the points have, the signed executions, each as often as its tuple counts in the sum of
    the equations, add up to the balance's sum. Where executions on two simplices decide alike, those on one are counted."""
    choose = random.Random(1)
    for rounds in range(3):
        if executions_of(task, rounds) * len(balances) > MOST_COUNTED:
            break
        made = Complex(task, rounds) if balances else None
        for it in balances:
            alike, values, counts = {it.hand.kin(simplex): simplex for simplex in it.hand.inputs}, it.hand.values(), functools.cache(it.count)
            signed = [(s, sign, points) for (s, sign), (_, points, _) in zip(made.signed, made.executions) if alike[it.hand.kin(s)] == s]
            for _ in range(5):
                at = [choose.choice(values) for _ in range(made.points)]
                count = sum(sign * counts(s, tuple(map(at.__getitem__, points))) for s, sign, points in signed) % it.modulus
                if count != it.sum:
                    return f"where the points after {rounds} rounds have the values {at}, the count is {count}, and not {it.sum}"
    return None


def judge(task, text):
    """The answer of a report, and what is wrong with it or None."""
    if obstructions.is_obstruction(text):
        try:
            return "none at every number of rounds", wrong_count(task, obstructions.judge(task, text))
        except obstructions.Refused as refused:
            return None, refused.words
    try:
        header, answer, values, steps = reports.read(text)
    except reports.Unreadable as fault:
        return None, f"it is no report: {fault}"
    rounds = header["rounds"]
    if rounds > MOST_ROUNDS:
        return None, f"there are more than {MOST_ROUNDS} rounds"
    if executions_of(task, rounds) > MOST_EXECUTIONS:
        return None, f"there are more than {MOST_EXECUTIONS:,} executions"
    made = Complex(task, rounds)
    right = {"processes": task["processes"], "points": made.points, "executions": len(made.executions)}
    for name, it in right.items():
        if header[name] != it:
            return None, f"{name} should be {it}"
    if answer == "none":
        return answer, made.wrong_lines(steps) if steps else "it has no lines that show it, as --verdict leaves them out"
    return answer, made.wrong_map(values) or (made.wrong_lines(steps, values) if answer == "least" else None)


def given(name, about):
    """The task and the report's text that a script of this name is asked about. Where they can't be read, that is the end, with status 2."""
    words = argparse.ArgumentParser(
        description=about, formatter_class=argparse.RawDescriptionHelpFormatter, usage=f"{name} TASK REPORT")
    words.add_argument("task")
    words.add_argument("report")
    asked = words.parse_args()
    try:
        with open(asked.task, "rb") as task_text, open(asked.report, "rb") as report_file:
            task, text = task_file.read(task_text.read(task_file.LONGEST + 1))[0], report_file.read(reports.LONGEST + 1).decode("ascii", "replace")
        if text:
            return task, text
        print(f"{name}: {asked.report} is empty: did the command fail that was to write it?", file=sys.stderr)
    except OSError as error:
        print(f"{name}: {error}", file=sys.stderr)
    except task_file.Refused as refused:
        print(f"the task is refused, {refused.line}: {refused.words}", file=sys.stderr)
    sys.exit(2)


def main():
    answer, wrong = judge(*given(os.path.basename(sys.argv[0]), __doc__))
    if wrong:
        sys.exit(f"does not hold: {wrong}")
    print(f"holds: {answer}")


if __name__ == "__main__":
    signal.signal(signal.SIGPIPE, signal.SIG_DFL)
    main()
