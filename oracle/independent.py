#!/usr/bin/env python3
"""What further commands have to write, found from the definitions of second_opinion.py: the list of executions, lifted maps,
branches, and what a search of one branch writes, or of the whole.

    independent.py executions TASK ROUNDS     the text of `wfcheck executions`
    independent.py lift TASK REPORT ROUNDS    the text of `wfcheck lift --rounds ROUNDS` of a report of a map
    independent.py branches TASK ROUNDS       the text of `wfcheck branches`
    independent.py cnf TASK ROUNDS BRANCH     the text of `wfcheck cnf --branch BRANCH`
    independent.py solve TASK ROUNDS BRANCH FORM
                                              the part of `wfcheck solve --branch BRANCH`, FORM being full, verdict or least
    independent.py solve TASK ROUNDS all FORM the report of `wfcheck solve`, and what `wfcheck join` makes of the parts of all branches
    independent.py parts TASK ROUNDS FORM     the parts of all branches, or of the first up to one with a map

It shares nothing with the program, and is slow.
"""
import itertools
import operator
import signal
import sys

import formula
import reports
import second_opinion as opinion
import task_file

ENOUGH_BOXES, MOST_LEVELS = 64, 8


def walk(task, rounds):
    """The executions, in order: the processes, and the words round by round, with the views after each round, the first without any."""
    inputs = sorted({f for s in task["inputs"] for f in opinion.faces(opinion.simplex_of(s))}, key=lambda s: (len(s), s))
    for simplex in inputs:
        for words in itertools.product(opinion.words_of(task, simplex), repeat=rounds):
            views = [[(p, v) for p, v in simplex]]
            for word in words:
                views.append(opinion.seen_after(views[-1], word))
            yield [p for p, _ in simplex], words, views


def blocks(processes, word):
    """A word as its blocks in order, `{p1}{p0 p2}`."""
    parted = [[f"p{p}" for p, b in zip(processes, word) if b == block] for block in range(max(word) + 1)]
    return "".join("{" + " ".join(each) + "}" for each in parted)


def executions(task, rounds):
    """A line for each execution: its number, who goes in which block round by round, and its points."""
    made, lines = opinion.Complex(task, rounds), []
    for number, (processes, words, _) in enumerate(walk(task, rounds)):
        told = " ; ".join(blocks(processes, word) for word in words or [(0,) * len(processes)])
        lines.append(f"{number} {told} : {' '.join(map(str, made.executions[number][1]))}\n")
    return "".join(lines)


def lifted(task, before, values, rounds):
    """The values at the points after `rounds`, where each point decides what its own view after `before` rounds decides."""
    old, new = opinion.Complex(task, before), {}
    for _, _, views in walk(task, rounds):
        for last, own in zip(views[-1], views[before]):
            point = opinion.point_of(last, task["symmetric"])
            new.setdefault(point, values[old.numbers[opinion.point_of(own, task["symmetric"])]])
    return [*new.values()]


def lift(task, report, rounds):
    """The text of the report of a lifted map."""
    header, _, values, _ = reports.read(report)
    made = opinion.Complex(task, rounds)
    front = ["wfcheck report 1", f"processes {task['processes']}", f"rounds {rounds}", f"points {made.points}", f"executions {len(made.executions)}"]
    return "\n".join([*front, "answer map", *(f"m {it}" for it in lifted(task, header["rounds"], values, rounds)), "end\n"])


def alive(allowed, points, box):
    """The tuples of an execution that a box leaves."""
    candidates = [box[v] for v in points]
    return [t for t in allowed if all(map(operator.contains, candidates, t))]


def closed(made, box, changed=None):
    """The box without the values that have no support in some execution, again and again; None where a point has none left. A box that was
    closed until these points were changed loses no value in an execution without one of them."""
    box, changed = [set(c) for c in box], {*range(made.points)} if changed is None else changed
    while changed and all(box):
        before, changed = changed, set()
        for _, points, allowed in made.executions:
            if before.isdisjoint(points) and changed.isdisjoint(points):
                continue
            tuples = alive(allowed, points, box)
            for place, v in enumerate(points):
                left = box[v] & {t[place] for t in tuples}
                if left != box[v]:
                    box[v] = left
                    changed.add(v)
    return box if all(box) else None


def children(made, box):
    """The closed boxes in which the first open point has each of its values, and a box without an open point itself."""
    point = next((v for v, c in enumerate(box) if len(c) > 1), None)
    if point is None:
        return [box]
    parts = [closed(made, [{a} if v == point else c for v, c in enumerate(box)], {point}) for a in sorted(box[point])]
    return [it for it in parts if it]


def split(made):
    """The branches of a question."""
    root = closed(made, [made.values] * made.points)
    boxes = [root] if root else []
    for _ in range(MOST_LEVELS):
        if len(boxes) < ENOUGH_BOXES and any(len(c) > 1 for box in boxes for c in box):
            boxes = [it for box in boxes for it in children(made, box)]
    return boxes


def branches(task, rounds):
    """A line for each branch: its number, how many points are open, and how many candidates are left."""
    made = opinion.Complex(task, rounds)
    boxes = split(made)
    front = ["wfcheck branches 1", f"processes {task['processes']}", f"rounds {rounds}", f"points {made.points}",
             f"executions {len(made.executions)}", f"branches {len(boxes)}"]
    lines = [f"branch {i} {sum(len(c) > 1 for c in box)} {sum(map(len, box))}" for i, box in enumerate(boxes)]
    return "\n".join([*front, *lines, "end\n"])


def cnf(task, rounds, branch):
    """The formula of the whole question, and a clause for each value that the branch has not."""
    made = opinion.Complex(task, rounds)
    boxes, values = split(made), sorted(made.values)
    lines = formula.text(task, rounds).split("\n")
    at = lines.index(next(line for line in lines if line.startswith("p cnf")))
    without = [f"-{len(values) * v + i} 0" for v, c in enumerate(boxes[branch]) for i, a in enumerate(values, 1) if a not in c]
    words = lines[at].split()
    lines[at] = " ".join([*words[:3], str(int(words[3]) + len(without))])
    lines.insert(at - 2, f"c branch {branch} of {len(boxes)}")
    return "\n".join([*lines[:-1], *without, ""])


def lost(allowed, points, processes, box):
    """What an execution has lost in a box: by process and then by value, a value of a point named once."""
    tuples, named = alive(allowed, points, box), set()
    for place, (process, v) in enumerate(zip(processes, points)):
        for a in sorted(box[v] - {t[place] for t in tuples}):
            if (v, a) not in named:
                named.add((v, a))
                yield process, v, a


def close(made, box, lines, changed=None):
    """Writes the lines of closing a box, which was closed until these points were changed, if they are given. Answers what they leave:
    None where a point was emptied."""
    box, changed = [set(c) for c in box], {*range(made.points)} if changed is None else changed
    empty = next((v for v, c in enumerate(box) if not c), None)
    if empty is not None:
        lines.append(f"z {empty}")
        return None
    while changed:
        before, changed = changed, set()
        for e, (processes, points, allowed) in enumerate(made.executions):
            if before.isdisjoint(points) and changed.isdisjoint(points):
                continue
            for process, v, a in [*lost(allowed, points, processes, box)]:
                lines.append(f"p {e} {process} {a}")
                box[v].discard(a)
                changed.add(v)
                if not box[v]:
                    lines.append(f"z {v}")
                    return None
    return box


def search(made, box, lines, changed=None):
    """Writes the lines of the search of a box, which was closed until these points were changed. Answers its least map, or None."""
    left = close(made, box, lines, changed)
    if left is None:
        return None
    point = next((v for v, c in enumerate(left) if len(c) > 1), None)
    if point is None:
        lines.append("f")
        return [min(c) for c in left]
    lines.append(f"b {point}")
    found = (search(made, [{a} if v == point else c for v, c in enumerate(left)], lines, {point}) for a in sorted(left[point]))
    return next((it for it in found if it), None)


def report(task, rounds, made, box, form):
    """The report of a search of a box, and whether it has a map."""
    lines = []
    found = search(made, box, lines)
    front = ["wfcheck report 1", f"processes {task['processes']}", f"rounds {rounds}", f"points {made.points}", f"executions {len(made.executions)}"]
    if found is None:
        return "\n".join([*front, "answer none", *(lines if form != "verdict" else []), "end\n"]), False
    answer = "answer least" if form == "least" else "answer map"
    return "\n".join([*front, answer, *(f"m {it}" for it in found), *(lines if form == "least" else []), "end\n"]), True


def solve(task, rounds, branch, form):
    """What a search of one branch writes: which branch it is, and a report about it alone. Of the whole it is the report."""
    made = opinion.Complex(task, rounds)
    if branch is None:
        return report(task, rounds, made, [made.values] * made.points, form)[0]
    boxes = split(made)
    return part_head(branch, len(boxes)) + report(task, rounds, made, boxes[branch], form)[0]


def part_head(branch, count):
    return f"wfcheck part 1\nbranch {branch}\nbranches {count}\n"


def parts(task, rounds, form):
    """The parts of the branches in order, up to the first with a map."""
    made, found = opinion.Complex(task, rounds), []
    boxes = split(made)
    for branch, box in enumerate(boxes):
        text, has_map = report(task, rounds, made, box, form)
        found.append(part_head(branch, len(boxes)) + text)
        if has_map:
            break
    return "".join(found)


def task_in(file):
    with open(file, "rb") as it:
        return task_file.read(it.read())[0]


def report_in(file):
    with open(file, newline="") as it:
        return it.read()


def number(word):
    if not (word.isascii() and word.isdigit()):
        raise ValueError(f"{word!r} is no number")
    return int(word)


def one_or_all(word):
    return None if word == "all" else number(word)


def form_named(word):
    if word not in ("full", "verdict", "least"):
        raise ValueError(f"{word!r} is not full, verdict or least")
    return word


# by the first word: what is made of the words behind it, and what each of these is
MADE = {
    "executions": (executions, task_in, number), "lift": (lift, task_in, report_in, number),
    "branches": (branches, task_in, number), "cnf": (cnf, task_in, number, number),
    "solve": (solve, task_in, number, one_or_all, form_named), "parts": (parts, task_in, number, form_named),
}


def main():
    name, *words = sys.argv[1:] or [""]
    make, *kinds = MADE.get(name, [None])
    if not make or len(words) != len(kinds):
        sys.exit(__doc__)
    try:
        return make(*(kind(word) for kind, word in zip(kinds, words)))
    except task_file.Refused as refused:
        sys.exit(f"the task is refused, {refused.line}: {refused.words}")
    except (OSError, ValueError, reports.Unreadable) as fault:
        sys.exit(f"independent.py: {fault}")
    except IndexError:
        sys.exit("independent.py: there is no such branch, or the report has no map of this task and of no more rounds")


if __name__ == "__main__":
    signal.signal(signal.SIGPIPE, signal.SIG_DFL)
    sys.stdout.write(main())
