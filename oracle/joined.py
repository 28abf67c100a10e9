#!/usr/bin/env python3
"""joined.py TASK ROUNDS < PARTS: what is made of the parts of a question's branches, straight from docs/FORMAT.md.

What `wfcheck join` answers, byte for byte, and slowly: it shares nothing with the program, and is here to be read. The branches and the
lines that cut a question into them are those of independent.py. A part is judged line by line as plain.py judges a report, about the
box of its branch, and so is the whole report that comes of them. The status is 0 if there is one, else 2."""
import argparse
import pathlib
import sys

import independent
import plain
import refusals
import second_opinion
import task_file

END = b"\nend\n"


class Hole:
    """A branch in the lines that cut a question, where those of its part belong."""


def cut(made, box, levels, lines, changed=None):
    """Writes the lines that cut a box into branches, so many levels deep, with a hole for each branch. The box was closed until these
    points were changed, if they are given."""
    left = independent.close(made, box, lines, changed)
    point = next((v for v, c in enumerate(left or []) if len(c) > 1), None)
    if left is None:
        return
    if not levels or point is None:
        lines.append(Hole)
        return
    lines.append(f"b {point}")
    for a in sorted(left[point]):
        cut(made, [{a} if v == point else c for v, c in enumerate(left)], levels - 1, lines, {point})


def levels(made):
    """How many times a question's boxes are replaced until they are its branches."""
    boxes, count = [it for it in [independent.closed(made, [made.values] * made.points)] if it], 0
    while boxes and len(boxes) < independent.ENOUGH_BOXES and count < independent.MOST_LEVELS:
        boxes, count = [it for box in boxes for it in independent.children(made, box)], count + 1
    return count


def split_text(text):
    """The part at the front of a text, up to its first line `end`, and what stands behind it."""
    at = text.find(END)
    return (text, b"") if at < 0 else (text[:at + len(END)], text[at + len(END):])


def body_of(made, front, box, text):
    """The answer of a part's report about a box, the values of its map, and its lines."""
    header, answer, body = plain.read(text)
    for at, (found, wanted) in enumerate(zip(header, front), 2):
        if found != wanted:
            raise plain.Refused(f"21 Header {at}")
    values = [numbers[0] for _, letter, numbers in body if letter == "m"]
    lines = [it for it in body if it[1] != "m"]
    if answer != "none":
        plain.check_map(made, values)
    if answer != "map":
        plain.check_lines(made, lines, values if answer == "least" else None, box)
    if answer == "map" and any(value not in c for value, c in zip(values, box)):
        raise plain.Refused("46 NotInBranch")
    return answer, values, [" ".join([letter, *map(str, numbers)]) for _, letter, numbers in lines]


def part_of(made, front, boxes, branch, text):
    """What a part about a branch says: its answer, the values of its map, and its lines."""
    head = independent.part_head(branch, len(boxes)).encode()
    if not text.startswith(head):
        raise plain.Refused("45 OtherPart")
    return body_of(made, front, boxes[branch], text[len(head):])


def gathered(made, front, text):
    """What the parts of a text say up to the first with a map: the answer, its values, and the lines branch by branch."""
    boxes, lists = independent.split(made), []
    for branch in range(len(boxes)):
        part, text = split_text(text)
        try:
            answer, values, lines = part_of(made, front, boxes, branch, part)
        except plain.Refused as refused:
            raise plain.Refused(f"47 NoPart {branch}" if str(refused) == "45 OtherPart" else f"48 InPart {branch}: {refused}")
        lists.append(lines)
        if answer != "none":
            return answer, values, lists
    if text:
        raise plain.Refused(f"49 TooManyParts {len(boxes)}")
    return "none", [], lists


def filled(lines, lists):
    """The lines that cut a question with those of the branches in their holes, up to the last branch that has some."""
    found, left = [], iter(lists)
    for it in lines:
        inside = [it] if it is not Hole else next(left, None)
        if inside is None:
            return found
        found += inside
    return found


def accepted(task, rounds, branch, text):
    """What `wfcheck verify --rounds --branch` answers to a text."""
    made = second_opinion.Complex(task, rounds)
    boxes = independent.split(made)
    answer, _, _ = part_of(made, [task["processes"], rounds, made.points, len(made.executions)], boxes, branch, text)
    return f"accepted {answer} in branch {branch} of {len(boxes)} {plain.at_rounds(rounds)}\n"


def report(task, rounds, text):
    """The report of the whole question that is made of the parts in a text."""
    if rounds > plain.MOST_ROUNDS:
        raise plain.Refused("16 Rounds")
    if second_opinion.executions_of(task, rounds) > plain.MOST_EXECUTIONS:
        raise plain.Refused("17 TooManyExecutions")
    made = second_opinion.Complex(task, rounds)
    front = [task["processes"], rounds, made.points, len(made.executions)]
    answer, values, lists = gathered(made, front, text)
    lines = []
    cut(made, [made.values] * made.points, levels(made), lines)
    # behind the part with the map nothing of the cut is needed
    steps = [] if answer == "map" else filled(lines, lists)
    if answer == "least":
        steps = steps[:steps.index("f") + 1]
    head = [plain.FIRST, *(f"{name} {it}" for name, it in zip(plain.NAMES, front)), f"answer {answer}"]
    whole = "\n".join([*head, *(f"m {it}" for it in values), *steps, "end\n"])
    plain.accepted(task, whole.encode(), rounds)
    return whole


def main():
    script = argparse.ArgumentParser(prog="joined.py", description=__doc__, formatter_class=argparse.RawDescriptionHelpFormatter)
    script.add_argument("task", type=pathlib.Path, metavar="TASK")
    script.add_argument("rounds", type=int, metavar="ROUNDS")
    asked = script.parse_args()
    try:
        task = asked.task.read_bytes()
    except OSError as error:
        script.error(str(error))
    try:
        sys.stdout.write(report(task_file.read(task)[0], asked.rounds, sys.stdin.buffer.read()))
    except (plain.Refused, task_file.Refused) as refused:
        sys.stderr.write(refusals.told(str(getattr(refused, "line", refused)), is_filed=True))
        return 2
    return 0


if __name__ == "__main__":
    sys.exit(main())
