#!/usr/bin/env python3
"""plain.py TASK [--rounds R] < REPORT: what is said of a report about a task, straight from docs/FORMAT.md.

What `wfcheck verify` answers, byte for byte, and slowly: it shares nothing with the program, and is here to be read. A line is cut
at its spaces. A box is a set of values for each point, each box that is left is copied, and each tuple is tried for each value. The
task is read by task_file.py, and its executions and points are those of second_opinion.py. An obstruction is judged by
obstructions.py. Its status is 0 where the report is accepted, else 2."""
import argparse
import itertools
import pathlib
import signal
import sys

import obstructions
import refusals
import second_opinion
import task_file

LONGEST, MOST_ROUNDS, MOST_EXECUTIONS = 16_777_216, 8, 500_000
NUMBER, PROCESS, VALUE = 2**32 - 1, 3, 255
FIRST, NAMES, ANSWERS = "wfcheck report 1", ["processes", "rounds", "points", "executions"], ["map", "none", "least"]
# each letter of a body, and the most that each of its numbers may be
LETTERS = {"m": [VALUE], "p": [NUMBER, PROCESS, VALUE], "z": [NUMBER], "b": [NUMBER], "f": []}


class Refused(Exception):
    """A report that is not accepted, with the line that says so."""


def numbers_of(words, most):
    """The numbers that words spell, if each is written as a number is, and none is above its most; else None."""
    is_written = len(words) == len(most) and all(it.isascii() and it.isdigit() and str(int(it[:10])) == it for it in words)
    numbers = [int(it) for it in words] if is_written else []
    return numbers if is_written and all(it <= limit for it, limit in zip(numbers, most)) else None


def header_of(lines):
    """The numbers of lines 2 to 5 and the answer of line 6, where line 1 is right."""
    if lines[:1] != [FIRST]:
        raise Refused("20 Syntax 1")
    header = []
    for at, name in enumerate(NAMES, 2):
        word, *rest = lines[at - 1].split(" ") if len(lines) >= at else [""]
        numbers = numbers_of(rest, [NUMBER])
        if word != name or not numbers:
            raise Refused(f"20 Syntax {at}")
        header += numbers
    answer = next((it for it in ANSWERS if lines[5:6] == [f"answer {it}"]), None)
    if not answer:
        raise Refused("20 Syntax 6")
    return header, answer


def may_follow(answer, before, letter):
    """Whether a line of this letter may stand behind these in a body of this answer."""
    if letter == "m":
        return answer == "map" or answer == "least" and all(it == "m" for _, it, _ in before[-1:])
    return answer == "least" or answer == "none" and letter != "f"


def read(text):
    """The header's numbers, the answer, and the lines of the body, each with its number and its letter."""
    if len(text) > LONGEST:
        raise Refused("1 TooLong")
    # what stands behind the last line feed is no line
    *lines, rest = text.decode("latin-1").split("\n")
    header, answer = header_of(lines)
    body = []
    for at in itertools.count(7):
        line = lines[at - 1] if len(lines) >= at else ""
        if line == "end":
            if len(lines) > at or rest:
                raise Refused(f"20 Syntax {at + 1}")
            return header, answer, body
        letter, *words = line.split(" ")
        numbers = numbers_of(words, LETTERS.get(letter, [])) if letter in LETTERS else None
        if numbers is None or not may_follow(answer, body, letter):
            raise Refused(f"20 Syntax {at}")
        body.append((at, letter, numbers))


def check_map(made, values):
    """Judges a map: its length, and then execution by execution."""
    if len(values) != made.points:
        raise Refused("22 MapLength")
    for number, (_, points, allowed) in enumerate(made.executions):
        if tuple(values[point] for point in points) not in allowed:
            raise Refused(f"23 Violates {number}")


def after(made, box, at, letter, numbers):
    """The boxes that are left of a box behind a line about it, the first one last."""
    if letter == "f":
        raise Refused(f"35 NotTheMap {at}")
    if letter == "p":
        execution, process, value = numbers
        if execution >= len(made.executions) or process not in made.executions[execution][0]:
            raise Refused(f"24 NoSuch {at}")
        processes, points, allowed = made.executions[execution]
        place = processes.index(process)
        if any(it[place] == value and all(a in box[v] for a, v in zip(it, points)) for it in allowed):
            raise Refused(f"25 Unsound {at}")
        return [[c - {value} if v == points[place] else set(c) for v, c in enumerate(box)]]
    point = numbers[0]
    if point >= made.points:
        raise Refused(f"24 NoSuch {at}")
    if letter == "z":
        if box[point]:
            raise Refused(f"26 NotEmpty {at}")
        return []
    if len(box[point]) < 2:
        raise Refused(f"27 NotOpen {at}")
    return [[{value} if v == point else set(c) for v, c in enumerate(box)] for value in sorted(box[point], reverse=True)]


def check_lines(made, lines, least=None, first=None):
    """Judges the lines of a refutation of the first box, which has all values if it isn't given; with a map's values those up to it, by
    which it is the least one. The boxes that are left stand with the first one last. Those behind the map's are not looked at."""
    boxes, is_found = [[set(c) for c in first or [made.values] * made.points]], False
    for at, letter, numbers in lines:
        if is_found or not boxes:
            raise Refused(f"29 Trailing {at}")
        box = boxes.pop()
        if letter == "f" and box == [{value} for value in least]:
            is_found = True
            continue
        boxes += after(made, box, at, letter, numbers)
        if least is not None and letter == "b" and any(len(c) > 1 for c in box[:numbers[0]]):
            raise Refused(f"34 NotFirst {at}")
    if not is_found and (boxes or least is not None):
        raise Refused("28 Unfinished")


def at_rounds(rounds):
    return f"at {rounds} round{'s' if rounds != 1 else ''}"


def accepted(task, text, rounds=None):
    """What is answered about a report that is accepted; with rounds, those that it has to be about. An obstruction is about all."""
    said = text.decode("latin-1")
    if obstructions.is_obstruction(said):
        try:
            obstructions.judge(task, said)
        except obstructions.Refused as refused:
            raise Refused(refused.line)
        return f"accepted none {'at every number of rounds' if rounds is None else at_rounds(rounds)}"
    header, answer, body = read(text)
    if rounds not in (None, header[1]):
        raise Refused("36 OtherRounds")
    if header[1] > MOST_ROUNDS:
        raise Refused("16 Rounds")
    many = sum(len(second_opinion.words_of(task, it)) ** header[1] for it in second_opinion.inputs_of(task))
    if many > MOST_EXECUTIONS:
        raise Refused("17 TooManyExecutions")
    made = second_opinion.Complex(task, header[1])
    right = [task["processes"], header[1], made.points, many]
    for at, (found, wanted) in enumerate(zip(header, right), 2):
        if found != wanted:
            raise Refused(f"21 Header {at}")
    values = [numbers[0] for _, letter, numbers in body if letter == "m"]
    if answer != "none":
        check_map(made, values)
    if answer != "map":
        check_lines(made, [it for it in body if it[1] != "m"], values if answer == "least" else None)
    return f"accepted {answer}" if rounds is None else f"accepted {answer} {at_rounds(rounds)}"


def judged(task, text, rounds=None):
    """What `verify` writes, what it tells, and its status, of the bytes of a task's file and of a report."""
    try:
        return f"{accepted(task_file.read(task)[0], text, rounds)}\n".encode(), b"", 0
    except task_file.Refused as refused:
        line = refused.line
    except Refused as refused:
        line = str(refused)
    return b"", refusals.told(line, is_filed=True).encode(), 2


def main():
    script = argparse.ArgumentParser(prog="plain.py", description=__doc__, formatter_class=argparse.RawDescriptionHelpFormatter)
    script.add_argument("task", type=pathlib.Path, metavar="TASK")
    script.add_argument("--rounds", type=int, metavar="R", help="the rounds that the report has to be about")
    asked = script.parse_args()
    try:
        task = asked.task.read_bytes()
    except OSError as error:
        script.error(str(error))
    written, told, status = judged(task, sys.stdin.buffer.read(), asked.rounds)
    sys.stdout.write(written.decode())
    sys.stderr.write(told.decode())
    return status


if __name__ == "__main__":
    signal.signal(signal.SIGPIPE, signal.SIG_DFL)
    sys.exit(main())
