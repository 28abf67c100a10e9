"""The text of a report, read by docs/FORMAT.md alone, and strictly: what `wfcheck verify` refuses as `20 Syntax` is unreadable here.

A report is lines of words with one space between them, each line with one line feed behind it. So a carriage return, a second space,
a sign, or a zero before another digit is in no report, and nothing comes after `end`."""
import collections
import itertools

LONGEST = 16_777_216
MOST = {"number": 2**32 - 1, "process": 3, "value": 255}
HEADER = ["processes", "rounds", "points", "executions"]
VALUES, STEPS = {"m": ["value"]}, {"p": ["number", "process", "value"], "z": ["number"], "b": ["number"]}
# by the answer, the lines of its map and the lines behind them: each letter with the kinds of its numbers
BODIES = {"map": (VALUES, {}), "none": ({}, STEPS), "least": (VALUES, {**STEPS, "f": []})}

# The header's numbers by their names, the answer, the values of a map, and the lines behind them, each with its number.
Report = collections.namedtuple("Report", "header answer values steps")


class Unreadable(Exception):
    """Why a text is no report, in words."""


def number(word, kind, at):
    """A decimal number without sign and without a zero before another digit."""
    if not word.isascii() or not word.isdigit() or str(int(word[:10])) != word or int(word) > MOST[kind]:
        shown = word if len(word) <= 20 else word[:20] + ".."
        raise Unreadable(f"line {at}: {shown!r} is no number that may stand there")
    return int(word)


def numbers(line, name, kinds, at):
    """The numbers of a line with this word before them."""
    word, *rest = line.split(" ")
    if word != name or len(rest) != len(kinds):
        raise Unreadable(f"line {at}: it is not `{' '.join([name, *kinds])}`")
    return [number(it, kind, at) for it, kind in zip(rest, kinds)]


def read(text):
    """The report that a text is."""
    if len(text) > LONGEST:
        raise Unreadable(f"it has more than {LONGEST:,} bytes")
    *lines, last = text.split("\n")
    if lines and lines[0].endswith("\r"):
        raise Unreadable("line 1: it ends in a carriage return, as an editor may have put there: `tr -d '\\r'` takes them out")
    if lines[:1] != ["wfcheck report 1"]:
        raise Unreadable("line 1: it is not `wfcheck report 1` and a line feed")
    if last or len(lines) < len(HEADER) + 3 or lines[-1] != "end":
        raise Unreadable("it does not end with a line `end` and a line feed")
    header = {name: numbers(lines[at], name, ["number"], at + 1)[0] for at, name in enumerate(HEADER, 1)}
    at = len(HEADER) + 1
    answer = lines[at].removeprefix("answer ")
    if answer not in BODIES or lines[at] != f"answer {answer}":
        raise Unreadable(f"line {at + 1}: it is not `answer map`, `answer none` or `answer least`")
    first, later = BODIES[answer]
    body = list(enumerate(lines[at + 1:-1], at + 2))
    front = [*itertools.takewhile(lambda it: it[1].split(" ")[0] in first, body)]
    values = [numbers(line, "m", first["m"], at)[0] for at, line in front]
    return Report(header, answer, values, [step(line, later, at) for at, line in body[len(front):]])


def step(line, later, at):
    """A line behind the map, with its number: its letter, and what stands behind that."""
    kind = line.split(" ")[0]
    if kind not in later:
        raise Unreadable(f"line {at}: no such line may stand there")
    return at, (kind, *numbers(line, kind, later[kind], at))
