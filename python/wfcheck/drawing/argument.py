"""The argument that `wfcheck explain` writes of a refutation, as steps: what each takes, where, and which steps it cites."""
import re
from typing import Dict, List, NamedTuple, Optional, Sequence, Tuple, Union

from ..views import Unreadable

CASE = re.compile(r" *Case v(\d+) = (\d+)", re.A)
EMPTY = re.compile(r" *v(\d+) has no value left\.", re.A)
LEFT = re.compile(r" So v\d+ is ([^.]*)\.$", re.A)
CITED = re.compile(r"\[(\d+)\]", re.A)
MOST_SHOWN = 5
REASON = re.compile(r"\bv(\d+)\b", re.A)


class Step(NamedTuple):
    """A step: its number and its text, the point that it is about, what is left there if that is told, the execution that shows it or
    None, the points that it names, the steps that it cites, and the number of its case."""
    number: int
    text: str
    point: int
    left: Optional[str]
    execution: Optional[int]
    points: Tuple[int, ...]
    cites: Tuple[int, ...]
    case: int


class Case(NamedTuple):
    """A case: the case in which it lies, or -1 for the whole, and what it supposes, or None."""
    outer: int
    point: Optional[int]
    value: Optional[int]
    depth: int


class Line(NamedTuple):
    """A line of the argument that is no step: its text, its case, and the point that has no value left, or None."""
    text: str
    case: int
    empty: Optional[int]


Item = Union[Step, Line]


class Argument(NamedTuple):
    """An argument: its title, its steps and other lines in their order, and its cases."""
    title: str
    items: List[Item]
    cases: List[Case]

    def steps(self) -> List[Step]:
        """The steps alone."""
        return [it for it in self.items if isinstance(it, Step)]

    def emptied(self) -> List[int]:
        """The points that have no value left where a case ends."""
        return sorted({it.empty for it in self.items if isinstance(it, Line) and it.empty is not None})


def argument_of(text: str) -> Argument:
    """The argument that a text is. Raises Unreadable."""
    lines = text.split("\n")
    if "Argument" not in lines:
        raise Unreadable("this is no argument of `wfcheck explain`")
    items: List[Item] = []
    cases, inner = [Case(-1, None, None, 0)], [0]
    for line in lines[lines.index("Argument") + 1:]:
        if line.startswith("In all:"):
            break
        case, empty = CASE.fullmatch(line), EMPTY.fullmatch(line)
        if case:
            inner = about(inner, cases, items, int(case[1]))
            cases.append(Case(inner[-1], int(case[1]), int(case[2]), len(inner)))
            inner.append(len(cases) - 1)
        if case or empty:
            items.append(Line(line.strip(), inner[-1], int(empty[1]) if empty else None))
        else:
            items.append(step_of(line, inner[-1]))
    return Argument(lines[0], items, cases)


def about(inner: List[int], cases: Sequence[Case], items: Sequence[Item], point: int) -> List[int]:
    """The cases about a new one of a point. Behind a step that branches it lies in the last case, else it follows the last case of its
    point. The indentation does not say so, since it ends at twelve levels."""
    last = items[-1] if items else None
    if isinstance(last, Step) and last.execution is None:
        return inner
    same = [at for at, it in enumerate(inner) if cases[it].point == point]
    if not same:
        raise Unreadable(f"a case of v{point} stands where no step branches")
    return inner[:same[-1]]


def step_of(line: str, case: int) -> Step:
    """The step that a line is."""
    number, _, rest = line.strip().partition(". ")
    head, _, told = rest.partition(": in execution ")
    first = REASON.match(head)
    if not number.isdigit() or not first:
        raise Unreadable(f"{line.strip()[:40]!r} is no step of an argument")
    left = LEFT.search(line)
    execution = told.partition(",")[0]
    supposed = head.partition(" is ")[2].rstrip(".") if not told else None
    points = tuple(dict.fromkeys(int(it) for it in REASON.findall(rest)))
    cites = tuple(dict.fromkeys(int(it) for it in CITED.findall(told)))
    return Step(int(number), rest, int(first[1]), left[1] if left else supposed, int(execution) if told else None, points, cites, case)


def values_left(argument: Argument) -> Dict[int, str]:
    """What is left at each point of which the argument says so outside of all cases, at the last."""
    return {it.point: it.left for it in argument.steps() if it.case == 0 and it.left is not None}


def shown(left: str) -> str:
    """What is left at a point as it fits into a spot: one value, two or three as 0/1, a range as 0–4, or nothing."""
    told = left.replace(" to ", "–").replace(" or ", "/").replace(", ", "/")
    return told if len(told) <= MOST_SHOWN and " " not in told else ""
