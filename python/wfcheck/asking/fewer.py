"""Whether already some of the processes have no map, for tools/ask. The search is asked about the task of some processes alone. If it has none,
the lines of its refutation are numbered anew, as those of the whole task: the same executions, in which the others take no part. So
`wfcheck verify` checks the refutation of the whole task, and neither the smaller task nor the numbers have to be trusted."""
from __future__ import annotations

import itertools
import json
import re
from typing import Any, Dict, Iterable, Iterator, List, NamedTuple, Optional, Sequence, Set, Tuple

from ..running import Error
from ..tasks import Task, read, restrict, write
from .questions import SHARE, Answer, Attempt, Question
from .runs import Clock, Late, say

MAP, NONE, HEADER = 0, 1, 6
EXECUTION = re.compile(r"\d+ ([^;:]*)(?: ; [^:]*)? : ([\d ]+)\n")
PROCESS = re.compile(r"p(\d)")
# what reading a file may raise that has no task: the program says what is wrong with it
NO_TASK = (AttributeError, LookupError, RecursionError, TypeError, ValueError)


class Execution(NamedTuple):
    """An execution: its number, those that take part, and their points."""
    number: int
    processes: Tuple[int, ...]
    points: Tuple[int, ...]


def none_of_fewer(attempt: Attempt, with_map: Set[Tuple[int, ...]]) -> Optional[Answer]:
    """The refutation of the whole by that of some processes, the fewest first. The search has a short share of the time. Those that have a
    map are added to a set, and not asked about more rounds again."""
    clock = Clock(attempt.clock.seconds * SHARE)
    try:
        whole = read(attempt.question.task)
        for kept in some_of(json.loads(whole.text)):
            if kept not in with_map and (answer := of_some(attempt, whole, kept, clock, with_map)):
                return answer
    except (Late, Error, *NO_TASK):
        pass
    return None


def some_of(task: Dict[str, Any]) -> List[Tuple[int, ...]]:
    """Some of the processes and not all, the fewest first. One alone is left out if it may decide something from each input: then it has a
    map."""
    processes = range(task["processes"])
    stuck = {it["in"][0][0] for it in task["delta"] if len(it["in"]) == 1 and not it["out"]}
    return [some for size in range(1, len(processes)) for some in itertools.combinations(processes, size) if size > 1 or some[0] in stuck]


def of_some(attempt: Attempt, whole: Task, kept: Tuple[int, ...], clock: Clock, with_map: Set[Tuple[int, ...]]) -> Optional[Answer]:
    """The refutation of the whole by that of these processes, where the search has one and `verify` accepts what it gives."""
    small, rounds = restrict(whole, kept), attempt.question.rounds
    some = Attempt(Question(write(small, attempt.folder), rounds), attempt.folder, attempt.scope, clock)
    ended = some.scope.at_once_or_later(some.search(), clock, some.question.task, some.file("report"))
    if ended.status == MAP:
        with_map.add(kept)
    if ended.status != NONE:
        return None
    who = f"the search on {' and '.join(f'p{it}' for it in kept)}"
    attempt.tell(who, f"says none in {ended.taken:.2f} s")
    report, (every, listed) = attempt.file("report"), (executions(it, clock) for it in (attempt, some))
    lost = values_of(whole) - values_of(small)
    body = some.file("report").read_text().split("\n")[HEADER:-2]
    report.write_text("".join(f"{line}\n" for line in [*header(json.loads(whole.text)["processes"], rounds, every), *renumbered(
        body, [it for it in every if set(it.processes) <= set(kept)], listed, lost), "end"]))
    if attempt.accepted(report) != "none":
        report.unlink()
        return None
    say(f"    already none for {' and '.join(f'p{it}' for it in kept)}")
    return Answer("none", who, ended.taken, [report])


def executions(attempt: Attempt, clock: Clock) -> List[Execution]:
    """The executions of an attempt's question, as `wfcheck executions` lists them."""
    listed = attempt.file("executions")
    attempt.scope.at_once_or_later(["executions", "--rounds", attempt.question.rounds], clock, attempt.question.task, listed)
    with open(listed) as text:
        return [execution for number, line in enumerate(text) for execution in read_execution(number, line)]


def read_execution(number: int, line: str) -> Iterator[Execution]:
    """The execution that a line lists."""
    if found := EXECUTION.fullmatch(line):
        yield Execution(number, tuple(sorted(map(int, PROCESS.findall(found[1])))), tuple(map(int, found[2].split())))


def values_of(task: Task) -> Set[int]:
    """The values of a task's outputs."""
    return {value for simplex in json.loads(task.text)["outputs"] for _, value in simplex}


def header(processes: int, rounds: int, every: Sequence[Execution]) -> List[str]:
    """The first lines of a refutation."""
    points = 1 + max(point for it in every for point in it.points)
    return ["wfcheck report 1", f"processes {processes}", f"rounds {rounds}", f"points {points}", f"executions {len(every)}", "answer none"]


def renumbered(body: Iterable[str], there: Sequence[Execution], here: Sequence[Execution], lost: Set[int]) -> Iterator[str]:
    """The lines of a refutation with the numbers of the whole task. There are as many executions of these processes there as here, in the
    same order. Values that these processes never decide are removed first."""
    points: Dict[int, int] = {}
    for small, large in zip(here, there):
        for place, point in enumerate(small.points):
            if point not in points:
                points[point] = large.points[place]
                yield from (f"p {large.number} {large.processes[place]} {value}" for value in sorted(lost))
    for line in body:
        letter, *numbers = line.split(" ")
        if letter == "p":
            execution, process, value = map(int, numbers)
            large = there[execution]
            yield f"p {large.number} {large.processes[here[execution].processes.index(process)]} {value}"
        else:
            yield f"{letter} {points[int(numbers[0])]}"
