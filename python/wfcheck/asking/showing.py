"""What `ask --show` prints: a map as rules, or as points if it has no few rules, and else the argument why there is no map."""
from __future__ import annotations

from typing import List

from ..answers import Map
from ..files import in_line
from ..names import Names
from ..questions import answer_of, explain
from ..ruling.telling import rules
from ..running import Error, NoAnswer, NoFile
from ..tasks import Task, names_beside, read
from .asked import Words

# how many lines are shown, and how many seconds rules are looked for
MOST, SECONDS = 200, 10
REPORTS, OBSTRUCTION = (".report", ".map", ".lifted"), ".obstruction"


def shown(words: Words) -> List[str]:
    """The lines that tell what was accepted last, with the names of the task. One line says why there are none."""
    kind, data = words.accepted
    if kind not in (*REPORTS, OBSTRUCTION):
        return ["a solver's proof has no argument in words: `--solver search` asks for one that has"]
    if data is None:
        return ["what was accepted is too long to be shown"]
    try:
        lines = text_of(named(words), data.decode("ascii"), words.seconds).rstrip("\n").split("\n")
    except (Error, ValueError) as why:
        return [f"what was accepted can't be shown: {in_line(str(why))}"]
    return lines if len(lines) <= MOST else [*lines[:MOST], f".. and {len(lines) - MOST:,} more lines"]


def named(words: Words) -> Task:
    """The task, with the names that stand beside its file."""
    task = read(words.task)
    try:
        return task._replace(names=names_beside(words.given.file))
    except NoFile:
        return task._replace(names=Names())


def text_of(task: Task, text: str, seconds: float) -> str:
    """A map as rules or points, or the argument why there is none."""
    if not text.startswith("wfcheck report"):
        return explain(task, text, seconds=seconds)
    answer = answer_of(task, text, seconds)
    if not isinstance(answer, Map):
        return explain(task, answer, seconds=seconds)
    try:
        told = rules(answer, seconds=min(seconds, SECONDS))
    except NoAnswer:
        told = None
    return told or str(answer)
