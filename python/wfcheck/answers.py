"""Answers about a task, as objects that are read from the texts that the program writes."""
import dataclasses
import functools
import html
import itertools
import json
import re
from typing import Callable, Dict, List, NamedTuple, Optional, Sequence, Tuple, Union

from .arguments import a_task, a_view
from .tasks import NoTask, Simplex, Task
from .views import Unreadable, View, words_of

FIRST, OBSTRUCTION = "wfcheck report 1", "wfcheck obstruction 1"
# behind the first line of a report stand its processes, rounds, points, executions and answer; of an obstruction its processes and simplices
HEADS = {FIRST: 6, OBSTRUCTION: 3}
# the nodes of an obstruction, and the lines below them
NODES, BELOW = {"case", "split", "cover", "balance"}, {"p": "cover", "m": "balance"}
# how many rows of a table a notebook shows
SHOWN = 200
# how many letters the values of a map may take in a line
LONG = 80
NUMBER = re.compile(r"0|[1-9]\d*", re.A)


class Taken(NamedTuple):
    """A value is taken from the point at a process in an execution: no tuple that the task allows there has it."""
    execution: int
    process: int
    value: int


class Branching(NamedTuple):
    """Each value that is left at a point is supposed in turn: as many blocks of steps follow."""
    point: int


class Closed(NamedTuple):
    """A point has no value left, and so the block has no decision map."""
    point: int


Step = Union[Taken, Branching, Closed]
STEPS: Dict[str, Callable[..., Step]] = {"p": Taken, "b": Branching, "z": Closed}
NUMBERS = {"p": 3, "b": 1, "z": 1}
# the last line of a map's report that shows that the map is the least
LEAST = "f"


class Node(NamedTuple):
    """A node of an obstruction: a case, a split, a cover or a balance, with the numbers of its line and of those below it."""
    name: str
    numbers: Tuple[int, ...]
    lines: Tuple[Tuple[int, ...], ...]


class Multiplier(NamedTuple):
    """How often an equation of a balance counts: that of a participant of an input simplex, with a value for each other one."""
    simplex: Simplex
    participant: int
    others: Tuple[int, ...]
    weight: int


@dataclasses.dataclass(frozen=True, repr=False)
class Map:
    """A decision map: the value that is decided at each view, after so many rounds.

    The views are in the order of their points. `steps` are those that show that no map is smaller, if that was asked for. `report` is
    the text, which `verify` accepts."""
    task: Task
    rounds: int
    values: Dict[View, int]
    steps: Tuple[Step, ...]
    report: str

    def __repr__(self) -> str:
        decided = sorted({*self.values.values()})
        values = f"values {decided[0]} to {decided[-1]}" if decided else "no value"
        if self.task.names.values and decided:
            values = f"values {', '.join(map(self.task.names.value, decided))}"
        return f"<Map of {self.task!r} after {in_rounds(self.rounds)}: {len(self.values):,} views, {cut(values)}>"

    def __str__(self) -> str:
        """The map as lines of views and values, without the numbers of their points."""
        rows = [f"{view} decides {value}" for view, value in self.rows()]
        return "\n".join([*rows, *([f".. and {len(self.values) - SHOWN:,} more views"] if len(self.values) > SHOWN else [])])

    def rows(self) -> List[Tuple[str, str]]:
        """The first views and their values in words."""
        names, shown = self.task.names, itertools.islice(self.values.items(), SHOWN)
        return [(tell(self.task, view), names.value(value)) for view, value in shown]

    def _repr_svg_(self) -> Optional[str]:
        """The answer as a picture, where a notebook shows it."""
        from .drawing.notebook import picture_of
        return picture_of(self)

    def _repr_html_(self) -> str:
        """The map as a notebook shows it: a table of views and values."""
        rows = self.rows()
        title = f"{self.task.name}: a decision map after {in_rounds(self.rounds)}"
        return (self._repr_svg_() or "") + table(title, ("view", "value"), rows, len(self.values) - len(rows), "views")


@dataclasses.dataclass(frozen=True, repr=False)
class Refutation:
    """There is no decision map after so many rounds, with the steps that show it. `report` is the text, which `verify` accepts; without
    steps it is the program's answer alone, and is not accepted."""
    task: Task
    rounds: int
    steps: Tuple[Step, ...]
    report: str

    def __repr__(self) -> str:
        return f"<Refutation of {self.task!r} after {in_rounds(self.rounds)}: {len(self.steps):,} steps>"

    def _repr_svg_(self) -> Optional[str]:
        """The answer as a picture, where a notebook shows it."""
        from .drawing.notebook import picture_of
        return picture_of(self)

    def _repr_html_(self) -> str:
        """The refutation as a notebook shows it: a table of its steps."""
        rows = [(str(number), in_words(step)) for number, step in enumerate(self.steps[:SHOWN], 1)]
        title = f"{self.task.name}: no decision map after {in_rounds(self.rounds)}"
        return (self._repr_svg_() or "") + table(title, ("step", "what it says"), rows, len(self.steps) - len(rows), "steps")


@dataclasses.dataclass(frozen=True, repr=False)
class Proof:
    """There is no decision map after so many rounds, by a SAT solver's clausal proof, which `wfcheck proof` accepts: with hints (LRAT), or
    without."""
    task: Task
    rounds: int
    text: str
    has_hints: bool = False

    def __repr__(self) -> str:
        hints = "with hints" if self.has_hints else "without hints"
        return f"<Proof about {self.task!r} after {in_rounds(self.rounds)}: {len(self.text):,} bytes, {hints}>"


@dataclasses.dataclass(frozen=True, repr=False)
class Obstruction:
    """There is no decision map after any number of rounds: a tree of these nodes, in preorder, whose last ones are balances. `text` is what
    `verify` accepts."""
    task: Task
    nodes: Tuple[Node, ...]
    text: str

    def __repr__(self) -> str:
        many = len(self.nodes)
        return f"<Obstruction of {self.task!r}: {many:,} {'node' if many == 1 else 'nodes'}>"

    def multipliers(self) -> Tuple[Multiplier, ...]:
        """The multipliers of all balances, in their order. Below a split or a cover values have names that the task doesn't have."""
        simplices, lines = self.task.simplices(), [it for node in self.nodes if node.name == "balance" for it in node.lines]
        return tuple(Multiplier(simplices[at], simplices[at][place][0], tuple(others), weight) for weight, at, place, *others in lines)

    def _repr_svg_(self) -> Optional[str]:
        """The answer as a picture, where a notebook shows it."""
        from .drawing.notebook import picture_of
        return picture_of(self)


Answer = Union[Map, Refutation, Proof, Obstruction]


def cut(text: str) -> str:
    """A text, or its beginning if it is long."""
    return text if len(text) <= LONG else f"{text[:LONG]}.."


def tell(task: Task, view: View) -> str:
    """A view of a task in words, as `wfcheck points` tells it, with the names that inputs have.

    Raises TypeError if it is given no task or no view, and NoTask, a Mistake, if the text of the task is none."""
    a_task(task)
    a_view(view)
    try:
        letter = letter_of(task.text)
    except (KeyError, RecursionError, TypeError, ValueError) as error:
        raise NoTask(f"{task.name}: the text is that of no task") from error
    return words_of(view, letter, task.names)


@functools.lru_cache(maxsize=8)
def letter_of(text: str) -> str:
    """What stands before numbers of processes: `#` in a symmetric task, where they are ranks, else `p`."""
    return "#" if json.loads(text)["symmetric"] else "p"


def in_rounds(rounds: int) -> str:
    """A number of rounds in words."""
    return f"{rounds} {'round' if rounds == 1 else 'rounds'}"


def in_words(step: Step) -> str:
    """A step of a refutation in words, without those that it rests on: `explain` has the whole argument."""
    if isinstance(step, Taken):
        return f"in execution {step.execution} no allowed tuple gives process {step.process} the value {step.value}"
    if isinstance(step, Branching):
        return f"each value that point {step.point} has left is supposed in turn"
    return f"point {step.point} has no value left"


def table(title: str, heads: Sequence[str], rows: Sequence[Sequence[str]], more: int, several: str) -> str:
    """A table in HTML with a title. A last row tells how many more rows there are, if there are."""
    def line(cells: Sequence[str], tag: str) -> str:
        """A row of cells."""
        return "<tr>" + "".join(f"<{tag}>{html.escape(cell)}</{tag}>" for cell in cells) + "</tr>"

    shown = [line(heads, "th"), *(line(row, "td") for row in rows)]
    if more:
        shown.append(f'<tr><td colspan="{len(heads)}">.. and {more:,} more {several}</td></tr>')
    return f"<table><caption>{html.escape(title)}</caption>{''.join(shown)}</table>"


def text_of(answer: Union[Answer, str]) -> str:
    """The text of an answer, which is what the program reads."""
    if isinstance(answer, str):
        return answer
    return answer.report if isinstance(answer, (Map, Refutation)) else answer.text


def numbers(words: Sequence[str], line: str) -> List[int]:
    """The numbers that words are."""
    if not all(NUMBER.fullmatch(it) for it in words):
        raise Unreadable(f"{line[:40]!r} has a word that is no number")
    return [int(it) for it in words]


def body(text: str, first: str) -> Tuple[List[str], List[str]]:
    """The lines of a text's head and of its body. Its first line says what it is, and its last line is `end`."""
    lines = text.split("\n")
    if lines[0] != first or lines[-2:] != ["end", ""]:
        raise Unreadable(f"the text is not whole, or does not begin with {first!r}")
    return lines[1:HEADS[first]], lines[HEADS[first]:-2]


class Report(NamedTuple):
    """What a report says beside the values of a map: its rounds, its answer, and its steps."""
    rounds: int
    answer: str
    steps: Tuple[Step, ...]


def report_of(text: str) -> Report:
    """The report that a text is."""
    head, lines = body(text, FIRST)
    steps = tuple(step_of(line) for line in lines if not line.startswith("m ") and line != LEAST)
    return Report(numbers(head[1].split(" ")[1:], head[1])[0], head[4].removeprefix("answer "), steps)


def step_of(line: str) -> Step:
    """The step that a line of a refutation is."""
    kind, *words = line.split(" ")
    if kind not in STEPS or len(words) != NUMBERS[kind]:
        raise Unreadable(f"{line[:40]!r} is no line of a refutation")
    return STEPS[kind](*numbers(words, line))


def obstruction_of(task: Task, text: str) -> Obstruction:
    """The obstruction of a task that a text is."""
    nodes: List[Tuple[str, Tuple[int, ...], List[Tuple[int, ...]]]] = []
    for line in body(text, OBSTRUCTION)[1]:
        name, *words = line.split(" ")
        found = tuple(numbers(words, line))
        if name in NODES:
            nodes.append((name, found, []))
        elif nodes and nodes[-1][0] == BELOW.get(name):
            nodes[-1][2].append(found)
        else:
            raise Unreadable(f"{line[:40]!r} is no line of an obstruction")
    return Obstruction(task, tuple(Node(name, found, tuple(lines)) for name, found, lines in nodes), text)
