"""The executions of a task after some rounds, and the views in which they end, by the definitions of docs/MODEL.md."""
import functools
import itertools
import json
from typing import Any, Dict, FrozenSet, Iterable, List, NamedTuple, Optional, Sequence, Tuple

from ..names import Names
from ..tasks import Simplex, Task, facets

# the number of the block of each participant
Word = Tuple[int, ...]
# processes with what they are called
Processes = Tuple[Tuple[int, str], ...]


@functools.lru_cache(maxsize=None)
def words(participants: int, first_block: int) -> Tuple[Word, ...]:
    """The ordered partitions of so many participants, in order, whose first block has so many of them, or all."""
    every = itertools.product(range(participants), repeat=participants)
    least = min(first_block, participants)
    return tuple(it for it in every if set(it) == set(range(max(it) + 1)) and it.count(0) >= least)


class View(NamedTuple):
    """A view: its process, and the numbers of the views that it saw in the last round, or its input vertex before the first round."""
    process: int
    seen: Tuple[int, ...]
    start: Optional[Tuple[int, int]]
    carrier: FrozenSet[Tuple[int, int]]


class Execution(NamedTuple):
    """An execution: its input simplex, its words, and the views in which its participants end."""
    simplex: Simplex
    words: Tuple[Word, ...]
    ends: Tuple[int, ...]


class Rules(NamedTuple):
    """What a task file says."""
    processes: int
    symmetric: bool
    first_block: int
    simplices: List[Simplex]
    facets: List[Simplex]
    allowed: Dict[Simplex, List[Tuple[int, ...]]]
    values: List[int]
    names: Names = Names()


def rules_of(task: Task) -> Rules:
    """What the text of a task says. The text has to be that of a task, as the program accepts it."""
    whole: Dict[str, Any] = json.loads(task.text)
    listed = task.simplices()
    whole_facets = facets(listed)
    allowed = {simplex_of(it["in"]): sorted({tuple(each) for each in it["out"]}) for it in whole["delta"]}
    values = sorted({value for each in whole["outputs"] for _, value in each})
    return Rules(whole["processes"], whole["symmetric"], whole.get("first_block", 1), listed, whole_facets, allowed, values, task.names)


def simplex_of(listed: Sequence[Sequence[int]]) -> Simplex:
    """The simplex that a list of a task file is."""
    return tuple((p, value) for p, value in listed)


class Complex:
    """The complex of a task after some rounds, with its executions and points in the order of their numbers.

    A point is a view. In a symmetric task it is a class of views, so several views may have the number of one point. With `most` only
    simplices of so many participants have executions: they are the first ones, so their numbers are the same."""

    def __init__(self, rules: Rules, rounds: int, most: int = 4) -> None:
        self.rules, self.rounds = rules, rounds
        self.views: List[View] = []
        self.executions: List[Execution] = []
        self.numbers: Dict[View, int] = {}
        for simplex in [it for it in rules.simplices if len(it) <= most]:
            starts = [self.number(View(p, (), (p, value), frozenset([(p, value)]))) for p, value in simplex]
            self.run(simplex, (), starts)
        self.points: Dict[int, int] = {}
        self.classes: Dict[Any, int] = {}
        for execution in self.executions:
            for view in execution.ends:
                if view not in self.points:
                    self.points[view] = self.classes.setdefault(self.class_of(view), len(self.classes))

    def number(self, view: View) -> int:
        """The number of a view, which is the next one if the view is new."""
        if view not in self.numbers:
            self.numbers[view] = len(self.views)
            self.views.append(view)
        return self.numbers[view]

    def run(self, simplex: Simplex, before: Tuple[Word, ...], ends: Sequence[int]) -> None:
        """Adds the executions of a simplex that begin with these words and are at these views."""
        if len(before) == self.rounds:
            self.executions.append(Execution(simplex, before, tuple(ends)))
            return
        for word in words(len(simplex), self.rules.first_block):
            after = []
            for place, block in enumerate(word):
                seen = tuple(it for it, other in zip(ends, word) if other <= block)
                carrier = frozenset().union(*(self.views[it].carrier for it in seen))
                after.append(self.number(View(simplex[place][0], seen, None, carrier)))
            self.run(simplex, (*before, word), after)

    def class_of(self, view: int) -> Any:
        """What views have in common that are one point."""
        if not self.rules.symmetric:
            return view
        ranks = {process: rank for rank, process in enumerate(self.simplex_of(view))}
        return self.ranked(view, tuple(sorted(ranks.items())))

    def simplex_of(self, view: int) -> Dict[int, int]:
        """The inputs that a view knows, by ascending process."""
        return dict(sorted(self.views[view].carrier))

    @functools.lru_cache(maxsize=None)
    def ranked(self, view: int, order: Tuple[Tuple[int, int], ...]) -> Any:
        """A view in which processes are ranks."""
        it = self.views[view]
        return dict(order)[it.process], it.start[1] if it.start else tuple(self.ranked(each, order) for each in it.seen)

    def names(self, simplex: Iterable[int]) -> Processes:
        """What processes are called beside each other: by their numbers, or by their ranks in a symmetric task."""
        return tuple((p, f"#{rank}" if self.rules.symmetric else f"p{p}") for rank, p in enumerate(sorted(simplex)))

    def view_text(self, view: int) -> str:
        """A view in words, as `wfcheck points` tells it."""
        return self.told(view, self.names(self.simplex_of(view)))

    @functools.lru_cache(maxsize=None)
    def told(self, view: int, names: Processes) -> str:
        """A view in words, with these names of the processes."""
        it = self.views[view]
        name = dict(names)[it.process]
        if it.start:
            return f"{name}={self.rules.names.input(it.start[1])}"
        return f"{name} saw {{{', '.join(self.told(each, names) for each in it.seen)}}}"

    def execution_text(self, number: int) -> str:
        """An execution in words, as `wfcheck explain` tells it."""
        it = self.executions[number]
        plain = [name for _, name in self.names(p for p, _ in it.simplex)]
        told = []
        for at, word in enumerate(it.words or ((0,) * len(it.simplex),)):
            names = plain if at else [f"{name}={self.rules.names.input(value)}" for name, (_, value) in zip(plain, it.simplex)]
            blocks = [[name for name, other in zip(names, word) if other == block] for block in range(max(word) + 1)]
            told.append("".join(f"{{{' '.join(each)}}}" for each in blocks))
        return " ; ".join(told)

    def sign(self, number: int) -> int:
        """The sign of an execution: 1 if participants times rounds less blocks is even, else -1."""
        it = self.executions[number]
        return 1 if sum(len(it.simplex) - len(set(word)) for word in it.words) % 2 == 0 else -1

    def tuple_of(self, number: int, values: Sequence[int]) -> Tuple[int, ...]:
        """What an execution decides if the points have these values."""
        return tuple(values[self.points[view]] for view in self.executions[number].ends)


def many_executions(rules: Rules, rounds: int, most: int) -> int:
    """How many executions of simplices with at most so many participants there are after some rounds."""
    return sum(len(words(len(it), rules.first_block)) ** rounds for it in rules.simplices if len(it) <= most)
