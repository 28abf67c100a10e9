"""Tasks from other tasks: two tasks at once, some of the inputs, and what either of two tasks allows."""
import itertools
import json
from typing import Any, Callable, Dict, Iterable, NamedTuple, Optional, Set, Tuple

from .names import LONGEST, Names, Pairs
from .tasks import LARGEST_PLAIN, Input, Mistake, NoTask, Rules, Simplex, Task, facets, faces, judge, judge_number, made_of, pairs_of, simplices


class Whole(NamedTuple):
    """What the text of a task says: its processes, whether it is symmetric, its first block or None, and what is allowed."""
    processes: int
    symmetric: bool
    first_block: Optional[int]
    rules: Rules


def whole_of(made: Task) -> Whole:
    """What the text of a task says. Raises TypeError for what is no task, and NoTask, a Mistake, if the text is none."""
    if not isinstance(made, Task) or not isinstance(made.text, str):
        raise TypeError(f"a task is what `task` or `read` returns, and not {made!r}")
    try:
        text = json.loads(made.text)
        rules = {tuple((p, v) for p, v in it["in"]): sorted({tuple(each) for each in it["out"]}) for it in text["delta"]}
        found = simplices([[(p, v) for p, v in it] for it in text["inputs"]])
        return Whole(text["processes"], text["symmetric"], text.get("first_block"), {start: rules[start] for start in found})
    except (AttributeError, LookupError, RecursionError, TypeError, ValueError) as error:
        raise NoTask(f"{made.name}: the text is that of no task") from error


def product(first: Task, second: Task, name: Optional[str] = None) -> Task:
    """Makes the task of solving two tasks at once: each process begins with an input of each, and decides a value of each.

    It has a map after some rounds exactly if both have one. Inputs and values are pairs, and their names those of both. Raises Mistake if the
    tasks have other processes, first blocks or symmetry, and if the product is too large."""
    one, other = whole_of(first), whole_of(second)
    name = name or f"{first.name}-and-{second.name}"
    judge_alike(name, one, other)
    pairs: Dict[Simplex, Tuple[Simplex, Simplex]] = {}
    inputs, values = Numbers(), Numbers()
    for left, right in itertools.product(facets(one.rules), facets(other.rules)):
        both = [(p, (a, dict(right)[p])) for p, a in left if p in dict(right)]
        for part in faces(both):
            start = tuple((p, inputs.of(pair)) for p, pair in part)
            pairs[start] = tuple((p, a) for p, (a, _) in part), tuple((p, b) for p, (_, b) in part)
    judge_number(name, "input simplices, with their faces", len(pairs))
    judge_number(name, "value lists", sum(len(one.rules[left]) * len(other.rules[right]) for left, right in pairs.values()))
    rules: Rules = {}
    for start, (left, right) in pairs.items():
        rules[start] = [tuple(map(values.of, zip(ours, its))) for ours, its in itertools.product(one.rules[left], other.rules[right])]
    called = Names(values.named(first.names.value, second.names.value), inputs.named(first.names.input, second.names.input))
    return checked(name, one, rules, called)


def restrict_inputs(made: Task, inputs: Iterable[Input], name: Optional[str] = None) -> Task:
    """Makes the task of some inputs alone, with the parts of each, as it is with a condition on inputs.

    Inputs are those of the task, told as `task` takes them: by number, or by name. If the part has no map after some rounds, the whole has none.
    Raises Mistake for an input that the task has not."""
    whole = whole_of(made)
    name = name or f"{made.name}-some-inputs"
    numbers = {called: number for number, called in made.names.inputs}
    wanted = [tuple((p, numbers.get(v, v)) for p, v in pairs_of(name, whole.processes, each)) for each in inputs]
    strangers = [it for it in wanted if tuple(sorted(it, key=repr)) not in whole.rules and tuple(it) not in whole.rules]
    if strangers or not wanted:
        told = f"{dict(strangers[0])} is no input of {made.name}" if strangers else "no input is named"
        raise Mistake(f"{name}: {told}")
    rules = {start: whole.rules[start] for start in simplices(wanted)}
    return checked(name, whole, rules, made.names)


def union(first: Task, second: Task, name: Optional[str] = None) -> Task:
    """Makes the task that allows what either of two tasks allows, with the same inputs. Values and inputs of the same name are the same.

    Raises Mistake if the tasks have other processes, inputs, first blocks or symmetry."""
    one, other = whole_of(first), whole_of(second)
    name = name or f"{first.name}-or-{second.name}"
    judge_alike(name, one, other)
    inputs, values = Matched(first.names.inputs, used_inputs(one)), Matched(first.names.values, used_values(one))
    there: Rules = {}
    for start, listed in other.rules.items():
        place = tuple((p, inputs.of(second.names.input(v), v)) for p, v in start)
        there[place] = [tuple(values.of(second.names.value(v), v) for v in each) for each in listed]
    if {*there} != {*one.rules}:
        raise Mistake(f"{name}: the tasks have other inputs")
    rules = {start: sorted({*listed, *there[start]}) for start, listed in one.rules.items()}
    return checked(name, one, rules, Names(values.pairs(), first.names.inputs))


def used_inputs(whole: Whole) -> Set[int]:
    """The inputs of a task."""
    return {v for start in whole.rules for _, v in start}


def used_values(whole: Whole) -> Set[int]:
    """The values that a task allows."""
    return {v for listed in whole.rules.values() for each in listed for v in each}


class Numbers:
    """Pairs with a number each, in the order in which they come."""

    def __init__(self) -> None:
        self.numbers: Dict[Tuple[int, int], int] = {}

    def of(self, pair: Tuple[int, int]) -> int:
        """The number of a pair."""
        return self.numbers.setdefault(pair, len(self.numbers))

    def named(self, left: Callable[[int], str], right: Callable[[int], str]) -> Pairs:
        """The names of the pairs, by those of their parts."""
        told = {number: f"{left(a)} and {right(b)}" for (a, b), number in self.numbers.items()}
        return tuple((number, name if len(name) <= LONGEST else f"pair {number}") for number, name in told.items())


class Matched:
    """The numbers of one task for what another one has, by names: what has none there is called by its number."""

    def __init__(self, names: Pairs, used: Set[int]) -> None:
        self.names, self.taken = dict(names), {*used, *dict(names)}
        self.numbers = {**{str(it): it for it in used}, **{called: number for number, called in names}}

    def of(self, called: str, number: int) -> int:
        """The number here of what is called so there, which is a new one if nothing is called so here."""
        if called not in self.numbers:
            fresh = number if number not in self.taken else next(it for it in itertools.count() if it not in self.taken)
            self.numbers[called] = fresh
            self.taken.add(fresh)
            if called != str(fresh):
                self.names[fresh] = called
        return self.numbers[called]

    def pairs(self) -> Pairs:
        """All names."""
        return tuple(sorted(self.names.items()))


def judge_alike(name: str, one: Whole, other: Whole) -> None:
    """Refuses two tasks that are not of the same kind."""
    if one.processes != other.processes:
        raise Mistake(f"{name}: the tasks have {one.processes} and {other.processes} processes")
    if one.symmetric != other.symmetric:
        raise Mistake(f"{name}: one of the tasks is symmetric, and the other is not")
    if (one.first_block or 1) != (other.first_block or 1):
        raise Mistake(f"{name}: the tasks have first blocks of {one.first_block or 1} and {other.first_block or 1}")


def checked(name: str, whole: Whole, rules: Rules, called: Names) -> Task:
    """The task of these rules, of the kind of another one. Values above 63 need version 2 of the file."""
    values = {v for listed in rules.values() for each in listed for v in each}
    inputs = {v for start in rules for _, v in start}
    first_block = whole.first_block
    if first_block is None and max([*values, *inputs], default=0) > LARGEST_PLAIN:
        first_block = 1
    judge(name, whole.processes, facets(rules), values or {0}, first_block)
    judge_number(name, "input vertices", sum(len(start) == 1 for start in rules))
    judge_number(name, "input simplices, with their faces", len(rules))
    told: Dict[str, Any] = {"version": 1} if first_block is None else {"version": 2, "first_block": first_block}
    kept = Names(tuple(it for it in called.values if it[0] in values), tuple(it for it in called.inputs if it[0] in inputs))
    ordered = {start: rules[start] for start in sorted(rules, key=lambda it: (len(it), it))}
    return made_of(name, {**told, "processes": whole.processes, "symmetric": whole.symmetric}, ordered, kept)
