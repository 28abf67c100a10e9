"""What rules may ask of a view, and what they may say is decided."""
import itertools
from typing import Any, Callable, Iterator, List, NamedTuple, Sequence, Set, Tuple

from ..names import Names
from .facts import Facts

NUMBERS = ["none", "one", "two", "three", "four"]
# how much harder than a value an outcome is to read: by what the view has, with a number, and less than a number
PLAIN, BY_VIEW, BY_NUMBER, BY_OTHERS = 0.0, 0.3, 0.6, 1.0


class Test(NamedTuple):
    """A question about a view: its words, and the answer."""
    words: str
    fits: Callable[[Facts], bool]


class Outcome(NamedTuple):
    """What is decided: its words, the value at a view, and how much harder it is to read than a value."""
    words: str
    value: Callable[[Facts], int]
    cost: float


class About(NamedTuple):
    """What is asked about: whether processes are ranks, how many there are, the rounds, the inputs and values that occur, and their names."""
    symmetric: bool
    processes: int
    rounds: int
    inputs: Sequence[int]
    values: Sequence[int]
    names: Names

    def process(self, number: int) -> str:
        """A process in words."""
        return f"{'#' if self.symmetric else 'p'}{number}"

    def when(self, at: int) -> str:
        """A round in words, if there are several."""
        return f" in round {at + 1}" if self.rounds > 1 else ""


def asked(words: str, fits: Callable[..., Any], *given: int) -> Test:
    """A question, with the numbers that it is about."""
    return Test(words, lambda it: bool(fits(it, *given)))


def tests(about: About) -> List[Test]:
    """All questions, in the order in which they stand in a rule."""
    return [*of_process(about), *of_rounds(about), *of_others(about), *of_inputs(about), *of_inputs_before(about)]


def of_process(about: About) -> Iterator[Test]:
    """Which process it is, whom it knows, and its rank."""
    for p in range(about.processes):
        yield asked(about.process(p), lambda it, p: it.process == p, p)
    yield asked("the lowest it knows", lambda it: it.place == 0)
    yield asked("the highest it knows", lambda it: it.place == len(it.known) - 1)
    for p in range(0 if about.symmetric else about.processes):
        yield asked(f"knows p{p}", lambda it, p: p in it.known, p)
        yield asked(f"doesn't know p{p}", lambda it, p: p not in it.known, p)
    for many in range(1, about.processes + 1 if about.rounds > 1 else 1):
        yield asked("knows only itself" if many == 1 else f"knows {NUMBERS[many]}", lambda it, many: len(it.known) == many, many)


def of_rounds(about: About) -> Iterator[Test]:
    """Whom it saw in each round, and its rank among them."""
    for at in range(about.rounds):
        when = about.when(at)
        for many in range(1, about.processes + 1):
            yield asked(("alone" if many == 1 else f"saw {NUMBERS[many]}") + when, lambda it, at, many: len(it.seen(at)) == many, at, many)
        for p in range(about.processes):
            yield asked(f"saw {about.process(p)}{when}", lambda it, at, p: p in it.seen(at), at, p)
        yield asked(f"not alone{when}", lambda it, at: len(it.seen(at)) > 1, at)
        if about.rounds > 1:
            yield asked(f"the lowest it saw{when}", lambda it, at: it.place_in(at) == 0, at)
            yield asked(f"the highest it saw{when}", lambda it, at: it.place_in(at) == len(it.seen(at)) - 1, at)


def of_others(about: About) -> Iterator[Test]:
    """Whom others saw in earlier rounds, as far as it knows."""
    for at in range(about.rounds - 1):
        when = about.when(at)
        for many in range(1, about.processes + 1):
            told = ("was alone" if many == 1 else f"saw {NUMBERS[many]}") + when
            yield asked(f"another {told}", lambda it, at, many: many in map(len, it.others(at)), at, many)
            yield asked(f"no other {told}", lambda it, at, many: many not in map(len, it.others(at)), at, many)
            for p in range(about.processes):
                yield asked(f"{about.process(p)} {told}", lambda it, at, many, p: len(it.saw.get((p, at), ())) == many, at, many, p)
        yield asked(f"another saw it{when}", lambda it, at: any(it.process in each for each in it.others(at)), at)
        yield asked(f"another saw more{when}", lambda it, at: any(len(each) > len(it.seen(at)) for each in it.others(at)), at)
        yield asked(f"another saw less{when}", lambda it, at: any(len(each) < len(it.seen(at)) for each in it.others(at)), at)


def of_inputs(about: About) -> Iterator[Test]:
    """The inputs that it knows."""
    for value in about.inputs if len(about.inputs) > 1 else ():
        name = about.names.input(value)
        yield asked(f"its input is {name}", lambda it, value: it.own == value, value)
        yield asked(f"knows only the input {name}", lambda it, value: {*it.values} == {value}, value)
        yield asked(f"knows the input {name}", lambda it, value: value in it.values, value)
        yield asked(f"doesn't know the input {name}", lambda it, value: value not in it.values, value)
        yield asked(f"most inputs it knows are {name}", lambda it, value: 2 * it.values.count(value) > len(it.values), value)
    yield asked("all inputs that it knows are the same", lambda it: len({*it.values}) == 1)
    yield asked("knows several inputs", lambda it: len({*it.values}) > 1)


def of_inputs_before(about: About) -> Iterator[Test]:
    """The inputs that it and others knew after earlier rounds, as far as it knows."""
    for at in range(about.rounds - 1 if len(about.inputs) > 1 else 0):
        for value in about.inputs:
            told = f"knew only the input {about.names.input(value)} after round {at + 1}"
            yield asked(told, lambda it, at, value: it.knew[it.process, at] == {value}, at, value)
            yield asked(f"another {told}", lambda it, at, value: {value} in it.others_knew(at), at, value)
            yield asked(f"no other {told}", lambda it, at, value: {value} not in it.others_knew(at), at, value)
        told = f"knew one input after round {at + 1}"
        yield asked(f"each {told}", lambda it, at: all(len(each) == 1 for each in [it.knew[it.process, at], *it.others_knew(at)]), at)
        yield asked(told, lambda it, at: len(it.knew[it.process, at]) == 1, at)
        yield asked(f"another {told}", lambda it, at: any(len(each) == 1 for each in it.others_knew(at)), at)
        yield asked(f"no other {told}", lambda it, at: all(len(each) > 1 for each in it.others_knew(at)), at)


def outcomes(about: About, points: Sequence[Facts], values: Sequence[int]) -> List[Outcome]:
    """All that may be said to be decided, the simple first: with names of values none but these. Of multiples of something and a number those
    alone that are decided where it differs at two points: one that fits where it is the same is no simpler than a value."""
    found = [constant(about.names.value(value), value) for value in about.values]
    if about.names.values:
        return found
    most = max(about.values, default=0)
    inputs = [] if len(about.inputs) < 2 else [
        Outcome("its input", lambda it: it.own, BY_VIEW), Outcome("the least input it knows", lambda it: min(it.values), BY_VIEW),
        Outcome("the largest input it knows", lambda it: max(it.values), BY_VIEW)]
    ranks = [Outcome("its rank", lambda it: it.place, BY_VIEW) if about.symmetric else Outcome("its number", lambda it: it.process, BY_VIEW),
             *(rank_in(at) for at in range(about.rounds) if about.rounds > 1)]
    mores = range(-most, most + 1)
    found += inputs + ranks
    for it, factors in [*((it, range(1, most + 1)) for it in inputs), *((it, (1, -1)) for it in ranks)]:
        lines = lines_through({(it.value(each), value) for each, value in zip(points, values)})
        found += [scaled(it, factor, more) for factor in factors for more in mores if (factor, more) in lines and (factor, more) != (1, 0)]
    return found


def lines_through(pairs: Set[Tuple[int, int]]) -> Set[Tuple[int, int]]:
    """The whole factors and numbers of the lines on which two pairs lie that differ in the first."""
    found = set()
    for (base, value), (other, that) in itertools.combinations(pairs, 2):
        if base != other and (value - that) % (base - other) == 0:
            factor = (value - that) // (base - other)
            found.add((factor, value - factor * base))
    return found


def constant(words: str, value: int) -> Outcome:
    """A value, whatever is seen."""
    return Outcome(words, lambda it: value, PLAIN)


def rank_in(at: int) -> Outcome:
    """The rank among those that are seen in a round."""
    return Outcome(f"its rank in round {at + 1}", lambda it: it.place_in(at), BY_VIEW)


def scaled(base: Outcome, factor: int, more: int) -> Outcome:
    """A multiple of an outcome and a number, or a number less an outcome."""
    words = f"{more} - {base.words}" if factor < 0 else base.words if factor == 1 else f"{factor} × {base.words}"
    if factor > 0 and more:
        words += f" {'+' if more > 0 else '-'} {abs(more)}"
    return Outcome(words, lambda it: factor * base.value(it) + more, BY_OTHERS if factor < 0 else BY_NUMBER)
