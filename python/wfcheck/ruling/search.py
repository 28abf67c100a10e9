"""The search for few rules, over sets of points that are bits of a number."""
import itertools
import math
import time
from typing import Dict, List, NamedTuple, Optional, Sequence, Tuple

from ..running import NoAnswer
from .facts import Facts
from .grammar import Outcome, Test

# how many rules there may be, tests in a rule, sets of points that are tried, and points in all of these sets
MOST_RULES, MOST_TESTS, MOST_CHOICES, MOST_BITS = 40, 3, 60_000, 50_000_000
# how many seconds a search has that is not told
SECONDS = 60
# by how much of a rule another test counts: each is tried, and the shortest list is taken
WEIGHTS = (0.25, 0.5, 1.0)


class Rule(NamedTuple):
    """A rule: what is asked, what is decided, and at how many points no earlier rule fits."""
    tests: Tuple[Test, ...]
    outcome: Outcome
    points: int

    def fits(self, facts: Facts) -> bool:
        """Whether the rule is about a view."""
        return all(it.fits(facts) for it in self.tests)


class Watch:
    """The time that a search has. `go_on` raises NoAnswer once it is over."""

    def __init__(self, seconds: float = math.inf) -> None:
        self.begun, self.seconds = time.monotonic(), seconds

    def go_on(self) -> None:
        """Raises NoAnswer once the time is over."""
        if time.monotonic() - self.begun > self.seconds:
            raise NoAnswer(f"no rules were found within {self.seconds:g} s")


Choices = List[Tuple[int, Tuple[Test, ...]]]


def bits_of(truths: Sequence[bool]) -> int:
    """The number that has a bit for each place that is true."""
    return int("".join("1" if it else "0" for it in reversed(truths)) or "0", 2)


def many(bits: int) -> int:
    """How many bits a number has."""
    return bin(bits).count("1")


def choices_of(points: Sequence[Facts], tests: Sequence[Test], watch: Watch) -> Choices:
    """The sets of points that one, two or three tests leave, each with the first tests that do, the fewest first."""
    whole = (1 << len(points)) - 1
    single: Dict[int, Tuple[Test, ...]] = {whole: ()}
    for test in tests:
        watch.go_on()
        single.setdefault(bits_of([test.fits(it) for it in points]), (test,))
    single.pop(0, None)
    found, ones = dict(single), [(bits, it[0]) for bits, it in single.items() if it]
    for size in range(2, MOST_TESTS + 1):
        for place, several in enumerate(itertools.combinations(ones, size)):
            if place % 1024 == 0:
                watch.go_on()
            bits = whole
            for each, _ in several:
                bits &= each
            if bits:
                found.setdefault(bits, tuple(it for _, it in several))
            if len(found) > min(MOST_CHOICES, MOST_BITS // len(points)):
                return [*found.items()]
    return [*found.items()]


def rules_of(points: Sequence[Facts], values: Sequence[int], tests: Sequence[Test], outcomes: Sequence[Outcome],
             watch: Watch = Watch()) -> Optional[List[Rule]]:
    """The shortest of a few lists of rules, of which the first that fits a point says its value; or None if each would be too long. Raises
    NoAnswer once the time is over."""
    choices = choices_of(points, tests, watch)
    wrong: Dict[int, Outcome] = {}
    for it in outcomes:
        watch.go_on()
        wrong.setdefault(bits_of([it.value(each) != value for each, value in zip(points, values)]), it)
    wrong.pop((1 << len(points)) - 1, None)
    found = [listed(len(points), choices, wrong, weight, watch) for weight in WEIGHTS]
    short = [it for it in found if it is not None]
    return min(short, key=length) if short else None


def length(rules: Sequence[Rule]) -> Tuple[int, float]:
    """How long a list of rules is: by rules, and then by their tests and outcomes."""
    return len(rules), sum(len(it.tests) + it.outcome.cost for it in rules)


def listed(size: int, choices: Choices, wrong: Dict[int, Outcome], weight: float, watch: Watch) -> Optional[List[Rule]]:
    """A list of rules, each the best about the points that are left; or None if it gets too long, or no rule is about what is left."""
    left = (1 << size) - 1
    found: List[Rule] = []
    while left and len(found) < MOST_RULES:
        chosen = best(left, choices, wrong, weight, watch)
        if chosen is None:
            return None
        found.append(chosen[1])
        left &= ~chosen[0]
    return None if left else found


def best(left: int, choices: Choices, wrong: Dict[int, Outcome], weight: float, watch: Watch) -> Optional[Tuple[int, Rule]]:
    """The rule that decides most of the points that are left, for its length, and the points that its tests leave; None if no rule decides any."""
    most, seen = 0.0, set()
    chosen: Optional[Tuple[int, Rule]] = None
    for bits, tests in choices:
        here = bits & left
        if not here or here in seen:
            continue
        seen.add(here)
        points, cost = many(here), 1 + weight * max(len(tests) - 1, 0)
        if points / cost <= most:
            continue
        watch.go_on()
        for faults, outcome in wrong.items():
            worth = points / (cost + outcome.cost)
            if worth > most and not here & faults:
                most, chosen = worth, (bits, Rule(tests, outcome, points))
    return chosen
