"""Generalized symmetry breaking: tasks in which what counts is how many processes decide each value.

All of n processes begin alike, and know themselves by their ranks alone. Value v, from 0 on, has a least and a largest number. If all n
take part, the number of those that decide v lies between the two. If fewer take part, they may decide what the others can go on from.

`gsb4-13.13` is such a task of four processes, in which each of two values is decided by one to three of them. Bounds are listed if they
are tight, so that each is met by some choice of all n; and if each value can be decided. Then other bounds say another task, but for
the order of the values, and they ascend in a code."""
import itertools
import re
from typing import Dict, Iterator, List, Tuple

from ..tasks import Legal, Mistake, Task, task

# for each value, how many decide it at least and at most
Bounds = List[Tuple[int, int]]
EXAMPLE = "gsb4-13.13"


def code_of(n: int, bounds: Bounds) -> str:
    """The code of a task."""
    return f"gsb{n}-" + ".".join(f"{least}{most}" for least, most in bounds)


def read(code: str) -> Tuple[int, Bounds]:
    """The number of processes and the bounds that a code tells. Raises Mistake if it is none."""
    tag, _, rest = code.partition("-")
    bounds = [(int(it[0]), int(it[1])) for it in rest.split(".") if re.fullmatch("[0-4]{2}", it, re.A)]
    n = int(tag[3:]) if re.fullmatch("gsb[2-4]", tag, re.A) else 0
    if not n or code != code_of(n, bounds) or not is_met(n, bounds):
        raise Mistake(f"{code!r} is no code: {EXAMPLE} is one")
    return n, bounds


def is_met(n: int, bounds: Bounds) -> bool:
    """Whether n processes can decide so that each value has a number within its bounds."""
    return sum(least for least, _ in bounds) <= n <= sum(most for _, most in bounds) and all(least <= most for least, most in bounds)


def is_tight(n: int, bounds: Bounds) -> bool:
    """Whether each bound is met by some choice of n processes."""
    least, most = sum(it for it, _ in bounds), sum(it for _, it in bounds)
    return all(low >= n - (most - high) and high <= n - (least - low) for low, high in bounds)


def codes(n: int) -> Iterator[str]:
    """The codes of n processes with up to 2n - 1 values, up to the order of the values."""
    pairs = [(low, high) for low in range(n + 1) for high in range(max(low, 1), n + 1)]
    for values in range(1, 2 * n):
        for bounds in itertools.combinations_with_replacement(pairs, values):
            if is_met(n, [*bounds]) and is_tight(n, [*bounds]):
                yield code_of(n, [*bounds])


def within(n: int, bounds: Bounds) -> Legal:
    """Whether the decisions of some processes can be gone on from, so that each value's number lies within its bounds."""
    def legal(_start: Dict[int, int], end: Dict[int, int]) -> bool:
        """No value is decided too often, and those that are left can make up for the others."""
        numbers = [[*end.values()].count(value) for value in range(len(bounds))]
        wanting = sum(max(least - number, 0) for number, (least, _) in zip(numbers, bounds))
        return all(number <= most for number, (_, most) in zip(numbers, bounds)) and wanting <= n - len(end)
    return legal


def task_of(code: str) -> Task:
    """The task that a code tells."""
    n, bounds = read(code)
    return task(code, n, [[0] * n], within(n, bounds), range(len(bounds)), symmetric=True)
