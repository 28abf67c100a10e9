"""So many calls at once, for tools/ask: the branches of a question, or the cases of one, each in a scope of its own."""
from __future__ import annotations

import concurrent.futures
import contextlib
import functools
import threading
from typing import Callable, Dict, Iterable, List, NamedTuple, Optional

from . import runs
from .asked import Words
from .questions import answered
from .runs import Scope, Stopped

# a call that decides something in a scope, and returns `map`, `none` or nothing
Call = Callable[[Scope], Optional[str]]
SHOWN = 40


class Kind(NamedTuple):
    """What the calls decide: one in words, some in words, and whether a map of one ends another that goes on."""
    name: Callable[[int], str]
    several: str
    shown: Callable[[Iterable[int]], str]
    is_over: Callable[[int, int], bool]


def run(words: Words, kind: Kind, calls: Dict[int, Call]) -> None:
    """Makes the calls in their order, so many at once. Once one finds a map, those end that are over then, and those that are to come."""
    todo, over = iter(calls.items()), threading.Event()
    going: Dict[int, Scope] = {}
    maps: List[int] = []
    done: List[int] = []

    def some() -> None:
        """Makes one call behind another, while any is left."""
        for number, call in todo:
            if over.is_set() or runs.CUT_OFF.is_set():
                return
            going[number] = scope = Scope(words.limits)
            # a map that comes from now on ends the scope
            if any(kind.is_over(it, number) for it in maps):
                scope.end()
            with contextlib.suppress(Stopped):
                if answered(kind.name(number), functools.partial(call, scope)) == "map":
                    maps.append(number)
                    end(lambda it: kind.is_over(number, it))
            del going[number]
            done.append(number)

    def end(is_over: Callable[[int], bool]) -> None:
        """Ends those that go on and for which a test holds."""
        for number, scope in list(going.items()):
            if is_over(number):
                scope.end()

    many = words.jobs or 1
    told = runs.telling(lambda: f"{len(done)} of {len(calls)} {kind.several} are done, and these go on: {kind.shown(sorted([*going]))}")
    with concurrent.futures.ThreadPoolExecutor(many) as pool, told:
        try:
            for job in concurrent.futures.as_completed([pool.submit(some) for _ in range(many)]):
                job.result()
        finally:
            over.set()
            end(lambda it: True)
    Scope(words.limits).go_on()


def shown(numbers: Iterable[int]) -> str:
    """Numbers in words, those that follow one another as FIRST..LAST, up to a limit."""
    ranges: List[List[int]] = []
    for number in numbers:
        if ranges and ranges[-1][1] == number - 1:
            ranges[-1][1] = number
        else:
            ranges.append([number, number])
    words = [str(first) if first == last else f"{first}..{last}" for first, last in ranges]
    return ", ".join(words[:SHOWN]) + (", .." if len(words) > SHOWN else "")
