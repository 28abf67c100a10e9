"""What the rows of gallery/rows.tsv say together: what is proved of a task may say more of another.

A task is at least as hard as another of as many processes if each decision map of it is one of the other: it has all inputs of the other,
allows no tuple there that the other does not, and asks for as many executions; and the other is not symmetric, or both are. So where the
other has no map it has none, and where it has one the other has one."""
import functools
import json
import re
from typing import NamedTuple, Optional

import common

EVER = float("inf")
PROVED = re.compile(r"(?:none up to (\d+))?(?:, )?(?:map at (\d+))?")
# a task and what its row might say, which is weaker than what other rows give: by a map, by a refutation, by an obstruction
PLANTED = [("renaming-4-names-9", "none up to 1"), ("renaming-4-names-9", "map at 3"), ("approximate-3-by-27", "none up to 3"), ("loop-hollow", "none up to 2")]


class Known(NamedTuple):
    """There is no map up to so many rounds, and there is one after so many, if that is known."""
    none: float
    map: Optional[int]

    def with_harder(self, other):
        """With a map of a harder task."""
        return self._replace(map=min((it for it in (self.map, other.map) if it is not None), default=None))

    def with_easier(self, other):
        """With a refutation of an easier task."""
        return self._replace(none=max(self.none, other.none))


def of_words(proved):
    """What the column says."""
    if proved == "never":
        return Known(EVER, None)
    if found := re.fullmatch(r"from (\d+)", proved):
        return Known(int(found[1]) - 1, int(found[1]))
    none, at = PROVED.fullmatch("" if proved == "not decided" else proved).groups()
    return Known(-1 if none is None else int(none), None if at is None else int(at))


def of_theory(theory):
    """What the column of theory says. Of `some` number of rounds it isn't known which is enough."""
    return Known(-1, int(theory.removeprefix("by "))) if theory.startswith("by ") else of_words("not decided" if theory == "some" else theory)


def stronger(one, other):
    """What both say together."""
    return other.with_harder(one).with_easier(one)


class Task(NamedTuple):
    """What two tasks are compared by."""
    processes: int
    symmetric: bool
    first_block: int
    rules: dict

    def is_harder(self, other):
        """Whether each decision map of this task is one of the other."""
        is_alike = self.processes == other.processes and self.symmetric >= other.symmetric and self.first_block <= other.first_block
        return is_alike and all(it in self.rules and self.rules[it] <= allowed for it, allowed in other.rules.items())


@functools.lru_cache(maxsize=None)
def tasks():
    """The gallery's tasks by their names."""
    return {file.stem: read(json.loads(file.read_text())) for file in common.TASKS.glob("*.json")}


def read(text):
    """A task of its file."""
    rules = {tuple(map(tuple, it["in"])): {tuple(each) for each in it["out"]} for it in text["delta"]}
    return Task(text["processes"], text["symmetric"], text.get("first_block", 1), rules)


@functools.lru_cache(maxsize=None)
def pairs():
    """The tasks of which the first is at least as hard as the second."""
    return [(one, other) for one, a in tasks().items() for other, b in tasks().items() if one != other and a.is_harder(b)]


def weak(proved):
    """The tasks of which less is said than follows from other rows, each with why. `proved` has the column by the tasks' names."""
    known = {name: of_words(it) for name, it in proved.items()}
    for harder, easier in pairs():
        if harder in known and easier in known:
            for name, other, more in [(harder, easier, Known.with_easier), (easier, harder, Known.with_harder)]:
                if more(known[name], known[other]) != known[name]:
                    yield name, f"{proved[name]!r} is weaker than what follows from {other}, {proved[other]!r}"


def faults(lines):
    """How many rows of the column `proved` are as strong as the others make them, with those planted that are found; and what is wrong."""
    proved = {it.task: it.proved for it in lines}
    found = {name: f"{name}: {why}" for name, why in weak(proved)}
    missed = [f"{name}: {it!r} is not found to be weak" for name, it in PLANTED if name not in dict(weak({**proved, name: it}))]
    return len(proved) + len(PLANTED) - len(found) - len(missed), [*found.values(), *missed]
