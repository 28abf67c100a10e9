"""Numbers for what a task's values and inputs are called by those who make it: a task file has whole numbers alone."""
from typing import Any, Dict, Hashable, List, Mapping, Optional, Sequence

# how long a name may be
LONGEST = 60


class Codes:
    """What is listed, each with its number: whole numbers are their own, and of anything else the number is the place."""

    def __init__(self, listed: Sequence[Hashable]) -> None:
        self.listed, self.is_plain = listed, all(type(it) is int for it in listed)
        self.numbers: Dict[Any, int] = {it: place for place, it in enumerate(listed)}

    def number(self, given: Any) -> int:
        """The number of something that is listed."""
        return self.numbers[given] if not self.is_plain else int(given)

    def given(self, number: int) -> Any:
        """What has a number."""
        return number if self.is_plain else self.listed[number]

    def called(self, names: Optional[Mapping[Any, str]]) -> Any:
        """The names by number: those that are given, by what is listed, and of all else what `str` says of it."""
        if self.is_plain or not isinstance(names, (Mapping, type(None))):
            return names
        given = {self.numbers.get(it, it): name for it, name in (names or {}).items()}
        made = names_of(self.listed)
        return {**{number: name for number, name in enumerate(made) if number not in given}, **given}


class Coding:
    """The numbers of a task's values and of its inputs."""

    def __init__(self, values: Sequence[Hashable], inputs: Sequence[Hashable]) -> None:
        self.values, self.inputs = Codes(values), Codes(inputs)


def names_of(listed: Sequence[Any]) -> List[str]:
    """A name for each, no two of them the same: what is told of it, or its number if that is none."""
    found: List[str] = []
    for number, it in enumerate(listed):
        name = told(it)
        is_name = name.strip() and name.isprintable() and len(name) <= LONGEST and name not in found
        found.append(name if is_name else f"number {number}")
    return found


def told(it: Any) -> str:
    """What something is called: a string is itself, a tuple has its parts with spaces between them."""
    return " ".join(map(told, it)) if isinstance(it, tuple) else str(it)
