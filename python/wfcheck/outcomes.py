"""What several numbers of rounds come to, as objects: what the last line of `ask` says, with the certificates that show it."""
import dataclasses
from typing import Optional, Union

from .answers import Map, Obstruction, Proof, Refutation
from .nodes import nodes_in_words
from .tasks import Task

# what shows that there is no map after some rounds
Nothing = Union[Refutation, Proof]


@dataclasses.dataclass(frozen=True)
class Never:
    """There is no map after any number of rounds."""
    task: Task = dataclasses.field(repr=False)
    obstruction: Obstruction

    def __str__(self) -> str:
        return f"{self.task.name}: never, by {nodes_in_words((it.name, it.numbers[0]) for it in self.obstruction.nodes)}"


@dataclasses.dataclass(frozen=True)
class From:
    """There is a map after so many rounds, and so after more, and none after fewer. `none` shows that there is none after one round less, and
    is None if `rounds` is 0."""
    task: Task = dataclasses.field(repr=False)
    rounds: int
    map: Map
    none: Optional[Nothing]

    def __str__(self) -> str:
        return f"{self.task.name}: from {self.rounds}"


@dataclasses.dataclass(frozen=True)
class NoneUpTo:
    """There is no map after so many rounds, and so none after fewer. `refused` tells the rounds that are too many, if it came to these."""
    task: Task = dataclasses.field(repr=False)
    rounds: int
    none: Nothing
    refused: Optional[str] = None

    def __str__(self) -> str:
        return behind(f"{self.task.name}: none up to {self.rounds}", self.refused)


@dataclasses.dataclass(frozen=True)
class MapAt:
    """There is a map after so many rounds, and so after more. Of fewer rounds nothing is known."""
    task: Task = dataclasses.field(repr=False)
    rounds: int
    map: Map

    def __str__(self) -> str:
        return f"{self.task.name}: map at {self.rounds}"


@dataclasses.dataclass(frozen=True)
class Between:
    """There is no map after `none.rounds`, and one after `map.rounds`. Numbers of rounds between them were not decided."""
    task: Task = dataclasses.field(repr=False)
    none: Nothing
    map: Map

    def __str__(self) -> str:
        return f"{self.task.name}: none up to {self.none.rounds}, map at {self.map.rounds}"


@dataclasses.dataclass(frozen=True)
class NotDecided:
    """Nothing was accepted in time, which says nothing about the task. `refused` is as that of `NoneUpTo`."""
    task: Task = dataclasses.field(repr=False)
    refused: Optional[str] = None

    def __str__(self) -> str:
        return behind(f"{self.task.name}: not decided", self.refused)


Outcome = Union[Never, From, NoneUpTo, MapAt, Between, NotDecided]


def behind(text: str, refused: Optional[str]) -> str:
    """A line, and behind it why a number of rounds was refused."""
    return f"{text}; {refused}" if refused else text
