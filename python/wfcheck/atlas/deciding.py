"""What the program answers to a task, for every number of rounds. Each answer is accepted by its checks."""
import pathlib
import tempfile
from typing import Dict, List, NamedTuple, Optional

from ..answers import obstruction_of
from ..deciding import ask
from ..outcomes import From, MapAt, NoneUpTo
from ..running import NoAnswer, Refused, Word, run
from ..tasks import Task, write

NAME = "task"
NEVER, EVERY = "never", "accepted none at every number of rounds"
# the refusals that say that a question is too large, or that its search gave up
GAVE_UP = {17, 60}
# how many seconds a search has
SEARCH = 2


class Line(NamedTuple):
    """A line of a table: the code of a task, and the answer. Of an obstruction it has the nodes in preorder, and the modulus and the number
    of multipliers of each balance; and it has the numbers of rounds about which the search had no answer in time, so `ask` was asked."""
    code: str
    answer: str
    nodes: str = ""
    moduli: str = ""
    multipliers: str = ""
    asked: str = ""


class WrongAnswer(Exception):
    """An answer that the program's checks don't accept."""


class Asked:
    """A task in a file, about which the program is asked. No run takes longer than so many seconds, and a search has fewer."""

    def __init__(self, task: Task, folder: pathlib.Path, seconds: float) -> None:
        self.task, self.seconds = task, seconds
        self.file = write(Task(NAME, task.text), folder)
        self.asked: List[int] = []

    def wrote(self, seconds: float, *words: Word) -> Optional[str]:
        """What a run of the program wrote about the task; None if it gave up or had no time."""
        try:
            return run(words, self.task.text, seconds).written
        except NoAnswer:
            return None
        except Refused as refused:
            if refused.number not in GAVE_UP:
                raise
            return None

    def is_accepted(self, text: str, as_what: str, *words: Word) -> bool:
        """Whether `verify` accepts a text; False if it has no time for it. Raises WrongAnswer if it accepts it as something else."""
        try:
            said = run(["verify", f"--task={self.file}", *words], text, self.seconds).written.rstrip("\n")
        except NoAnswer:
            return False
        if said != as_what:
            raise WrongAnswer(f"{self.task.name}: {said!r}, and not {as_what!r}")
        return True

    def obstruction(self, *options: Word) -> Optional[Line]:
        """The line of an obstruction, if one is found with these options and accepted."""
        text = self.wrote(self.seconds, "obstruction", *options)
        if not text or not self.is_accepted(text, EVERY):
            return None
        nodes = obstruction_of(self.task, text).nodes
        leaves = [it for it in nodes if it.name == "balance"]
        return Line(self.task.name, NEVER, " ".join(it.name for it in nodes), " ".join(str(it.numbers[0]) for it in leaves),
                    " ".join(str(len(it.lines)) for it in leaves))

    def has_map(self, rounds: int) -> Optional[bool]:
        """Whether there is a map after some rounds, by an answer that is accepted; None if there is none. The search is asked first. If it
        has no end in time, `ask` is asked, which has a SAT solver if one is on the path."""
        found = self.searched(rounds)
        if found is not None:
            return found
        self.asked.append(rounds)
        try:
            answer = ask(self.task, rounds, seconds=self.seconds, use_obstructions=False)
        except NoAnswer:
            return None
        return True if isinstance(answer, (From, MapAt)) else False if isinstance(answer, NoneUpTo) else None

    def searched(self, rounds: int) -> Optional[bool]:
        """What the search says of some rounds, if `verify` accepts it."""
        report = self.wrote(SEARCH, "solve", "--rounds", rounds, "--workers", 1)
        if not report:
            return None
        kind = "none" if "\nanswer none\n" in report else "map"
        as_what = f"accepted {kind} at {rounds} {'round' if rounds == 1 else 'rounds'}"
        return kind == "map" if self.is_accepted(report, as_what, "--long", f"--rounds={rounds}") else None

    def line(self, most: int) -> Line:
        """The line of the task, which is asked about up to so many rounds."""
        found: Dict[int, Optional[bool]] = {0: self.has_map(0)}
        if not found[0]:
            never = self.obstruction()
            if never:
                return never
        for rounds in range(1, most + 1):
            if True in found.values():
                break
            found[rounds] = self.has_map(rounds)
        answer, asked = summed(found), " ".join(map(str, self.asked))
        never = None if answer.startswith("from") else self.obstruction("--covers", 1)
        return never._replace(asked=asked) if never else Line(self.task.name, answer, asked=asked)


def summed(found: Dict[int, Optional[bool]]) -> str:
    """What answers about several numbers of rounds come to, in the words of `ask`."""
    none = max((it for it, has_map in found.items() if has_map is False), default=None)
    there = next((it for it, has_map in found.items() if has_map), None)
    if there is not None and (there == 0 or none == there - 1):
        return f"from {there}"
    told = [f"none up to {none}"] * (none is not None) + [f"map at {there}"] * (there is not None)
    return ", ".join(told) or "not decided"


def decided(task: Task, most: int, seconds: float) -> Line:
    """The line of a task, which is asked about up to so many rounds, if no obstruction is found."""
    with tempfile.TemporaryDirectory() as folder:
        return Asked(task, pathlib.Path(folder), seconds).line(most)
