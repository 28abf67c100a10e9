"""Questions about a task, asked of the program: each returns an answer that the program's checks accepted."""
import tempfile
from typing import Any, Dict, List, Optional, Union

from . import arguments
from .answers import Answer, Map, Obstruction, Proof, Refutation, obstruction_of, report_of, text_of
from .names import told
from .running import Ran, Refused, Word, run
from .tasks import Mistake, Task, write
from .views import View, points_of

# the name of a task in the folder of a run, whatever it is called
NAME = "task"
# the refusal of an obstruction of a task with a first block
FIRST_BLOCK = 50


def about(task: Task, words: List[Word], text: str, seconds: Optional[float] = None) -> Ran:
    """Runs a command that reads a task from a file, and a text."""
    with tempfile.TemporaryDirectory() as folder:
        command, *rest = words
        return run([command, f"--task={write(Task(NAME, task.text), folder)}", *rest], text, seconds)


def judged(task: Task, seconds: Optional[float], rounds: Optional[int] = None) -> None:
    """Refuses what most calls don't take. Raises TypeError or ValueError."""
    arguments.a_task(task)
    arguments.a_time(seconds)
    if rounds is not None:
        arguments.a_number("the number of rounds", rounds)


def an_answer(given: Any) -> None:
    """Refuses what is no answer and no text of one."""
    if not isinstance(given, (Map, Refutation, Proof, Obstruction, str)):
        raise TypeError(f"an answer is a Map, Refutation, Proof or Obstruction, or the text of one, and not {arguments.shown(given)}")
    if given == "":
        raise Mistake("an empty text is no answer: did the command fail that was to write it?")


def solve(task: Task, rounds: int, *, workers: int = 1, least: bool = False, lines: bool = True,
          seconds: Optional[float] = None) -> Union[Map, Refutation]:
    """The search's answer about a number of rounds: the least decision map, or a refutation. Either has been accepted by `wfcheck verify`.

    With `least` a map has the steps that show that no map is smaller. Without `lines` a refutation has no steps: then none that is
    answered is what the program's contract says, and is not checked.

    Raises Refused, NoAnswer where there is none after so many seconds, and NoProgram."""
    judged(task, seconds)
    arguments.a_number("the number of rounds", rounds)
    arguments.a_number("workers", workers, 1)
    arguments.a_choice("least", least)
    arguments.a_choice("lines", lines)
    form = ["--least"] * least + ["--verdict"] * (not lines)
    report = run(["solve", "--rounds", rounds, "--workers", workers, *form], task.text, seconds).written
    if lines or report_of(report).answer != "none":
        verify(task, report, rounds, seconds=seconds)
    return answer_of(task, report, seconds)


def answer_of(task: Task, report: str, seconds: Optional[float] = None) -> Union[Map, Refutation]:
    """The answer that a report about a task is, which has been accepted."""
    rounds, answer, steps = report_of(report)
    if answer == "none":
        return Refutation(task, rounds, steps, report)
    return Map(task, rounds, values_of(task, report, seconds), steps, report)


def values_of(task: Task, report: str, seconds: Optional[float] = None) -> Dict[View, int]:
    """The values of the map of a report, by views, once the program accepted it."""
    told = points_of(about(task, ["points"], report, seconds).written)
    return {view: value for view, value in told if value is not None}


def points(task: Task, rounds: int, *, seconds: Optional[float] = None) -> List[View]:
    """The points after so many rounds, in their order: the views that may be seen. The number of a point is its place."""
    judged(task, seconds)
    arguments.a_number("the number of rounds", rounds)
    return [view for view, _ in points_of(run(["points", "--rounds", rounds], task.text, seconds).written)]


def verify(task: Task, answer: Union[Answer, str], rounds: Optional[int] = None, *, seconds: Optional[float] = None) -> str:
    """What the program accepts an answer as, a report or an obstruction, or the text of one: as `accepted none at 2 rounds`.

    With a number of rounds an answer about others is refused. Raises Refused if the answer does not hold."""
    judged(task, seconds, rounds)
    an_answer(answer)
    asked: List[Word]
    if isinstance(answer, Proof):
        asked = ["proof", "--rounds", answer.rounds if rounds is None else rounds, *["--lrat"] * answer.has_hints]
        return about(task, asked, answer.text, seconds).written.rstrip("\n")
    text = text_of(answer)
    asked = ["verify"] if rounds is None else ["verify", "--rounds", rounds]
    asked += ["--long"] * (not text.startswith("wfcheck obstruction "))
    return about(task, asked, text, seconds).written.rstrip("\n")


def explain(task: Task, answer: Union[Map, Refutation, Obstruction, str], *, seconds: Optional[float] = None) -> str:
    """Why there is no map, in words and by the steps that are needed; of a map, what it decides. Values and inputs have their names.

    Raises Refused if it does not hold, and Mistake for a solver's proof, which has no argument in words."""
    return told(explained(task, answer, seconds), task.names)


def explained(task: Task, answer: Union[Map, Refutation, Obstruction, str], seconds: Optional[float] = None) -> str:
    """What `wfcheck explain` writes of an answer, by numbers."""
    judged(task, seconds)
    an_answer(answer)
    if isinstance(answer, Proof):
        raise Mistake("a solver's proof has no argument in words: ask for a refutation by `solve`")
    return about(task, ["explain"], text_of(answer), seconds).written


def trim(task: Task, refutation: Refutation, *, seconds: Optional[float] = None) -> Refutation:
    """A refutation with the steps that are needed. Raises Mistake for anything else: only a refutation has steps to leave out."""
    judged(task, seconds)
    if not isinstance(refutation, Refutation):
        raise Mistake(f"a {type(refutation).__name__} has no steps that could be left out: `trim` takes a Refutation")
    report = about(task, ["trim"], refutation.report, seconds).written
    return Refutation(task, refutation.rounds, report_of(report).steps, report)


def obstruction(task: Task, modulus: Optional[int] = None, covers: int = 0, *, seconds: Optional[float] = None) -> Optional[Obstruction]:
    """An obstruction of a task, accepted by `wfcheck verify`, or None. At most so many covers stand above one another, from 0 to 8. That
    none is found says nothing about the task.

    For a task with a first block above 1 none is looked for, and Refused says so: a balance counts executions that such a task has not.
    `ask` then decides one number of rounds after another. Raises Refused also where the search gives up."""
    judged(task, seconds)
    if modulus is not None:
        arguments.a_number("a modulus", modulus, 2)
    arguments.a_number("the number of covers", covers, 0)
    asked: List[Word] = ["obstruction"]
    asked += [] if modulus is None else ["--modulus", modulus]
    asked += ["--covers", covers] if covers else []
    try:
        ran = run(asked, task.text, seconds)
    except Refused as refused:
        if refused.number != FIRST_BLOCK:
            raise
        raise Refused(refused.number, refused.words, [*refused.notes, "no obstruction is looked for with a first block above 1: `ask` decides "
                                                      "one number of rounds after another"]) from None
    if ran.status:
        return None
    verify(task, ran.written, seconds=seconds)
    return obstruction_of(task, ran.written)
