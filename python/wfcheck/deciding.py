"""Questions that are asked as `ask` does: by an obstruction, by the search and by a SAT solver, with the certificates of what is accepted."""
import os
import pathlib
import subprocess
import sys
import tempfile
from typing import Dict, List, NamedTuple, Optional

from . import arguments
from .answers import Answer, Map, Proof, Refutation, obstruction_of
from .outcomes import Between, From, MapAt, Never, NoneUpTo, Nothing, NotDecided, Outcome
from .questions import answer_of
from .running import VARIABLE, NoAnswer, Ran, program, refusal
from .tasks import Task, write

FOLDER = pathlib.Path(__file__).resolve().parent.parent
# the name of the task in the folder of a run, whatever it is called
NAME = "task"
# what a table of `ask` says of a number of rounds, or of all
EVERY, NONE, MAP, NOTHING_KNOWN, REFUSED = "every", "none", "map", "not decided", "refused"
# what the names of proofs end in, and which have hints
PROOFS = {"drat": False, "lrat": True}
# what `python3 -m wfcheck` does, with bytecode where the commands keep theirs
START = ("import sys; sys.dont_write_bytecode = True; from wfcheck import bytecode; bytecode.keep(); from wfcheck.__main__ import main; "
         "sys.exit(main(sys.argv[1:]))")
# the statuses with which `ask` ends that has gone through its questions
ENDED = (0, 1, 3)


class Row(NamedTuple):
    """A line of a table of `ask`: the rounds, the answer, and the kind of its certificate."""
    rounds: str
    answer: str
    kind: str


class Asked(NamedTuple):
    """A run of `ask`: what it said, its last line, the lines of its table, and the folder of the certificates."""
    ran: Ran
    rows: List[Row]
    keep: pathlib.Path

    def refused(self) -> Optional[str]:
        """Why a number of rounds was refused, in words, if one was."""
        is_refused = any(row.answer == REFUSED for row in self.rows)
        return self.ran.written.rstrip("\n").rpartition("\n")[2].rpartition("; ")[2] if is_refused else None


def decide(task: Task, rounds: int, *, solver: Optional[str] = None, seconds: float = 60, use_obstructions: bool = True) -> Answer:
    """The first answer that is accepted, as `ask` finds it: an obstruction first, and then the search and a SAT solver side by side.

    `solver` is what `ask --solver` takes; without it the first is asked that is on the path. The obstruction has so many seconds, 60 if
    no other number is given, and so have the search and the solver together.

    Raises TypeError or ValueError if an argument is none that the call takes, Refused, NoProgram, and NoAnswer if nobody had an answer in
    time."""
    found = outcome(task, rounds, rounds, solver, seconds, use_obstructions)
    if isinstance(found, Never):
        return found.obstruction
    if isinstance(found, (From, MapAt)):
        return found.map
    if isinstance(found, NoneUpTo):
        return found.none
    raise NoAnswer(f"{task.name} after {rounds} {'round' if rounds == 1 else 'rounds'}: nobody had an answer within {seconds:g} s")


def ask(task: Task, first: int, last: Optional[int] = None, *, solver: Optional[str] = None, seconds: float = 60,
        use_obstructions: bool = True) -> Outcome:
    """What the last line of `ask TASK FIRST..LAST` says, with the certificates that show it. Each number of rounds is asked about in turn, up
    to the first with a map, and has so many seconds. Without `last` the first number is the only one.

    Returns a Never, From, NoneUpTo, MapAt, Between or NotDecided. Raises what `decide` raises, but for NoAnswer if nothing is decided."""
    return outcome(task, first, first if last is None else last, solver, seconds, use_obstructions)


def outcome(task: Task, first: int, last: int, solver: Optional[str], seconds: float, use_obstructions: bool) -> Outcome:
    """What a run of `ask` comes to, once the arguments are judged."""
    arguments.a_task(task)
    arguments.a_number("the number of rounds", first)
    arguments.a_number("the last number of rounds", last)
    arguments.a_time(seconds, is_needed=True)
    arguments.a_solver(solver)
    arguments.a_choice("use_obstructions", use_obstructions)
    if last < first:
        raise ValueError(f"the last number of rounds, {last}, is below the first, {first}")
    with tempfile.TemporaryDirectory() as made:
        words = [f"{first}..{last}", f"--seconds={seconds}", *[f"--solver={solver}"] * (solver is not None)]
        return summed(task, asked(task, words + ["--no-obstruction"] * (not use_obstructions), pathlib.Path(made)))


def asked(task: Task, words: List[str], folder: pathlib.Path) -> Asked:
    """Runs `ask` in a process of its own, with the program that this process has, in a folder."""
    surroundings = {**os.environ, VARIABLE: str(program())}
    surroundings["PYTHONPATH"] = os.pathsep.join([str(FOLDER), *filter(None, [os.environ.get("PYTHONPATH")])])
    file, keep, table = write(Task(NAME, task.text), folder), folder / "keep", folder / "table"
    command = [sys.executable, "-c", START, "ask", str(file), *words, f"--keep={keep}", f"--table={table}"]
    ended = subprocess.run(command, env=surroundings, stdin=subprocess.DEVNULL, capture_output=True, check=False)
    ran = Ran(ended.returncode, ended.stdout.decode(errors="replace"), ended.stderr.decode(errors="replace"))
    if ran.status not in ENDED or not table.is_file():
        raise refusal(ran.said) or unlike_words(ran) or NoAnswer(f"{task.name}: {(ran.said + ran.written).strip()[-500:]}")
    lines = [line.split("\t") for line in table.read_text(encoding="utf-8").split("\n")[1:-1]]
    return Asked(ran, [Row(*line[1:4]) for line in lines], keep)


def unlike_words(ran: Ran) -> Optional[ValueError]:
    """What is wrong with the words that `ask` was given, as with a solver that is not there; None if it understood them."""
    line = ran.said.rstrip("\n").rpartition("\n")[2]
    return ValueError(line.partition("error: ")[2]) if ran.status == 2 and ": error: " in line else None


def summed(task: Task, run: Asked) -> Outcome:
    """What the lines of a table come to."""
    found: Dict[str, Answer] = {}
    for row in run.rows:
        if row.rounds == EVERY:
            return Never(task, obstruction_of(task, (run.keep / f"{NAME}.obstruction").read_text(encoding="utf-8")))
        if row.answer in (NONE, MAP):
            found[row.answer] = certified(task, row, run.keep)
    none, there = found.get(NONE), found.get(MAP)
    if not isinstance(there, Map):
        return NoneUpTo(task, none.rounds, none, run.refused()) if isinstance(none, (Refutation, Proof)) else NotDecided(task, run.refused())
    return of_map(task, none if isinstance(none, (Refutation, Proof)) else None, there)


def of_map(task: Task, none: Optional[Nothing], there: Map) -> Outcome:
    """What a map comes to, with what shows that there is none after fewer rounds."""
    if there.rounds == 0 or none and none.rounds == there.rounds - 1:
        return From(task, there.rounds, there, none)
    return Between(task, none, there) if none else MapAt(task, there.rounds, there)


def certified(task: Task, row: Row, keep: pathlib.Path) -> Answer:
    """The answer that the certificate of a line shows. Raises NoAnswer if it was not kept, or is one of other rounds."""
    file = keep / f"{NAME}-{row.rounds}.{row.kind}"
    if not file.is_file():
        raise NoAnswer(f"{task.name} after {row.rounds} rounds: no certificate is kept")
    text = file.read_text(encoding="utf-8", errors="replace")
    if row.kind in PROOFS:
        return Proof(task, int(row.rounds), text, PROOFS[row.kind])
    found = answer_of(task, text)
    if found.rounds != int(row.rounds) or isinstance(found, Map) != (row.answer == MAP):
        raise NoAnswer(f"{task.name} after {row.rounds} rounds: {file.name} is a report of something else")
    return found
