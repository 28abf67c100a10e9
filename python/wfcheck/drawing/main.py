"""`python3 -m wfcheck draw TASK [REPORT]`: pictures of what the program accepts, as SVG or as an HTML page."""
import argparse
import os
import pathlib
import re
import sys
import tempfile
from typing import Callable, List, NamedTuple, Optional, Tuple

from .. import files
from ..answers import FIRST, OBSTRUCTION, body, obstruction_of, report_of
from ..files import LONGEST
from ..questions import explained, verify
from ..running import Error, NoFile, Refused, run
from ..tasks import Simplex, Task, read, told
from ..views import Unreadable
from . import page, pictures
from .argument import argument_of
from .counting import weights_of
from .outputs import chosen_simplex, of_outputs
from .pictures import Choice
from .scene import Scene, TooLarge
from .subdivision import rules_of
from .svg import svg

REFUSED, INSTALLED = 2, "wfcheck-draw"
INPUT, NUMBER = re.compile(r"p(\d{1,9})=(.+)", re.A), re.compile(r"\d{1,9}", re.A)
ABOUT = """Draws a task's complex after some rounds, and what a report or an obstruction says of it. `wfcheck verify` is asked
first: what it refuses is not drawn. Nothing is proved of a picture."""


class Picture(NamedTuple):
    """A picture: its scene, and what stands beside it on a page."""
    scene: Scene
    side: Callable[[], page.Side]


class Stopped(Exception):
    """What can't be drawn, in a line."""


def inputs(text: str) -> List[Tuple[int, str]]:
    """The processes with their inputs that a text such as p0=0,p2=1 or p0=lo,p2=hi names."""
    # a name may have a comma, before which no process stands
    pairs = [INPUT.fullmatch(it.strip()) for it in re.split(r",(?= *p\d+=)", text)]
    if not all(pairs):
        raise argparse.ArgumentTypeError(f"{text!r} is not like p0=0,p1=1")
    return [(int(it[1]), it[2]) for it in pairs if it]


def simplex_of(listed: Optional[List[Tuple[int, str]]], task: Task) -> Optional[Simplex]:
    """The input simplex of processes and inputs, which are told by number or by name. Raises Stopped for a name that no input has."""
    if listed is None:
        return None
    numbers = {name: number for number, name in task.names.inputs}
    for process, value in listed:
        if value not in numbers and not NUMBER.fullmatch(value):
            known = f": the inputs are {', '.join(numbers)}" if numbers else ", and the inputs of the task have no names"
            raise Stopped(f"--input: p{process}={value} is no input{known}")
    return tuple(sorted((process, numbers[value] if value in numbers else int(value)) for process, value in listed))


def number(text: str) -> int:
    """A whole number from 0 on."""
    if not text.isdigit():
        raise argparse.ArgumentTypeError(f"{text!r} is no whole number from 0 on")
    return int(text)


def called() -> str:
    """The name under which the command was called."""
    name = pathlib.Path(sys.argv[0]).name
    return name if name == INSTALLED else "draw"


def words(prog: str = "") -> argparse.ArgumentParser:
    """The command line of a command of this name."""
    prog = prog or (INSTALLED if called() == INSTALLED else "python3 -m wfcheck draw")
    found = argparse.ArgumentParser(prog=prog, description=ABOUT, allow_abbrev=False)
    found.add_argument("task", metavar="TASK", help="the file of a task")
    found.add_argument("report", metavar="REPORT", nargs="?", help="a report or an obstruction that `wfcheck` wrote")
    found.add_argument("--rounds", type=number, metavar="R", help="rounds of the complex; with a report it has to be about as many")
    found.add_argument("--outputs", action="store_true", help="draw the output complex, and light what --input allows")
    found.add_argument("--input", type=inputs, metavar="p0=0,..", help="draw the input facets with these inputs alone, by numbers or names")
    found.add_argument("--all", action="store_true", help="draw all input facets, not only those that a refutation or an obstruction needs")
    found.add_argument("--faces", action="store_true", help="draw executions of at most two processes alone")
    found.add_argument("--seed", type=number, default=1, metavar="N", help="of an obstruction: which values the points have by chance")
    found.add_argument("--any", action="store_true", help="of an obstruction: also values that the inputs forbid")
    found.add_argument("--html", action="store_true", help="write an HTML page in place of SVG")
    found.add_argument("--output", metavar="FILE", help="the file to write; else standard output")
    return found


def accepted(task: Task, text: str, rounds: Optional[int], name: str) -> None:
    """Asks `verify` about a text. Raises Stopped with its words if it refuses the text."""
    try:
        verify(task, text, rounds)
    except Refused as refused:
        raise Stopped(f"wfcheck verify refuses {name}: {refused}") from refused


def picture(task: Task, text: Optional[str], asked: argparse.Namespace) -> Picture:
    """The picture of a task, or of a report or an obstruction, once the program accepted it. Raises Error, TooLarge and Stopped."""
    wanted = simplex_of(asked.input, task)
    choice = Choice(wanted, asked.faces, asked.all)
    if text is None:
        try:
            run(["views", "--rounds", 0], task.text)
        except Refused as refused:
            raise Stopped(f"wfcheck refuses {asked.task}: {refused}") from refused
        if asked.outputs:
            return outputs(task, wanted)
        if asked.rounds is None:
            raise Stopped("--rounds R says after how many rounds, or --outputs asks for the outputs")
        return of_complex(task, asked.rounds, choice)
    if asked.outputs:
        raise Stopped("--outputs is about a task alone")
    if text.startswith(f"{OBSTRUCTION}\n"):
        accepted(task, text, None, asked.report)
        return of_obstruction(task, text, asked, choice)
    accepted(task, text, asked.rounds, asked.report)
    return of_report(task, text, choice)


def outputs(task: Task, wanted: Optional[Simplex]) -> Picture:
    """The picture of a task's outputs."""
    rules = rules_of(task)
    return Picture(of_outputs(task, wanted), lambda: page.of_inputs(rules, chosen_simplex(rules, wanted)))


def of_complex(task: Task, rounds: int, choice: Choice) -> Picture:
    """The picture of a complex."""
    scene = pictures.of_complex(task, rounds, choice)
    return Picture(scene, lambda: page.of_participants(scene, pictures.part_of(task, rounds, choice).made))


def of_report(task: Task, text: str, choice: Choice) -> Picture:
    """The picture of a report that was accepted."""
    report = report_of(text)
    if report.answer != "none":
        values = [int(line[2:]) for line in body(text, FIRST)[1] if line.startswith("m ")]
        scene = pictures.of_map(task, report.rounds, values, choice)
        return Picture(scene, lambda: page.of_values(scene))
    argument = argument_of(explained(task, text))
    return Picture(pictures.of_refutation(task, report.rounds, argument, choice), lambda: page.of_argument(argument, task.names))


def of_obstruction(task: Task, text: str, asked: argparse.Namespace, choice: Choice) -> Picture:
    """The picture of an obstruction that was accepted, after one round if none are asked for."""
    found, rounds = weights_of(rules_of(task), obstruction_of(task, text)), 1 if asked.rounds is None else asked.rounds
    if found is None:
        raise Stopped(f"{asked.report} has cases, splits or covers, and an obstruction is drawn if it is one balance")
    weights = found
    scene = pictures.of_obstruction(task, rounds, weights, asked.seed, asked.any, choice)
    made = pictures.part_of(task, rounds, choice, counts=True).made
    return Picture(scene, lambda: page.of_weights(made, weights, scene.count))


def text_of(path: str) -> str:
    """The text of a report, from a file or a pipe. Raises NoFile if it can't be read, is empty, or is longer than `wfcheck verify` reads."""
    try:
        with open(path, "rb") as file:
            text = file.read(LONGEST + 1)
    except (OSError, ValueError) as error:
        raise NoFile(f"{path} can't be read: {told(error)}") from error
    if not text:
        raise NoFile(f"{path} is empty: did the command fail that was to write it?")
    if len(text) > LONGEST:
        raise NoFile(f"{path} has more than {LONGEST:,} bytes, and no more are read")
    return text.decode("ascii", errors="replace")


def keep(text: str, path: Optional[str]) -> None:
    """Writes a text to standard output, or to a file that has it whole or is as it was."""
    if path is None:
        sys.stdout.write(text)
        sys.stdout.flush()
        return
    file = pathlib.Path(path)
    if not file.parent.is_dir():
        raise Stopped(f"{file.parent} is no folder to write into")
    # a name of any length may stand behind that of the file
    handle, made = tempfile.mkstemp(dir=file.parent, prefix=".wfcheck-draw.")
    try:
        with os.fdopen(handle, "w", encoding="utf-8") as it:
            it.write(text)
        os.chmod(made, 0o644)
        os.replace(made, file)
    except BaseException:
        os.unlink(made)
        raise


def main(listed: Optional[List[str]] = None) -> int:
    """Does what the words say, and returns the status: 0 for a picture, 2 for none."""
    asked = words().parse_args(sys.argv[1:] if listed is None else listed)
    files.any_text_can_be_written()
    try:
        task = read(asked.task)
        text = None if asked.report is None else text_of(asked.report)
        found = picture(task, text, asked)
        keep(page.page(found.scene, found.side()) if asked.html else svg(found.scene), asked.output)
    except (Error, Stopped, TooLarge, Unreadable) as why:
        print(f"{called()}: {why}", file=sys.stderr)
        return REFUSED
    except OSError as why:
        print(f"{called()}: {asked.output or 'writing'}: {why.strerror}", file=sys.stderr)
        return REFUSED
    return 0


if __name__ == "__main__":
    sys.exit(main())
