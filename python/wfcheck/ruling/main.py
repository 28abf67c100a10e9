"""Tells a decision map by few rules, of the report of a map.

    wfcheck-rules TASK.json REPORT      writes the rules; of those that fit a view the first says what is decided

The program has to accept the report. The rules are found greedily, so there may be fewer. They are checked at each point of the map,
and nothing of them is proved. The search for them has --seconds, 60 if they aren't given.

The status is 0 for rules, 1 if more than 40 would be needed, 2 if there is no map to tell, and 3 if the time was over."""
import argparse
import signal
import sys
from typing import List

from .. import files
from ..answers import Map, report_of
from ..drawing.main import text_of
from ..questions import values_of
from ..running import Error, NoAnswer
from ..tasks import Mistake, read
from .search import SECONDS
from .telling import rules, too_many

MORE, REFUSED, LATE = 1, 2, 3


def parser(name: str) -> argparse.ArgumentParser:
    """The words that the command takes."""
    about = (__doc__ or "").replace("wfcheck-rules", name)
    words = argparse.ArgumentParser(prog=name, description=about, formatter_class=argparse.RawDescriptionHelpFormatter, usage=f"{name} TASK.json REPORT")
    words.add_argument("task", metavar="TASK.json", help="the file of the task")
    words.add_argument("report", metavar="REPORT", help="the report of a map")
    words.add_argument("--seconds", type=float, default=SECONDS, metavar="N", help=f"how long rules are looked for, {SECONDS} if it isn't given")
    return words


def main(listed: List[str], name: str) -> int:
    """Writes the rules, and returns the status."""
    signal.signal(signal.SIGPIPE, signal.SIG_DFL)
    asked = parser(name).parse_args(listed)
    files.any_text_can_be_written()
    try:
        task, text = read(asked.task), text_of(asked.report)
        values, report = values_of(task, text), report_of(text)
        if report.answer == "none":
            raise Mistake(f"{asked.report} is a report of none, and has no map")
    except Error as error:
        print(f"{name}: {error}", file=sys.stderr)
        return REFUSED
    found = Map(task, report.rounds, values, report.steps, text)
    try:
        told = rules(found, seconds=asked.seconds)
    except (NoAnswer, ValueError) as error:
        print(f"{name}: {error}", file=sys.stderr)
        return LATE if isinstance(error, NoAnswer) else REFUSED
    sys.stdout.write(too_many(found) if told is None else told)
    return MORE if told is None else 0
