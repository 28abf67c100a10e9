"""Tells a text by names: what `wfcheck points` or `wfcheck explain` wrote of a task.

    wfcheck explain --task mine.json < none.txt | wfcheck-names mine.json

The numbers of values and inputs are replaced by the names in mine.names.json, which stands beside the task file. All else is copied."""
import argparse
import signal
import sys
from typing import List

from . import files
from .names import Names, told
from .running import Error
from .tasks import read

REFUSED = 2


def parser(name: str) -> argparse.ArgumentParser:
    """The words that the command takes."""
    about = (__doc__ or "").replace("wfcheck-names", name)
    words = argparse.ArgumentParser(prog=name, description=about, formatter_class=argparse.RawDescriptionHelpFormatter, usage=f"{name} TASK.json < TEXT")
    words.add_argument("task", metavar="TASK.json", help="the file of the task")
    return words


def main(listed: List[str], name: str) -> int:
    """Copies standard input with names, and returns the status."""
    signal.signal(signal.SIGPIPE, signal.SIG_DFL)
    asked = parser(name).parse_args(listed)
    files.any_text_can_be_written()
    try:
        names, text = read(asked.task).names, sys.stdin.read()
    except (Error, UnicodeDecodeError) as error:
        print(f"{name}: {error}", file=sys.stderr)
        return REFUSED
    if not text:
        print(f"{name}: an empty text: did the command before it fail?", file=sys.stderr)
        return REFUSED
    if names == Names():
        print(f"{name}: no names stand beside {asked.task}", file=sys.stderr)
    sys.stdout.write(told(text, names))
    return 0
