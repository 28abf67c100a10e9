"""Writes task files of the gallery, each from one predicate.

    wfcheck-task NAME ..     writes the files of these tasks
    wfcheck-task --all       writes all of them
    wfcheck-task --list      says their names, and writes nothing

A file goes to the current folder, or to the one that --folder names, which is made if it is not there. A file that is there and says something else is left as it is, and
the status is 2. In the repository tools/tasks.py is this command: it writes into gallery/tasks, over what is there.

`from wfcheck import task, write` makes a task of your own from a predicate, as the page docs/TASKS.md says."""
import argparse
import pathlib
import signal
import sys
from typing import List, Optional

from .files import any_text_can_be_written
from .gallery import gallery
from .tasks import Task

REFUSED = 2


def parser(name: str) -> argparse.ArgumentParser:
    """The words that the command takes."""
    about = (__doc__ or "").replace("wfcheck-task", name)
    words = argparse.ArgumentParser(
        prog=name, description=about, formatter_class=argparse.RawDescriptionHelpFormatter, usage=f"{name} NAME .. | --all | --list [NAME ..]")
    ways = words.add_mutually_exclusive_group()
    ways.add_argument("--list", action="store_true", help="says the names, and writes nothing")
    ways.add_argument("--all", action="store_true", help="writes all tasks")
    words.add_argument("--folder", metavar="FOLDER", type=pathlib.Path, help="where the files go")
    words.add_argument("names", nargs="*", help="the tasks that are written")
    return words


def main(listed: List[str], name: str, folder: Optional[pathlib.Path] = None) -> int:
    """Writes what the words say, and returns the status. Files go to the folder that is given, over what is there; without one they go to
    the current folder, over nothing."""
    signal.signal(signal.SIGPIPE, signal.SIG_DFL)
    any_text_can_be_written()
    words = parser(name)
    asked = words.parse_args(listed)
    if asked.all == bool(asked.names) and not asked.list:
        words.error("name the tasks that are to be written, or all by --all; --list says the names")
    chosen = made(asked.names)
    unknown = sorted({*asked.names} - {each.name for each in chosen})
    if unknown:
        words.error(f"no task here is named {unknown[0]!r}; --list says the names")
    if asked.list:
        print("\n".join(each.name for each in chosen))
        return 0
    is_over = folder is not None and asked.folder is None
    to = asked.folder or folder or pathlib.Path()
    try:
        to.mkdir(parents=True, exist_ok=True)
    except OSError as error:
        print(f"{name}: {to}: {error.strerror}", file=sys.stderr)
        return REFUSED
    return max([written(each, to, is_over, name) for each in chosen])


def made(names: List[str]) -> List[Task]:
    """The tasks of the gallery with these names, or all if no name is given. None is made behind the last that is named."""
    found: List[Task] = []
    for each in gallery():
        if names and each.name in names:
            found.append(each)
            if len(found) == len({*names}):
                break
        elif not names:
            found.append(each)
    return found


def written(each: Task, folder: pathlib.Path, is_over: bool, name: str) -> int:
    """Writes the file of a task, says so, and returns the status. What is there and says something else may stay."""
    path = folder / f"{each.name}.json"
    try:
        if not is_over and path.exists() and path.read_bytes() != each.text.encode():
            print(f"{name}: {path} is there and says something else: it is left as it is", file=sys.stderr)
            return REFUSED
        path.write_text(each.text, encoding="utf-8")
    except OSError as error:
        print(f"{name}: {path}: {error.strerror}", file=sys.stderr)
        return REFUSED
    print(path.name)
    return 0
