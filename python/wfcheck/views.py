"""Views: what a process has seen, as nested tuples.

A view is `(process, input)` before the first round, and `(process, (view, ..))` after a round: the process with the views that it saw in
the last round, by ascending process, its own among them. In a symmetric task the first part is a rank, and not a process."""
import re
from typing import Any, Dict, List, Optional, Tuple

from .names import Names
from .running import Error

# Python's types have no name for a tuple that is nested to any depth: (process, input), or (process, (view, ..))
View = Tuple[int, Any]
# a point of a text: its view, and the value that is decided there, if any is told
Point = Tuple[View, Optional[int]]
BEGIN = re.compile(r"[p#](\d+)(?:=(\d+)| saw \{)")
LINE = re.compile(r"\d+ (.*?)(?: decides (\d+))?")


class Unreadable(Error):
    """A text that the program does not write."""


def view_of(text: str) -> View:
    """The view that a text tells as `wfcheck points` does, as `p1 saw {p0=0, p1=0}`. Raises Unreadable."""
    view, end = view_at(text, 0, {})
    if end != len(text):
        raise Unreadable(f"behind the view stands {text[end:end + 20]!r}")
    return view


def words_of(view: View, letter: str = "p", names: Names = Names()) -> str:
    """A view as `wfcheck points` tells it. The letter is `p` for processes, and `#` for the ranks of a symmetric task. Inputs have their
    names."""
    first, seen = view
    if isinstance(seen, int):
        return f"{letter}{first}={names.input(seen)}"
    return f"{letter}{first} saw {{{', '.join(words_of(each, letter, names) for each in seen)}}}"


def view_at(text: str, at: int, same: Dict[View, View]) -> Tuple[View, int]:
    """The view that begins at a place of a text, and where it ends. Views that are equal are one object, by what is the same."""
    found = BEGIN.match(text, at)
    if not found:
        raise Unreadable(f"no view begins with {text[at:at + 20]!r}")
    if found[2] is not None:
        leaf = (int(found[1]), int(found[2]))
        return same.setdefault(leaf, leaf), found.end()
    first, at = view_at(text, found.end(), same)
    seen = [first]
    while text.startswith(", ", at):
        each, at = view_at(text, at + 2, same)
        seen.append(each)
    if not text.startswith("}", at):
        raise Unreadable(f"a view goes on with {text[at:at + 20]!r}")
    view = (int(found[1]), tuple(seen))
    return same.setdefault(view, view), at + 1


def points_of(text: str) -> List[Point]:
    """The points of a text of `wfcheck points`, in their order, each with the value that is decided there or None."""
    same: Dict[View, View] = {}
    found: List[Point] = []
    for number, line in enumerate(text.split("\n")[:-1]):
        told = LINE.fullmatch(line)
        if not told or not line.startswith(f"{number} "):
            raise Unreadable(f"{line[:40]!r} does not tell point {number}")
        view, end = view_at(told[1], 0, same)
        if end != len(told[1]):
            raise Unreadable(f"behind the view of point {number} stands {told[1][end:end + 20]!r}")
        found.append((view, int(told[2]) if told[2] else None))
    return found
