"""What the calls of the module take, judged before anything is run: TypeError for another type, ValueError for what is out of range."""
from typing import Any, Optional

from .tasks import Task

LONGEST_SECONDS = 1e9


def a_task(given: Any) -> None:
    """Refuses what is no task."""
    if not isinstance(given, Task):
        raise TypeError(f"a task is what `task` or `read` returns, and not {shown(given)}")
    if not isinstance(given.name, str) or not isinstance(given.text, str):
        raise TypeError(f"the name and the text of a task are strings, and not {shown(given.name)} and {shown(given.text)}")


def a_view(given: Any) -> None:
    """Refuses what is no view: a process or rank with its input, or with the views that it saw."""
    left = [given]
    while left:
        it = left.pop()
        if not isinstance(it, tuple) or len(it) != 2 or type(it[0]) is not int or not isinstance(it[1], (int, tuple)) or it[1] == ():
            raise TypeError(f"a view is (process, input) or (process, (view, ..)), and not {shown(given)}")
        left += it[1] if isinstance(it[1], tuple) else ()


def a_number(what: str, given: Any, least: int = 0) -> None:
    """Refuses what is no whole number from some number on."""
    if type(given) is not int:
        raise TypeError(f"{what} is a whole number, and not {shown(given)}")
    if given < 0:
        raise ValueError(f"{given} is negative: rounds and workers are not")
    if given < least:
        raise ValueError(f"{what} is {least} or more, and not {given}")


def a_time(given: Any, is_needed: bool = False) -> None:
    """Refuses what is no number of seconds. None stands for no limit where none is needed."""
    if given is None and not is_needed:
        return
    if isinstance(given, bool) or not isinstance(given, (int, float)):
        raise TypeError(f"seconds is a number, and not {shown(given)}")
    if not 0 < given < LONGEST_SECONDS:
        raise ValueError(f"seconds is above 0 and below {LONGEST_SECONDS:,.0f}, and not {given}")


def a_choice(what: str, given: Any) -> None:
    """Refuses what is neither True nor False."""
    if type(given) is not bool:
        raise TypeError(f"{what} is True or False, and not {shown(given)}")


def a_solver(given: Optional[str]) -> None:
    """Refuses what is no command of a solver."""
    if given is not None and not isinstance(given, str):
        raise TypeError(f"solver is a string, as `ask --solver` takes it, and not {shown(given)}")
    if given is not None and (not given.strip() or "\0" in given):
        raise ValueError("solver names no command")


def shown(given: Any) -> str:
    """A value and its type, in few words."""
    text = repr(given)
    return f"{text if len(text) <= 60 else text[:60] + '..'} ({type(given).__name__})"
