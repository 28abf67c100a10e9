"""wfcheck from Python: tasks from predicates, and answers as objects.

    from wfcheck import decide, task

    def legal(start, end):
        return len(set(end.values())) == 1 and set(end.values()) <= set(start.values())

    print(decide(task("mine", 2, [(0, 1)], legal, values=[0, 1]), 1))

It needs Python 3.9. What asks something needs the program `wfcheck`: the variable WFCHECK names it, or it is bin/wfcheck or
release/wfcheck of this repository, or it is on the path. `python3 -m wfcheck --help` lists the module's commands."""
import importlib
from typing import TYPE_CHECKING, Any, List

if TYPE_CHECKING:
    from .answers import Answer, Branching, Closed, Map, Multiplier, Node, Obstruction, Proof, Refutation, Step, Taken, tell
    from .combining import product, restrict_inputs, union
    from .deciding import ask, decide
    from .outcomes import Between, From, MapAt, Never, NoneUpTo, NotDecided
    from .questions import explain, obstruction, points, solve, trim, verify
    from .ruling.telling import rules
    from .running import Error, NoAnswer, NoFile, NoProgram, Refused
    from .tasks import Mistake, Task, read, restrict, task, write
    from .version import VERSION as __version__
    from .views import View

# the module of each name that is offered: it is imported once the name is asked for, so that a command imports what it needs
PLACES = {
    "answers": ("Answer", "Branching", "Closed", "Map", "Multiplier", "Node", "Obstruction", "Proof", "Refutation", "Step", "Taken", "tell"),
    "combining": ("product", "restrict_inputs", "union"),
    "deciding": ("ask", "decide"),
    "outcomes": ("Between", "From", "MapAt", "Never", "NoneUpTo", "NotDecided"),
    "questions": ("explain", "obstruction", "points", "solve", "trim", "verify"),
    "ruling.telling": ("rules",),
    "running": ("Error", "NoAnswer", "NoFile", "NoProgram", "Refused"),
    "tasks": ("Mistake", "Task", "read", "restrict", "task", "write"),
    "views": ("View",),
}

__all__ = [
    "Answer", "Between", "Branching", "Closed", "Error", "From", "Map", "MapAt", "Mistake", "Multiplier", "Never", "NoAnswer", "NoFile",
    "NoProgram", "Node", "NoneUpTo", "NotDecided", "Obstruction", "Proof", "Refutation", "Refused", "Step", "Taken", "Task", "View",
    "__version__", "ask", "decide", "explain", "obstruction", "points", "product", "read", "restrict", "restrict_inputs", "rules", "solve",
    "task", "tell", "trim", "union", "verify", "write",
]


def __getattr__(name: str) -> Any:
    """What the module offers by a name, from the part that has it."""
    if name == "__version__":
        from .version import VERSION
        return VERSION
    place = next((it for it, names in PLACES.items() if name in names), None)
    if place is None:
        raise AttributeError(f"module {__name__!r} has no attribute {name!r}")
    found = getattr(importlib.import_module(f".{place}", __name__), name)
    globals()[name] = found
    return found


def __dir__() -> List[str]:
    """The names that are for users."""
    return sorted(__all__)
