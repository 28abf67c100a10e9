"""The commands that come with the module: `wfcheck-ask`, `wfcheck-draw`, `wfcheck-lint`, `wfcheck-names`, `wfcheck-rules` and
`wfcheck-task`. tools/ask, tools/lint.py and tools/tasks.py are three of them in the repository."""
import gc
import os
import sys
from typing import Callable

UNDECIDED = 3


def guarded(name: str, command: Callable[[], int]) -> int:
    """Runs a command, and returns its status. Python's own status for an exception would mean an answer."""
    gc.enable()
    try:
        return command()
    except Exception as error:
        print(f"{name}: {type(error).__name__}: {error}", file=sys.stderr)
        return UNDECIDED


def ask() -> int:
    """`wfcheck-ask`: asks a question that may be too hard for the search alone. Returns the status."""
    def command() -> int:
        """Asks."""
        gc.disable()
        from .asking import words
        return words.main(sys.argv[1:], [itself()], "wfcheck-ask")
    return guarded("ask", command)


def itself() -> str:
    """The path of the command that runs, by which a job of an array asks again."""
    if os.path.dirname(sys.argv[0]):
        return os.path.abspath(sys.argv[0])
    import shutil
    return os.path.abspath(shutil.which(sys.argv[0]) or sys.argv[0])


def draw() -> int:
    """`wfcheck-draw`: draws what the program accepts. Returns the status."""
    def command() -> int:
        """Draws."""
        from .drawing import main
        return main.main(sys.argv[1:])
    return guarded("wfcheck-draw", command)


def lint() -> int:
    """`wfcheck-lint`: says where a task file is refused, or what in it most likely is a slip. Returns the status."""
    def command() -> int:
        """Lints."""
        from . import linting
        return linting.main(sys.argv[1:], "wfcheck-lint")
    return guarded("wfcheck-lint", command)


def names() -> int:
    """`wfcheck-names`: tells points and arguments by the names of values and inputs. Returns the status."""
    def command() -> int:
        """Names."""
        from . import naming
        return naming.main(sys.argv[1:], "wfcheck-names")
    return guarded("wfcheck-names", command)


def rules() -> int:
    """`wfcheck-rules`: tells a decision map by few rules. Returns the status."""
    def command() -> int:
        """Tells rules."""
        from .ruling import main
        return main.main(sys.argv[1:], "wfcheck-rules")
    return guarded("wfcheck-rules", command)


def task() -> int:
    """`wfcheck-task`: writes task files of the gallery. Returns the status."""
    def command() -> int:
        """Writes tasks."""
        from . import writing
        return writing.main(sys.argv[1:], "wfcheck-task")
    return guarded("wfcheck-task", command)
