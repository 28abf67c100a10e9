"""`python3 -m wfcheck ask TASK ROUNDS ..`, `.. lint TASK` and `.. task NAME` are the commands wfcheck-ask, wfcheck-lint and wfcheck-task.
`python3 -m wfcheck restrict --processes 0,2 < TASK` writes the task of some processes alone. `.. draw TASK [REPORT]` draws.
`.. names TASK < TEXT` and `.. rules TASK REPORT` are wfcheck-names and wfcheck-rules."""
import argparse
import pathlib
import signal
import sys
from typing import List

UNDECIDED, REFUSED = 3, 2
FOLDER = pathlib.Path(__file__).resolve().parent.parent
USAGE = """usage: python3 -m wfcheck ask TASK ROUNDS [options]
       python3 -m wfcheck lint [--all] TASK
       python3 -m wfcheck task NAME .. | --all | --list
       python3 -m wfcheck restrict --processes P,.. < TASK
       python3 -m wfcheck draw TASK [REPORT] [options]
       python3 -m wfcheck names TASK < TEXT
       python3 -m wfcheck rules TASK REPORT"""


def main(words: List[str]) -> int:
    """Does what the words say, and returns the status."""
    try:
        return done(words)
    except Exception as error:
        # a status of Python's own would mean an answer
        print(f"{words[0] if words else 'wfcheck'}: {type(error).__name__}: {error}", file=sys.stderr)
        return UNDECIDED


def done(words: List[str]) -> int:
    """Does what the words say, and returns the status."""
    if words[:1] == ["restrict"]:
        return restricted(words[1:])
    if words[:1] == ["draw"]:
        from .drawing.main import main as draw
        return draw(words[1:])
    if words[:1] == ["lint"]:
        from . import linting
        return linting.main(words[1:], "python3 -m wfcheck lint")
    if words[:1] == ["task"]:
        from . import writing
        return writing.main(words[1:], "python3 -m wfcheck task")
    if words[:1] == ["names"]:
        from . import naming
        return naming.main(words[1:], "python3 -m wfcheck names")
    if words[:1] == ["rules"]:
        from .ruling import main as ruled
        return ruled.main(words[1:], "python3 -m wfcheck rules")
    if words[:1] != ["ask"]:
        signal.signal(signal.SIGPIPE, signal.SIG_DFL)
        print(USAGE, file=sys.stdout if words[:1] == ["--help"] else sys.stderr)
        return 0 if words[:1] == ["--help"] else REFUSED
    from .asking import words as asked
    return asked.main(words[1:], ["env", f"PYTHONPATH={FOLDER}", sys.executable, "-m", "wfcheck", "ask"])


def numbers(text: str) -> List[int]:
    """The numbers of a list such as 0,2."""
    return [int(it) for it in text.split(",")]


def restricted(listed: List[str]) -> int:
    """Reads a task, and writes that of some of its processes."""
    from .running import linter
    from .tasks import Mistake, NoTask, Task, restrict
    words = argparse.ArgumentParser(prog="python3 -m wfcheck restrict", description="Reads a task on standard input, and writes the task of some "
                                    "processes alone: the first of them is process 0 there, the next process 1, and so on.")
    words.add_argument("--processes", required=True, type=numbers, metavar="P,..", help="the processes, such as 0,2")
    kept = words.parse_args(listed).processes
    signal.signal(signal.SIGPIPE, signal.SIG_DFL)
    try:
        text = sys.stdin.read()
        if not text:
            print("restrict: an empty text: did the command before it fail?", file=sys.stderr)
            return REFUSED
        sys.stdout.write(restrict(Task("task", text), kept).text)
    except (NoTask, UnicodeDecodeError):
        print(f"restrict: what is read is no task: {linter()} FILE says where it is wrong", file=sys.stderr)
        return REFUSED
    except Mistake as mistake:
        print(f"restrict: {mistake}", file=sys.stderr)
        return REFUSED
    return 0


if __name__ == "__main__":
    sys.exit(main(sys.argv[1:]))
