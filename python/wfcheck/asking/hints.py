"""Reports that are given to tools/ask: what `verify` accepts of this task after these rounds is the answer, whoever wrote it, and nothing else
is asked. A report that is refused says nothing of the question."""
from __future__ import annotations

import pathlib
from typing import Optional, Sequence

from .. import files
from ..files import in_line
from .questions import Answer, Attempt
from .runs import say

PIECE = 1 << 20


def by_hints(attempt: Attempt, hints: Sequence[pathlib.Path]) -> Optional[Answer]:
    """The answer of the first report that is accepted. One that can't be read is left out."""
    for hint in hints:
        try:
            if answer := by_hint(attempt, hint):
                return answer
        except OSError as error:
            say(f"    --hint: {in_line(str(error))}")
    return None


def by_hint(attempt: Attempt, hint: pathlib.Path) -> Optional[Answer]:
    """The answer of a report, if `verify` accepts it. A copy of the bytes is checked, so that what is accepted is what is kept."""
    name, report = f"the hint {in_line(hint.name)}", attempt.file("report")
    try:
        with files.opened(hint) as given, open(report, "xb") as copy:
            while piece := given.read(PIECE):
                attempt.clock.go_on()
                copy.write(piece)
        attempt.tell(name, "is asked first")
        if word := attempt.accepted(report):
            return Answer(word, name, 0, [report])
    except BaseException:
        report.unlink(missing_ok=True)
        raise
    report.unlink()
    return None
