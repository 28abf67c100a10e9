"""The table of `ask --table`: a line for each number of rounds that was asked, and one for all of them where there is an obstruction."""
from __future__ import annotations

import fcntl
import pathlib
import re
import sys
from typing import Collection, List, NamedTuple, Optional, Sequence, Union

from .notes import Note, digest
from .runs import not_waiting

HEADER = ["task", "rounds", "answer", "certificate", "bytes", "sha256", "seconds"]
EVERY, NOT_DECIDED, REFUSED, NOTHING = "every", "not decided", "refused", "-"


class Certificate(NamedTuple):
    """What shows an answer: its kind, its bytes, and its SHA-256."""
    kind: str = NOTHING
    size: Union[int, str] = NOTHING
    digest: str = NOTHING


class Table:
    """A file of values with tabs between them, to which lines are appended, or none."""

    def __init__(self, file: Optional[pathlib.Path]) -> None:
        self.file = file

    def of_file(self, file: pathlib.Path) -> Optional[Certificate]:
        """A certificate that is one file: a report, a solver's proof, the report of its model, a lifted map or an obstruction. None without a
        table, so that large files are not read for nothing."""
        return Certificate(file.suffix[1:], file.stat().st_size, digest(file)) if self.file else None

    @staticmethod
    def of_notes(notes: Collection[Note]) -> Certificate:
        """The certificates of branches: their bytes together, and the SHA-256 of the notes, one behind another."""
        text = "".join(note.line() for note in notes).encode(errors="surrogateescape")
        import hashlib
        return Certificate("branches", sum(note.size for note in notes), hashlib.sha256(text).hexdigest())

    def add(self, task: pathlib.Path, rounds: Union[int, str], answer: Optional[str], certificate: Optional[Certificate],
            seconds: float) -> None:
        """Appends a line, and a header before it where the file is new. Several runs may do so at once."""
        if not self.file:
            return
        found = certificate or Certificate()
        values: List[Union[int, str]] = [re.sub(r"[\x00-\x1f]", "?", task.stem), rounds, answer or NOT_DECIDED, *found, f"{seconds:.2f}"]
        try:
            with open(self.file, "ab", opener=not_waiting) as lines:
                fcntl.flock(lines, fcntl.LOCK_EX)
                rows: List[Sequence[Union[int, str]]] = [HEADER, values] if pathlib.Path(self.file).stat().st_size == 0 else [values]
                lines.write("".join("\t".join(map(str, row)) + "\n" for row in rows).encode(errors="surrogateescape"))
        except OSError as error:
            print(f"ask: --table: {error}", file=sys.stderr)
