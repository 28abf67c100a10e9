"""The files of the atlas: a table as tab-separated lines, and what is decided of a table that is not yet whole.

The first line of a table says what stands in it, behind `# `, and the second names the columns. Then come the lines, by ascending codes."""
import pathlib
from typing import Dict, Iterable, List, NamedTuple, Tuple

from ..tasks import Mistake
from .deciding import Line

ENDING, PART = ".tsv", ".tsv.part"
COLUMNS = "\t".join(Line._fields)


class Kept(NamedTuple):
    """What a file has: what its first line says, and its lines."""
    about: str
    lines: List[Line]


def text_of(about: str, lines: Iterable[Line]) -> str:
    """The text of a table."""
    return "".join(f"{it}\n" for it in [f"# {about}", COLUMNS, *("\t".join(line) for line in sorted(lines))])


def line_of(text: str) -> Line:
    """The line that a text is. Raises Mistake if it is none."""
    words = text.split("\t")
    if len(words) != len(Line._fields) or not all(words[:2]):
        raise Mistake(f"{text[:60]!r} is no line of a table")
    return Line(*words)


def read(path: pathlib.Path) -> Kept:
    """What a table has. Raises Mistake if it is none."""
    first, columns, *lines, rest = path.read_text(encoding="utf-8").split("\n")
    if not first.startswith("# ") or columns != COLUMNS or rest:
        raise Mistake(f"{path.name} is no table, or not whole")
    return Kept(first.removeprefix("# "), [line_of(it) for it in lines])


class Part:
    """The file of what was decided before a stop: its first line names the program that decided it."""

    def __init__(self, path: pathlib.Path, program: str) -> None:
        self.path, self.program = path, f"# {program}"

    def begun(self) -> Dict[str, Line]:
        """What this program decided before, by codes: without a last line that is not whole, and without what another program decided."""
        if not self.path.is_file():
            return {}
        first, *lines = self.path.read_text(encoding="utf-8").split("\n")[:-1] or [""]
        return {it.code: it for it in map(line_of, lines)} if first == self.program else {}

    def open(self) -> Tuple[Dict[str, Line], "Writer"]:
        """What was decided before, and a writer of what comes."""
        found = self.begun()
        self.path.write_text("".join(f"{it}\n" for it in [self.program, *("\t".join(line) for line in found.values())]), encoding="utf-8")
        return found, Writer(self.path)


class Writer:
    """Writes lines behind what is there, each at once."""

    def __init__(self, path: pathlib.Path) -> None:
        self.file = path.open("a", encoding="utf-8")

    def write(self, line: Line) -> None:
        """Writes a line."""
        self.file.write("\t".join(line) + "\n")
        self.file.flush()

    def close(self) -> None:
        """Ends the file."""
        self.file.close()
