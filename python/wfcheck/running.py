"""The program `wfcheck`: where it is, and one run of it."""
import functools
import os
import pathlib
import re
import sys
from typing import NamedTuple, Optional, Sequence, Union

HERE = pathlib.Path(__file__).resolve()
TOP = HERE.parent.parent.parent
VARIABLE, NAME = "WFCHECK", "wfcheck"
# where `make build` leaves the program, and where `make install` puts it beside share/wfcheck
PLACES = [TOP / "bin" / NAME, *([TOP.parent.parent / "bin" / NAME] if TOP.parts[-2:] == ("share", NAME) else [])]
# where a wheel puts it that has it: ENV/bin, if the module is in ENV/lib/pythonX.Y/site-packages
PACKAGES = HERE.parent.parent
BESIDE = PACKAGES.parents[2] / "bin" / NAME if PACKAGES.name in ("site-packages", "dist-packages") and len(PACKAGES.parents) > 2 else None
RELEASED = TOP / "release" / NAME
# a line of PROVENANCE that names a program's bytes
SHA = r"(?m)^([0-9a-f]{64}) [ *](\S+)$"
# in seconds: how long a program may take to say which one it is
SECONDS = 10
TO_DO = f"set {VARIABLE} to the file of the program, put {NAME} on the path, or get a clone, where release/ has it and `make build` makes it"
# a refusal with the notes below it
REFUSAL = r"(?m)^wfcheck: (\d+) (.*)((?:\n  note: .*)*)"
# the statuses of an answer: a map or an acceptance, and none
ANSWERS = (0, 1)
Word = Union[str, int, pathlib.Path]


class Error(Exception):
    """What each error of this module is."""


class NoProgram(Error):
    """The program is not there, or can't be run."""


class NoFile(Error, OSError):
    """A file can't be read or written, or is no text."""


class Refused(Error):
    """What the program refuses, by the number of the refusal and its words, as docs/FORMAT.md lists them. `str` has the program's notes too."""

    def __init__(self, number: int, words: str, notes: Sequence[str] = ()) -> None:
        super().__init__(number, words, notes)
        self.number, self.words, self.notes = number, words, notes

    def __str__(self) -> str:
        return f"{self.number} {self.words}" + "".join(f" ({it})" for it in self.notes)


class NoAnswer(Error):
    """There is no answer: the time was over, or the program was ended. It says nothing about the task."""


class Ran(NamedTuple):
    """How a run of the program ended: its status, and what it wrote."""
    status: int
    written: str
    said: str


def program() -> pathlib.Path:
    """The file of the program, which is the first of these: what the variable WFCHECK names; bin/wfcheck of this repository or installation;
    release/wfcheck of this repository; the one that came in a wheel with the module; `wfcheck` on the path.

    Raises NoProgram if there is none, and says what to do."""
    if named := os.environ.get(VARIABLE):
        return judged(pathlib.Path(named).absolute(), f"the variable {VARIABLE} names {named}")
    for built in PLACES:
        if built.is_file():
            return built
    if RELEASED.is_file():
        return released(RELEASED)
    if BESIDE and BESIDE.is_file():
        return judged(BESIDE, f"{BESIDE} is beside the module")
    import shutil
    if found := shutil.which(NAME):
        return judged(pathlib.Path(found).absolute(), f"{found} is the first {NAME} on the path")
    raise NoProgram(f"there is no program {NAME}: {TO_DO}")


@functools.lru_cache(maxsize=None)
def judged(path: pathlib.Path, why: str) -> pathlib.Path:
    """A file that has to be the program, by what it says of itself."""
    import subprocess
    if not path.is_file():
        raise NoProgram(f"{why}, which is no file: {TO_DO}")
    try:
        run = subprocess.run([str(path), "--version"], stdin=subprocess.DEVNULL, capture_output=True, timeout=SECONDS, check=False)
    except (OSError, subprocess.TimeoutExpired) as error:
        raise NoProgram(f"{why}, which can't be run ({error}): {TO_DO}") from error
    if run.returncode:
        told = run.stderr.decode(errors="replace").strip() or f"status {run.returncode}"
        raise NoProgram(f"{why}, which can't be run ({told}): {TO_DO}")
    if not run.stdout.startswith(f"{NAME} ".encode()):
        raise NoProgram(f"{why}, which is another program: its --version does not begin with {NAME!r}")
    return path


@functools.lru_cache(maxsize=None)
def released(path: pathlib.Path) -> pathlib.Path:
    """The released program, told on standard error once, if it is the file whose SHA-256 stands in PROVENANCE."""
    import hashlib
    try:
        wanted = re.findall(SHA, path.with_name("PROVENANCE").read_text(encoding="utf-8"))
        found = hashlib.sha256(path.read_bytes()).hexdigest()
    except OSError as error:
        raise NoProgram(f"release/{NAME} can't be taken ({error}): {TO_DO}") from error
    if (found, path.name) not in wanted:
        raise NoProgram(f"release/{NAME} is not the file that release/PROVENANCE names, and is not run: `git checkout release` gets it back")
    judged(path, f"the only program is release/{NAME}")
    print(f"{NAME}: there is no bin/{NAME}, so the released program is run: {path}", file=sys.stderr)
    return path


def linter() -> str:
    """The command that tells in words why a task file is refused: of this repository, or as it is installed."""
    return "tools/lint.py" if (TOP / "tools/lint.py").is_file() else f"{NAME}-lint"


def run(words: Sequence[Word], given: str, seconds: Optional[float] = None) -> Ran:
    """Runs the program over a text, for at most so many seconds if any are given.

    Raises Refused with the number and the words of a refusal, NoAnswer if the program ends without an answer, and ValueError if a number
    is negative."""
    import subprocess
    for word in words:
        if isinstance(word, int) and word < 0:
            raise ValueError(f"{word} is negative: rounds and workers are not")
    try:
        ended = subprocess.run([str(program()), *map(str, words)], input=given.encode(), capture_output=True, timeout=seconds, check=False)
    except subprocess.TimeoutExpired:
        raise NoAnswer(f"wfcheck {words[0]} had no end within {seconds:g} s") from None
    except OSError as error:
        raise NoProgram(f"{program()} can't be run: {error}") from error
    ran = Ran(ended.returncode, ended.stdout.decode(errors="replace"), ended.stderr.decode(errors="replace"))
    if ran.status not in ANSWERS:
        raise refusal(ran.said) or NoAnswer(f"wfcheck {words[0]} ended with status {ran.status}: {ran.said.strip()}")
    return ran


def refusal(said: str) -> Optional[Refused]:
    """The refusal that a text tells of, or None."""
    found = re.search(REFUSAL, said)
    if not found:
        return None
    notes = found[3].replace(f"`{NAME}-lint FILE` (in the repository tools/lint.py)", f"`{linter()} FILE`").split("\n  note: ")[1:]
    return Refused(int(found[1]), found[2], notes)
