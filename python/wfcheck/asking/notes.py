"""The folder of `ask --keep`: the room in which a run works, what it puts into place there, and the notes about branches.

Nothing in the folder is ever written over or followed to another place: each attempt works in a folder of its own inside, and a file
that is accepted gets the first free name. A note is a file `branch-I` with one line, which names the certificate of its branch and has
its SHA-256. It is trusted only while that very certificate is there; so a note says that the certificate was accepted once, and
`ask --recheck` has it accepted again."""
from __future__ import annotations

import contextlib
import errno
import fcntl
import os
import pathlib
import re
import shutil
import stat
import tempfile
import time
from typing import TYPE_CHECKING, Any, Dict, Iterable, Iterator, List, NamedTuple, Optional, Set, Tuple

from .. import files
from .runs import not_cut_off, say

if TYPE_CHECKING:
    from .questions import Answer

VERDICT = "verdict"
# the errors of a link to another file system, or where there are no links
NO_LINK = errno.EXDEV, errno.EPERM, errno.EOPNOTSUPP
TRIES, PAUSE = 20, 0.05
# what tells one question from another, in words
NAMES = {"rounds": "number of rounds", "branches": "list of branches", "program": "version of the program"}
ROOMS, LOCK = ".ask-", "lock"
LINE = (r"(?P<word>map|none), by (?P<who>.*) in (?P<taken>[\d.]+) s, "
        r"(?P<size>\d+) bytes with SHA-256 (?P<digest>[0-9a-f]{64}) in (?P<name>[^/\n]+)\n")
# so that the names of files are read as they are written
CODE, ERRORS = "utf-8", "surrogateescape"


def digest(file: pathlib.Path) -> str:
    """The SHA-256 of a file."""
    import hashlib
    found = hashlib.sha256()
    with files.opened(file) as text:
        while piece := text.read(1 << 20):
            not_cut_off()
            found.update(piece)
    return found.hexdigest()


class Room:
    """A folder for the files of one run, inside the folder that keeps, or among the temporary ones. It goes when the run ends; what a
    run that was killed left inside the folder goes when the next one begins, which sees by the lock that nobody works there."""

    def __init__(self, keep: Optional[pathlib.Path]) -> None:
        self.keep = keep

    def __enter__(self) -> Room:
        if self.keep:
            for left in self.keep.glob(f"{ROOMS}*"):
                sweep(left)
        self.path = pathlib.Path(tempfile.mkdtemp(prefix=ROOMS, dir=self.keep)).absolute()
        self.lock = open(self.path / f"{LOCK}.new", "x")
        with contextlib.suppress(OSError):
            print(os.uname().nodename, file=self.lock, flush=True)
            fcntl.flock(self.lock, fcntl.LOCK_EX | fcntl.LOCK_NB)
            (self.path / f"{LOCK}.new").rename(self.path / LOCK)
        return self

    def __exit__(self, *_: Any) -> None:
        clear(self.path)
        self.lock.close()

    def place(self) -> int:
        """The place of this run among those that have a room in the folder: 0 for one that is alone there."""
        return sorted({self.path.name, *(it.name for it in self.keep.glob(f"{ROOMS}*"))}).index(self.path.name) if self.keep else 0

    @contextlib.contextmanager
    def attempt(self) -> Iterator[pathlib.Path]:
        """A folder for one attempt."""
        path = pathlib.Path(tempfile.mkdtemp(dir=self.path))
        try:
            yield path
        finally:
            clear(path)


def clear(folder: pathlib.Path) -> None:
    """Takes a folder away. What was killed may have written there until a moment ago, so it is tried again."""
    for _ in range(TRIES):
        shutil.rmtree(folder, ignore_errors=True)
        if not folder.exists():
            return
        time.sleep(PAUSE)


def sweep(room: pathlib.Path) -> None:
    """Takes away the room of a run that is gone. That of another machine stays, since its lock may not be seen from here."""
    with contextlib.suppress(OSError, ValueError):
        with open(os.open(room / LOCK, os.O_RDWR | os.O_NOFOLLOW | os.O_NONBLOCK)) as lock:
            is_file = stat.S_ISREG(os.fstat(lock.fileno()).st_mode)
            if is_file and lock.read(1 << 10).strip() == os.uname().nodename:
                fcntl.flock(lock, fcntl.LOCK_EX | fcntl.LOCK_NB)
                clear(room)


def placed(file: pathlib.Path, folder: pathlib.Path) -> pathlib.Path:
    """Puts a file into a folder, under its own name or the next that is free, and returns that. Where the same bytes are there they stay."""
    number = 0
    while True:
        number += 1
        place = folder / (file.name if number == 1 else f"{file.stem}.{number}{file.suffix}")
        try:
            put(file, place)
            return place
        except FileExistsError:
            if place.is_file() and not place.is_symlink() and place.stat().st_size == file.stat().st_size and digest(place) == digest(file):
                return place


def put(file: pathlib.Path, place: pathlib.Path) -> None:
    """Gives a file a name that is free: by a link, or by a copy if the place is on another file system. Raises FileExistsError."""
    try:
        os.link(file, place, follow_symlinks=False)
    except OSError as error:
        if error.errno not in NO_LINK:
            raise
        handle, made = tempfile.mkstemp(dir=place.parent, prefix=ROOMS)
        try:
            with open(handle, "wb") as copy, files.opened(file) as text:
                shutil.copyfileobj(text, copy)
            os.chmod(made, 0o644)
            os.link(made, place, follow_symlinks=False)
        finally:
            os.unlink(made)


def keep(file: pathlib.Path, folder: pathlib.Path, kept: List[pathlib.Path]) -> None:
    """Puts a file that is accepted into a folder, and adds its place to a list; or says why it can't be kept."""
    try:
        kept.append(placed(file, folder))
    except OSError as error:
        say(f"    {file.name} can't be kept: {error.strerror}: {folder}")


class Note(NamedTuple):
    """What is noted of a branch."""
    word: str
    who: str
    taken: str
    size: int
    digest: str
    name: str

    def has_lines(self) -> bool:
        """Whether the certificate can be checked again: the search's answer alone can't be."""
        return self.word != "none" or not self.name.endswith(f".{VERDICT}")

    def line(self) -> str:
        """The line of the note's file."""
        return f"{self.word}, by {self.who} in {self.taken} s, {self.size} bytes with SHA-256 {self.digest} in {self.name}\n"


class Notes:
    """What is known of the branches of one question."""

    def __init__(self, folder: pathlib.Path) -> None:
        self.folder = folder
        # the SHA-256 of each certificate by what tells that it is the same, so that none is read twice; why a note is not trusted; and the
        # notes whose certificates were refused in this run
        self.seen: Dict[Tuple[int, ...], str] = {}
        self.doubts: Dict[int, str] = {}
        self.refused: Set[Note] = set()
        # the branches that were noted to have none
        self.nones: Set[int] = set()

    def not_about(self, about: Dict[str, Any], room: Optional[Room]) -> Optional[str]:
        """Why the folder is not about this question, by the names and words that say which one it is; None where it is. A folder that is about
        none yet is about this one from now on, where there is a room for that."""
        text, file = "".join(f"{name} {it}\n" for name, it in about.items()), self.folder / "question"
        if room:
            with room.attempt() as made:
                (made / "question").write_text(text)
                with contextlib.suppress(FileExistsError):
                    os.link(made / "question", file)
        if not file.is_file():
            return "has no notes yet: they come from runs with this folder as --keep"
        with files.opened(file) as lines:
            found = lines.read(1 << 14).decode(CODE, ERRORS)
        if found == text:
            return None
        words = dict(line.split(" ", 1) for line in found.split("\n") if " " in line)
        other = next((name for name in about if name in words and words[name] != str(about[name])), None)
        if other and words.keys() == about.keys():
            return f"has notes about another {NAMES.get(other, other)}: {words[other]}, and not {about[other]}: choose another folder"
        return "has notes about another question, or of an older version of this script: choose another folder"

    def line_of(self, branch: int) -> Optional[Note]:
        """What is noted of a branch, whether it is to be trusted or not."""
        with files.opened(self.folder / f"branch-{branch}") as file:
            found = re.fullmatch(LINE, file.read(1 << 14).decode(CODE, ERRORS))
        if not found:
            return None
        word, who, taken, size, sha, name = found.groups()
        return Note(word, who, taken, int(size), sha, name)

    def of(self, branch: int) -> Optional[Note]:
        """The note of a branch; None where there is none that is to be trusted."""
        self.doubts.pop(branch, None)
        try:
            note = self.line_of(branch)
            doubt = self.doubt(note) if note else "it names no certificate"
        except FileNotFoundError:
            return None
        except OSError as error:
            doubt = str(error)
        if doubt:
            self.doubts[branch] = doubt
        return None if doubt else note

    def doubt(self, note: Note) -> Optional[str]:
        """Why a note is not trusted; None where it is."""
        if note in self.refused:
            return f"{note.name} was refused"
        file = self.folder / note.name
        if not file.is_file():
            return f"{note.name} is not there"
        about = file.stat()
        if about.st_size != note.size:
            return f"{note.name} has {about.st_size} bytes, and not {note.size}"
        key = (about.st_ino, about.st_size, about.st_mtime_ns, about.st_ctime_ns)
        if key not in self.seen:
            self.seen[key] = digest(file)
        return None if self.seen[key] == note.digest else f"{note.name} has another SHA-256"

    def maps_below(self, branch: int) -> Iterator[Tuple[int, Note]]:
        """The branches below this one that are noted to have a map, with their notes."""
        numbers = (it.name.removeprefix("branch-") for it in self.folder.glob("branch-*"))
        there = {int(it) for it in numbers if re.fullmatch(r"\d{1,9}", it, re.A)}
        for lower in sorted(it for it in there - self.nones if it < branch):
            note = None
            with contextlib.suppress(OSError):
                note = self.line_of(lower)
            if note and note.word == "none":
                self.nones.add(lower)
            elif note and (trusted := self.of(lower)):
                yield lower, trusted

    def all(self, chosen: Iterable[int]) -> Dict[int, Note]:
        """The notes of some branches. Those of others are not looked at, since their certificates may be large and many."""
        return {branch: note for branch in chosen if (note := self.of(branch))}

    def keep(self, branch: int, answer: Answer, made: pathlib.Path) -> Note:
        """Puts the certificate of an answer into place, and then notes it, where no other run has noted the branch meanwhile."""
        if note := self.of(branch):
            return note
        certificate = answer.files[0]
        size, name = certificate.stat().st_size, placed(certificate, self.folder).name
        note = Note(answer.word, answer.who, f"{answer.taken:.2f}", size, digest(certificate), name)
        line, place = made / "note", self.folder / f"branch-{branch}"
        line.write_text(note.line(), encoding=CODE, errors=ERRORS)
        try:
            os.link(line, place)
        except FileExistsError:
            if other := self.of(branch):
                return other
            line.replace(place)
        return note
