"""The bytes of the task that a run of `ask` is about. The task's file is read once. All that is asked and checked is about a copy in a folder
of this run, so that a file that changes meanwhile can't mix the answers of two tasks. Before the last line the file is compared."""
from __future__ import annotations

import os
import pathlib

from .. import files
from ..files import LONGEST, in_line
from .runs import Undecided, say

# how many bytes of a name count: behind it stand the rounds, the branch, a number and the kind of a file
MOST_OF_NAME = 180


class Given:
    """The file that was named, and the copy of its first bytes that were read."""

    def __init__(self, file: pathlib.Path, folder: pathlib.Path) -> None:
        self.file, self.copy = file, folder / short(file.name)
        # the copy is compared with these bytes
        self.text = read(file)
        self.copy.write_bytes(self.text)
        self.is_told = False

    def judge(self) -> None:
        """Raises Undecided if the copy was changed."""
        if not has(self.copy, self.text):
            raise Undecided("the copy of the task that this run worked on was changed: nothing that was said of the task counts")

    def close(self) -> None:
        """Says before the last line whether the file has changed. Raises Undecided if the copy has: then nothing that was said counts."""
        self.judge()
        if not self.is_told and not has(self.file, self.text):
            import hashlib
            self.is_told = True
            say(f"    {in_line(str(self.file))} has changed during this run: the answer is about the bytes that were read first, with SHA-256 "
                f"{hashlib.sha256(self.text).hexdigest()}")


def short(name: str) -> str:
    """A file's name as files of this run begin with it: without what breaks a line, and cut if it is long."""
    stem, kind = os.path.splitext(in_line(name))
    return (stem if len(stem.encode()) <= MOST_OF_NAME else stem.encode()[:MOST_OF_NAME].decode(errors="ignore")) + kind


def read(file: pathlib.Path) -> bytes:
    """The bytes of a task's file, and of one that is too long a byte more than is allowed: the program refuses it by that."""
    with files.opened(file) as text:
        return text.read(LONGEST + 1)


def has(file: pathlib.Path, text: bytes) -> bool:
    """Whether a task's file has these bytes. One that can't be read has none."""
    try:
        return read(file) == text
    except OSError:
        return False
