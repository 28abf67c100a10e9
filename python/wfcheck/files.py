"""Files that others may have put there: regular files alone are read, and opening one never waits for another process."""
from __future__ import annotations

import errno
import io
import os
import re
import stat
import sys
from typing import BinaryIO, Union

Path = Union[str, "os.PathLike[str]"]
# how many bytes of a task file are read
LONGEST = 16_777_216
# what would break a line, and bytes of a name that are no text
BREAKS = "[\x00-\x1f\x7f-\x9f\u2028\u2029\ud800-\udfff]"


def in_line(text: str) -> str:
    """A name without what would break a line or can't be written."""
    return re.sub(BREAKS, "_", text)



def any_text_can_be_written() -> None:
    """Has standard output and standard error show what they can't write as it is, as a file's name of bytes that are no text."""
    for stream in (sys.stdout, sys.stderr):
        if isinstance(stream, io.TextIOWrapper):
            stream.reconfigure(errors="backslashreplace")


def opened(path: Path) -> BinaryIO:
    """A regular file, open for reading. Raises OSError for a folder, a device, a pipe or a socket: reading one may never end."""
    number = os.open(path, os.O_RDONLY | os.O_NONBLOCK | os.O_CLOEXEC)
    try:
        mode = os.fstat(number).st_mode
        if stat.S_ISDIR(mode):
            raise OSError(errno.EISDIR, os.strerror(errno.EISDIR), os.fspath(path))
        if not stat.S_ISREG(mode):
            raise OSError(errno.EINVAL, "this is no regular file", os.fspath(path))
        return open(number, "rb")
    except BaseException:
        os.close(number)
        raise
