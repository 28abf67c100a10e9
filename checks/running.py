"""Runs a program on a text, again and again: a part of checks/fuzz, joins, solves and two_processes.

`run` answers what subprocess.run does with `input`, `capture_output` and `timeout`, for a third of the time. The streams of all runs are
the same three files in memory, so a script runs one program at a time. A program that writes more than MOST_WRITTEN bytes is ended.

On a machine with other work a program may wait longer than it runs. So it has its seconds of a processor, and for each of its workers
again as many, and is ended before that only where it waits PATIENCE times as long."""
import contextlib
import os
import resource
import select
import signal
import subprocess
import tempfile
import time

import common  # noqa: F401, what the environment is without

MOST_WRITTEN, PATIENCE = 1 << 30, 100
IN_MEMORY = "/dev/shm"
ENVIRONMENT = dict(os.environb)
STREAMS = [os.memfd_create(name) for name in ("stdin", "stdout", "stderr")]
ACTIONS = [(os.POSIX_SPAWN_DUP2, file, stream) for stream, file in enumerate(STREAMS)]
# what Python ignores, and a program that it starts is not to ignore
SIGNALS = [signal.SIGPIPE, signal.SIGXFSZ]
TICKS = os.sysconf("SC_CLK_TCK")
resource.setrlimit(resource.RLIMIT_FSIZE, (MOST_WRITTEN, resource.getrlimit(resource.RLIMIT_FSIZE)[1]))


def folder():
    """A folder for files that are read soon and often, in memory if there is room for it."""
    return tempfile.TemporaryDirectory(dir=IN_MEMORY if os.access(IN_MEMORY, os.W_OK) else None)


def limit_memory(child, most):
    """A program that was just started may take so many bytes. A limit of this script, which the program inherited, would hold for the
    oracles too."""
    with contextlib.suppress(ProcessLookupError):  # it has ended
        resource.prlimit(child, resource.RLIMIT_AS, (most, most))


def run(words, given, seconds, memory=None):
    """What a program writes, tells and answers, which may take so many bytes of memory. If it doesn't end in so many seconds, it is ended,
    and subprocess.TimeoutExpired raised."""
    for stream in STREAMS:
        os.ftruncate(stream, 0)
        os.lseek(stream, 0, os.SEEK_SET)
    os.pwrite(STREAMS[0], given, 0)
    child = os.posix_spawn(words[0], words, ENVIRONMENT, file_actions=ACTIONS, setsigdef=SIGNALS)
    has_ended = False
    try:
        if memory:
            limit_memory(child, memory)
        has_ended = ends(child, seconds, workers_in(words))
    finally:
        if not has_ended:
            os.kill(child, signal.SIGKILL)
        _, status = os.waitpid(child, 0)
    if not has_ended:
        raise subprocess.TimeoutExpired(words, seconds)
    written, told = (os.pread(it, os.fstat(it).st_size, 0) for it in STREAMS[1:])
    return subprocess.CompletedProcess(words, os.waitstatus_to_exitcode(status), written, told)


def workers_in(words):
    """How many workers a command line asks for, or 1."""
    return int(words[words.index("--workers") + 1]) if "--workers" in words else 1


def ends(child, seconds, workers):
    """Whether a process of so many workers ends within its time."""
    ending, last = os.pidfd_open(child), time.monotonic() + PATIENCE * seconds
    try:
        wait = seconds
        while not select.select([ending], [], [], wait)[0]:
            wait = 1
            if used(child) >= seconds * workers or time.monotonic() >= last:
                return False
        return True
    finally:
        os.close(ending)


def used(child):
    """How many seconds of a processor a process has had, with all its threads."""
    with open(f"/proc/{child}/stat", "rb") as file:
        return sum(map(int, file.read().rpartition(b")")[2].split()[11:13])) / TICKS
