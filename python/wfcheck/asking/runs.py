"""What `ask` starts: each program in a process group of its own, with limits, by one clock.

Nothing that was started goes on once its question is answered, its time is over or the run is cut off: then its whole group is killed,
and so it is where the program itself has ended and a child of it goes on."""
from __future__ import annotations

import contextlib
import os
import pathlib
import resource
import select
import signal
import sys
import tempfile
import threading
import time
from typing import Any, Callable, Dict, Iterator, List, NamedTuple, Optional, Sequence, Set, Union

from ..running import TOP, program

TASKS = TOP / "gallery/tasks"
# a file that a program reads, and a call that is made again and again while it runs
Given = Union[str, pathlib.Path]
Look = Optional[Callable[[], None]]
STREAMS = "stdin", "stdout", "stderr"
# how many bytes are read of what a program says
TOLD = 1 << 20
# a program that one of these ended was most likely ended with all of this run, which then gets the signal within a second
ENDING = (signal.SIGHUP, signal.SIGINT, signal.SIGTERM)
SHELL, DIE_WITH_PARENT, ADOPT = 128, 1, 36
# in seconds: how long nobody looks whether the time is over, and whether a program has ended that doesn't tell it
LONGEST_PAUSE, SHORT_PAUSE = 0.01, 0.002
# in seconds: how long after a child this run may get a signal that both get
GRACE = 0.5
# in seconds: how long the program is asked alone before anything else is started
AT_ONCE = 0.05
CUT_OFF = threading.Event()
# the processes that go on and that this run has started
OWN: Set[int] = set()
OWN_LOCK = threading.Lock()
# how often it is looked for what children left behind: what is ended may have started more
TRIES = 20
# so that lines of several threads don't mix
ONE_LINE = threading.Lock()
# in seconds: how often it is told what goes on
PERIOD = 2


class Stopped(Exception):
    """The run was cut off, or another answer came first: what was going on counts for nothing."""


class Late(Exception):
    """The time that a question has is over."""


class Undecided(Exception):
    """Why there is no answer."""


class Refused(Exception):
    """What the program says of a question that it refuses."""


class Limits(NamedTuple):
    """What each process that is started may take, in bytes: of memory, and for one file."""
    memory: int
    file: int


class Ended(NamedTuple):
    """How a program ended: its status, what it said, and the seconds that it took."""
    status: int
    said: str
    taken: float

    def why(self) -> str:
        """Why it didn't end well, in one line."""
        if self.status == -signal.SIGXFSZ:
            return "it wrote more than one file may have (--disk)"
        if self.status < 0:
            return f"it was ended by {signal.Signals(-self.status).name}"
        return self.line() or f"it ended with status {self.status}"

    def line(self) -> str:
        """The first line that it said: behind the line of a refusal there may be notes."""
        return self.said.strip().partition("\n")[0]


def not_cut_off() -> None:
    """Raises Stopped once the run was cut off."""
    if CUT_OFF.is_set():
        raise Stopped


class Clock:
    """The time of one question, of which the search, the solver and the checks take their parts."""

    def __init__(self, seconds: float) -> None:
        self.begun, self.seconds = time.monotonic(), seconds

    def taken(self) -> float:
        """The seconds that are over."""
        return time.monotonic() - self.begun

    def left(self) -> float:
        """The seconds that are left."""
        return self.seconds - self.taken()

    def go_on(self) -> None:
        """Raises Late once the time is over, and Stopped once the run was cut off."""
        not_cut_off()
        if self.taken() >= self.seconds:
            raise Late


class Scope:
    """What belongs together: once `end` is called, all that was started in it is stopped."""

    def __init__(self, limits: Limits) -> None:
        self.limits, self.ended = limits, threading.Event()

    def end(self) -> None:
        """Stops all that was started in the scope."""
        self.ended.set()

    def go_on(self) -> None:
        """Raises Stopped once the scope has ended or the run was cut off."""
        not_cut_off()
        if self.ended.is_set():
            raise Stopped

    def settle(self) -> None:
        """Waits a moment where a child ended without an answer: it may have met a signal that this run gets, too. Raises Stopped then."""
        CUT_OFF.wait(GRACE)
        self.go_on()

    def run(self, words: Sequence[Any], clock: Clock, is_short: bool = False, **how: Any) -> int:
        """Runs a program, as `Child.wait` does, and returns its status."""
        self.go_on()
        look = how.pop("look", None)
        return Child(words, self, how, is_short).wait(clock, look)

    def wfcheck(self, words: Sequence[Any], clock: Clock, given: Given, wrote: Optional[pathlib.Path] = None, look: Look = None,
                is_short: bool = False) -> Ended:
        """Runs wfcheck over a file. What it writes goes to a file that must not be there yet, or is told with what it says."""
        begun = time.monotonic()
        with open(given, "rb", opener=not_waiting) as read, tempfile.TemporaryFile() as told, open(wrote or os.devnull, "xb" if wrote else "ab") as write:
            status = self.run([str(program()), *map(str, words)], clock, is_short, look=look, stdin=read, stdout=write if wrote else told, stderr=told)
            told.seek(0)
            return Ended(status, told.read(TOLD).decode(errors="replace"), time.monotonic() - begun)

    def at_once(self, words: Sequence[Any], clock: Clock, given: Given, wrote: Optional[pathlib.Path] = None) -> Optional[Ended]:
        """Runs wfcheck over a file for a moment; None if it has no end by then. What it wrote until then is taken away."""
        short = Clock(min(AT_ONCE, clock.left()))
        try:
            return self.wfcheck(words, short, given, wrote, is_short=True)
        except Late:
            if wrote:
                wrote.unlink()
            return None

    def at_once_or_later(self, words: Sequence[Any], clock: Clock, given: Given, wrote: Optional[pathlib.Path] = None) -> Ended:
        """Runs wfcheck over a file, first for a moment. Raises Late if it has no end within the clock's time."""
        return self.at_once(words, clock, given, wrote) or self.wfcheck(words, clock, given, wrote)


class Child:
    """A program that was started, with all that it starts."""

    def __init__(self, words: Sequence[Any], scope: Scope, how: Dict[str, Any], is_short: bool) -> None:
        self.scope = scope
        # a call before a program begins takes longer than many programs
        begin = spawned if is_short else begun
        with OWN_LOCK:
            self.process = begin(words, scope.limits, how)
            OWN.add(self.process.pid)

    def wait(self, clock: Clock, look: Look = None) -> int:
        """Waits for the end and returns the status, and calls `look` again and again until then. Raises Late or Stopped if that comes
        first. None of the group is left in any case."""
        try:
            with self.awaited() as pause:
                while not self.has_ended():
                    clock.go_on()
                    self.scope.go_on()
                    if look:
                        look()
                    pause()
        finally:
            os.killpg(self.process.pid, signal.SIGKILL)
            os.waitid(os.P_PID, self.process.pid, os.WEXITED | os.WNOWAIT)
            with OWN_LOCK:
                status = self.process.wait()
                OWN.discard(self.process.pid)
            end_strangers()
        if status in [it for end in ENDING for it in (-end, SHELL + end)]:
            CUT_OFF.wait(1)
        self.scope.go_on()
        return int(status)

    @contextlib.contextmanager
    def awaited(self) -> Iterator[Callable[[], Any]]:
        """A call that pauses for a moment, or until the program ends if the system tells that."""
        try:
            end = os.pidfd_open(self.process.pid)
        except (AttributeError, OSError):
            yield lambda: time.sleep(SHORT_PAUSE)
            return
        try:
            ends = select.poll()
            ends.register(end, select.POLLIN)
            yield lambda: ends.poll(LONGEST_PAUSE * 1000)
        finally:
            os.close(end)

    def has_ended(self) -> bool:
        """Whether the program has ended; it keeps its number until `wait` asks for its status, so that the group can be named by it."""
        return os.waitid(os.P_PID, self.process.pid, os.WEXITED | os.WNOWAIT | os.WNOHANG) is not None


def not_waiting(path: str, flags: int) -> int:
    """Opens a file, without waiting where it is a pipe."""
    return os.open(path, flags | os.O_NONBLOCK, 0o666)


class Spawned:
    """A program that was started by a call that doesn't copy this process."""

    def __init__(self, pid: int) -> None:
        self.pid = pid

    def wait(self) -> int:
        """Waits for its end, and returns its status."""
        return os.waitstatus_to_exitcode(os.waitpid(self.pid, 0)[1])


def begun(words: Sequence[Any], limits: Limits, how: Dict[str, Any]) -> Any:
    """Starts a program, whose limits are set before it begins. What is returned has the `pid` and `wait` of a `Spawned`."""
    import subprocess
    return subprocess.Popen(words, start_new_session=True, preexec_fn=limited(limits), **how)


def spawned(words: Sequence[str], limits: Limits, how: Dict[str, Any]) -> Any:
    """Starts a program that has a moment to end. Its limits are set as soon as it has begun."""
    places = [(os.POSIX_SPAWN_DUP2, how[name].fileno(), number) for number, name in enumerate(STREAMS)]
    # where a standard stream is closed, one of these files may have its number
    if min(number for _, number, _ in places) < len(STREAMS):
        return begun(words, limits, how)
    try:
        # Python ignores these two signals, and a program doesn't
        pid = os.posix_spawn(words[0], [*words], os.environ, file_actions=places, setsid=True, setsigdef=(signal.SIGPIPE, signal.SIGXFSZ))
    except NotImplementedError:
        return begun(words, limits, how)
    shorten(pid, limits)
    return Spawned(pid)


def end_strangers() -> None:
    """Ends what children of this run left behind in sessions of their own, once none of the children goes on. The system gives such
    processes to this run as soon as their parents are gone."""
    with OWN_LOCK:
        for _ in range(TRIES if Adopting.is_on and not OWN else 0):
            strangers = children()
            for it in strangers:
                # one of another user can't be ended
                with contextlib.suppress(OSError):
                    os.kill(it, signal.SIGKILL)
                    os.waitpid(it, 0)
            if not strangers:
                return


def children() -> List[int]:
    """The children of this run, as the system lists them by its threads; none if it lists none."""
    found: List[int] = []
    with contextlib.suppress(OSError):
        for thread in os.listdir("/proc/self/task"):
            with contextlib.suppress(OSError), open(f"/proc/self/task/{thread}/children", encoding="ascii") as listed:
                found += map(int, listed.read().split())
    return found


class Adopting:
    """Whether this run is given the processes that its children leave behind."""
    is_on = False


def least_of(limits: Limits) -> Dict[int, int]:
    """What a process may take that is started, by the kinds of limits: no more than this run itself may."""
    wanted = {resource.RLIMIT_AS: limits.memory, resource.RLIMIT_FSIZE: limits.file, resource.RLIMIT_CORE: 0}
    found = {kind: resource.getrlimit(kind)[1] for kind in wanted}
    return {kind: most if found[kind] == resource.RLIM_INFINITY else min(most, found[kind]) for kind, most in wanted.items()}


def limited(limits: Limits) -> Callable[[], None]:
    """Sets the limits in a process that is about to become another program, and has it end where this one is killed."""
    import ctypes
    prctl, least = ctypes.CDLL(None).prctl, least_of(limits)
    if not Adopting.is_on:
        Adopting.is_on = prctl(ADOPT, 1, 0, 0, 0) == 0

    def limit() -> None:
        """Sets the limits."""
        for kind, most in least.items():
            resource.setrlimit(kind, (most, most))
        prctl(DIE_WITH_PARENT, signal.SIGKILL)
    return limit


def shorten(process: int, limits: Limits) -> None:
    """Sets the limits of a program that has just begun and has a moment to end. If this run is killed, the system ends it after a second."""
    # it may have ended by now
    with contextlib.suppress(OSError):
        for kind, most in {**least_of(limits), resource.RLIMIT_CPU: 1}.items():
            resource.prlimit(process, kind, (most, most))


def say(text: str) -> None:
    """Prints a line at once. Where that fails, nobody would see the answer, and the run ends."""
    try:
        with ONE_LINE:
            sys.stdout.write(f"{text}\n")
            sys.stdout.flush()
    except OSError as error:
        sys.stdout = open(os.devnull, "w")
        raise Undecided(f"what there is to say can't be written: {error}")


@contextlib.contextmanager
def telling(what: Callable[[], str]) -> Iterator[None]:
    """Tells what goes on, as a call says it, again and again where standard error is a terminal."""
    over = threading.Event()

    def tell() -> None:
        """Tells what goes on, until that is over."""
        while not over.wait(PERIOD):
            with contextlib.suppress(OSError), ONE_LINE:
                sys.stderr.write(f"    .. {what()}\n")
                sys.stderr.flush()

    teller = threading.Thread(target=tell, daemon=True)
    if sys.stderr.isatty():
        teller.start()
    try:
        yield
    finally:
        over.set()


def pieces(file: pathlib.Path, clock: Clock) -> Iterator[bytes]:
    """The lines of a file, those that are too long in pieces."""
    with open(file, "rb") as text:
        for number, piece in enumerate(iter(lambda: text.readline(1 << 16), b"")):
            if number % 4096 == 0:
                clock.go_on()
            yield piece
