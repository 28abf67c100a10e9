"""The answer for every number of rounds, for tools/ask: `wfcheck obstruction` looks for an obstruction of the task, with a cover if there is
none without, and `wfcheck verify` has to accept it. If none is found, that says nothing about the task."""
from __future__ import annotations

import pathlib
import re
from typing import List

from ..nodes import nodes_in_words
from . import table
from .asked import Words
from .notes import Room, keep
from .questions import answered
from .runs import Clock, Ended, Late, Refused, Scope, say

ACCEPTED = "accepted none at every number of rounds"
FIRST_BLOCK, GAVE_UP = "wfcheck: 50 FirstBlock", "wfcheck: 60 GaveUp"
# the options with which an obstruction is looked for in turn
OPTIONS: List[List[str]] = [[], ["--covers", "1"]]
NONE_FOUND = 1
NODE = r"(?m)^(case|split|cover|balance) (\d+)"


def is_never(words: Words) -> bool:
    """Whether an obstruction of the task is found and accepted. It has as much time as a number of rounds."""
    # the folder that keeps may be full, and then what is found is told all the same
    with Room(None) as room, room.attempt() as made:
        file, scope, clock = made / f"{words.task.stem}.obstruction", Scope(words.limits), Clock(words.seconds)
        found = answered("wfcheck obstruction", lambda: is_found(words, file, scope, clock))
        if found:
            words.accepted = file.suffix, file.read_bytes() if words.show else None
        if found and words.keep:
            keep(file, words.keep, words.kept)
        if found:
            note(words, file, clock)
    return bool(found)


def note(words: Words, file: pathlib.Path, clock: Clock) -> None:
    """Notes an obstruction that was accepted in the table."""
    words.table.add(words.task, table.EVERY, "never", words.table.of_file(file), clock.taken())


def is_kept(words: Words) -> bool:
    """Whether the folder of --tally or --recheck has an obstruction of the task, and it is accepted."""
    file = words.keep / f"{words.task.stem}.obstruction"
    if not file.is_file():
        return False
    say(f"{words.task.stem} after every number of rounds:")
    clock = Clock(words.seconds)
    accepted = answered("wfcheck verify", lambda: is_accepted(words, file, Scope(words.limits), clock))
    if accepted:
        note(words, file, clock)
    return bool(accepted)


def is_found(words: Words, file: pathlib.Path, scope: Scope, clock: Clock) -> bool:
    """Whether an obstruction is found and accepted: without covers, or else with one."""
    ended = None
    for options in OPTIONS:
        if ended is None or ended.status == NONE_FOUND:
            ended = sought(words, file, scope, clock, options)
    return ended is not None and ended.status == 0 and is_accepted(words, file, scope, clock)


def sought(words: Words, file: pathlib.Path, scope: Scope, clock: Clock, options: List[str]) -> Ended:
    """How the program ended that looked for an obstruction with these options. Nothing is said if it refuses a task with a first block."""
    asked = ["obstruction", *options]
    head = [] if options else [f"{words.task.stem} after every number of rounds:"]
    file.unlink(missing_ok=True)
    try:
        ended = scope.at_once_or_later(asked, clock, words.task, file)
    except Late:
        say("\n".join([*head, f"    wfcheck {' '.join(asked)}: no end within the {clock.seconds:g} s that the obstruction has"]))
        raise
    if ended.said.startswith(FIRST_BLOCK):
        return ended
    if ended.status == 2 and not ended.said.startswith(GAVE_UP):
        raise Refused(ended.said)
    say("\n".join([*head, f"    wfcheck {' '.join(asked)}: {ended.why() if ended.status else in_words(file)} ({ended.taken:.2f} s)"]))
    return ended


def is_accepted(words: Words, file: pathlib.Path, scope: Scope, clock: Clock) -> bool:
    """Whether `verify` accepts an obstruction of the task; then there is no map, and the last line says so."""
    try:
        ended = scope.at_once_or_later(["verify", f"--task={words.task}"], clock, file)
    except Late:
        say(f"    wfcheck verify: no end within the {clock.seconds:g} s that the obstruction has")
        raise
    accepted = ended.status == 0 and ended.said.strip() == ACCEPTED
    say(f"    wfcheck verify: {ACCEPTED if accepted else ended.why()} ({ended.taken:.2f} s)")
    if accepted:
        if words.by_branch:
            words.given.close()
        words.by = in_words(file)
        say(f"    never: no map after any number of rounds, by {words.by}")
    return accepted


def in_words(file: pathlib.Path) -> str:
    """How many nodes of each kind an obstruction has, and the moduli of its balances."""
    return nodes_in_words((name, int(number)) for name, number in re.findall(NODE, file.read_text(errors="replace")))
