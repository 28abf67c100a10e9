"""What `ask` was asked, once its words are understood."""
from __future__ import annotations

import types
from typing import Any, Dict, List, NoReturn, Tuple

# what each option is without a word
DEFAULTS: Dict[str, Any] = {
    "solver": None, "seconds": 60, "clauses": 20_000_000, "memory": 4, "disk": 4, "keep": None, "show": False, "no_obstruction": False,
    "no_restrict": False, "hint": (), "jobs": None, "table": None, "split": None, "branch": None, "share": None, "array": None, "tally": None,
    "recheck": None,
}


class Words(types.SimpleNamespace):
    """The tasks, the rounds and the options, and what is found out of them."""


class Door:
    """The command under its name, which says what is wrong with words."""

    def __init__(self, name: str) -> None:
        self.name = name

    def error(self, text: str) -> NoReturn:
        """Says what is wrong, and ends the run with status 2."""
        from .parsing import parser
        parser(self.name).error(text)


def parsed(listed: List[str], name: str) -> Tuple[Door, Words]:
    """The words as they stand. Without an option no parser is needed, and importing one takes as long as an answer."""
    door, found = Door(name), Words()
    if any(it.startswith("-") for it in listed):
        from .parsing import parser
        # options may stand between tasks and rounds
        vars(found).update(vars(parser(name).parse_intermixed_args(listed)))
    else:
        vars(found).update(DEFAULTS, given=listed)
    if len(found.given) < 2:
        door.error(f"the following arguments are required: {', '.join(['task', 'rounds'][len(found.given):])}")
    *found.tasks, found.rounds = found.given
    return door, found
