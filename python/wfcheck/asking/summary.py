"""What the answers about several numbers of rounds come to: the last line of `ask`."""
from __future__ import annotations

from typing import Dict, NamedTuple, Optional

# the status for an answer
STATUS = {"map": 0, "none": 1, None: 3}
TOO_MANY_ROUNDS, TOO_MANY_EXECUTIONS = 16, 17


class Summary(NamedTuple):
    """There is no map up to so many rounds, and one after so many, as far as that is accepted; and why a number of rounds was refused."""
    none: Optional[int]
    map: Optional[int]
    refused: Optional[str] = None

    def is_from(self) -> bool:
        """Whether the least number of rounds with a map is known."""
        return self.map is not None and (self.map == 0 or self.none == self.map - 1)

    def __str__(self) -> str:
        told = [f"none up to {self.none}"] * (self.none is not None) + [f"map at {self.map}"] * (self.map is not None)
        known = f"from {self.map}" if self.is_from() else ", ".join(told) or "not decided"
        return "; ".join(filter(None, [known, self.refused]))


def summary(answers: Dict[int, Optional[str]], refused: Optional[str] = None) -> Summary:
    """What the answers by rounds come to. A map after some rounds gives one after more, so none there is none after fewer, too."""
    most = max((rounds for rounds, answer in answers.items() if answer == "none"), default=None)
    return Summary(most, min((rounds for rounds, answer in answers.items() if answer == "map"), default=None), refused)


def refused_in_words(rounds: int, number: int, words: str) -> str:
    """Why a number of rounds is refused, by the number and the words of the refusal."""
    several = f"{rounds} {'round' if rounds == 1 else 'rounds'}"
    if number == TOO_MANY_EXECUTIONS:
        return f"{several} {'has' if rounds == 1 else 'have'} too many executions"
    if number == TOO_MANY_ROUNDS:
        return f"{several} are too many"
    return f"{several} {'is' if rounds == 1 else 'are'} refused ({number} {words})"
