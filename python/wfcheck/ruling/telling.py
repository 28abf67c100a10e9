"""A decision map as rules in words."""
from typing import List, Optional

from ..answers import Map, in_rounds, letter_of
from ..arguments import a_time, shown
from ..files import in_line
from .facts import facts_of
from .grammar import About, outcomes, tests
from .search import MOST_RULES, SECONDS, Rule, Watch, rules_of


def rules(found: Map, *, seconds: float = SECONDS) -> Optional[str]:
    """A decision map as rules in words: the first that fits a view says what is decided. None if more than 40 would be needed.

    Raises TypeError if it is given anything else, and NoAnswer if no rules were found within so many seconds."""
    if not isinstance(found, Map):
        raise TypeError(f"rules are those of a Map, as `solve` returns it, and not of {shown(found)}")
    a_time(seconds, is_needed=True)
    listed = ruled(found, Watch(seconds))
    if listed is None:
        return None
    lines = [f"{in_line(found.task.name)} after {in_rounds(found.rounds)}: {counted(len(listed), 'rule')} for {counted(len(found.values), 'point')}. "
             "The first that fits decides.\n"]
    for number, rule in enumerate(listed, 1):
        asked = ", ".join(it.words for it in rule.tests) if number < len(listed) else "else" if number > 1 else "always"
        lines.append(f"{number:>3}. {asked}: {rule.outcome.words}  [{counted(rule.points, 'point')}]\n")
    return "".join(lines)


def too_many(found: Map) -> str:
    """What is said of a map that has no such rules."""
    return f"{in_line(found.task.name)} after {in_rounds(found.rounds)}: more than {MOST_RULES} rules would be needed for {len(found.values):,} points\n"


def ruled(found: Map, watch: Watch = Watch()) -> Optional[List[Rule]]:
    """The rules of a map, which decide as it does at each view; or None if there would be too many. Raises ValueError if they don't."""
    points, values = [facts_of(view) for view in found.values], [*found.values.values()]
    about = About(letter_of(found.task.text) == "#", 1 + max((it.process for it in points), default=0), found.rounds,
                  sorted({value for it in points for value in it.values}), sorted({*values}), found.task.names)
    listed = rules_of(points, values, tests(about), outcomes(about, points, values), watch)
    for it, value in zip(points, values) if listed is not None else ():
        decided = next(rule for rule in listed or () if rule.fits(it)).outcome.value(it)
        if decided != value:
            raise ValueError(f"the rules decide {decided} where the map decides {value}")
    return listed


def counted(number: int, noun: str) -> str:
    """A number with a noun."""
    return f"{number:,} {noun}" if number == 1 else f"{number:,} {noun}s"
