"""Names for what the numbers of a task mean: its values, and its inputs.

A task file and the program know numbers alone. Names stand in a file of their own beside it, as {"inputs":{"0":"left"},"values":{"3":"commit 1"}},
and are put in the place of the numbers of a text that the program wrote: of `wfcheck points`, or of a refutation in words."""
import json
import re
from typing import Any, Dict, List, Mapping, NamedTuple, Optional, Tuple

Pairs = Tuple[Tuple[int, str], ...]
LONGEST = 60
ENDING = ".names.json"
NUMBER = re.compile(r"0|[1-9]\d*", re.A)
# the first line of an obstruction in words
EVERY = "No decision map after any number of rounds"
# tuples in a list, and where an obstruction in words has them, single values and inputs. New names, which a split gives to values, are numbers
# above all values of the task, so none of these has a name
TUPLES = r"\d+(?: \d+)*(?:(?:, | or )\d+(?: \d+)*)*"
COUNTED = (rf"(?m)([p#]\d+=)(\d+)|( decides? |\bPart \d+: )({TUPLES})(?= as often on |\.|, or one of )|"
           rf"^( *)(\d+)( of [p#]\d+ is called \d+ in )({TUPLES})|(\bfrom )(\d+)( of [p#]\d+ to )(\d+)(?= of )")
# numbers in a list of values, which may have ranges
LISTED = r"\d+(?: to \d+)?(?:(?:, | or )\d+(?: to \d+)?)*"
# where a text has an input, behind the process or rank; and where it has values
PART = re.compile(rf"([p#]\d+=)(\d+)|(\bv\d+ is (?:not )?|\bCase v\d+ = | decides ){LISTED}|\(\d+(?:, \d+)*\)", re.A)
DIGITS = re.compile(r"\d+", re.A)


class Names(NamedTuple):
    """Names of values and of inputs, each by its number in ascending order. What has no name is told by its number."""
    values: Pairs = ()
    inputs: Pairs = ()

    def value(self, number: int) -> str:
        """What a decided value is called."""
        return dict(self.values).get(number, str(number))

    def input(self, number: int) -> str:
        """What an input is called."""
        return dict(self.inputs).get(number, str(number))

    def text(self) -> str:
        """The text of the file that has these names."""
        listed = {"inputs": dict(self.inputs), "values": dict(self.values)}
        return json.dumps({what: {str(number): name for number, name in it.items()} for what, it in listed.items()},
                          ensure_ascii=False, separators=(",", ":")) + "\n"


def names_of(values: Optional[Mapping[int, str]], inputs: Optional[Mapping[int, str]]) -> Names:
    """The names that two dictionaries are. Raises ValueError with what is wrong with one."""
    return Names(pairs_of("values", values or {}), pairs_of("inputs", inputs or {}))


def pairs_of(what: str, given: Any) -> Pairs:
    """The names of a dictionary, by number."""
    if not isinstance(given, Mapping):
        raise ValueError(f"names of {what} are a dictionary by number, and not {given!r}")
    for number, name in given.items():
        if type(number) is not int or number < 0:
            raise ValueError(f"names of {what} are by number, and {number!r} is none")
        if not isinstance(name, str) or not name.strip() or not name.isprintable() or len(name) > LONGEST:
            raise ValueError(f"the name of {what[:-1]} {number} is {name!r}: a name has 1 to {LONGEST} letters on one line")
    if len({*given.values()}) < len(given):
        raise ValueError(f"two {what} have one name")
    return tuple(sorted(given.items()))


def read_names(text: str) -> Names:
    """The names that the text of a file has. Raises ValueError."""
    whole = json.loads(text)
    if not isinstance(whole, dict) or not {*whole} <= {"inputs", "values"}:
        raise ValueError('the names are no object with "inputs" and "values"')
    found: Dict[str, Dict[int, str]] = {}
    for what, listed in whole.items():
        if not isinstance(listed, dict) or not all(NUMBER.fullmatch(it) for it in listed):
            raise ValueError(f'"{what}" is no object with numbers as its keys')
        found[what] = {int(it): name for it, name in listed.items()}
    return names_of(found.get("values"), found.get("inputs"))


def told(text: str, names: Names) -> str:
    """A text of `wfcheck points` or `wfcheck explain` with these names in the place of the numbers."""
    if names == Names():
        return text
    if text.startswith(EVERY):
        return told_of_all(text, names)
    values, inputs = dict(names.values), dict(names.inputs)

    def named(found: "re.Match[str]") -> str:
        """An input, or a list of values, by names."""
        if found[1]:
            return found[1] + inputs.get(int(found[2]), found[2])
        head = found[3] or ""
        return head + DIGITS.sub(lambda it: values.get(int(it[0]), it[0]), found[0][len(head):])

    return PART.sub(named, text)


def told_of_all(text: str, names: Names) -> str:
    """An obstruction in words with these names in the place of the numbers. Of several values the tuple stands in brackets."""
    def value(number: str) -> str:
        """A value by its name."""
        return names.value(int(number))

    def tuples(listed: str) -> str:
        """A list of tuples by names."""
        return re.sub(r"\d+(?: \d+)*", lambda it: tuple_of(it[0].split(" ")), listed)

    def tuple_of(numbers: List[str]) -> str:
        """A tuple by names."""
        return value(numbers[0]) if len(numbers) == 1 else f"({', '.join(map(value, numbers))})"

    def named(found: "re.Match[str]") -> str:
        """What one place of the text has, by names."""
        if found[1]:
            return found[1] + names.input(int(found[2]))
        if found[3]:
            return found[3] + tuples(found[4])
        if found[6]:
            return found[5] + value(found[6]) + found[7] + tuples(found[8])
        return found[9] + value(found[10]) + found[11] + value(found[12])

    return re.sub(COUNTED, named, text)
