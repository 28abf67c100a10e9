"""The text of a task file, read by docs/FORMAT.md alone, and strictly: what `wfcheck` refuses is refused here with the same line, and told
in words with the place that it means: which simplex, which key, which item."""
import collections
import itertools
import json
import re
from typing import Any, Callable, Dict, Iterable, Iterator, List, NoReturn, Optional, Sequence, Set, Tuple

LONGEST, DEEPEST = 16_777_216, 127
MOST = {"vertices": 64, "simplices": 4096, "outputs": 65536, "tuples": 65536}
LARGEST = {1: 63, 2: 255}
# processes with a value each
Simplex = Tuple[Tuple[int, int], ...]
LISTS = ["inputs", "outputs", "delta"]
STRING = re.compile(r'"(?:[^"\\]|\\.)*"', re.S)


class NotWhole:
    """A number that is none of the whole numbers that a task file has, as it is written."""

    def __init__(self, digits: str) -> None:
        self.digits = digits


class Refused(Exception):
    """The line that wfcheck answers after its name, and the same in words."""

    def __init__(self, line: str, words: str) -> None:
        super().__init__(line)
        self.line, self.words = line, words


def value_of(text: bytes) -> Any:
    """The JSON value of a text of bytes."""
    if len(text) > LONGEST:
        raise Refused("1 TooLong", f"the file has more than {LONGEST} bytes")
    if not text.strip():
        raise Refused("2 NotJson", "the file is empty")
    if text.startswith(b"wfcheck "):
        raise Refused("2 NotJson", "the file is a text that wfcheck wrote, as a report, and no task")
    try:
        decoded = text.decode("utf-8")
        value = json.loads(decoded, parse_int=whole_or_not, parse_float=finite, parse_constant=no_json)
    except UnicodeDecodeError as error:
        raise Refused("2 NotJson", f"byte {error.start} is not UTF-8")
    except RecursionError:
        raise Refused("2 NotJson", f"it is nested deeper than {DEEPEST}")
    except ValueError as error:
        raise Refused("2 NotJson", str(error))
    if deepest(decoded) > DEEPEST:
        raise Refused("2 NotJson", f"it is nested deeper than {DEEPEST}")
    if any("\ud800" <= c <= "\udfff" for found in STRING.findall(decoded) if "\\u" in found for c in json.loads(found)):
        raise Refused("2 NotJson", "half of a surrogate pair is written by \\u")
    return value


def finite(digits: str) -> NotWhole:
    """A number that is not whole: what it is doesn't matter, but it has to be finite."""
    if float(digits) in (float("inf"), float("-inf")):
        raise ValueError(f"the number {digits if len(digits) <= 20 else digits[:20] + '..'} is too large")
    return NotWhole(digits)


def whole_or_not(digits: str) -> Any:
    """A whole number has a value below 2^64 and no minus sign."""
    if len(digits) > 20 or digits[0] == "-" or int(digits) >= 2**64:
        return finite(digits)
    return int(digits)


def no_json(word: str) -> NoReturn:
    """Refuses what Python reads and JSON has not, as NaN."""
    raise ValueError(f"{word} is no JSON")


def deepest(text: str) -> int:
    """How deep brackets are nested in a JSON text, strings aside."""
    depth = most = 0
    for c in re.findall(r"[][{}]", STRING.sub("", text)):
        depth += 1 if c in "[{" else -1
        most = max(most, depth)
    return most


def is_whole(it: Any) -> bool:
    """Whether a JSON value is a whole number."""
    return type(it) is int


def is_simplex(it: Any) -> bool:
    """Whether a JSON value has the shape of a simplex."""
    return is_list(it, lambda pair: is_list(pair, is_whole) and len(pair) == 2) and len(it) > 0


def is_entry(it: Any) -> bool:
    """Whether a JSON value has the shape of an entry of delta."""
    return isinstance(it, dict) and it.keys() == {"in", "out"} and is_simplex(it["in"]) and \
        is_list(it["out"], lambda each: is_list(each, is_whole))


def is_list(it: Any, is_item: Callable[[Any], bool]) -> bool:
    """Whether a JSON value is a list of such items."""
    return isinstance(it, list) and all(map(is_item, it))


SHAPES: Dict[str, Tuple[str, Callable[[Any], bool]]] = {
    "version": ("a whole number", is_whole), "first_block": ("a whole number", is_whole),
    "processes": ("a whole number", is_whole),
    "symmetric": ("true or false", lambda it: isinstance(it, bool)),
    "inputs": ("a simplex, a non-empty list of pairs [process, value]", is_simplex),
    "outputs": ("a simplex, a non-empty list of pairs [process, value]", is_simplex),
    "delta": ('{"in": simplex, "out": [[value, ..], ..]}', is_entry),
}


def judge_shape(value: Any) -> None:
    """Refuses what has not the keys and kinds of values of a task file."""
    if not isinstance(value, dict):
        raise Refused("3 Shape whole 0", "the file is not one object { .. }")
    keys = []
    for key, (shape, has_shape) in SHAPES.items():
        if key == "first_block" and value["version"] != 2:
            continue
        keys.append(key)
        if key not in value:
            raise Refused(f"3 Shape {key} 0", f'the key "{key}" is missing')
        it = value[key]
        if key not in LISTS:
            if not has_shape(it):
                raise Refused(f"3 Shape {key} 0", f'"{key}" is not {shape}: {shown(it)}')
        elif not isinstance(it, list):
            raise Refused(f"3 Shape {key} 0", f'"{key}" is not a list: {shown(it)}')
        else:
            for place, item in enumerate(it):
                if not has_shape(item):
                    raise Refused(f"3 Shape {key} {place}", f'in "{key}", item {place} is not {shape}: {shown(item)}')
    others = sorted(value.keys() - keys)
    if others:
        raise Refused("3 Shape other 0", f"there is no key {shown(others[0])} in version {value['version']}")


def shown(it: Any) -> str:
    """A value as it stands in the file, as far as there is room."""
    text = re.sub(r'"\\u007f(.*?)\\u007f"', r"\1", json.dumps(it, default=lambda number: f"\x7f{number.digits}\x7f"))
    return text if len(text) <= 60 else text[:57] + ".."


def places(value: Dict[str, Any]) -> Iterator[Tuple[str, Optional[List[List[int]]], List[int]]]:
    """Each simplex that is listed, and each value list, with where it stands."""
    for key in ("inputs", "outputs"):
        for place, simplex in enumerate(value[key]):
            yield f'in "{key}", item {place}', simplex, [v for _, v in simplex]
    for place, entry in enumerate(value["delta"]):
        yield f'in "delta", the "in" of item {place}', entry["in"], [v for _, v in entry["in"]]
        for at, values in enumerate(entry["out"]):
            yield f'in "delta", item {place}, value list {at} of "out"', None, values


def faces(simplex: Sequence[Any]) -> List[Tuple[Any, ...]]:
    """The non-empty parts of a list, in its order."""
    return [f for size in range(1, len(simplex) + 1) for f in itertools.combinations(simplex, size)]


def complex_of(listed: Iterable[Iterable[Sequence[int]]]) -> List[Simplex]:
    """The simplices that are listed and their faces, in the order of their numbers."""
    return sorted({f for s in listed for f in faces(simplex_of(s))}, key=lambda s: (len(s), s))


def simplex_of(listed: Iterable[Sequence[int]]) -> Simplex:
    """A simplex as it is compared."""
    return tuple((p, v) for p, v in listed)


def judge_numbers(value: Dict[str, Any]) -> None:
    """Refuses numbers beyond those that are read, and processes out of order."""
    processes = value["processes"]
    if value["version"] not in LARGEST:
        raise Refused("4 Version", f'"version" is {value["version"]}, and 1 and 2 are read')
    if not 1 <= processes <= 4:
        raise Refused("5 Processes", f'"processes" is {processes}, and 1 to 4 are read')
    for where, _, values in places(value):
        for v in values:
            if v > LARGEST[value["version"]]:
                words = f"{where}: the value {v} is above {LARGEST[value['version']]}"
                more = '; version 2 with "first_block": 1 reads up to 255' if value["version"] == 1 else ""
                raise Refused("6 Value", f"{words}, the largest of version {value['version']}{more}")
    for where, simplex, _ in places(value):
        listed = [p for p, _ in simplex or []]
        if listed != sorted(set(listed)) or any(p >= processes for p in listed):
            why = f"is not below {processes}" if listed == sorted(set(listed)) else "comes after one that isn't smaller"
            raise Refused("7 Colours", f"{where}: {shown(simplex)} has a process that {why}")


def judge_sizes(value: Dict[str, Any], inputs: Sequence[Simplex]) -> None:
    """Refuses a task that is too large."""
    found = {
        "vertices": len([s for s in inputs if len(s) == 1]), "simplices": len(inputs),
        "outputs": len(value["outputs"]), "tuples": sum(len(entry["out"]) for entry in value["delta"]),
    }
    what = {"vertices": "input vertices", "simplices": "input simplices, with their faces", "outputs": "listed outputs",
            "tuples": "value lists"}
    for word, most in MOST.items():
        if found[word] > most:
            raise Refused(f"8 TooMany {word}", f"there are {found[word]} {what[word]}, and at most {most} are read")


def judge_delta(value: Dict[str, Any], inputs: Sequence[Simplex]) -> None:
    """Refuses rules that are missing, written twice or about something else."""
    entries: Dict[Simplex, List[int]] = collections.defaultdict(list)
    for place, entry in enumerate(value["delta"]):
        entries[simplex_of(entry["in"])].append(place)
    for number, s in enumerate(inputs):
        if s not in entries:
            facet = next(at for at, listed in enumerate(value["inputs"]) if s in faces(simplex_of(listed)))
            words = f'input simplex {number} is {shown(s)}, of input {facet}: "delta" has no entry for it'
            raise Refused(f"9 DeltaMissing {number}", words)
    for number, s in enumerate(inputs):
        if len(entries[s]) > 1:
            words = f'input simplex {number} is {shown(s)}: items {entries[s]} of "delta" are for it'
            raise Refused(f"10 DeltaTwice {number}", words)
    known = {s: number for number, s in enumerate(inputs)}
    for place, entry in enumerate(value["delta"]):
        if simplex_of(entry["in"]) not in known:
            words = f'item {place} of "delta" is for {shown(entry["in"])}, which is no input, nor a face of one'
            raise Refused(f"11 DeltaStray {place}", words)
    lists = [(number, place, s, values) for number, s in enumerate(inputs)
             for place, values in enumerate(value["delta"][entries[s][0]]["out"])]
    for number, place, s, values in lists:
        if len(values) != len(s):
            words = f"at input simplex {number}, {shown(s)}, value list {place} is {shown(values)}"
            raise Refused(f"12 OutLength {number} {place}", f"{words}: {len(values)} values for {len(s)} processes")
    outputs = {f for listed in value["outputs"] for f in faces(simplex_of(listed))}
    for number, place, s, values in lists:
        decided = tuple((p, v) for (p, _), v in zip(s, values))
        if decided not in outputs:
            words = f"at input simplex {number}, {shown(s)}, value list {place} is {shown(values)}"
            raise Refused(f"13 OutStray {number} {place}", f"{words}: {shown(decided)} is no output, nor a face of one")
    if not inputs:
        raise Refused("14 NoInput", '"inputs" is empty')
    if not 1 <= value.get("first_block", 1) <= 4:
        raise Refused("18 FirstBlock", f'"first_block" is {value["first_block"]}, and 1 to 4 are read')


def read(text: bytes) -> Tuple[Dict[str, Any], Dict[Simplex, Set[Tuple[int, ...]]]]:
    """The value of a task file's bytes, its input simplices, and the tuples of each. Raises Refused."""
    value = value_of(text)
    judge_shape(value)
    judge_numbers(value)
    inputs = complex_of(value["inputs"])
    judge_sizes(value, inputs)
    judge_delta(value, inputs)
    return value, {simplex_of(entry["in"]): {tuple(t) for t in entry["out"]} for entry in value["delta"]}
