"""Tasks: made from a predicate, or read from a file.

    from wfcheck import task, write

    def legal(start, end):      # what the processes that take part begin with, and what they decide: by process
        return len(set(end.values())) == 1 and set(end.values()) <= set(start.values())

    write(task("mine", 2, [(0, 1)], legal, values=[0, 1]))      # mine.json
"""
import itertools
import json
import os
import pathlib
import warnings
from typing import AbstractSet, Any, Callable, Dict, Hashable, Iterable, Iterator, List, Mapping, NamedTuple, Optional, Sequence, Set, Tuple, Union

from . import files
from .coding import Codes, Coding
from .files import LONGEST
from .names import ENDING, Names, names_of, read_names
from .running import Error, NoFile

# those that take part with a value each, by ascending process
Simplex = Tuple[Tuple[int, int], ...]
# what the processes that take part begin with and decide, by process
Legal = Callable[[Dict[int, Any], Dict[int, Any]], Any]
# a value for each process, or a dictionary where some take no part
Input = Union[Sequence[Any], Mapping[int, Any]]
# what is allowed at each input simplex
Rules = Dict[Simplex, List[Tuple[int, ...]]]
MOST_PROCESSES, LARGEST, LARGEST_PLAIN = 4, 255, 63
# how many tuples a file may have, and how many of what else
MOST_TUPLES = 65536
# how much of a name is shown
SHOWN = 60
MOST = {"input vertices": 64, "input simplices, with their faces": 4096, "listed outputs": 65536, "value lists": MOST_TUPLES}


class Mistake(Error, ValueError):
    """What a task can't be made from, in a sentence."""


class NoTask(Mistake):
    """A text that is none of a task."""


class Task(NamedTuple):
    """A task: a name for its file, the text that the program reads, and what the numbers in it are called."""
    name: str
    text: str
    names: Names = Names()

    def __repr__(self) -> str:
        name = repr(self.name)
        return f"<Task {name if len(name) <= SHOWN else name[:SHOWN] + '..'}, {self.told()}>"

    def told(self) -> str:
        """The processes, input facets and values in words; of a text that is none of a task, its length."""
        try:
            whole = json.loads(self.text)
            many = len(facets([tuple((p, v) for p, v in it) for it in whole["inputs"]]))
            values = sorted({value for simplex in whole["outputs"] for _, value in simplex})
            called = [self.names.value(it) for it in values]
            if not self.names.values and len(values) > 2 and values == [*range(values[0], values[-1] + 1)]:
                called = [f"{values[0]} to {values[-1]}"]
        except (AttributeError, LookupError, RecursionError, TypeError, ValueError):
            return f"{len(self.text):,} bytes" if isinstance(self.text, str) else "no text"
        listed = ", ".join(called)
        several = [f"{whole['processes']} process{'es' * (whole['processes'] != 1)}", f"{many:,} input facet{'s' * (many != 1)}",
                   f"value{'s' * (len(values) != 1)} {listed if len(listed) <= SHOWN else listed[:SHOWN] + '..'}"]
        return ", ".join(["symmetric"] * bool(whole["symmetric"]) + several)

    def _repr_svg_(self) -> Optional[str]:
        """The output complex as a picture, where a notebook shows it, with what the first inputs allow lit."""
        from .drawing.notebook import picture_of_task
        return picture_of_task(self)

    def simplices(self) -> List[Simplex]:
        """The input simplices in the order of their numbers. The text has to be that of a task, as the program accepts it."""
        return simplices([[(p, v) for p, v in each] for each in json.loads(self.text)["inputs"]])


def read(path: Union[str, "os.PathLike[str]"]) -> Task:
    """The task of a file, as it stands there, with the names beside it: whether it is one is said by the program. Raises NoFile if the file
    can't be read, or the names beside it."""
    if not isinstance(path, (str, os.PathLike)):
        raise TypeError(f"a file is named by a string or a path, and not by {path!r}")
    file = pathlib.Path(path)
    try:
        with files.opened(file) as opened:
            text = opened.read(LONGEST + 1)
        if len(text) > LONGEST:
            raise ValueError(f"it has more than {LONGEST:,} bytes, and no task has")
        made = Task(file.name.removesuffix(".json"), text.decode("utf-8"))
    except (OSError, ValueError) as error:
        raise NoFile(f"{file} can't be read: {told(error)}") from error
    return made._replace(names=names_beside(file))


def names_beside(file: pathlib.Path) -> Names:
    """The names that stand beside the file of a task, or none if there are none. Raises NoFile if they can't be read."""
    path = named_file(file.parent, file.name.removesuffix(".json"))
    try:
        with files.opened(path) as text:
            return read_names(text.read(LONGEST).decode("utf-8"))
    except FileNotFoundError:
        return Names()
    except (OSError, RecursionError, ValueError) as error:
        raise NoFile(f"{path} can't be read: {told(error)}") from error


def named_file(folder: pathlib.Path, name: str) -> pathlib.Path:
    """The file in a folder that has the names of a task."""
    return folder / f"{name}{ENDING}"


def write(made: Task, folder: Union[str, "os.PathLike[str]"] = ".") -> pathlib.Path:
    """Writes the file of a task into a folder, and returns its path. If the task has names, NAME.names.json beside it gets them; if it has none,
    such a file that `write` made of another task is taken away, and one of somebody else is warned of. Raises Mistake if its name is none of
    a file, and NoFile if a file can't be written."""
    if not isinstance(made, Task) or not isinstance(made.text, str):
        raise TypeError(f"a task is what `task` or `read` returns, and not {made!r}")
    judge_name(made.name)
    path = pathlib.Path(folder) / f"{made.name}.json"
    texts = {path: made.text, **({named_file(path.parent, made.name): made.names.text()} if made.names != Names() else {})}
    for file, text in texts.items():
        try:
            file.write_bytes(text.encode("utf-8"))
        except (OSError, ValueError) as error:
            raise NoFile(f"{file} can't be written: {told(error)}") from error
    if made.names == Names():
        without_names(named_file(path.parent, made.name))
    return path


def without_names(file: pathlib.Path) -> None:
    """Takes a file of names away that `write` made, or warns of one that somebody else made: a task would be told by names of another one."""
    try:
        with files.opened(file) as opened:
            text = opened.read(LONGEST).decode("utf-8")
        if read_names(text).text() == text:
            file.unlink()
            return
    except FileNotFoundError:
        return
    except (OSError, RecursionError, ValueError):
        pass
    warnings.warn(f"{file} is there, and the task has no names: answers about the file of the task are told by those", stacklevel=3)


def told(error: Exception) -> str:
    """What an error says, without the file's name."""
    return str(error.strerror or error) if isinstance(error, OSError) else str(error)


def faces(items: Sequence[Any]) -> List[Tuple[Any, ...]]:
    """The non-empty parts of a list, in its order."""
    return [part for size in range(1, len(items) + 1) for part in itertools.combinations(items, size)]


def by_size(simplex: Simplex) -> Tuple[int, Simplex]:
    """What simplices are ordered by: their size, and then as lists."""
    return len(simplex), simplex


def simplices(listed: Iterable[Sequence[Tuple[int, int]]]) -> List[Simplex]:
    """These simplices and their faces, in the order of their numbers."""
    return sorted({face for simplex in listed for face in faces(sorted(simplex))}, key=by_size)


def task(name: str, processes: int, inputs: Iterable[Input], legal: Legal, values: Iterable[Hashable], symmetric: bool = False,
         first_block: Optional[int] = None, partial: Optional[Legal] = None, names: Optional[Mapping[Any, str]] = None,
         input_names: Optional[Mapping[Any, str]] = None) -> Task:
    """Makes a task from a predicate, as consensus of two processes:

        def legal(start, end):      # by process: what those who take part begin with, and what they decide
            return len(set(end.values())) == 1 and set(end.values()) <= set(start.values())

        task("consensus", 2, [("no", "yes")], legal, values=["no", "yes"])

    An input is one value for each process, in their order, or a dictionary where some take no part. Each part of an input
    is one too, of processes that alone take part. `legal(start, end)` is asked for every choice of the values by those that
    take part. If there is a `partial(start, end)`, it is asked first, of the values that the first few of them decide: where it says
    no, nothing that begins so is legal, and `legal` is not asked. Outputs are whatever is legal somewhere. In a symmetric task a process
    doesn't know its name.

    Values and inputs are whole numbers, or anything hashable, as strings and tuples. These are numbered in the order in which they come, and
    answers tell them by what `str` says of them. `names` has other names of values, by value, and `input_names` the same of inputs; the
    file is the same.

    With a first block the file has version 2, and its values may be up to 255: in every round the first block has at least so many of
    those that take part, or all of them; 1 leaves all words.

    Warns if the predicate allows nothing where some begin so: then no number of rounds has a map. Raises Mistake where there is no such
    task, and where its file would be too large to be read."""
    judge_types(legal, partial, symmetric)
    return predicated(name, processes, inputs, legal, values, symmetric, first_block, partial, names, input_names)


def predicated(name: str, processes: int, inputs: Iterable[Input], legal: Legal, values: Iterable[Hashable], symmetric: bool,
               first_block: Optional[int], partial: Optional[Legal], names: Any, input_names: Any) -> Task:
    """The task of a predicate, once the types of the arguments are judged."""
    try:
        listed = [pairs_of(name, processes, each) for each in inputs]
        given = Coding([*dict.fromkeys(values)], [*dict.fromkeys(v for simplex in listed for _, v in simplex)])
    except TypeError as error:
        raise Mistake(f"{name}: inputs are a list of lists or dictionaries, and values a list of what is hashable ({error})") from error
    coded = [tuple((p, given.inputs.number(v)) for p, v in simplex) for simplex in listed]
    several = {*map(given.values.number, given.values.listed)}
    judge(name, processes, coded, several, first_block)
    called = called_so(name, given.values.called(names), several, given.inputs.called(input_names), {v for simplex in coded for _, v in simplex})
    starts = simplices(coded)
    judge_number(name, "input vertices", sum(len(start) == 1 for start in starts))
    judge_number(name, "input simplices, with their faces", len(starts))
    rules = rules_of(name, starts, given, several, legal, partial)
    if not any(rules.values()):
        raise Mistake(f"{name}: the predicate allows nothing, whatever the processes begin with")
    whole: Dict[str, Any] = {"version": 1} if first_block is None else {"version": 2, "first_block": first_block}
    return made_of(name, {**whole, "processes": processes, "symmetric": symmetric}, rules, called)


def judge_types(legal: Any, partial: Any, symmetric: Any) -> None:
    """Refuses arguments of other types than a task is made of."""
    if not callable(legal) or not (partial is None or callable(partial)):
        raise TypeError("a predicate is a function of two dictionaries, `start` and `end`")
    if type(symmetric) is not bool:
        raise TypeError(f"symmetric is True or False, and not {symmetric!r}")


def rules_of(name: str, starts: Sequence[Simplex], given: Coding, several: Set[int], legal: Legal, partial: Optional[Legal]) -> Rules:
    """What a predicate allows at each input simplex. Warns if that is nothing somewhere."""
    rules: Rules = {}
    left = MOST_TUPLES
    for start in starts:
        begun = {p: given.inputs.given(v) for p, v in start}
        rules[start] = tuples(name, begun, given.values, legal, choices(name, begun, given.values, several, partial), left)
        left -= len(rules[start])
    stuck = next((start for start in starts if not rules[start]), None)
    if stuck is not None and any(rules.values()):
        those = "a process" if len(stuck) == 1 else f"{len(stuck)} processes"
        alone = " or ".join(f"process {p}" for p, _ in stuck[:1]) + " runs alone" if len(stuck) == 1 else f"{those} alone take part"
        warnings.warn(f"{name}: the predicate allows nothing where {alone}, as from {({p: given.inputs.given(v) for p, v in stuck})}: "
                      "then no number of rounds has a map", stacklevel=4)
    return rules


def made_of(name: str, whole: Dict[str, Any], rules: Rules, called: Names) -> Task:
    """The task of these rules, whose outputs are whatever they allow. Raises Mistake if its file would be too large to be read."""
    ends = {tuple(zip((p for p, _ in start), each)) for start, rule in rules.items() for each in rule}
    text = text_of(whole, rules, ends)
    judge_sizes(name, rules, text)
    return Task(name, text, called)


def called_so(name: str, values: Any, decided: Set[int], inputs: Any, begun: Set[int]) -> Names:
    """The names of values and inputs. Raises Mistake if they are none, or name what the task has not."""
    try:
        found = names_of(values, inputs)
    except ValueError as error:
        raise Mistake(f"{name}: {error}") from error
    for what, named, there in [("value", found.values, decided), ("input", found.inputs, begun)]:
        strangers = [number for number, _ in named if number not in there]
        if strangers:
            raise Mistake(f"{name}: {strangers[0]} has a name, and is no {what} of the task")
    return found


def pairs_of(name: str, processes: int, given: Input) -> Tuple[Tuple[int, Any], ...]:
    """An input, as each process with its value."""
    if isinstance(given, AbstractSet):
        raise Mistake(f"{name}: the input {given!r} is a set, which has no order: an input is a list, or a dictionary by process")
    if isinstance(given, Mapping):
        return tuple(given.items())
    values = [*given]
    if type(processes) is int and 0 < len(values) < processes <= MOST_PROCESSES:
        raise Mistake(f"{name}: the input {given!r} has {len(values)} of {processes} values: a dictionary by process says who takes no part")
    return tuple(enumerate(values))


def text_of(whole: Dict[str, Any], rules: Rules, ends: Iterable[Simplex]) -> str:
    """The text of a task file, with what is allowed at each input simplex, and with output simplices."""
    lists = {"inputs": facets(rules), "outputs": facets(ends), "delta": [{"in": start, "out": rule} for start, rule in rules.items()]}
    return json.dumps({**whole, **lists}, separators=(",", ":"), sort_keys=True) + "\n"


def restrict(made: Task, processes: Iterable[int]) -> Task:
    """The task of some processes alone: the input and output simplices on them, with what is allowed there. Each of them gets its rank among
    them as its number: of processes 0 and 2 the second is process 1.

    A decision map of the whole task is one of this task in the executions in which these processes alone take part. So if this task has
    none after some rounds, the whole has none after as many. The text of the whole has to be that of a task, as the program accepts it.

    Raises Mistake where no process is named, one that the task has not, or where no input is of these processes alone; and NoTask, a
    Mistake, if the text is none of a task."""
    if not isinstance(made, Task) or not isinstance(made.text, str):
        raise TypeError(f"a task is what `task` or `read` returns, and not {made!r}")
    named = [*processes]
    try:
        return restricted(made, named)
    except Mistake:
        raise
    except (AttributeError, LookupError, RecursionError, TypeError, ValueError) as error:
        raise NoTask(f"{made.name}: the text is that of no task") from error


def restricted(made: Task, named: Sequence[int]) -> Task:
    """The task of some processes alone."""
    whole = json.loads(made.text)
    strangers = [it for it in named if type(it) is not int or it not in range(whole["processes"])]
    if strangers or not named:
        told = f"and not {strangers[0]!r}" if strangers else "and none is named"
        raise Mistake(f"{made.name}: the processes are 0 to {whole['processes'] - 1}, {told}")
    kept = sorted(set(named))
    ranks = {process: rank for rank, process in enumerate(kept)}

    def part(simplex: Iterable[Sequence[int]]) -> Simplex:
        """A simplex's vertices of these processes."""
        return tuple((ranks[p], v) for p, v in simplex if p in ranks)

    entries = [it for it in whole["delta"] if len(part(it["in"])) == len(it["in"])]
    rules = {part(it["in"]): sorted({tuple(each) for each in it["out"]}) for it in entries}
    if not rules:
        raise Mistake(f"{made.name}: no input is of these processes alone: {', '.join(map(str, kept))}")
    others = {name: it for name, it in whole.items() if name in ("version", "first_block", "symmetric")}
    ordered = {start: rules[start] for start in sorted(rules, key=by_size)}
    ends = {part(it) for it in whole["outputs"]} - {()}
    text = text_of({**others, "processes": len(kept)}, ordered, ends)
    return Task("-".join([made.name, *(f"p{it}" for it in kept)]), text, made.names)


def judge(name: str, processes: int, listed: Sequence[Simplex], values: Set[int], first_block: Optional[int]) -> None:
    """Refuses what no task file may have."""
    if type(processes) is not int or not 1 <= processes <= MOST_PROCESSES:
        raise Mistake(f"{name}: a task has 1 to {MOST_PROCESSES} processes, and not {processes!r}")
    judge_name(name)
    if name.endswith(".json"):
        raise Mistake(f"{name}: a name is that of the file, without a folder and without .json")
    if not values:
        raise Mistake(f"{name}: there is no value that may be decided")
    if first_block is not None and (type(first_block) is not int or not 1 <= first_block <= MOST_PROCESSES):
        raise Mistake(f"{name}: a first block is 1 to {MOST_PROCESSES}, and not {first_block!r}")
    if not listed or not all(listed):
        raise Mistake(f"{name}: there is no input, or one in which nobody takes part")
    strangers = sorted({p for simplex in listed for p, _ in simplex if type(p) is not int or p not in range(processes)}, key=repr)
    if strangers:
        raise Mistake(f"{name}: an input is of process {strangers[0]!r}, and the processes are 0 to {processes - 1}")
    judge_values(name, [*values, *(v for simplex in listed for _, v in simplex)], LARGEST_PLAIN if first_block is None else LARGEST)


def judge_name(name: str) -> None:
    """Refuses a name that is none of a file, as one that leads to another folder."""
    if not isinstance(name, str) or not name or pathlib.PurePath(name).name != name or "\0" in name or name == "..":
        raise Mistake(f"{name!r}: a name is that of the file, without a folder and without .json")


def judge_values(name: str, values: Iterable[int], largest: int) -> None:
    """Refuses values that are none, or too large."""
    beyond = [v for v in values if type(v) is not int or not 0 <= v <= largest]
    if beyond:
        more = "" if largest == LARGEST else f"; up to {LARGEST} with first_block=1, which is version 2 of the file"
        raise Mistake(f"{name}: the value {beyond[0]!r} is not a whole number from 0 to {largest}{more}")


def judge_sizes(name: str, rules: Dict[Simplex, List[Tuple[int, ...]]], text: str) -> None:
    """Refuses a task that is too large to be read."""
    judge_number(name, "listed outputs", len(json.loads(text)["outputs"]))
    judge_number(name, "value lists", sum(map(len, rules.values())))
    if len(text) > LONGEST:
        raise Mistake(f"{name}: the file has more than {LONGEST} bytes")


def judge_number(name: str, what: str, many: int) -> None:
    """Refuses more of something than are read."""
    if many > MOST[what]:
        part = ": ask about some of the inputs, since if these have no map the whole has none" if what.startswith("input") else ""
        raise Mistake(f"{name}: there are {many} {what}, and at most {MOST[what]} are read{part}")


def choices(name: str, start: Dict[int, Any], coded: Codes, values: Set[int], partial: Optional[Legal]) -> Iterator[Tuple[int, ...]]:
    """Every choice of a value by each of those who take part, in order, but for those that begin as no legal choice does."""
    processes, ordered = [*start], sorted(values)

    def longer(begun: Tuple[int, ...]) -> Iterator[Tuple[int, ...]]:
        """Those that begin so."""
        if len(begun) == len(processes):
            yield begun
            return
        for more in ((*begun, value) for value in ordered):
            if partial is None or len(more) == len(processes) or is_legal(name, partial, start, dict(zip(processes, map(coded.given, more)))):
                yield from longer(more)

    return longer(())


def tuples(name: str, start: Dict[int, Any], coded: Codes, legal: Legal, offered: Iterable[Tuple[int, ...]], left: int) -> List[Tuple[int, ...]]:
    """Those of the choices that are legal: the values that those who take part may decide, in the order of the processes. No more are read than
    so many are left, so the predicate is not asked on."""
    found = []
    for choice in offered:
        if is_legal(name, legal, start, dict(zip(start, map(coded.given, choice)))):
            found.append(choice)
        if len(found) > left:
            raise Mistake(f"{name}: there are more than {MOST_TUPLES} value lists, and no more are read: that is passed where the processes "
                          f"begin with {start}")
    return found


def is_legal(name: str, legal: Legal, start: Dict[int, Any], end: Dict[int, Any]) -> bool:
    """What a predicate says of a choice."""
    processes = [*start]
    try:
        answer = legal(dict(start), end)
    except KeyError as missing:
        if type(missing.args[0]) is not int or missing.args[0] in processes:
            raise
        raise Mistake(f"{name}: the predicate looks up process {missing} where only {processes} take part: it is asked for each part "
                      "of each input, since some may run alone, and `start` and `end` have those that take part") from missing
    if answer is None:
        raise Mistake(f"{name}: the predicate answers nothing where the processes begin with {start}: is a `return` missing?")
    return bool(answer)


def facets(listed: Iterable[Simplex]) -> List[Simplex]:
    """Those that are no part of another one, by size and then as lists."""
    every = set(listed)
    parts = {face for simplex in every for face in faces(simplex) if len(face) < len(simplex)}
    return sorted(every - parts, key=by_size)
