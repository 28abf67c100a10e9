"""Says where a task file is refused, in words; or what in it most likely is a slip.

    wfcheck-lint [--all] TASK.json

A refused file has the number that `wfcheck` would answer, and the place that it means: which simplex, which key, which item.
Of a file that is accepted it names what the definitions allow, but hardly anybody means, as a `slip`:

  - a rule that allows nothing: then there is no decision map for any number of rounds;
  - in a symmetric task two simplices with the same values, rank by rank, and different rules;
  - processes that no input has, outputs that no rule uses, and keys that are written twice, of which the last counts;

and as a `note` what many tasks of the literature have on purpose:

  - a value list that those who take part may decide, but no larger simplex can go on from: no map ever uses it, since the
    others may all come later (the rules are not monotone there). A note is about one larger simplex, and names the first such
    face. Ten notes are told. With `--all` all are, each with all its faces.

The status is 0 where there is no slip, 1 where there is one, 2 where the file is refused or can't be read. Where a pipe is closed
before all is told, the signal SIGPIPE ends it, which a shell has as 141. In the repository tools/lint.py is this command."""
import argparse
import collections
import json
import signal
import sys
from typing import Any, Callable, Dict, Iterator, List, Optional, Sequence, Set, Tuple

from .files import any_text_can_be_written
from .task_file import LONGEST, Refused, Simplex, complex_of, faces, read, shown, simplex_of

# how many notes are told without --all
TOLD = 10
# the refusals of a task that has too many inputs, of which a part can be asked about
PARTS = ("8 TooMany simplices", "8 TooMany vertices")
Rules = Dict[Simplex, Set[Tuple[int, ...]]]


def written_twice(text: bytes) -> List[str]:
    """The keys that stand twice in one object of a JSON text, each once."""
    found: Dict[str, bool] = {}

    def look(pairs: List[Tuple[str, Any]]) -> None:
        """Notes the keys of one object that stand in it twice."""
        seen: Set[str] = set()
        for key, _ in pairs:
            if key in seen:
                found[key] = True
            seen.add(key)

    json.loads(text, object_pairs_hook=look)
    return list(found)


def naming(inputs: Sequence[Simplex]) -> Callable[[Simplex], str]:
    """How an input simplex is named."""
    number = {s: n for n, s in enumerate(inputs)}
    return lambda s: f"input simplex {number[s]}, {shown(s)},"


def notes(value: Dict[str, Any], rules: Rules, most: Optional[int]) -> Iterator[str]:
    """What many tasks have on purpose: of each simplex the faces with value lists from which it can't go on, so many of them, or all if None."""
    inputs = complex_of(value["inputs"])
    named = naming(inputs)
    for s in filter(rules.get, inputs):
        found: List[str] = []
        for face in faces(s)[:-1]:
            at = [s.index(v) for v in face]
            lost = sorted(rules[face] - {tuple(t[i] for i in at) for t in rules[s]})
            more = f" and {len(lost) - 1} more" if len(lost) > 1 else ""
            found += [f"{shown(lost[0])}{more} of {shown(face)}"] if lost else []
        told = found[:most]
        told += [f"{len(found) - len(told)} more of its faces"] if told != found else []
        if told:
            yield f"{named(s)} can't go on from {', nor from '.join(told)}"


def slips(value: Dict[str, Any], rules: Rules) -> Iterator[str]:
    """What hardly anybody means."""
    inputs = complex_of(value["inputs"])
    named = naming(inputs)
    for s in inputs:
        if not rules[s]:
            yield f"{named(s)} allows nothing: there is no decision map for any number of rounds"
    if value["symmetric"]:
        by_rank: Dict[Tuple[int, ...], List[Simplex]] = collections.defaultdict(list)
        for s in inputs:
            by_rank[tuple(v for _, v in s)].append(s)
        for first, *others in by_rank.values():
            for s in others:
                for here, there in ((first, s), (s, first)):
                    only = sorted(rules[here] - rules[there])
                    if only:
                        allows = f"{named(here)} allows {shown(only[0])}"
                        yield f"symmetric, but {allows}, and {named(there)} with the same values doesn't"
    for p in range(value["processes"]):
        if all(q != p for s in inputs for q, _ in s):
            yield f"no input has process {p}"
    used = {f for s, rule in rules.items() for t in rule for f in faces(tuple((p, v) for (p, _), v in zip(s, t)))}
    for place, listed in enumerate(value["outputs"]):
        if simplex_of(listed) not in used:
            yield f"output {place}, {shown(listed)}, is used by no rule"


def parser(name: str) -> argparse.ArgumentParser:
    """The words that the command takes."""
    about = (__doc__ or "").replace("wfcheck-lint", name)
    words = argparse.ArgumentParser(
        prog=name, description=about, formatter_class=argparse.RawDescriptionHelpFormatter, usage=f"{name} [--all] TASK.json")
    words.add_argument("--all", action="store_true", help=f"tells all notes, and not {TOLD} alone, each with all its faces")
    words.add_argument("task", metavar="TASK.json", help="the task file")
    return words


def main(listed: List[str], name: str) -> int:
    """Says what there is to say of the file that the words name, and returns the status."""
    # Python's own status for a closed pipe would mean a slip
    signal.signal(signal.SIGPIPE, signal.SIG_DFL)
    asked = parser(name).parse_args(listed)
    any_text_can_be_written()
    try:
        with open(asked.task, "rb") as file:
            text = file.read(LONGEST + 1)
        value, rules = read(text)
    except OSError as error:
        print(f"{name}: {asked.task} can't be read: {error.strerror}", file=sys.stderr)
        return 2
    except Refused as refused:
        part = ". Ask about some of the inputs: if these have no map, the whole has none" if refused.line in PARTS else ""
        print(f"refused, {refused.line}: {refused.words}{part}")
        return 2
    twice = (f'the key "{key}" is written twice in one place, and the last value counts' for key in written_twice(text))
    found = [f"slip: {it}" for it in [*twice, *slips(value, rules)]]
    noted = [f"note: {it}" for it in notes(value, rules, None if asked.all else 1)]
    told = noted if asked.all else noted[:TOLD]
    left = [f".. and {len(noted) - len(told)} more (--all)"] if told != noted else []
    print("\n".join([*found, *told, *left]) or "nothing to say")
    return 1 if found else 0
