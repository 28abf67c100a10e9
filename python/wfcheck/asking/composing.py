"""Cases of a question in DIMACS, and one proof that is composed of the proofs of all cases.

A case is the question's formula with one more clause: a point has one of its candidates. If a lemma follows in the case, then it follows
from the question's own formula once the negated literal of the case is added: that literal is assumed true where the lemma's are assumed
false. So each case proof is weakened in this way, and ends with the lemma that the point has another value. Behind the last one the clause
of the point has no literal left. `wfcheck proof` checks the whole as any other proof.

A solver may delete clauses of the formula, which the next cases need. So a case proof deletes only lemmas of its own, each no more often
than it has added it.

A checker of proofs keeps a literal that once followed, whatever is deleted. In the composed proof such a literal holds in its case alone. A
solver may rest on one without writing it as a lemma. So if a lemma is refused, the proof is composed once more, without deletions."""
from __future__ import annotations

import collections
import pathlib
import re
import shutil
from typing import BinaryIO, Dict, Iterator, List, NamedTuple, Optional, Sequence, Set, Tuple

from .runs import Clock, Refused

PIECE = 1 << 20
NUMBERS = re.compile(r"^c values(.*)\n(?:c .*\n)*p cnf (\d+) (\d+)$", re.M)
EXCLUDED = re.compile(rb"^-(\d+) 0$", re.M)
STEP = re.compile(rb"(d ?)?((?:-?[1-9]\d* )*)0\r?\n")
SIGNED = re.compile(rb"^c by (.*) in ([\d.]+) s\n")
LONG = 1 << 14


class NoSteps(Exception):
    """Why a solver's proof can't be read."""


class Case(NamedTuple):
    """A value that a point may have, and the variable that says that it has."""
    point: int
    value: int
    variable: int

    def __str__(self) -> str:
        return f"point {self.point} is {self.value}"


class CaseProof(NamedTuple):
    """The weakened proof of a case, in a file."""
    case: Case
    file: pathlib.Path

    def signed(self) -> Tuple[str, float]:
        """Whose the proof is, and in how many seconds it was found."""
        with open(self.file, "rb") as text:
            found = SIGNED.match(text.read(LONG))
        return (found[1].decode(errors="replace"), float(found[2])) if found else ("a solver", 0.0)


def head_of(formula: BinaryIO) -> List[bytes]:
    """The lines of a formula up to the one that counts its clauses. What comes next is its first clause."""
    lines = []
    for line in formula:
        lines.append(line)
        if line.startswith(b"p cnf "):
            break
    return lines


def candidates(formula: pathlib.Path, clock: Clock) -> List[List[Case]]:
    """The candidates of each point: the values that no clause excludes by itself."""
    with open(formula, "rb") as text:
        found = NUMBERS.search(b"".join(head_of(text)).decode())
        assert found, "cnf names the points of a formula"
        values, variables = found[1].split(), int(found[2])
        excluded: Set[int] = set()
        while piece := text.read(PIECE):
            clock.go_on()
            excluded.update(map(int, EXCLUDED.findall(piece + text.readline())))
    many = len(values)
    if not many:
        return []
    every = [[Case(point, int(value), many * point + place) for place, value in enumerate(values, 1)] for point in range(variables // many)]
    return [[case for case in cases if case.variable not in excluded] for cases in every]


def cases_of(formula: pathlib.Path, point: Optional[int], clock: Clock) -> List[Case]:
    """The cases of a point, or where none is named of the first that has most candidates."""
    found = candidates(formula, clock)
    if point is not None and point >= len(found):
        raise Refused(f"--split {point}: there are {len(found)} points, numbered from 0")
    chosen = max(found, key=len, default=[]) if point is None else found[point]
    if len(chosen) < 2:
        raise Refused("--split: no point has two candidates" if point is None else f"--split {point}: this point has one candidate")
    return chosen


def write_case(formula: pathlib.Path, case: Case, wrote: pathlib.Path) -> None:
    """The formula, and the clause that the case's point has its value."""
    with open(formula, "rb") as text, open(wrote, "xb") as made:
        *comments, counts = head_of(text)
        variables, clauses = map(int, counts.split()[2:])
        made.write(b"".join([*comments, b"p cnf %d %d\n" % (variables, clauses + 1)]))
        shutil.copyfileobj(text, made)
        made.write(b"%d 0\n" % case.variable)


def steps(proof: pathlib.Path, clock: Clock) -> Iterator[Tuple[bool, bytes]]:
    """The steps of a proof: whether each is a deletion, and its literals with a space behind each. Most solvers write a line for each."""
    is_begun, is_deletion, clause = False, False, b""
    for number, line in enumerate(lines_of(proof, clock), 1):
        if not is_begun and (found := STEP.fullmatch(line)):
            yield found[1] is not None, found[2]
            continue
        for word in line.split():
            if not is_begun and word[:1] in b"c%":
                break
            if not is_begun and word[:1] == b"d":
                is_deletion, word = True, word[1:]
            is_begun = True
            if literal := literal_of(word, number):
                clause += b"%d " % literal
            elif word:
                yield is_deletion, clause
                is_begun, is_deletion, clause = False, False, b""


def literal_of(word: bytes, line: int) -> int:
    """The literal that a word is: 0 for what ends a step, and for no word behind a `d`."""
    try:
        return int(word or b"0")
    except ValueError:
        raise NoSteps(f"line {line} of its proof has no literal where one has to be: it has to be DRAT as text") from None


def weaken(proof: pathlib.Path, case: Case, sign: Tuple[str, float], wrote: pathlib.Path, clock: Clock) -> None:
    """Writes the case proof that a solver's proof of a case gives, up to the empty lemma, with a comment that signs it. A lemma that holds
    in the case is left out. A literal that is a lemma by itself holds for the rest of the solver's proof, so no such lemma is deleted."""
    holds, fails = b"%d" % case.variable, b"-%d" % case.variable
    added: Dict[int, int] = collections.Counter()
    with open(wrote, "xb") as made:
        made.write(b"c by %s in %.2f s\n" % (sign[0].encode(errors="replace"), sign[1]))
        for is_deletion, text in steps(proof, clock):
            clause = frozenset(text.split())
            # a number for each clause takes less memory. If two had one, the proof would be refused at worst
            key = hash(clause)
            if holds in clause or is_deletion and (len(clause) < 2 or not added[key]):
                continue
            if not clause:
                break
            added[key] += -1 if is_deletion else 1
            if not added[key]:
                del added[key]
            made.write(b"%s%s%s0\n" % (b"d " if is_deletion else b"", text, b"" if fails in clause else fails + b" "))


def compose(proofs: Sequence[CaseProof], has_deletions: bool, wrote: pathlib.Path, clock: Clock) -> List[int]:
    """Writes the proof that is composed of all case proofs, with their deletions or without, and returns the last line of each."""
    line, ends = 0, []
    with open(wrote, "xb") as made:
        for proof in proofs:
            made.write(b"c %s\n" % str(proof.case).encode())
            line += 1
            for step in lines_of(proof.file, clock):
                if has_deletions or not step.startswith(b"d"):
                    made.write(step)
                    line += 1
            made.write(b"%d 0\n" % -proof.case.variable)
            line += 1
            ends.append(line)
        made.write(b"0\n")
    return ends


def lines_of(file: pathlib.Path, clock: Clock) -> Iterator[bytes]:
    """The lines of a file, while there is time."""
    with open(file, "rb") as text:
        for number, line in enumerate(text):
            if number % 4096 == 0:
                clock.go_on()
            yield line
