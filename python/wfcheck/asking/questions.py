"""A question for `ask`, and one attempt to answer it: by the search or by a SAT solver, and then by the check of what that wrote."""
from __future__ import annotations

import errno
import os
import pathlib
import re
import shutil
import signal
from typing import Any, Callable, Dict, List, NamedTuple, Optional, Sequence, Tuple, TypeVar

from .. import files
from ..files import in_line
from . import runs
from .notes import VERDICT
from .runs import Clock, Given, Late, Look, Refused, Scope, say

# what one of those who are asked answers
T = TypeVar("T")
SEARCH, SEARCH_ALONE = "the search", "search"
FEWER_ROUNDS = "the search after fewer rounds"
# the share of a question's time in which a map after fewer rounds is looked for
SHARE = 0.1
CLAUSES = rb"(?m)^p cnf \d+ (\d+)$"
HEAD = 1 << 14
# a file of fewer bytes most likely is checked in a moment
SMALL = 1 << 20
# so many bytes from the end of what a solver said may have its last line
TAIL = 200
# how a search ends that has written too many lines: it has an answer, or met the limit of a file
TOO_LONG = 1, -signal.SIGXFSZ
# how many bytes of a part `verify` reads; and who gives an answer that has no lines
LONGEST, WITHOUT_LINES = 16_777_216, "the search's answer, without lines"
EMPTY, SAYS = rb"\n(?=\n)", rb"(?:s )?(UN)?SAT(?:ISFIABLE)?\s*"
PLACES = {"formula": "cnf", "proof": "drat", "hints": "lrat", "output": "out"}
# the two kinds of clausal proofs, by what their files end in, and the words by which `wfcheck proof` is told of the second
PROOFS: Dict[str, List[str]] = {".drat": [], ".lrat": ["--lrat"]}


class NoFormula(Exception):
    """Why a solver is not asked."""


class Answer(NamedTuple):
    """What is accepted, whose it is, in how many seconds, and the files that show it, of which the first is the certificate."""
    word: str
    who: str
    taken: float
    files: List[pathlib.Path]


# what asks the search or a solver
Call = Callable[[], Optional[Answer]]


class Question:
    """A task and a number of rounds, or one branch of that, with how many branches there are."""

    def __init__(self, task: pathlib.Path, rounds: int, branch: Optional[int] = None, count: Optional[int] = None) -> None:
        self.task, self.rounds, self.number, self.count = task, rounds, branch, count
        self.about = [f"--task={task}", "--rounds", rounds]
        self.branch = [] if branch is None else ["--branch", branch]
        self.name = "-".join(map(str, [task.stem, rounds, *self.branch[1:]]))
        where = f" in branch {branch} of {count}" if self.branch else ""
        self.accepted = rf"accepted (map|least|none){where} at {rounds} rounds?\s*"

    def who(self, name: str) -> str:
        """Who says something, with the branch that it is about."""
        return f"branch {self.number}: {name}" if self.branch else name

    def head(self) -> str:
        """What stands before a report that is about the branch alone."""
        return f"wfcheck part 1\nbranch {self.number}\nbranches {self.count}\n" if self.branch else ""


class Attempt:
    """One attempt at a question, with a folder and a clock of its own."""

    def __init__(self, question: Question, folder: pathlib.Path, scope: Scope, clock: Clock) -> None:
        self.question, self.folder, self.scope, self.clock = question, folder, scope, clock
        # whether the search said that there is no map
        self.is_none = False

    def file(self, kind: str) -> pathlib.Path:
        """A file of this attempt."""
        return self.folder / f"{self.question.name}.{kind}"

    def tell(self, name: str, text: str) -> None:
        """Says something about this question."""
        say(f"    {self.question.who(name)} {text}")

    def wfcheck(self, words: Sequence[Any], given: Given, wrote: Optional[pathlib.Path] = None, look: Look = None) -> runs.Ended:
        """Runs wfcheck over a file, within this attempt's time."""
        return self.scope.wfcheck(words, self.clock, given, wrote, look)

    def checked(self, command: str, file: pathlib.Path) -> Tuple[Optional[str], runs.Ended]:
        """What wfcheck accepts a file as, a map or none, and how it ended; no word where it refuses the file."""
        question = self.question
        try:
            words = [command, *question.about, *question.branch, *self.kind(command, file)]
            is_small = file.stat().st_size < SMALL
            ended = self.scope.at_once_or_later(words, self.clock, file) if is_small else self.wfcheck(words, file)
        except Late:
            say(f"    wfcheck {command}: {question.who('no end')} within the {self.clock.seconds:g} s that the question has")
            raise
        found = re.fullmatch(question.accepted, ended.said) if ended.status == 0 else None
        say(f"    wfcheck {command}: {ended.said.strip() if found else question.who(ended.why())} ({ended.taken:.2f} s)")
        return ({"least": "map"}.get(found[1], found[1]) if found else None), ended

    def kind(self, command: str, file: pathlib.Path) -> List[str]:
        """The words that say what kind of text a file is: a report of any length, or a proof with hints. A part may not be longer than others."""
        return PROOFS[file.suffix] if command == "proof" else ["--long"] * (not self.question.branch)

    def accepted(self, file: pathlib.Path) -> Optional[str]:
        """What wfcheck accepts a file as, a map or none; None where it refuses it."""
        return self.checked("proof" if file.suffix in PROOFS else "verify", file)[0]

    def proof(self) -> Optional[pathlib.Path]:
        """The proof that a solver has written, if it has: with hints, if there are any."""
        return next((it for it in map(self.file, ("lrat", "drat")) if it.is_file()), None)

    def search(self, *form: str) -> List[Any]:
        """The words by which the search is asked."""
        return ["solve", "--rounds", self.question.rounds, "--workers", 1, *self.question.branch, *form]

    def solve(self, wrote: pathlib.Path, *form: str) -> runs.Ended:
        """Has the search answer, and returns how it ended."""
        ended = self.wfcheck(self.search(*form), self.question.task, wrote)
        if ended.status == 2:
            raise Refused(ended.said)
        return ended

    def map_at_once(self) -> Optional[Answer]:
        """The map that the search finds in a moment, if it is accepted. It is noted if the search says that there is none."""
        return self.at_once("map", "--verdict")

    def none_at_once(self) -> Optional[Answer]:
        """The refutation that the search writes in a moment, once it said that there is no map, if it is accepted."""
        return self.at_once("none") if self.is_none else None

    def at_once(self, word: str, *form: str) -> Optional[Answer]:
        """The search's answer, if it comes in a moment, is this one, and is accepted."""
        report = self.file("report")
        ended = self.scope.at_once(self.search(*form), self.clock, self.question.task, report)
        if ended and ended.status == 2:
            raise Refused(ended.said)
        said = {0: "map", 1: "none"}.get(ended.status) if ended else None
        self.is_none = said == "none"
        if ended and said == word:
            self.tell(SEARCH, f"says {word} in {ended.taken:.2f} s")
            if self.accepted(report) == word:
                return Answer(word, SEARCH, ended.taken, [report])
        report.unlink(missing_ok=True)
        return None

    def by_search(self) -> Optional[Answer]:
        """The search's answer, where its report is accepted. The whole question is asked for the verdict first: the lines of a refutation may
        be very many, and are asked for once it is known that there is one."""
        is_whole, report = not self.question.branch, self.file("report")
        ended = self.solve(report, *["--verdict"] * is_whole)
        if not is_whole and ended.status in TOO_LONG and report.stat().st_size > LONGEST:
            return self.without_lines(report.stat().st_size)
        if ended.status not in (0, 1):
            self.tell(SEARCH, f"has no answer: {ended.why()}")
            return None
        word = "none" if ended.status else "map"
        self.tell(SEARCH, f"says {word} in {ended.taken:.2f} s")
        if is_whole and word == "none":
            report.unlink()
            if not self.has_lines(report):
                return None
        accepted = self.accepted(report)
        return Answer(word, SEARCH, ended.taken, [report]) if accepted == word else None

    def without_lines(self, size: int) -> Optional[Answer]:
        """The search's answer alone, where the lines of a branch's refutation are more than `verify` reads. It is asked for by itself, with as
        much time again, and nothing else is accepted: that it holds is what the program's contract says."""
        self.tell(SEARCH, f"has written {size:,} bytes, and `verify` reads {LONGEST:,}: it is asked for the answer without lines")
        verdict, self.clock = self.file(VERDICT), Clock(self.clock.seconds)
        ended = self.solve(verdict, "--verdict")
        text = verdict.read_text(errors="replace") if verdict.stat().st_size < HEAD else ""
        is_none = ended.status == 1 and text.startswith(self.question.head()) and text.endswith("\nanswer none\nend\n")
        self.tell(WITHOUT_LINES, f"says none in {ended.taken:.2f} s" if is_none else f"is missing: {ended.why()}")
        return Answer("none", WITHOUT_LINES, ended.taken, [verdict]) if is_none else None

    def has_lines(self, report: pathlib.Path) -> bool:
        """Has the search write the lines of its refutation, and says why where it doesn't."""
        try:
            ended = self.solve(report)
        except Late:
            self.tell(SEARCH, f"has written no refutation within the {self.clock.seconds:g} s that the question has")
            raise
        if ended.status != 1:
            self.tell(SEARCH, f"has no refutation: {ended.why()}")
        return ended.status == 1

    def fewer_rounds_at_once(self) -> Optional[Answer]:
        """A map after fewer rounds, lifted to these, if the search has one in a moment after each of them."""
        return self.by_fewer_rounds(at_once=True)

    def by_fewer_rounds(self, at_once: bool = False) -> Optional[Answer]:
        """A map after fewer rounds, lifted to these. The search looks for one in a short share of the time, or in a moment."""
        clock = Clock(self.clock.seconds * SHARE)
        for rounds in range(self.question.rounds):
            report = self.file(f"after-{rounds}")
            report.unlink(missing_ok=True)
            asked = ["solve", "--rounds", rounds, "--workers", 1, "--verdict"]
            ended = (self.scope.at_once(asked, clock, self.question.task, report) if at_once else
                     self.scope.wfcheck(asked, clock, self.question.task, report))
            if ended and ended.status == 0:
                self.tell(f"the search after {rounds} {'round' if rounds == 1 else 'rounds'}", f"says map in {ended.taken:.2f} s")
                return self.lifted(report, ended.taken)
            if not ended or ended.status != 1:
                return None
        return None

    def lifted(self, report: pathlib.Path, taken: float) -> Optional[Answer]:
        """The map of a report of fewer rounds, for these rounds."""
        lifted = self.file("lifted")
        lifted.unlink(missing_ok=True)
        ended = self.wfcheck(["lift", *self.question.about], report, lifted)
        say(f"    wfcheck lift: {ended.why() if ended.status else f'a map for {self.question.rounds} rounds'} ({ended.taken:.2f} s)")
        if ended.status:
            return None
        return Answer("map", FEWER_ROUNDS, taken, [lifted]) if self.accepted(lifted) == "map" else None

    def write_formula(self, most: int) -> None:
        """Writes the formula, where it has no more clauses than a limit."""
        formula = self.file("cnf")

        def look() -> None:
            """Looks how many clauses the formula has, as far as it is written."""
            with open(formula, "rb") as text:
                found = re.search(CLAUSES, text.read(HEAD))
            if found and int(found[1]) > most:
                raise NoFormula(f"the formula has {int(found[1]):,} clauses, more than {most:,} (--clauses)")

        ended = self.wfcheck(["cnf", "--rounds", self.question.rounds, *self.question.branch], self.question.task, formula, look)
        if ended.status == 2:
            raise Refused(ended.said)
        if ended.status:
            raise NoFormula(f"there is no formula: {ended.why()}")
        look()

    def by_solver(self, words: str, most: int) -> Optional[Answer]:
        """A solver's answer, where its model or its proof is accepted."""
        try:
            self.write_formula(most)
        except NoFormula as why:
            self.tell(solver_name(words), f"is left out: {why}")
            return None
        return self.of_formula(words)

    def of_formula(self, words: str) -> Optional[Answer]:
        """A solver's answer about the formula that is written."""
        names = {name: str(self.file(kind)) for name, kind in PLACES.items()}
        begun = self.clock.taken()
        import subprocess
        with open(self.file("said"), "xb") as said:
            command = [word.format(**names) for word in split(words)]
            status = self.scope.run(command, self.clock, stdin=subprocess.DEVNULL, stdout=said, stderr=said)
        for kind in PLACES.values():
            make_own(self.file(kind), self.clock, self.scope.limits.file)
        if status < 0:
            self.tell(solver_name(words), f"has no answer: {runs.Ended(status, '', 0).why()}")
            return None
        return self.judged(solver_name(words), self.clock.taken() - begun)

    def judged(self, name: str, taken: float) -> Optional[Answer]:
        """The answer of a solver that has ended, where it is accepted."""
        says, text = self.verdict()
        if says == "map" and text:
            self.tell(name, f"says map in {taken:.2f} s")
            return self.of_model(name, taken, text)
        proof = self.proof()
        if says == "none" and proof:
            self.tell_proof(proof, name, taken)
            return self.of_proof(proof, name, taken)
        self.scope.settle()
        self.tell(name, "says none, and writes no proof that could be checked" if says else f"says nothing{self.last_said()}")
        return None

    def last_said(self) -> str:
        """The last line that a solver wrote, if it wrote any: most likely it tells a mistake."""
        with open(self.file("said"), "rb") as said:
            said.seek(max(0, said.seek(0, os.SEEK_END) - TAIL))
            lines = said.read().decode(errors="replace").split("\n")
        told = ["".join(filter(str.isprintable, it)).strip() for it in lines]
        return next((f", and at last: {it}" for it in reversed(told) if it), "")

    def verdict(self) -> Tuple[Optional[str], Optional[pathlib.Path]]:
        """What a solver says, and the file that has its model if it is a map."""
        files = [it for it in (self.file("out"), self.file("said")) if it.is_file()]
        for file in files:
            for line in runs.pieces(file, self.clock):
                if found := re.fullmatch(SAYS, line):
                    return "none" if found[1] else "map", files[0]
        return None, None

    def tell_proof(self, proof: pathlib.Path, name: str, taken: float) -> None:
        """Says that a solver has written a proof, and how large it is."""
        written = f"{lemmas(proof, self.clock):,} lemmas and {proof.stat().st_size:,} bytes"
        self.tell(name, f"says none in {taken:.2f} s, with a proof {'with hints ' * bool(PROOFS[proof.suffix])}of {written}")

    def of_proof(self, proof: pathlib.Path, name: str, taken: float) -> Optional[Answer]:
        """A solver's proof, where it is accepted."""
        return Answer("none", name, taken, [proof]) if self.accepted(proof) == "none" else None

    def of_model(self, name: str, taken: float, text: pathlib.Path) -> Optional[Answer]:
        """The report of a solver's model, of a branch as a part: a map of the question may lie in another branch."""
        plain, report = self.file("plain"), self.file("map")
        ended = self.wfcheck(["model", *self.question.about], text, plain)
        say(f"    wfcheck model: {'a decision map' if ended.status == 0 else self.question.who(ended.why())} ({ended.taken:.2f} s)")
        if ended.status:
            return None
        report.write_bytes(self.question.head().encode() + plain.read_bytes())
        return Answer("map", name, taken, [report, text]) if self.accepted(report) == "map" else None


def solver_name(words: str) -> str:
    """What a solver is called whose command these words are."""
    return in_line(pathlib.PurePath(split(words)[0]).name)


def make_own(file: pathlib.Path, clock: Clock, most: int) -> None:
    """Puts a copy in the place of a file that a solver left, if that is a link or has another name: so what is checked is what is kept. What
    is no file, or has too many bytes, is taken away."""
    if not os.path.lexists(file) or not file.is_symlink() and file.is_file() and file.stat().st_nlink == 1:
        return
    copy, size = file.with_name(f"{file.name}.copy"), 0
    try:
        with files.opened(file) as text, open(copy, "xb") as own:
            while piece := text.read(1 << 20):
                clock.go_on()
                size += len(piece)
                if size > most:
                    raise OSError(errno.EFBIG, os.strerror(errno.EFBIG), str(file))
                own.write(piece)
        copy.replace(file)
    except OSError:
        copy.unlink(missing_ok=True)
        if file.is_dir() and not file.is_symlink():
            shutil.rmtree(file, ignore_errors=True)
        else:
            file.unlink(missing_ok=True)


def split(words: str) -> List[str]:
    """The words of a command, as a shell splits them."""
    import shlex
    return shlex.split(words)


def lemmas(proof: pathlib.Path, clock: Clock) -> int:
    """How many lines of a proof are no deletions and no comments, and not empty: the line feeds that other bytes follow."""
    count, last, deletes = 0, b"\n", b" d " if PROOFS[proof.suffix] else b"\nd"
    with open(proof, "rb") as text:
        while read := text.read(1 << 20):
            clock.go_on()
            piece, last = last + read, read[-1:]
            others = piece.count(deletes) + piece.count(b"\nc") + (len(re.findall(EMPTY, piece)) if b"\n\n" in piece else 0)
            count += piece.count(b"\n", 0, -1) - others
    return count


def answered(name: str, ask: Callable[[], Optional[T]]) -> Optional[T]:
    """What one of those who are asked answers; None where its time is over, and where the system refuses it something."""
    try:
        return ask()
    except Late:
        return None
    except OSError as error:
        say(f"    {name} has no answer: {error}")
        return None


def first(scope: Scope, asked: Dict[str, Call]) -> Optional[Answer]:
    """The first answer that is accepted; then the others are stopped. `asked` has a call for each name."""
    import concurrent.futures
    with concurrent.futures.ThreadPoolExecutor(len(asked)) as pool:
        one: Callable[[str, Call], Optional[Answer]] = answered
        jobs = [pool.submit(one, name, ask) for name, ask in asked.items()]
        try:
            for job in concurrent.futures.as_completed(jobs):
                if answer := job.result():
                    return answer
        finally:
            scope.end()
    return None
