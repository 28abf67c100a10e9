"""A question branch by branch, for tools/ask: each is a job of its own, and what is accepted of one is noted in the folder of --keep."""
from __future__ import annotations

import functools
import os
import pathlib
import re
import shutil
import sys
import tempfile
import threading
from typing import Any, Collection, Dict, List, NamedTuple, Optional, Sequence, Tuple

from . import arrays, given, pool, table
from .asked import Words
from .cases import Cases
from .notes import Note, Notes, Room, digest, placed
from .pool import shown
from .questions import SEARCH_ALONE, WITHOUT_LINES, Answer, Attempt, Question, answered
from .runs import Clock, Late, Refused, Scope, Undecided, say
from .summary import STATUS

# what share of the points is open in a branch that is nearly as large as the whole
LARGE, OPEN = 0.9, re.compile(r"^branch \d+ (\d+) \d+$", re.M)
# among so many of the lowest branches runs begin at different places
WINDOW = 16


class Branches:
    """The branches of one question, with what is known of them."""

    def __init__(self, words: Words, solver: Optional[str], room: Room, count: int) -> None:
        self.words, self.solver, self.room, self.count = words, solver, room, count
        self.rounds, self.chosen = words.rounds[0], chosen_of(words, count)
        self.notes = Notes(words.keep)
        # what was accepted in this run, by branch
        self.fresh: Dict[int, str] = {}
        # the branches that had no end in their time
        self.late: List[int] = []
        # the report that the parts were joined to
        self.joined: Optional[pathlib.Path] = None
        # while a map that another run has noted is looked at
        self.looks = threading.Lock()

    def attempt(self, branch: int, made: pathlib.Path, scope: Scope) -> Attempt:
        """An attempt at a branch, in a folder."""
        question = Question(self.words.task, self.rounds, branch, self.count)
        return Attempt(question, made, scope, Clock(self.words.seconds))

    def ask(self, branch: int, scope: Scope) -> Optional[str]:
        """Asks the solver about a branch, or the search where there is none, and notes what is accepted of it. Another run may have decided
        it meanwhile, or have found a map in a branch below."""
        if note := self.notes.of(branch):
            return note.word
        if self.map_below(branch, scope) is not None:
            return None
        with self.room.attempt() as made:
            attempt = self.attempt(branch, made, scope)
            by_cases = Cases(self.words, self.solver, self.room, attempt) if self.words.split and self.solver else None
            try:
                answer = by_cases.answer() if by_cases else self.answer(attempt)
            except Late:
                self.late += [branch] * (by_cases is None)
                raise
            if answer:
                self.notes.keep(branch, answer, made)
                self.fresh[branch] = answer.word
                if by_cases:
                    by_cases.clear()
            return answer and answer.word

    def answer(self, attempt: Attempt) -> Optional[Answer]:
        """The solver's answer about a branch, or that of the search where there is no solver."""
        return attempt.by_solver(self.solver, self.words.clauses) if self.solver else attempt.by_search()

    def map_below(self, branch: int, scope: Scope) -> Optional[int]:
        """A branch below this one that has a map which is accepted in this run. Such maps are smaller."""
        with self.looks:
            for lower, note in self.notes.maps_below(branch):
                if self.fresh.get(lower) == "map" or self.recheck(lower, note, scope) == "map":
                    return lower
        return None

    def recheck(self, branch: int, note: Note, scope: Scope) -> Optional[str]:
        """Has what a note names accepted again: a proof, or a part."""
        if not note.has_lines():
            say(f"    branch {branch}: {note.who} can't be checked again")
            return None
        with self.room.attempt() as made:
            name = self.words.keep / note.name
            word = self.attempt(branch, made, scope).accepted(name)
            if word == note.word:
                self.fresh[branch] = word
            else:
                say(f"    the note of branch {branch} is not trusted: {note.name} is not accepted as {note.word}")
                self.notes.refused.add(note)
            return word

    def run(self, calls: Dict[int, pool.Call], up_to_map: bool = False) -> None:
        """Has so many branches at once decided, in their order, each by a call that gets a scope. Where a map is enough, one ends all that
        goes on behind it; branches before it go on, since their maps are smaller."""
        kind = pool.Kind("branch {}".format, "branches", shown, lambda found, other: up_to_map and other > found)
        pool.run(self.words, kind, calls)

    def ask_all(self) -> None:
        """Asks about those branches that have no note, up to the first map. A map that is noted is accepted again first."""
        known = self.notes.all(self.chosen)
        self.tell_doubts()
        maps = {branch: note for branch, note in known.items() if note.word == "map"}
        self.run({branch: functools.partial(self.recheck, branch, note) for branch, note in maps.items()})
        if "map" not in self.fresh.values():
            left = self.turned([branch for branch in self.chosen if branch not in known or branch in maps])
            self.run({branch: functools.partial(self.ask, branch) for branch in left}, up_to_map=True)
        if self.late:
            say(f"    no end within the {self.words.seconds:g} s of a branch: {shown(sorted(self.late))}")

    def turned(self, left: List[int]) -> List[int]:
        """Branches in the order in which they are asked: the lowest first, but among a few of them each run that is at work in the folder
        begins at another place."""
        begin = self.room.place() * (self.words.jobs or 1) % WINDOW
        windows = [left[at:at + WINDOW] for at in range(0, len(left), WINDOW)]
        return [branch for window in windows for branch in window[begin:] + window[:begin]]

    def recheck_all(self) -> None:
        """Has all that is noted accepted again."""
        known = self.notes.all(self.chosen)
        self.tell_doubts()
        self.run({branch: functools.partial(self.recheck, branch, note) for branch, note in known.items()})

    def tell_doubts(self) -> None:
        """Says which notes are not trusted, and why."""
        for branch, why in self.notes.doubts.items():
            say(f"    the note of branch {branch} is not trusted: {why}")

    def without_lines(self) -> List[int]:
        """The branches of which the search's answer alone is noted."""
        return [branch for branch, note in self.notes.all(self.chosen).items() if not note.has_lines()]

    def known(self) -> Dict[int, str]:
        """What is accepted in this run or noted, by branch."""
        return {branch: note.word for branch, note in self.notes.all(self.chosen).items()} | self.fresh

    def told(self, known: Dict[int, str]) -> Tuple[str, Optional[str]]:
        """What is known comes to, in words, and the answer. What was not checked in this run is told as noted."""
        maps = [branch for branch, word in known.items() if word == "map"]
        if not self.count:
            return "none: the question has no branch", "none"
        if maps:
            checked = [branch for branch in maps if branch in self.fresh]
            return f"map, in branch {min(checked or maps)} of {self.count}" + ("" if checked else ", as noted"), "map"
        noted, unseen = [branch for branch in known if branch not in self.fresh], self.without_lines()
        if len(known) < self.count:
            others = "nothing is known of the others"
            if left := sum(branch not in known for branch in unseen):
                others = f"of {left} others the search's answer alone, which has no lines and can't be checked again"
            known_of = f"{as_noted(len(noted))}{alone(unseen, known)}"
            return f"not decided: none in {len(known)} of {self.count} branches{known_of}, and {others}", None
        if len(noted) == self.count:
            return f"none: each of {self.count} branches as noted{alone(unseen, noted)}, and not checked in this run", "none"
        fresh = [branch for branch in unseen if branch in self.fresh]
        parts = [f"{len(noted)} as noted{alone(unseen, noted)}"] * bool(noted) + [f"{len(fresh)} by {WITHOUT_LINES}"] * bool(fresh)
        some = f"{self.count - len(noted) - len(fresh)}" if parts else "each"
        accepted = f"none: {some} of {self.count} branches by a proof or a refutation that is accepted"
        return accepted + f", the other {', and '.join(parts)}" * bool(parts), "none"

    def in_table(self, answer: Optional[str], known: Dict[int, str]) -> Optional[str]:
        """The answer in a table, with what it rests on where that was not checked in this run."""
        if answer != "none":
            return answer
        noted, alone_ = any(branch not in self.fresh for branch in known), any(branch in known for branch in self.without_lines())
        return answer + ", as noted" * noted + ", partly without lines" * alone_

    def certificate(self, answer: Optional[str]) -> Optional[table.Certificate]:
        """The report that the parts were joined to, or where there is none the certificates of all branches, or that of the map."""
        lines: table.Table = self.words.table
        notes = self.notes.all(self.chosen)
        if self.joined or not answer or not notes:
            return lines.of_file(self.joined) if self.joined else None
        least = next((note for note in notes.values() if note.word == "map"), None)
        return lines.of_file(self.words.keep / least.name) if least else lines.of_notes(notes.values())

    def verify(self, whole: Attempt) -> None:
        """Has the report of the whole accepted once more."""
        whole.accepted(whole.file("report"))

    def join(self) -> None:
        """Puts the parts together where the search wrote one of each branch up to the first with a map: the report of the whole question,
        which is checked. Where a solver was asked about some of them there is none."""
        known = self.notes.all(self.chosen)
        first_map = next((branch for branch, note in known.items() if note.word == "map"), self.count - 1)
        parts = [self.words.keep / known[branch].name for branch in range(first_map + 1) if branch in known]
        if len(parts) <= first_map or any(it.suffix != ".report" for it in parts) or not parts:
            return
        with self.room.attempt() as made:
            # each of the parts has had as much time
            clock = Clock(self.words.seconds * len(parts))
            whole = Attempt(Question(self.words.task, self.rounds), made, Scope(self.words.limits), clock)
            with open(whole.file("parts"), "xb") as text:
                for part in parts:
                    with open(part, "rb") as read:
                        shutil.copyfileobj(read, text)
            ended = whole.wfcheck(["join", *whole.question.about], whole.file("parts"), whole.file("report"))
            say(f"    wfcheck join: {'the report of the whole' if ended.status == 0 else ended.why()} ({ended.taken:.2f} s)")
            if ended.status == 0:
                self.joined = placed(whole.file("report"), self.words.keep)
                # `join` has checked all that it joined, also what was noted before
                self.fresh |= {branch: known[branch].word for branch in range(first_map + 1)}
                self.verify(whole)


def as_noted(number: int) -> str:
    """How many branches were not checked in this run, in words."""
    return f", {number} of them as noted" if number else ""


def alone(unseen: List[int], known: Collection[int]) -> str:
    """How many of some branches are known by the search's answer alone, in words."""
    number = sum(branch in known for branch in unseen)
    return f", {number} of them by {WITHOUT_LINES}" if number else ""


class Listed(NamedTuple):
    """How many branches there are, how many points, in how many branches most of these are open, and what tells which question it is."""
    branches: int
    points: int
    large: int
    about: Dict[str, Any]

    def is_doubtful(self) -> bool:
        """Whether most of the branches are nearly as large as the whole."""
        return 2 * self.large > self.branches > 1

    def doubt(self) -> str:
        """Why branches may not help."""
        return f"nearly all of the {self.points:,} points are open in {self.large} of {self.branches} branches: each may take as long as the whole"


def listed(words: Words) -> Listed:
    """What `wfcheck branches` lists, and what the program says of itself."""
    scope, clock = Scope(words.limits), Clock(words.seconds)
    with tempfile.TemporaryDirectory() as made:
        file = pathlib.Path(made) / "branches"
        try:
            ended = scope.wfcheck(["branches", "--rounds", words.rounds[0]], clock, words.task, file)
            version = scope.wfcheck(["--version"], clock, os.devnull)
        except Late:
            raise Undecided(f"the branches are not listed within {words.seconds:g} s")
        if ended.status == 2:
            raise Refused(ended.said)
        text, branches = file.read_text(errors="replace"), digest(file)
    count, points = (re.search(rf"^{name} (\d+)$", text, re.M) for name in ("branches", "points"))
    if ended.status or not count or not points:
        raise Undecided(f"the branches are not listed: {ended.why()}")
    large = sum(int(it) >= LARGE * int(points[1]) for it in OPEN.findall(text))
    about = {"task": digest(words.task), "rounds": words.rounds[0], "branches": branches, "program": version.said.strip()}
    return Listed(int(count[1]), int(points[1]), large, about)


def tally(branches: Branches) -> None:
    """Says what is noted, and what is missing, and asks nothing."""
    known = branches.known()
    branches.tell_doubts()
    for word in ("map", "none"):
        if found := [branch for branch, it in known.items() if it == word]:
            say(f"    {word}: {len(found)} of {branches.count} branches: {shown(found)}")
    if unseen := branches.without_lines():
        say(f"    by {WITHOUT_LINES}: {len(unseen)} of {branches.count} branches: {shown(unseen)}")
    if missing := [branch for branch in range(branches.count) if branch not in known]:
        say(f"    missing: {len(missing)} of {branches.count} branches: {shown(missing)}")


def of_chosen(branches: Branches) -> Tuple[str, int]:
    """What there is to say of the branches that were chosen, and the status: 0 where each of them is decided, or one has a map."""
    known, chosen = branches.known(), branches.chosen
    decided = [branch for branch in chosen if branch in known]
    maps = [branch for branch in decided if known[branch] == "map"]
    noted = [branch for branch in decided if branch not in branches.fresh]
    lower = min((branch for branch, word in branches.fresh.items() if word == "map" and branch not in chosen), default=None)
    undecided = [branch for branch in chosen if branch not in known]
    if undecided and lower is not None and min(undecided) > lower:
        return f"map, in branch {lower} of {branches.count}: branches above it are not asked", 0
    if branches.words.branch is not None:
        note = branches.notes.of(chosen[0])
        text = (note.line().strip() if note else known.get(chosen[0], "not decided")) + (", as noted" if noted else "")
    elif maps:
        text = f"map, in branch {min(maps)} of {branches.count}" + (", as noted" if min(maps) in noted else "")
    else:
        text = f"none in {len(decided)} of the {len(chosen)} branches of this share{as_noted(len(noted))}{alone(branches.without_lines(), decided)}"
    return text, 0 if maps or len(decided) == len(chosen) else STATUS[None]


def chosen_of(words: Words, count: int) -> Sequence[int]:
    """The branches that are asked."""
    if words.branch is not None:
        if not 0 <= words.branch < count:
            raise Refused(f"there {'is 1 branch' if count == 1 else f'are {count} branches'}, numbered from 0")
        return [words.branch]
    return range(words.share[0], count, words.share[1]) if words.share else range(count)


def write_array(words: Words, solver: str, question: Listed) -> None:
    """Writes the script of an array of jobs."""
    if not question.branches:
        raise Refused("there is no branch, so no array is needed: ask without --array")
    if question.is_doubtful():
        print(question.doubt(), file=sys.stderr)
    script = arrays.array(words, solver, question.branches)
    if not given.has(words.given.file, words.given.text):
        raise Undecided(f"{words.given.file} has changed during this run, and the jobs would read it anew")
    print(script)


def main(words: Words, solver: Optional[str], clock: Clock) -> int:
    """Asks about branches, or looks at what is known of them, and returns the status."""
    question = listed(words)
    if words.array:
        write_array(words, solver or SEARCH_ALONE, question)
        return 0
    with Room(None if words.looks else words.keep) as room:
        branches = Branches(words, solver, room, question.branches)
        if why := branches.notes.not_about(question.about, None if words.looks else room):
            raise Refused(f"{words.keep} {why}")
        rounds = "round" if branches.rounds == 1 else "rounds"
        some = f" {len(branches.chosen)} of them in this run," if len(branches.chosen) < question.branches else ""
        noted = len(branches.notes.all(branches.chosen))
        say(f"{words.task.stem} after {branches.rounds} {rounds}, {question.branches} branches,{some} {noted} of them known:")
        if words.tally:
            tally(branches)
            return ended(words, *branches.told(branches.known()))
        if words.recheck:
            branches.recheck_all()
            known = dict(sorted(branches.fresh.items()))
        else:
            if question.is_doubtful():
                say(f"    {question.doubt()}")
            branches.ask_all()
            if words.branch is not None or words.share:
                text, status = of_chosen(branches)
                words.given.close()
                say(f"    {text}")
                return status
            answered("wfcheck join", branches.join)
            known = branches.known()
        text, answer = branches.told(known)
        words.table.add(words.task, branches.rounds, branches.in_table(answer, known), branches.certificate(answer), clock.taken())
        return ended(words, text, answer)


def ended(words: Words, text: str, answer: Optional[str]) -> int:
    """Says what all comes to, and returns the status."""
    words.given.close()
    say(f"    {text}")
    return STATUS[answer]
