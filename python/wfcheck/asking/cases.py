"""A question, or a branch, that is too hard for one solver: it is cut into cases, one for each candidate of a point. The solver is asked about
each case, and one proof is composed of the proofs of all. The folder of --keep has the case proofs until the whole is accepted, so that a run
that is begun again asks about the other cases alone."""
from __future__ import annotations

import contextlib
import functools
import glob
import os
import pathlib
import re
from typing import List, Optional

from . import composing, pool
from .asked import Words
from .composing import Case, CaseProof, NoSteps
from .notes import Room
from .questions import Answer, Attempt, NoFormula, Question, solver_name
from .runs import Clock, Ended, Late, Scope

CASE, AUTO = "case", "auto"
# the refusal of a lemma that doesn't follow, and those of a proof that is wrong in a line or as a whole
NOT_IMPLIED = "wfcheck: 40 "
WRONG = re.compile(r"wfcheck: (?:(?:38|39|40) \w+ (?P<line>\d+)|4[12] .*)")


class CaseAttempt(Attempt):
    """An attempt at one case. A model is one of the question, and a proof becomes a case proof."""

    def __init__(self, question: Question, case: Case, folder: pathlib.Path, scope: Scope, clock: Clock) -> None:
        super().__init__(question, folder, scope, clock)
        self.case = case

    def tell(self, name: str, text: str) -> None:
        """Says something about this case."""
        super().tell(f"{self.case}: {name}", text)

    def of_proof(self, proof: pathlib.Path, name: str, taken: float) -> Optional[Answer]:
        """The case proof that a solver's proof gives. It is not accepted yet."""
        weakened = self.file(CASE)
        try:
            composing.weaken(proof, self.case, (name, taken), weakened, self.clock)
        except NoSteps as why:
            self.tell(name, f"has no answer: {why}")
            return None
        return Answer("none", name, taken, [weakened])


class Cases:
    """The cases of one question, with what is known of them."""

    def __init__(self, words: Words, solver: str, room: Room, whole: Attempt) -> None:
        self.words, self.solver, self.room, self.whole = words, solver, room, whole
        # the answer of a case that has a map, and the cases that had no end in their time
        self.map: Optional[Answer] = None
        self.late: List[Case] = []

    def proof(self, case: Case) -> CaseProof:
        """The case proof of a case, which may not be there yet."""
        return CaseProof(case, self.words.keep / f"{self.whole.question.name}.{case.point}-{case.value}.{CASE}")

    def clear(self) -> None:
        """Takes away the case proofs of the question, by whatever point it was cut."""
        for file in self.words.keep.glob(f"{glob.escape(self.whole.question.name)}.*.{CASE}"):
            with contextlib.suppress(OSError):
                file.unlink()

    def answer(self) -> Optional[Answer]:
        """The answer of a case with a map, or the proof that all cases are refuted, where it is accepted."""
        cases = self.cases()
        self.ask_all([case for case in cases if not self.is_there(case)])
        if self.map or not cases:
            return self.map
        if missing := [case for case in cases if not self.is_there(case)]:
            self.whole.tell("no proof of", f"the cases in which point {cases[0].point} is {values(missing)}{self.told_late()}")
            return None
        return self.composed([self.proof(case) for case in cases])

    def cases(self) -> List[Case]:
        """The cases, once the formula is written; none where it is not."""
        try:
            self.whole.write_formula(self.words.clauses)
            point = None if self.words.split == AUTO else int(self.words.split)
            cases = composing.cases_of(self.whole.file("cnf"), point, self.whole.clock)
        except NoFormula as why:
            self.whole.tell(solver_name(self.solver), f"is left out: {why}")
            return []
        except Late:
            self.whole.tell("the formula", f"is not there within {self.words.seconds:g} s")
            raise
        known = sum(map(self.is_there, cases))
        self.whole.tell(f"{len(cases)} cases", f"of point {cases[0].point}, {known} of them known: {values(cases)}")
        return cases

    def is_there(self, case: Case) -> bool:
        """Whether the case proof is there."""
        file = self.proof(case).file
        return file.is_file() and not file.is_symlink()

    def told_late(self) -> str:
        """Which cases had no end in their time, in words."""
        return f"; no end within the {self.words.seconds:g} s of a case: {values(self.late)}" if self.late else ""

    def ask_all(self, cases: List[Case]) -> None:
        """Asks about cases, so many at once. A map of one ends all others."""
        if cases:
            point = cases[0].point
            kind = pool.Kind(lambda it: self.whole.question.who(f"point {point} is {it}"), "cases", pool.shown, lambda *_: True)
            pool.run(self.words, kind, {case.value: functools.partial(self.ask, case) for case in cases})

    def ask(self, case: Case, scope: Scope) -> Optional[str]:
        """Asks the solver about a case, and keeps its case proof. Another run may have done so meanwhile."""
        if self.is_there(case):
            return "none"
        with self.room.attempt() as made:
            attempt = CaseAttempt(self.whole.question, case, made, scope, Clock(self.words.seconds))
            composing.write_case(self.whole.file("cnf"), case, attempt.file("cnf"))
            try:
                answer = attempt.of_formula(self.solver)
            except Late:
                self.late.append(case)
                raise
            if answer and answer.word == "map":
                self.map = answer._replace(files=[it.replace(self.whole.folder / it.name) for it in answer.files])
            elif answer:
                with contextlib.suppress(FileExistsError):
                    os.link(answer.files[0], self.proof(case).file, follow_symlinks=False)
            return answer and answer.word

    def composed(self, proofs: List[CaseProof]) -> Optional[Answer]:
        """The proof that is composed of all case proofs, where it is accepted. A solver may rest on a literal that followed from a clause which it
        then deleted; so a proof that is refused is tried once more without deletions. If a lemma doesn't follow then, its case is to blame."""
        # each of the cases has had as much time
        self.whole.clock = Clock(self.words.seconds * len(proofs))
        signs = [it.signed() for it in proofs]
        who = f"{' and '.join(sorted({name for name, _ in signs}))} in {len(proofs)} cases of point {proofs[0].case.point}"
        for has_deletions in (True, False):
            proof = self.whole.file("drat")
            proof.unlink(missing_ok=True)
            ends = composing.compose(proofs, has_deletions, proof, self.whole.clock)
            self.whole.tell("the composed proof", f"has {proof.stat().st_size:,} bytes{'' if has_deletions else ', without deletions'}")
            word, ended = self.whole.checked("proof", proof)
            if word == "none":
                return Answer("none", who, sum(taken for _, taken in signs), [proof])
            if not ended.said.startswith(NOT_IMPLIED):
                break
        self.blame(proofs, ends, ended)
        return None

    def blame(self, proofs: List[CaseProof], ends: List[int], ended: Ended) -> None:
        """Takes away the case proof in which a proof is wrong, or all where it is not seen in which; none where the proof was not judged."""
        found = WRONG.fullmatch(ended.line())
        if not found:
            return
        wrong = [it for it, end in zip(proofs, ends) if found["line"] and int(found["line"]) <= end][:1] or proofs
        for it in wrong:
            it.file.unlink(missing_ok=True)
        point = proofs[0].case.point
        self.whole.tell("wrong is", f"the proof in which point {point} is {values([it.case for it in wrong])}: it is taken away")


def values(cases: List[Case]) -> str:
    """The values of some cases, in words."""
    return pool.shown(sorted(case.value for case in cases))
