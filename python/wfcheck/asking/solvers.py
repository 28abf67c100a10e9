"""The SAT solvers that `ask` knows, and how each is called."""
from __future__ import annotations

import pathlib
import re
import shlex
import shutil
import subprocess
import sys
import tempfile
from typing import List, Optional

from .questions import PLACES
from .runs import Clock, Late, Limits, Scope

SOLVERS = {
    "cadical": "cadical -q --no-binary {formula} {proof}",
    "kissat": "kissat -q --no-binary --no-factor {formula} {proof}",
    "cryptominisat5": "cryptominisat5 --verb 0 {formula}",
    "minisat": "minisat -verb=0 {formula} {output}",
}
# CaDiCaL writes hints from version 1.7 on, by which a proof is checked ten times faster and more
HINTS = "cadical -q --no-binary --lrat {formula} {hints}"
# Kissat's bounded variable addition, from version 4.0 on, brings in new variables: those of two cases of a split would be mixed up
NO_FACTOR, SATISFIABLE = "--no-factor", 10
# what CaDiCaL does without a word on a formula without a model, if it knows the option
NO_MODEL, UNSATISFIABLE = "p cnf 1 2\n1 0\n-1 0\n", 20
NO_SOLVER = "no SAT solver is on the path (Debian has the packages cadical, cryptominisat and minisat): the search alone is asked"


def first_on_path() -> Optional[str]:
    """The first known solver that is on the path. If there is none, a line on standard error says so."""
    found = next(filter(shutil.which, SOLVERS), None)
    if not found:
        print(NO_SOLVER, file=sys.stderr)
    return found


def wrong_command(solver: str) -> Optional[str]:
    """Why a solver's words can't be run; None where they can."""
    try:
        words = [word.format(**PLACES) for word in shlex.split(solver)]
    except (KeyError, IndexError, ValueError, AttributeError):
        return f"{solver!r} has a quote that is not closed, or other places than {', '.join(map('{{{}}}'.format, PLACES))}"
    return None if words and shutil.which(words[0]) else f"{words[0] if words else solver!r} is not on the path"


def known_name(solver: str) -> Optional[str]:
    """The name of a known solver, by which alone it is called, or with its path; None of other words."""
    name = pathlib.PurePath(solver).name
    return name if name in SOLVERS and (solver == name or shutil.which(solver)) else None


def with_path(solver: str, words: str) -> str:
    """The words of a known solver, called as it is called here."""
    return shlex.quote(solver) + words.removeprefix(pathlib.PurePath(solver).name)


def words_of(solver: str) -> str:
    """The command of a known solver, or the one that is given."""
    name = known_name(solver)
    return with_path(solver, SOLVERS[name]) if name else solver


def command(solver: str, limits: Limits, has_hints: bool) -> str:
    """The command of a solver: of Kissat without the option that an older one doesn't know, and of CaDiCaL with hints, if it can write
    them and they are of use."""
    name, words = known_name(solver), words_of(solver)
    if name == "kissat":
        knows = tried([solver, "-q", NO_FACTOR], "p cnf 1 1\n1 0\n", limits) == SATISFIABLE
        return words if knows else words.replace(f" {NO_FACTOR}", "")
    if name == "cadical" and has_hints and tried([solver, "-q", "--no-binary", "--lrat"], NO_MODEL, limits) == UNSATISFIABLE:
        return with_path(solver, HINTS)
    return words


def tried(words: List[str], text: str, limits: Limits) -> Optional[int]:
    """The status with which a solver ends on a small formula, with a place for a proof; None if it has none."""
    with tempfile.TemporaryDirectory() as made:
        formula, proof = pathlib.Path(made) / "one.cnf", pathlib.Path(made) / "proof"
        formula.write_text(text)
        none = subprocess.DEVNULL
        try:
            return Scope(limits).run([*words, formula, *[proof] * (text == NO_MODEL)], Clock(10), stdin=none, stdout=none, stderr=none)
        except (Late, OSError):
            return None


def by_path(solver: str) -> str:
    """The words of a solver, which is named by its path: a job may have another path to look it up in."""
    name, *rest = shlex.split(solver)
    path = str(pathlib.Path(shutil.which(name) or name).absolute())
    return " ".join(word if re.fullmatch(r"[\w./=+{}-]+", word, re.A) else shlex.quote(word) for word in [path, *rest])
