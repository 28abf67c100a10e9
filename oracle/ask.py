#!/usr/bin/env python3
"""ask.py TASK ROUNDS [--solver WORDS] [--seconds N] [--keep FOLDER]: a question decided without the program, by the scripts beside this
one and a SAT solver.

First finding.py looks for an obstruction, which second_opinion.py judges. Then each number of rounds is asked about in turn, up to the
first with a map: formula.py writes the question for the solver, model.py and second_opinion.py judge a model, and rup.py judges a proof.
Nothing that the solver says counts unless it is accepted so. ROUNDS is a number, or FIRST..LAST.

--solver is cadical, kissat, cryptominisat5 or minisat (the last two write no proofs), or a command with {formula}, and with {proof} or
{output} if it writes a proof as text, or its model to a file. Without it the first of these four is taken that is on the path; if there
is none, an obstruction alone is looked for. Each step has --seconds, 60 if it isn't given. --keep names a folder for what was accepted.

The last line is that of tools/ask: `never, by 1 balance modulo 2`, `from R`, `none up to R`, `map at R` or `not decided`. The status is 0 for a map, 1 for none
and never, 2 if the words or the task are refused, and 3 if the question was not decided."""
import argparse
import collections
import contextlib
import hashlib
import os
import pathlib
import re
import shlex
import shutil
import signal
import stat
import subprocess
import sys
import tempfile
import time

sys.dont_write_bytecode = True
import task_file  # noqa: E402

HERE = pathlib.Path(__file__).resolve().parent
SOLVERS = {"cadical": "cadical -q --no-binary {formula} {proof}", "kissat": "kissat -q --no-binary {formula} {proof}",
           "cryptominisat5": "cryptominisat5 --verb 0 {formula}", "minisat": "minisat -verb=0 {formula} {output}"}
SAYS = re.compile(rb"^(?:s )?(UN)?SAT(?:ISFIABLE)?\s*$", re.M)
NO_SOLVER = "no SAT solver is on the path (Debian has the packages cadical, cryptominisat and minisat): an obstruction alone is looked for"
# how many bytes of what a solver wrote are read
LONGEST = 1 << 28
# how many bytes of a task's name count
MOST_OF_NAME = 180
# what would break a line
BREAKS = {it: "_" for it in [*range(32), *range(127, 160), 0x2028, 0x2029, *range(0xd800, 0xe000)]}
STATUS = {"map": 0, "none": 1, None: 3}


def run(words, seconds, wrote, given=None):
    """Whether a program ends with status 0 within some seconds, with what it writes in a file, and the last line that it says there or on
    standard error."""
    begun, errors = time.monotonic(), wrote.with_suffix(".errors")
    with open(given or os.devnull, "rb") as read, open(wrote, "wb") as write, open(errors, "wb") as complain:
        child = subprocess.Popen([str(it) for it in words], stdin=read, stdout=write, stderr=complain, start_new_session=True)
        try:
            status = child.wait(seconds)
        except subprocess.TimeoutExpired:
            return False, f"no end within {seconds:g} s"
        finally:
            # with all that it has started
            with contextlib.suppress(ProcessLookupError):
                os.killpg(child.pid, signal.SIGKILL)
            child.wait()
    last = (errors.read_bytes() or wrote.read_bytes())[-200:].decode(errors="replace").strip().rpartition("\n")[2]
    return status == 0, f"{'done' if last == 'end' else last} ({time.monotonic() - begun:.2f} s)"


def nodes_of(text):
    """How many nodes of each kind an obstruction has, and the moduli of its balances."""
    lines = [it.split() for it in text.split("\n")]
    many = collections.Counter(it[0] for it in lines if it and it[0] in ("split", "cover", "case", "balance"))
    moduli = sorted({int(it[1]) for it in lines if it[:1] == ["balance"]})
    told = ", ".join(f"{many[it]:,} {it}{'s' * (many[it] > 1)}" for it in ("split", "cover", "case", "balance") if many[it])
    return told + f" modulo {', '.join(map(str, moduli))}" * bool(moduli)


def written(file):
    """What a solver left at a place, if that is a file of its own and no link, and is not too long; else None."""
    try:
        with open(os.open(file, os.O_RDONLY | os.O_NOFOLLOW | os.O_NONBLOCK), "rb") as text:
            about = os.fstat(text.fileno())
            return text.read() if stat.S_ISREG(about.st_mode) and about.st_size <= LONGEST else None
    except OSError:
        return None


class Changed(Exception):
    """What a run worked on was changed, so that nothing that was said counts."""


class Run:
    """A run about the bytes of a task. Each script gets a copy of its own, in a folder that is there for that step alone, so that a solver can't
    put another task into its place. The solver has a folder for itself, and what it leaves there is copied before it is judged."""

    def __init__(self, asked, solver, text, folder):
        self.seconds, self.keep, self.solver, self.text, self.folder = asked.seconds, asked.keep, solver, text, folder
        self.name = asked.task.stem.translate(BREAKS).encode()[:MOST_OF_NAME].decode(errors="ignore")

    def script(self, name, *words, given=None):
        """Has a script beside this one run about the task, with some texts as further files, and says what it said. Returns what it wrote, or
        None if it failed."""
        with tempfile.TemporaryDirectory() as own:
            folder = pathlib.Path(own)
            texts = {"task.json": self.text, **({"given": given} if given is not None else {})}
            for file, data in texts.items():
                (folder / file).write_bytes(data)
            places = [folder / it if it in ("task.json", "given") else it for it in words]
            is_read = given is not None and "given" not in words
            is_well, said = run([sys.executable, HERE / name, *places], self.seconds, folder / "wrote", folder / "given" if is_read else None)
            if any((folder / file).read_bytes() != data for file, data in texts.items()):
                raise Changed(f"what {name} was given was changed meanwhile: nothing that was said of the task counts")
            if name != "formula.py" or not is_well:
                print(f"    {name}: {said}", flush=True)
            return (folder / "wrote").read_bytes() if is_well else None

    def kept(self, data, name):
        """Keeps what was accepted under a name that is free, and follows no link there."""
        if not self.keep:
            return
        self.keep.mkdir(parents=True, exist_ok=True)
        stem, _, kind = name.rpartition(".")
        for number in range(1, 1000):
            place = self.keep / (name if number == 1 else f"{stem}.{number}.{kind}")
            with contextlib.suppress(FileExistsError):
                with open(os.open(place, os.O_WRONLY | os.O_CREAT | os.O_EXCL | os.O_NOFOLLOW, 0o644), "wb") as file:
                    file.write(data)
                return
        print(f"    {name} can't be kept: a thousand names are taken", flush=True)

    def is_never(self):
        """The nodes of an obstruction that is found and holds, in words, or None."""
        found = self.script("finding.py", "task.json")
        if found is not None and self.script("second_opinion.py", "task.json", "given", given=found) is not None:
            self.kept(found, f"{self.name}.obstruction")
            return nodes_of(found.decode())
        return None

    def answer(self, rounds):
        """What the solver says of a number of rounds, if it is accepted: map, none or nothing."""
        formula = self.script("formula.py", "task.json", rounds) if self.solver else None
        if formula is None:
            return None
        with tempfile.TemporaryDirectory(dir=self.folder) as made:
            places = {name: pathlib.Path(made) / name for name in ("formula", "proof", "output")}
            places["formula"].write_bytes(formula)
            words = [word.format(**places) for word in shlex.split(self.solver)]
            _, said = run(words, self.seconds, pathlib.Path(made) / "solver")
            told, model, proof = (written(it) for it in (pathlib.Path(made) / "solver", places["output"], places["proof"]))
        model = told if model is None else model
        found = SAYS.search(model or b"") or SAYS.search(told or b"")
        print(f"    {pathlib.Path(words[0]).name.translate(BREAKS)}: {found[0].decode().strip() if found else said}", flush=True)
        if found and not found[1]:
            return self.of_model(rounds, model)
        return self.of_proof(rounds, proof) if found and proof is not None else None

    def of_model(self, rounds, model):
        """A map, if the solver's model is one."""
        report = self.script("model.py", "task.json", rounds, given=model)
        if report is not None and self.script("second_opinion.py", "task.json", "given", given=report) is not None:
            self.kept(report, f"{self.name}-{rounds}.map")
            return "map"
        return None

    def of_proof(self, rounds, proof):
        """None, if the solver's proof shows it."""
        if self.script("rup.py", "task.json", rounds, given=proof) is not None:
            self.kept(proof, f"{self.name}-{rounds}.drat")
            return "none"
        return None

    def last(self, rounds):
        """The last line about some numbers of rounds, and the status."""
        answers = {}
        for each in rounds:
            print(f"{self.name} after {each} {'round' if each == 1 else 'rounds'}:", flush=True)
            answers[each] = self.answer(each)
            print(f"    {answers[each] or 'not decided'}", flush=True)
            if answers[each] == "map":
                break
        none = max((it for it in answers if answers[it] == "none"), default=None)
        there = next((it for it in answers if answers[it] == "map"), None)
        told = [f"none up to {none}"] * (none is not None) + [f"map at {there}"] * (there is not None)
        is_from = there is not None and (there == 0 or none == there - 1)
        return f"from {there}" if is_from else ", ".join(told) or "not decided", STATUS[answers[each]]


def asked_for():
    """The words, and the numbers of rounds."""
    words = argparse.ArgumentParser(prog="ask.py", description=__doc__, formatter_class=argparse.RawDescriptionHelpFormatter)
    words.add_argument("task", type=pathlib.Path, metavar="TASK")
    words.add_argument("rounds", metavar="ROUNDS")
    words.add_argument("--solver")
    words.add_argument("--seconds", type=float, default=60)
    words.add_argument("--keep", type=pathlib.Path)
    asked = words.parse_args()
    found = re.fullmatch(r"([0-8])(?:\.\.([0-8]))?", asked.rounds, re.A)
    if not found or int(found[1]) > int(found[2] or found[1]):
        words.error(f"{asked.rounds} is no number of rounds from 0 to 8, and not FIRST..LAST")
    if not 0 < asked.seconds < 1e9:
        words.error("--seconds is to be above 0")
    return words, asked, range(int(found[1]), int(found[2] or found[1]) + 1)


def main():
    words, asked, rounds = asked_for()
    known = HERE.parent / "gallery/tasks" / f"{asked.task.name.removesuffix('.json')}.json"
    if not asked.task.is_file() and known.is_file() and asked.task.name == str(asked.task):
        asked.task = known
    solver = SOLVERS.get(asked.solver, asked.solver) or next((SOLVERS[it] for it in SOLVERS if shutil.which(it)), None)
    try:
        with open(asked.task, "rb") as file:
            text = file.read(task_file.LONGEST + 1)
        task_file.read(text)
        if solver and not shutil.which(shlex.split(solver)[0]):
            words.error(f"--solver: {solver} is not on the path")
    except OSError as error:
        words.error(f"{asked.task} can't be read, and is no task of gallery/tasks: {error.strerror}")
    except (ValueError, IndexError) as error:
        words.error(str(error))
    except task_file.Refused as refused:
        words.error(f"the task is refused, {refused.line}: {refused.words}")
    if not solver:
        print(NO_SOLVER, file=sys.stderr)
    with tempfile.TemporaryDirectory() as folder:
        run_of = Run(asked, solver, text, pathlib.Path(folder))
        print(f"{run_of.name} after every number of rounds:", flush=True)
        nodes = run_of.is_never()
        last, status = (f"never, by {nodes}", STATUS["none"]) if nodes else run_of.last(rounds)
    if written(asked.task.resolve()) != text:
        print(f"    the file has changed during this run: the answer is about the bytes that were read first, with SHA-256 {hashlib.sha256(text).hexdigest()}")
    print(f"{run_of.name}: {last}")
    return status


if __name__ == "__main__":
    try:
        sys.exit(main())
    except Exception as error:
        # a status of Python's own would mean an answer
        sys.stdout = open(os.devnull, "w")
        print(f"ask.py: {type(error).__name__}: {error}", file=sys.stderr)
        sys.exit(STATUS[None])
