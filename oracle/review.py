#!/usr/bin/env python3
"""review.py FOLDER [TASK.json ..]: whether the certificates hold that `ask --keep FOLDER` left, by the scripts beside this one alone.

A certificate is named by its task, as in `consensus-2-1.report`. Its task is the file of that name among those that are given, or else in
gallery/tasks. A line for each certificate says what was accepted or why it was refused, which script judged it, and in how many seconds.
Parts of branches (.report, .map) and case proofs are not judged: no script here reads them. The last line counts. Status 0: all
certificates are accepted. 1: one is refused. 3: there is none, or one was not judged. 2: the words are refused."""
import argparse
import os
import pathlib
import re
import subprocess
import sys
import time

sys.dont_write_bytecode = True
HERE = pathlib.Path(__file__).resolve().parent
TASKS = HERE.parent / "gallery/tasks"
# what judges a kind of certificates; a proof is read from standard input
JUDGES = {".obstruction": "second_opinion.py", ".report": "second_opinion.py", ".map": "second_opinion.py", ".lifted": "second_opinion.py",
          ".drat": "rup.py", ".lrat": "lrat.py"}
# kinds that no script here judges
OTHERS = (".verdict", ".case")
PROOFS = "rup.py", "lrat.py"
# behind a task's name: the rounds, the branch, and a number where a file with the name was there
BEHIND = re.compile(r"-(?P<rounds>\d{1,2})(?:-(?P<branch>\d{1,9}))?(?:\.\d+)?")
NUMBERED = re.compile(r"(?:\.\d+)?")
# how many bytes of a certificate the scripts here read, and of a text those that tell its rounds
LONGEST, HEAD = 1 << 28, 1 << 10
# how many bytes of a task's name a certificate begins with, and what stands for what would break a line
MOST_OF_NAME = 180
BREAKS = {it: "_" for it in [*range(32), *range(127, 160), 0x2028, 0x2029, *range(0xd800, 0xe000)]}


def files_of(given):
    """The files of tasks by their names, the longest names first: a name may begin as another one."""
    found = {short(path.stem): path for path in [*sorted(TASKS.glob("*.json")), *given]}
    return {name: found[name] for name in sorted(found, key=len, reverse=True)}


def short(stem):
    """How the names of a task's certificates begin."""
    return stem.translate(BREAKS).encode()[:MOST_OF_NAME].decode(errors="ignore")


def question_of(file, tasks):
    """The task's file, the rounds and the branch that a certificate is about, by its name; None if no task has the name."""
    for name, path in tasks.items():
        rest = file.name.removesuffix(file.suffix).removeprefix(name)
        if file.name.startswith(name) and file.suffix == ".obstruction" and NUMBERED.fullmatch(rest):
            return path, None, None
        if file.name.startswith(name) and (found := BEHIND.fullmatch(rest)):
            return path, found["rounds"], found["branch"]
    return None


def judged(file, tasks):
    """Whether a certificate is accepted, or None where it is not judged, and what there is to say."""
    question, script = question_of(file, tasks), JUDGES.get(file.suffix)
    if not question:
        return None, "no task has its name"
    task, rounds, branch = question
    if not script or branch and script not in PROOFS:
        return None, "no script judges a part of a branch" if script else "no script judges this kind"
    if (size := file.stat().st_size) > LONGEST:
        return None, f"it has {size:,} bytes, and at most {LONGEST:,} are read"
    words = [task, rounds, *(["--branch", branch] if branch else [])] if script in PROOFS else [task, file]
    begun = time.monotonic()
    with open(file, "rb") as text:
        ran = subprocess.run([sys.executable, HERE / script, *map(str, words)], stdin=text, capture_output=True, check=False)
    said = (ran.stdout + ran.stderr).decode(errors="replace").strip().rpartition("\n")[2]
    if ran.returncode == 0 and script not in PROOFS and (wrong := of_other_rounds(file, rounds)):
        return False, f"refused: {wrong}, by {script}"
    return ran.returncode == 0, f"{'' if ran.returncode == 0 else 'refused: '}{said}, by {script} in {time.monotonic() - begun:.2f} s"


def of_other_rounds(file, rounds):
    """Why a report is not about the rounds that its name says, or None. An obstruction is about all."""
    with open(file, "rb") as text:
        lines = text.read(HEAD).decode(errors="replace").split("\n")
    if rounds is None:
        return None if lines[0] == "wfcheck obstruction 1" else "it is no obstruction"
    return None if lines[2:3] == [f"rounds {rounds}"] else f"its name says {rounds} rounds, and it has another number"


def main():
    words = argparse.ArgumentParser(prog="review.py", description=__doc__, formatter_class=argparse.RawDescriptionHelpFormatter)
    words.add_argument("folder", type=pathlib.Path, metavar="FOLDER")
    words.add_argument("tasks", type=pathlib.Path, nargs="*", default=[], metavar="TASK.json")
    asked = words.parse_args()
    if not asked.folder.is_dir():
        words.error(f"{asked.folder} is no folder")
    tasks, counts = files_of(asked.tasks), {True: 0, False: 0, None: 0}
    for file in sorted(asked.folder.iterdir()):
        if file.suffix in JUDGES or file.suffix in OTHERS:
            try:
                is_accepted, said = judged(file, tasks) if file.is_file() else (None, "no regular file")
            except OSError as error:
                is_accepted, said = None, f"it can't be read: {error.strerror}"
            counts[is_accepted] += 1
            # a name may have what would break a line or can't be written
            print(f"{file.name.translate(BREAKS)}: {'not judged: ' if is_accepted is None else ''}{said.translate(BREAKS)}", flush=True)
    print(f"{counts[True]} accepted, {counts[False]} refused, {counts[None]} not judged")
    return 1 if counts[False] else 0 if counts[True] and not counts[None] else 3


if __name__ == "__main__":
    try:
        sys.exit(main())
    except Exception as error:
        # a status of Python's own would mean a refusal
        sys.stdout = open(os.devnull, "w")
        print(f"review.py: {type(error).__name__}: {error}", file=sys.stderr)
        sys.exit(3)
