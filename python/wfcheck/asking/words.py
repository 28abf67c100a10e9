"""The words of tools/ask, and the question as a whole: the search and a solver are asked side by side."""
from __future__ import annotations

import contextlib
import functools
import gc
import io
import os
import pathlib
import re
import signal
import sys
import tempfile
from typing import Callable, Dict, List, Optional, Tuple

from .. import files
from ..files import in_line
from ..running import VARIABLE, NoProgram, linter, program
from ..running import refusal as refusal_of
from . import never, questions, runs, table
from .asked import Door, Words, parsed
from .given import Given
from .notes import Notes, Room, keep
from .questions import FEWER_ROUNDS, SEARCH, SEARCH_ALONE, Answer, Attempt, Question, first, split
from .runs import Clock, Limits, Refused, Scope, Stopped, Undecided, say
from .summary import STATUS, refused_in_words, summary

REFUSED, CUT_OFF = 2, 130
GB = 1 << 30
# how many bytes have to be free in a folder in which a run works
ROOM = 1 << 26


def asked(listed: List[str], command: List[str], name: str) -> Words:
    """The words, the files of the tasks, and the rounds in turn. The command is that by which a job asks again."""
    words, found = parsed(listed, name)
    try:
        found.command = [*named_program(), *command]
        program()
    except NoProgram as why:
        words.error(str(why))
    judge_numbers(words, found)
    found.rounds = rounds_of(words, found.rounds)
    found.files = [file_of(words, name) for name in found.tasks]
    if (found.by_branch or found.split) and len(found.rounds) > 1:
        words.error(f"{'cases' if found.split else 'branches'} are those of one number of rounds, and not of FIRST..LAST")
    if found.by_branch and found.show:
        words.error("--show is about whole questions, and not about branches")
    if (found.by_branch or found.split) and found.hint:
        words.error("--hint is about whole questions, and not about branches or cases")
    if missing := next((it for it in found.hint if not os.path.isfile(it)), None):
        words.error(f"--hint: {missing} is no file")
    judge_table(words, found)
    if (found.by_branch or found.split) and len(found.files) > 1:
        words.error(f"{'cases' if found.split else 'branches'} are those of one task: ask about one after another")
    if found.solver not in (None, SEARCH_ALONE):
        from . import solvers
        if wrong := solvers.wrong_command(solvers.words_of(found.solver)):
            words.error(f"--solver: {wrong}")
    judge_folder(words, found)
    return found


def rounds_of(words: Door, text: str) -> range:
    """The numbers of rounds that a word names."""
    found = re.fullmatch(r"(\d{1,9})(?:\.\.(\d{1,9}))?", text, re.A)
    first_rounds, last = (int(found[1]), int(found[2] or found[1])) if found else (1, 0)
    if first_rounds > last:
        meant = re.fullmatch(r"(\d{1,9})(?:-|\.|\.\.\.|:|,)(\d{1,9})", text, re.A)
        is_meant = meant is not None and int(meant[1]) <= int(meant[2])
        words.error(f"{text} is no number of rounds, and not FIRST..LAST" + (f": {meant[1]}..{meant[2]}?" if meant and is_meant else ""))
    return range(first_rounds, last + 1)


def file_of(words: Door, name: str) -> pathlib.Path:
    """The file of a task, by its path or by its name in the gallery."""
    path, known = pathlib.Path(name), runs.TASKS / f"{name.removesuffix('.json')}.json"
    # a name may be too long for a file
    if os.path.isfile(path) or os.path.isfile(known):
        return path if os.path.isfile(path) else known
    meant, names = path.name.removesuffix(".json"), gallery_names()
    if meant in names and not runs.TASKS.is_dir():
        words.error(f"{path} is no file; `wfcheck-task {meant}` writes the file")
    import difflib
    near = difflib.get_close_matches(meant, names)
    asked_for = f": {' or '.join(near)}?" if near else ""
    if runs.TASKS.is_dir():
        words.error(f"{path} is no file, and no task of gallery/tasks{asked_for}")
    words.error(f"{path} is no file; `wfcheck-task NAME` writes the file of a task of the gallery{asked_for}")


def gallery_names() -> List[str]:
    """The names of the gallery's tasks. Where its files are not there, the tasks are made."""
    if runs.TASKS.is_dir():
        return [it.stem for it in runs.TASKS.glob("*.json")]
    from ..gallery import gallery
    return [it.name for it in gallery()]


def named_program() -> List[str]:
    """What tells a job of an array which program this run has, if a variable names it."""
    return ["env", f"{VARIABLE}={program()}"] if os.environ.get(VARIABLE) else []


def judge_numbers(words: Door, found: Words) -> None:
    """Refuses numbers that mean nothing, and finds out whether branches are asked."""
    share = re.fullmatch(r"(\d+)/(\d+)", found.share, re.A) if found.share else None
    if found.share and not (share and int(share[1]) < int(share[2])):
        words.error("--share is to be K/N, where K is below N")
    found.share = (int(share[1]), int(share[2])) if share else None
    found.looks = found.tally or found.recheck
    judge_split(words, found)
    found.by_branch = found.branch is not None or not found.split and bool(found.jobs is not None or found.share or found.array or found.looks)
    if found.jobs is not None and found.jobs < 1:
        words.error("--jobs is to be above 0")
    for name in ("seconds", "memory", "disk"):
        if not 0 < getattr(found, name) < 1e9:
            words.error(f"--{name} is to be above 0, and below 1,000,000,000")
    if found.clauses < 0:
        words.error("--clauses is to be 0 or more")
    if found.table and (found.branch is not None or found.share or found.array or found.tally):
        words.error("--table is about whole questions that are asked, and not about --branch, --share, --array or --tally")
    found.table = table.Table(found.table)
    found.limits = Limits(int(found.memory * GB), int(found.disk * GB))


def judge_table(words: Door, found: Words) -> None:
    """Refuses a table that is a file which is read: lines would be appended to it."""
    with contextlib.suppress(OSError):
        for file in [*found.files, *found.hint] if found.table.file else []:
            if file.samefile(found.table.file):
                words.error(f"--table: {in_line(str(found.table.file))} is a file that is read, and lines would be appended to it")


def judge_split(words: Door, found: Words) -> None:
    """Refuses cases of what is not one question."""
    if found.split is None:
        return
    if not re.fullmatch(r"\d{1,9}|auto", found.split, re.A):
        words.error("--split is to be the number of a point, or auto")
    if found.share or found.array or found.looks:
        words.error("--split is about the whole question or one branch, and not about --share, --array, --tally or --recheck")


def judge_folder(words: Door, found: Words) -> None:
    """Finds the folder that keeps, and makes it where it may be new."""
    if found.looks:
        if found.keep:
            words.error("--tally and --recheck name the folder themselves, without --keep")
        if not os.path.isdir(found.looks):
            words.error(f"{found.looks} is no folder")
        found.keep = found.looks
    if (found.by_branch or found.split) and not found.keep:
        words.error(f"{'cases' if found.split else 'branches'} need --keep: the folder has what is known of them")
    try:
        if found.keep:
            found.keep.mkdir(parents=True, exist_ok=True)
    except OSError as error:
        words.error(f"--keep: {error}")


def refusal(said: str, task: pathlib.Path) -> str:
    """What the program says of a question that it refuses, and where that is told in words."""
    if not said.startswith("wfcheck: "):
        return said.rstrip("\n")
    line, _, notes = said.partition("\n")
    about_task = re.match(r"wfcheck: (?:[1-9]|1[0-4]|18) ", line)
    named = f"./{task}" if str(task).startswith("-") else task
    # the program's own note about a task would say the same
    return f"{line}\n{linter()} {named} says where, in words" if about_task else f'{line}\n{notes}docs/FORMAT.md, "Refusals", says what that means'


def main(listed: List[str], command: List[str], name: str = "ask") -> int:
    """Asks what a list of words says, by a command with a name, and returns the status."""
    words = asked(listed, command, name)
    gc.enable()
    if isinstance(sys.stdout, io.TextIOWrapper):
        sys.stdout.reconfigure(errors="backslashreplace")
    for end in runs.ENDING:
        # what is ignored, as after `nohup`, stays so
        if signal.getsignal(end) != signal.SIG_IGN:
            signal.signal(end, lambda *_: runs.CUT_OFF.set())
    if len(words.files) == 1:
        return of_task(words, words.files[0])
    found = []
    for file in words.files:
        found.append(of_task(words, file))
        if found[-1] == CUT_OFF:
            break
    # that of the whole is 0 if each task is decided
    return next((it for it in (CUT_OFF, REFUSED, STATUS[None]) if it in found), 0)


def of_task(words: Words, file: pathlib.Path) -> int:
    """Asks about the task of a file, and returns the status."""
    one = Words(**vars(words))
    # the files that are kept, and what was accepted last
    one.kept, one.accepted = [], None
    try:
        with tempfile.TemporaryDirectory() as made:
            one.given = Given(file, pathlib.Path(made))
            one.task = one.given.copy
            return answered(one)
    except Stopped:
        goes_on = ": begun again by the same words it goes on where it was" if words.by_branch or words.split else ""
        print(f"cut off{goes_on}", file=sys.stderr)
        return CUT_OFF
    except Refused as refused:
        print(refusal(str(refused), file), file=sys.stderr)
        return no_answer(words, file, "refused", REFUSED)
    except (Undecided, OSError) as why:
        print(f"ask: {why}", file=sys.stderr)
        return no_answer(words, file, "not decided", STATUS[None])


def no_answer(words: Words, file: pathlib.Path, said: str, status: int) -> int:
    """Says a last line of a task that has no answer, where several are asked about, and returns the status."""
    if len(words.files) > 1:
        say(f"{in_line(file.stem)}: {said}")
    return status


def answered(words: Words) -> int:
    """Asks, and returns the status that the answer has."""
    if has_obstruction(words):
        return of_never(words)
    if not words.by_branch and not words.split:
        with Room(roomy(words.keep)) as room:
            return in_rounds(words, room)
    from . import branches, solvers
    solver = None if words.looks else solver_of(words)
    if words.split and not solver:
        raise Refused("--split needs a SAT solver that writes proofs")
    if words.array:
        return branches.main(words, solvers.by_path(solver) if solver else SEARCH_ALONE, Clock(words.seconds))
    if words.by_branch:
        return branches.main(words, solver, Clock(words.seconds))
    return in_cases(words, str(solver))


def roomy(folder: Optional[pathlib.Path]) -> Optional[pathlib.Path]:
    """The folder that keeps, if there is room to work in it: then a large file is kept without a copy. None stands for temporary files."""
    if folder:
        about = os.statvfs(folder)
        return folder if about.f_bavail * about.f_frsize >= ROOM else None
    return None


def solver_of(words: Words) -> Optional[str]:
    """The command of the solver that is asked; None if it is the search alone."""
    if words.solver == SEARCH_ALONE:
        return None
    from . import solvers
    solver = words.solver or solvers.first_on_path()
    return solvers.command(solver, words.limits, not words.split) if solver else None


def in_rounds(words: Words, room: Room) -> int:
    """Asks about one number of rounds behind another, up to the first with a map, and returns the status of the last that has an answer. A
    number that is refused ends the run, as each larger one would be; what was accepted before is told."""
    answers: Dict[int, Optional[str]] = {}
    answer, refused = None, None
    # what is found out once, if it is needed: the solver, and the sets of processes that have a map
    words.chosen, words.with_map = functools.lru_cache(maxsize=None)(lambda: solver_of(words)), set()
    for rounds in words.rounds:
        say(f"{words.task.stem} after {rounds} {'round' if rounds == 1 else 'rounds'}:")
        clock = Clock(words.seconds)
        try:
            answers[rounds], certificate = decided(words, rounds, room, clock)
        except Refused as why:
            found = refusal_of(str(why))
            if not answers or not found:
                raise
            say(f"    refused: {found.number} {found.words}")
            words.table.add(words.task, rounds, table.REFUSED, None, clock.taken())
            refused = refused_in_words(rounds, found.number, found.words)
            break
        answer = answers[rounds]
        words.table.add(words.task, rounds, answer, certificate, clock.taken())
        say(f"    {answer or 'not decided' + (f' within {words.seconds:g} s' if clock.taken() >= words.seconds else '')}")
        if answer == "map":
            break
    before_last(words)
    say(f"{words.task.stem}: {summary(answers, refused)}")
    return STATUS[answer]


def in_cases(words: Words, solver: str) -> int:
    """Asks about the whole question case by case, and returns the status that the answer has."""
    from . import branches, cases
    rounds, clock, about = words.rounds[0], Clock(words.seconds), branches.listed(words).about
    with Room(words.keep) as room:
        if why := Notes(words.keep).not_about(about, room):
            raise Refused(f"{words.keep} {why}")
        say(f"{words.task.stem} after {rounds} {'round' if rounds == 1 else 'rounds'}:")
        with room.attempt() as made:
            whole = Attempt(Question(words.task, rounds), made, Scope(words.limits), Clock(words.seconds))
            by_cases = cases.Cases(words, solver, room, whole)
            answer = questions.answered("the question", by_cases.answer)
            if answer:
                accept(words, answer.files[0])
            for file in answer.files if answer else []:
                keep(file, words.keep, words.kept)
            if answer:
                by_cases.clear()
            words.table.add(words.task, rounds, answer and answer.word, answer and words.table.of_file(answer.files[0]), clock.taken())
    word = answer and answer.word
    before_last(words)
    say(f"{words.task.stem}: {summary({rounds: word})}")
    return STATUS[word]


def has_obstruction(words: Words) -> bool:
    """Whether the task has an obstruction that is accepted: one that is found, or where nothing is asked one that is kept."""
    if words.no_obstruction or words.array:
        return False
    return never.is_kept(words) if words.looks else never.is_never(words)


def of_never(words: Words) -> int:
    """The status of a task that has no map after any number of rounds. All its branches are decided then."""
    if not words.by_branch:
        before_last(words)
        say(f"{words.task.stem}: never, by {words.by}")
    return 0 if words.branch is not None or words.share else STATUS["none"]


def before_last(words: Words) -> None:
    """Says before the last line what was accepted, if that is asked for, where it is kept, or how to keep it, and whether the file has changed."""
    words.given.judge()
    if words.show and words.accepted:
        from . import showing
        for line in showing.shown(words):
            say(f"    {line}")
    names = [in_line(str(it)) for it in dict.fromkeys(words.kept)]
    if names:
        say(f"    kept: {', '.join(names)}")
    elif words.accepted and not words.keep:
        say("    not kept: `--keep FOLDER` keeps what was accepted" + (", and `--show` prints it" if not words.show else ""))
    words.given.close()


def decided(words: Words, rounds: int, room: Room, clock: Clock) -> Tuple[Optional[str], Optional[table.Certificate]]:
    """The first answer that is accepted within the limit, and its certificate as a table has it; None for both where nobody has one. The
    program is asked alone for a moment before anything else is started."""
    with room.attempt() as made:
        scope = Scope(words.limits)
        attempt = Attempt(Question(words.task, rounds), made, scope, clock)
        ways: List[Tuple[str, Callable[[], Optional[Answer]]]] = [
            ("the hint", functools.partial(by_hints, attempt, words)), (SEARCH, attempt.map_at_once),
            (FEWER_ROUNDS, functools.partial(fewer_rounds_at_once, attempt, words)), ("the search on fewer", functools.partial(by_fewer, attempt, words)),
            (SEARCH, attempt.none_at_once), ("the question", functools.partial(by_all, attempt, words))]
        for name, way in ways:
            if answer := questions.answered(name, way):
                return kept(words, answer)
        return None, None


def by_hints(attempt: Attempt, words: Words) -> Optional[Answer]:
    """The answer of a report that is given, if one is."""
    if not words.hint:
        return None
    from . import hints
    return hints.by_hints(attempt, words.hint)


def may_have_fewer_rounds(attempt: Attempt, words: Words) -> bool:
    """Whether fewer rounds may have a map: they were not asked about, and the search didn't say that there is none after these."""
    rounds = attempt.question.rounds
    return rounds > 0 and rounds == words.rounds[0] and not attempt.is_none


def fewer_rounds_at_once(attempt: Attempt, words: Words) -> Optional[Answer]:
    """A map after fewer rounds that the search finds in a moment, lifted to these."""
    return attempt.fewer_rounds_at_once() if may_have_fewer_rounds(attempt, words) else None


def by_fewer(attempt: Attempt, words: Words) -> Optional[Answer]:
    """The answer that there is no map for some of the processes."""
    if words.no_restrict:
        return None
    from . import fewer
    return fewer.none_of_fewer(attempt, words.with_map)


def by_all(attempt: Attempt, words: Words) -> Optional[Answer]:
    """The first answer of those that are asked side by side."""
    solver = words.chosen()
    those: Dict[str, Callable[[], Optional[Answer]]] = {SEARCH: attempt.by_search}
    if may_have_fewer_rounds(attempt, words):
        those[FEWER_ROUNDS] = attempt.by_fewer_rounds
    if solver:
        those[split(solver)[0]] = functools.partial(attempt.by_solver, solver, words.clauses)
    return first(attempt.scope, those)


def accept(words: Words, certificate: pathlib.Path) -> None:
    """Notes what was accepted last: the kind of its certificate, and if it is to be shown its text."""
    words.accepted = certificate.suffix, certificate.read_bytes() if words.show and certificate.stat().st_size <= files.LONGEST else None


def kept(words: Words, answer: Answer) -> Tuple[str, Optional[table.Certificate]]:
    """An answer whose files are put into the folder, where there is one, and its certificate as a table has it."""
    accept(words, answer.files[0])
    for file in answer.files if words.keep else []:
        keep(file, words.keep, words.kept)
    return answer.word, words.table.of_file(answer.files[0])
