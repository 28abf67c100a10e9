"""Decides the tasks of the atlas by the program, and writes the tables into gallery/atlas.

    tools/atlas NAME ..        these tables; `--list` names them, and `--all` takes all
    tools/atlas --task CODE    writes the task that a code tells
    tools/atlas --totals       writes how many tasks of each table have which answer, as gallery/atlas/README.md shows them

A table has a line for each task: its code, the answer in the words of tools/ask, and of an obstruction the nodes, and the modulus and
the number of multipliers of each balance. Each answer was accepted by `wfcheck verify`. If a search has no end within two seconds,
tools/ask is asked, which has a SAT solver if one is on the path; the last column has these numbers of rounds, and `wfcheck proof`
accepted a solver's proofs.

What is decided stands in NAME.tsv.part until the table is whole. If the run is stopped, the next goes on from there, if the program is
the same. The status is 0 if all is done, and 2 if the words name nothing, a certificate is not accepted or a file can't be written."""
import argparse
import concurrent.futures
import hashlib
import pathlib
import signal
import sys
import time
from typing import Dict, Iterator, List, Sequence

from ..running import Error, program, run
from . import files, totals
from .deciding import Line, WrongAnswer, decided
from .tables import NAMES, TABLES, Table, task_of

REFUSED, WORKERS = 2, 4
# after how many seconds a run tells how far it is
TOLD = 10


def main(words: List[str], folder: pathlib.Path) -> int:
    """Does what the words say, with tables in a folder, and returns the status."""
    asked = arguments(words, folder)
    # a run that is told to end waits for what it has begun, so that no search is left alone
    signal.signal(signal.SIGTERM, lambda number, _frame: sys.exit(128 + number))
    try:
        if asked.task:
            sys.stdout.write(task_of(asked.task).text)
        for it in TABLES if asked.list else []:
            print(f"{it.name}: {it.about}")
        if asked.totals:
            sys.stdout.write(totals.table({it.name: files.read(asked.folder / f"{it.name}{files.ENDING}").lines for it in TABLES}))
        for name in NAMES if asked.all else asked.names:
            write(NAMES[name], asked.folder, asked.workers)
    except (Error, OSError, WrongAnswer) as error:
        print(f"atlas: {error}", file=sys.stderr)
        return REFUSED
    return 0


def arguments(words: List[str], folder: pathlib.Path) -> argparse.Namespace:
    """What the words ask for."""
    parser = argparse.ArgumentParser(prog="tools/atlas", description=__doc__, formatter_class=argparse.RawDescriptionHelpFormatter)
    parser.add_argument("names", nargs="*", metavar="NAME")
    parser.add_argument("--all", action="store_true", help="all tables")
    parser.add_argument("--list", action="store_true", help="tells the names of the tables, and what stands in each")
    parser.add_argument("--task", metavar="CODE", help="writes the task that a code tells")
    parser.add_argument("--totals", action="store_true", help="writes the table of answers")
    many = f"how many tasks are asked about at once, {WORKERS} if it isn't given"
    parser.add_argument("--workers", type=int, default=WORKERS, metavar="N", help=many)
    parser.add_argument("--folder", type=pathlib.Path, default=folder, help="where the tables are, gallery/atlas if it isn't given")
    asked = parser.parse_args(words)
    if strangers := [it for it in asked.names if it not in NAMES]:
        parser.error(f"there is no table {strangers[0]!r}: --list names them")
    if not (asked.names or asked.all or asked.list or asked.task or asked.totals):
        parser.error("no table is named: --list names them")
    if not 1 <= asked.workers <= 64:
        parser.error("--workers is a number from 1 to 64")
    return asked


def write(table: Table, folder: pathlib.Path, workers: int) -> None:
    """Decides a table and writes it, from where an earlier run was stopped."""
    part = files.Part(folder / f"{table.name}{files.PART}", named())
    found, writer = part.open()
    codes, began, told = table.codes(), time.monotonic(), time.monotonic()
    left = [it for it in codes if it not in found]
    print(f"{table.name}: {len(codes):,} tasks, {len(left):,} to decide", flush=True)
    try:
        for line in lines(table, left, workers):
            found[line.code] = line
            writer.write(line)
            if time.monotonic() - told > TOLD:
                told = time.monotonic()
                print(f"{table.name}: {len(found):,} decided", flush=True)
    finally:
        writer.close()
    kept = [found[it] for it in codes]
    (folder / f"{table.name}{files.ENDING}").write_text(files.text_of(table.about, kept), encoding="utf-8")
    part.path.unlink()
    told_of = ", ".join(f"{many:,} {answer}" for answer, many in totals.answers(kept).items())
    print(f"{table.name}: {told_of} ({time.monotonic() - began:,.0f} s)", flush=True)


def lines(table: Table, codes: Sequence[str], workers: int) -> Iterator[Line]:
    """The lines of some codes of a table, as they come."""
    with concurrent.futures.ThreadPoolExecutor(workers) as pool:
        try:
            asked: Dict["concurrent.futures.Future[Line]", str] = {pool.submit(line_of, table, it): it for it in codes}
            for each in concurrent.futures.as_completed(asked):
                yield each.result()
        except BaseException:
            pool.shutdown(wait=True, cancel_futures=True)
            raise


def line_of(table: Table, code: str) -> Line:
    """The line of a code."""
    return decided(task_of(code), table.rounds, table.seconds)


def named() -> str:
    """Which program it is: its line, and the SHA-256 of its file."""
    return f"{run(['--version'], '').written.strip()} {hashlib.sha256(program().read_bytes()).hexdigest()}"
