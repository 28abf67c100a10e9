"""The command line of `ask`."""
from __future__ import annotations

import argparse
import pathlib

from . import __doc__ as about
from .asked import DEFAULTS

# the engines for which there is a script of an array
ENGINES = ["slurm", "pbs", "sge", "lsf", "kubernetes"]


def parser(name: str) -> argparse.ArgumentParser:
    """The words that the command takes."""
    words = argparse.ArgumentParser(
        description=about, formatter_class=argparse.RawDescriptionHelpFormatter, usage=f"{name} TASK .. ROUNDS [options]", prog=name)
    words.add_argument("given", nargs="*", metavar="TASK .. ROUNDS", help=argparse.SUPPRESS)
    words.add_argument("--solver")
    words.add_argument("--seconds", type=float)
    words.add_argument("--clauses", type=int)
    words.add_argument("--memory", type=float)
    words.add_argument("--disk", type=float)
    words.add_argument("--keep", type=pathlib.Path)
    words.add_argument("--show", action="store_true")
    words.add_argument("--no-obstruction", action="store_true")
    words.add_argument("--no-restrict", action="store_true")
    words.add_argument("--hint", type=pathlib.Path, action="append")
    words.add_argument("--jobs", type=int)
    words.add_argument("--table", type=pathlib.Path)
    words.add_argument("--split")
    chosen = words.add_mutually_exclusive_group()
    chosen.add_argument("--branch", type=int)
    chosen.add_argument("--share")
    chosen.add_argument("--array", choices=ENGINES)
    chosen.add_argument("--tally", type=pathlib.Path)
    chosen.add_argument("--recheck", type=pathlib.Path)
    # a list for each parser, to which words are added
    words.set_defaults(**{**DEFAULTS, "hint": []})
    return words
