"""The front door of the scripts of checks/: the program that they run, where things are, their words, and their last line. It has the
modules of oracle/ and python/ found by their names.

`--help` shows what stands at the head of a script, and ends with status 0. A word that it doesn't know, and a name that nothing
has, end it with status 2 before anything is run, and so does a program that isn't there. A script from which nothing was chosen has
failed."""
import argparse
import os
import pathlib
import shutil
import sys

sys.dont_write_bytecode = True
# numbers in texts may have any number of digits, of which Python reads 4,300 if it isn't told
if hasattr(sys, "set_int_max_str_digits"):
    sys.set_int_max_str_digits(0)
ROOT = pathlib.Path(__file__).resolve().parent.parent
BUILT = ROOT / "bin/wfcheck"
TASKS, ANSWERS = ROOT / "gallery/tasks", ROOT / "gallery/answers"
sys.path[1:1] = [str(ROOT / it) for it in ("oracle", "python")]
# what a script runs is named by its words alone
os.environ.pop("WFCHECK", None)


class Program:
    """The program that a script runs: bin/wfcheck, or what its option `--program` names."""
    path = BUILT


def program():
    return Program.path


def task_file(name):
    """The file of a task of the gallery."""
    return TASKS / f"{name}.json"


def write(made):
    """Writes each text to its file, and tells the files."""
    for path, text in made.items():
        path.parent.mkdir(exist_ok=True)
        path.write_text(text)
        print(path.relative_to(ROOT))


def copy_of_ask(folder):
    """A copy of tools/ask in a folder, with the tasks that it finds by their names, and without a program."""
    for part in ("tools", "python", "gallery/tasks"):
        shutil.copytree(ROOT / part, folder / part, ignore=shutil.ignore_patterns("__pycache__"))
    return folder / "tools/ask"


class Script(argparse.ArgumentParser):
    """A script's command line, by what stands at its head."""

    def __init__(self, doc):
        path = pathlib.Path(sys.argv[0]).resolve()
        name = f"{path.parent.name}/{path.name}"
        super().__init__(prog=name, description=doc, formatter_class=argparse.RawDescriptionHelpFormatter, allow_abbrev=False)

    def runs_program(self):
        """Adds the option that names another program than bin/wfcheck."""
        told = "the program, bin/wfcheck if it isn't given"
        self.add_argument("--program", metavar="FILE", type=pathlib.Path, default=BUILT, help=told)
        return self

    def asked(self):
        """The words. Where the script runs the program, that has to be there."""
        found = self.parse_args()
        if "program" in found:
            Program.path = found.program.resolve()
            if not Program.path.is_file():
                self.error(f"{found.program} is not there: `make build` leaves bin/wfcheck, and `make verifier` bin/wfverify")
        return found

    def needs_rt(self):
        """Ends the script if the toolchain is not there."""
        if not shutil.which("rt"):
            self.error("`rt`, the toolchain that proves, is not on the path (README.md, \"The proved build\"). release/wfcheck runs without it")

    def chosen(self, things, words, name, fits=str.__eq__):
        """The things of which a name fits one of the words, or all where no word is given. A word that is a whole name picks that one
        alone, and one that fits none ends the script."""
        names = [(thing, name(thing)) for thing in things]
        whole = {it for _, it in names}
        for word in words:
            if not any(fits(it, word) for _, it in names):
                self.error(f"nothing here is named {word!r}")
        return [thing for thing, it in names if not words or any(it == word if word in whole else fits(it, word) for word in words)]


def contains(name, word):
    """Whether a name has a word in it, where a word picks by a part of the name."""
    return word in name


def keeping(make):
    """The same function, which keeps what it made last as long as it is given the very same things again, and gives it up before it makes
    another one, so that memory holds one of both."""
    given, found = [], []

    def kept(*things):
        if not found or any(one is not other for one, other in zip(given, things)):
            found.clear()
            given[:], found[:] = things, [make(*things)]
        return found[0]

    return kept


def ended(passed, failed):
    """Says the last line, and returns the status: where nothing was tried, nothing passed."""
    print(f"{passed} passed, {failed} failed")
    return 1 if failed or not passed else 0
