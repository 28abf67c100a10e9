#!/usr/bin/env python3
"""Makes docs/COMMANDS.md from what the program says with `--help`, from the help of wfverify, and from the table TEXTS below.

    docs/make_commands.py [--program FILE]

`checks/manual` compares the page with what is made today, and runs each example. The script ends with status 1 if the
help of a command ends without an example, or if the table has other commands."""
import collections
import pathlib
import sys

sys.path.insert(0, str(pathlib.Path(__file__).resolve().parent.parent / "checks"))
import common  # noqa: E402
import make_manual as manual  # noqa: E402

PAGE = common.ROOT / "docs/COMMANDS.md"
MANY = 4
# of each command what it reads beside its words and what it writes, in Markdown
TEXTS = {
    "solve": ("a task", "the [report](FORMAT.md#the-report) of the least map, or of none"),
    "verify": ("a report or an obstruction", "`accepted ..`"),
    "views": ("a task", "the [list of points](FORMAT.md#the-list-of-points)"),
    "points": ("a task or a report", "the [points in words](FORMAT.md#the-points-in-words)"),
    "branches": ("a task", "the [branches](FORMAT.md#the-branches-of-a-question)"),
    "join": ("parts of all branches", "[one report](FORMAT.md#parts-put-together)"),
    "cnf": ("a task", "the [question as a formula](FORMAT.md#the-question-as-a-formula)"),
    "model": ("a solver's [model](FORMAT.md#a-solvers-model)", "the report of its map"),
    "proof": ("a solver's [proof](FORMAT.md#a-solvers-proof)", "`accepted none ..`"),
    "trim": ("a report", "[a shorter report](FORMAT.md#a-shorter-report)"),
    "explain": ("a report or an obstruction", "[why](FORMAT.md#the-argument-in-words), in words"),
    "lift": ("the report of a map", "[the map for more rounds](FORMAT.md#a-map-for-more-rounds)"),
    "executions": ("a task", "the [executions](FORMAT.md#the-executions)"),
    "obstruction": ("a task", "an [obstruction](FORMAT.md#finding-an-obstruction)"),
    "preset": ("", "a [task with a name](FORMAT.md#presets)"),
}
# the commands by what somebody wants
GROUPS = {
    "Ask": ["solve", "obstruction", "preset"],
    "Check": ["verify", "proof"],
    "Read an answer": ["points", "explain", "trim", "lift"],
    "See the complex": ["views", "executions"],
    "Call a SAT solver": ["cnf", "model"],
    "Share the work": ["branches", "join"],
}
# with which the help of each command ends; a later example may read what an earlier one wrote
EXAMPLE = "Example: "
HEAD = """<!-- made by docs/make_commands.py: change that script or the program's help, and not this page -->
# Commands

Each command but `preset` reads standard input, and all write standard output. [FORMAT.md](FORMAT.md) describes the
texts, and [ANSWERS.md](ANSWERS.md) says what they mean. The examples run where `make install` leaves the tasks,
in `~/.local/share/wfcheck`; `map.txt` is what the first wrote.

"""
SHARED = """
## Options of several commands

| Option | What it says |
|---|---|
"""
PLAIN = """
These commands have no other options; those of `cnf` are `--branch`:

"""
ENDS = """
`wfcheck --version` writes the program's version, and the identity of the logic that proved it. The checker alone,
[wfverify](#wfverify), is a program of its own.

Exit status 0: found, accepted or written. 1: `solve` shows that there is no map, or `obstruction` found none. 2: a
[refusal](FORMAT.md#refusals), or a search that gave up. 3: out of memory. 4: a failed read or write. A shell that can't
open the file behind `<` ends with 1 or 2 too: look for `answer none`.
"""


def examples(commands):
    """The example with which the help of each command ends."""
    for name, told in commands.items():
        if not told.text or not told.text[-1].startswith(EXAMPLE):
            sys.exit(f"the help of {name} ends without an example")
        yield told.text[-1].removeprefix(EXAMPLE)


def table(commands, plain):
    """The table of all commands, by groups. Plain commands have no section."""
    shown = dict(zip(commands, examples(commands)))
    yield "|Command|Reads|Writes|Example|\n|---|---|---|---|\n"
    for group, names in GROUPS.items():
        yield f"|**{group}**| | | |\n"
        for name in names:
            reads, writes = TEXTS[name]
            yield f"|{name if name in plain else f'[{name}](#{name})'}|{reads}|{writes}|`{shown[name].replace('|', chr(92) + '|')}`|\n"


def shared(commands):
    """The options that MANY commands or more have, with the same words."""
    many = collections.Counter(it for told in commands.values() for it in told.lists.get("Options", []))
    return [it for it, times in many.items() if times >= MANY and not it[0].startswith("-h,")]


def own(told, known):
    """The lists of a command's help without the option that asks for help and known options: each a heading and its lines."""
    lists = {head: [it for it in listed if it not in known and not it[0].startswith("-h,")] for head, listed in told.lists.items()}
    return {head: listed for head, listed in lists.items() if listed}


def section(name, told, known):
    """What --help says of one command, but for its first sentence, which the table stands for."""
    lines = [told.usage]
    for listed in own(told, known).values():
        width = max(len(word) for word, _ in listed)
        lines += ["", *(f"  {word:<{width}}  {said}".rstrip() for word, said in listed)]
    others = " ".join(it[0].split(" ")[0] for it in known if it in told.lists.get("Options", []))
    lines += [f"  {others} as above"] if others else []
    return "\n".join([f"\n## {name}\n", "```", *lines, *([""] if told.text else []), *told.text, "```\n"])


def without_example(told):
    """The help of a command without its example, which stands in the table."""
    return told._replace(text=[it for it in told.text if not it.startswith(EXAMPLE)])


def checker():
    """The help of wfverify, which checks/verifier compares with what that program says."""
    return manual.read((manual.SAID / "help/stdout").read_text(), manual.CHECKER)


def made():
    """The page, with its text."""
    commands = manual.commands()
    if unlike := {*commands} ^ {*TEXTS} | {*commands} ^ {it for names in GROUPS.values() for it in names}:
        sys.exit(f"the program's commands, TEXTS and GROUPS differ in {' '.join(sorted(unlike))}")
    known, bare = shared(commands), {name: without_example(told) for name, told in commands.items()}
    plain = {name: told.usage for name, told in bare.items() if not told.text and not own(told, known)}
    options = [f"| `{word}` | {said} |\n" for word, said in known]
    usages = [PLAIN, "```\n", *(f"{usage}\n" for usage in plain.values()), "```\n"]
    sections = [section(name, bare[name], known) for names in GROUPS.values() for name in names if name not in plain]
    sections += [section(manual.CHECKER, checker(), known)]
    return {PAGE: "".join([HEAD, *table(commands, plain), ENDS, SHARED, *options, *usages, *sections])}


def main():
    common.Script(__doc__).runs_program().asked()
    common.write(made())


if __name__ == "__main__":
    sys.exit(main())
