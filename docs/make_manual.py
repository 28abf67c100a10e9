#!/usr/bin/env python3
"""Makes the man pages and the completions of shells from what the programs and the Python commands say with `--help`.

    docs/make_manual.py [--program FILE]      writes a page docs/*.1 for each command, and docs/completions for bash, zsh and fish

All commands that `wfcheck --help` lists are taken, with all that `wfcheck COMMAND --help` says of each. `docs/make_commands.py` makes
docs/COMMANDS.md from the same. `checks/manual` compares the files with what is made today. The script needs bin/wfcheck, as
`make build` leaves it, and ends with status 2 if a text can't be read. The help of wfverify stands in tests/verifier/help, with which
`checks/verifier` compares what that program says. The pages of the commands in SCRIPTS are made of the documents of their modules in python/wfcheck."""
import collections
import pathlib
import re
import subprocess
import sys

sys.path.insert(0, str(pathlib.Path(__file__).resolve().parent.parent / "checks"))
import common  # noqa: E402
import second_opinion  # noqa: E402
from wfcheck import asking, linting, naming, version, writing  # noqa: E402
from wfcheck.drawing import main as drawing  # noqa: E402
from wfcheck.ruling import main as ruling  # noqa: E402

NAME = "wfcheck"
CHECKER, SAID = "wfverify", common.ROOT / "tests/verifier"
HEAD = re.compile(r"([A-Z][a-z]+):")
ITEM = re.compile(r" {2,6}(\S.*?)(?: {2,}(.*))?")
OPTION = re.compile(r"(?:(-\w), )?--([\w-]+)(?: <([^>]+)>)?")
STATUSES = [
    ("0", "a map or an obstruction was found, a report or a proof was accepted, or the text was written"),
    ("1", "there is no map, or no obstruction was found"),
    ("2", "the words, or what was read, are refused, or the search for an obstruction gave up: one line on standard error says why"),
    ("3", "memory ran out"), ("4", "a read or a write failed"),
]
# What --help says of a command: its first paragraph, its usage, its lists by their heads, and the lines of text behind them. An item
# of a list is a word or an option as it is written, and what is said of it.
Help = collections.namedtuple("Help", "about usage lists text")


def help_of(command):
    """What --help says of a command, or of the program itself where it is none."""
    words = [common.program(), *([command] if command else []), "--help"]
    said = subprocess.run(words, capture_output=True, text=True, check=True).stdout
    # the program says its own name as it was called
    said = re.sub(rf"(?m)^Usage: {re.escape(common.program().name)}", f"Usage: {NAME}", said)
    return read(said, NAME)


def read(said, name):
    """A help of a program, or of one of its commands."""
    about, _, rest = said.partition("\n\n")
    usage, *lines = rest.split("\n")
    found, lists, text = re.fullmatch(rf"Usage: ({name}.*)", usage), {}, []
    if not found:
        sys.exit(f"no usage stands in the second paragraph of a help of {name}")
    items = None
    for line in lines:
        head, item = HEAD.fullmatch(line), ITEM.fullmatch(line)
        if head:
            items = lists.setdefault(head[1], [])
        elif not line:
            items = items if items == [] else None
        elif items is None:
            text.append(line)
        elif item and not line.startswith(" " * 8):
            items.append((item[1], item[2] or ""))
        else:
            items[-1] = (items[-1][0], f"{items[-1][1]} {line.strip()}".strip())
    return Help(" ".join(about.split()), found[1], lists, text)


def options(told):
    """The options of a command: short form or None, long form, what it takes or None, and what is said of it."""
    return [(*OPTION.fullmatch(it).groups(), said) for it, said in told.lists.get("Options", [])]


def kinds(told):
    """The words that may stand in the place of a command's argument, and what is said of each: those of the list with its name."""
    names = [it.strip("<>[].").capitalize() + "s" for it, _ in told.lists.get("Arguments", [])]
    return [item for name in names for item in told.lists.get(name, [])]


# ---- the man page


def roff(text):
    """A text as roff reads it."""
    text = text.replace("\\", "\\e").replace("-", "\\-")
    return "\\&" + text if text[:1] in (".", "'") else text


def items(listed):
    for word, said in listed:
        yield from (".TP", f"\\fB{roff(word)}\\fR", roff(said))


def page(top, commands, version):
    """The man page."""
    lines = ['.\\" made by docs/make_manual.py', f'.TH {NAME.upper()} 1 "" "{version}" "User Commands"']
    lines += [".SH NAME", f"{NAME} \\- {roff(top.about[:1].lower() + top.about[1:])}", ".SH SYNOPSIS"]
    for told in commands.values():
        lines += [".PP", roff(told.usage)]
    lines += [".SH DESCRIPTION", roff(f"{top.about}.")]
    lines += [".SH COMMANDS"]
    for name, told in commands.items():
        lines += [f".SS {NAME} {name}", roff(f"{told.about}."), ".PP", roff(told.usage)]
        for head, listed in told.lists.items():
            lines += [*([".PP", roff(f"{head}:")] if head != "Options" else []), *items(listed)]
        lines += [".PP", *map(roff, told.text)] if told.text else []
    lines += [".SH OPTIONS", *items(top.lists["Options"]), ".SH EXIT STATUS", *items(STATUSES)]
    others = ", ".join(f"{roff(it)}(1)" for it in [CHECKER, *SCRIPTS])
    lines += [".SH SEE ALSO", f"{others}.", roff("docs/FORMAT.md of the repository: the texts that are read and written, and every refusal. "
                                   "docs/ANSWERS.md: what an answer means.")]
    return "".join(f"{line}\n" for line in lines)


def checker_page():
    """The man page of wfverify."""
    told = read((SAID / "help/stdout").read_text(), CHECKER)
    version = (SAID / "version/stdout").read_text().split(" (")[0]
    lines = ['.\\" made by docs/make_manual.py', f'.TH {CHECKER.upper()} 1 "" "{version}" "User Commands"']
    lines += [".SH NAME", f"{CHECKER} \\- {roff(told.about[:1].lower() + told.about[1:])}", ".SH SYNOPSIS", ".PP", roff(told.usage)]
    lines += [".SH DESCRIPTION", roff(f"{told.about}."), ".PP", *map(roff, told.text)]
    lines += [".SH OPTIONS", *items(told.lists["Options"])]
    lines += [".SH SEE ALSO", roff(f"{NAME}(1). docs/FORMAT.md of the repository: the texts that are read and written, and every refusal.")]
    return "".join(f"{line}\n" for line in lines)


# ---- the pages of the commands that are Python

# each command: what it does, its usage, and the document and the words of its module
SCRIPTS = {
    "wfcheck-ask": ("ask a question that may be too hard for the search alone", "TASK ROUNDS [options]", asking.__doc__, None),
    "wfcheck-check": ("check a report or an obstruction without the program", "TASK.json REPORT", second_opinion.__doc__, None),
    "wfcheck-draw": ("draw complexes, decision maps, refutations and obstructions", "TASK [REPORT] [options]", f"\n\n{drawing.ABOUT}", drawing.words),
    "wfcheck-lint": ("say where a task file is refused, or what in it most likely is a slip", "[--all] TASK.json", linting.__doc__, linting.parser),
    "wfcheck-names": ("tell points and arguments by the names of values and inputs", "TASK.json < TEXT", naming.__doc__, naming.parser),
    "wfcheck-rules": ("tell a decision map by few rules", "TASK.json REPORT", ruling.__doc__, ruling.parser),
    "wfcheck-task": ("write task files of the gallery", "[--folder FOLDER] NAME .. | --all | --list", writing.__doc__, writing.parser),
}
POINT, INDENTED = "  - ", "    "


def script_page(name, about, usage, document, words):
    """The man page of a command that is Python."""
    lines = ['.\\" made by docs/make_manual.py', f'.TH {name.upper()} 1 "" "{NAME} {version.VERSION}" "User Commands"']
    lines += [".SH NAME", f"{roff(name)} \\- {roff(about)}", ".SH SYNOPSIS", f"\\fB{roff(name)}\\fR {roff(usage)}", ".SH DESCRIPTION"]
    # the first paragraph says what the page's head says
    for part in document.split("\n\n")[1:]:
        lines += paragraph(part.split("\n"))
    if words:
        lines += [".SH OPTIONS", *items((", ".join(it.option_strings) or it.metavar or it.dest, it.help) for it in words(name)._actions)]
    lines += [".SH SEE ALSO", f"{NAME}(1), {CHECKER}(1), " + ", ".join(f"{roff(it)}(1)" for it in SCRIPTS if it != name)]
    return "".join(f"{line}\n" for line in lines)


def paragraph(lines):
    """A paragraph of a document: a list with dashes, a list of words with what is said of each, or text."""
    mark = next((it for it in (POINT, INDENTED) if lines[0].startswith(it)), None)
    if not mark:
        return [".PP", *map(roff, lines)]
    listed = []
    for line in lines:
        if line.startswith(mark) and line[len(mark)] != " ":
            listed.append(line.removeprefix(mark))
        else:
            listed[-1] += f"  {line.strip()}"
    if mark == POINT:
        return [it for text in listed for it in (".IP \\(bu 2", roff(" ".join(text.split())))]
    told = (text.partition("  ") for text in listed)
    return [*items((word, " ".join(said.split())) for word, _, said in told if said)]


# ---- completions


def bash(top, commands):
    """Completions for bash."""
    first = " ".join([*commands, "help", *words_of(top)])
    lines = ["# made by docs/make_manual.py: source this file in bash", f"_{NAME}() {{",
             "    local cur=${COMP_WORDS[COMP_CWORD]} prev=${COMP_WORDS[COMP_CWORD - 1]}", "    local words", "    COMPREPLY=()", "    if [ \"$COMP_CWORD\" -eq 1 ]; then",
             f"        mapfile -t COMPREPLY < <(compgen -W \"{first}\" -- \"$cur\")", "        return", "    fi",
             "    case ${COMP_WORDS[1]}:$prev in"]
    for name, told in commands.items():
        for _, long, takes, _ in options(told):
            if takes == "FILE":
                lines += [f"        {name}:--{long})", "            compopt -o filenames 2> /dev/null",
                          "            mapfile -t COMPREPLY < <(compgen -f -- \"$cur\")", "            return", "            ;;"]
            elif takes:
                lines += [f"        {name}:--{long}) return ;;"]
    lines += ["    esac", "    case ${COMP_WORDS[1]} in"]
    for name, told in commands.items():
        lines.append(f"        {name}) words=\"{' '.join([*(word for word, _ in kinds(told)), *words_of(told)])}\" ;;")
    lines += [f"        help) words=\"{' '.join(commands)}\" ;;", "        *) return ;;", "    esac",
              "    mapfile -t COMPREPLY < <(compgen -W \"$words\" -- \"$cur\")", "}", f"complete -F _{NAME} {NAME}"]
    return "".join(f"{line}\n" for line in lines)


def words_of(told):
    """The options of a command, as they are written."""
    return [f"--{long}" for _, long, _, _ in options(told)]


def quoted(text):
    return "'" + text.replace("'", "'\\''") + "'"


def zsh(top, commands):
    """Completions for zsh."""
    lines = [f"#compdef {NAME}", "# made by docs/make_manual.py: keep this file in a folder of $fpath", ""]
    lines += [f"_{NAME}() {{", "    local -a commands", "    commands=("]
    lines += [f"        {quoted(name + ':' + told.about.replace(':', chr(92) + ':'))}" for name, told in commands.items()]
    lines += ["    )", "    if (( CURRENT == 2 )); then", "        _describe command commands"]
    lines += zsh_arguments(top, "        ")
    lines += ["        return", "    fi", "    local command=$words[2]", "    shift words", "    (( CURRENT-- ))", "    case $command in"]
    for name, told in commands.items():
        lines += [f"        {name})", *zsh_arguments(told, "            "), "            ;;"]
    lines += ["        help)", "            _describe command commands", "            ;;", "    esac", "}", "", f'_{NAME} "$@"']
    return "".join(f"{line}\n" for line in lines)


def zsh_arguments(told, indent):
    """What _arguments is asked for a command."""
    specs = []
    for _, long, takes, said in options(told):
        for sign in "\\[]:":
            said = said.replace(sign, "\\" + sign)
        what = {"FILE": ":file:_files", None: ""}.get(takes, f":{takes}: ")
        specs.append(quoted(f"--{long}[{said}]{what}"))
    if kinds(told):
        specs.append(quoted(f"1:kind:({' '.join(word for word, _ in kinds(told))})"))
    return [f"{indent}_arguments \\", *(f"{indent}    {it} \\" for it in specs[:-1]), f"{indent}    {specs[-1]}"]


def fish(top, commands):
    """Completions for fish."""
    lines = ["# made by docs/make_manual.py: keep this file in a folder of $fish_complete_path", f"complete -c {NAME} -f"]
    for name, told in commands.items():
        lines.append(f"complete -c {NAME} -n __fish_use_subcommand -a {name} -d {fish_quoted(told.about)}")
    lines += [fish_option("__fish_use_subcommand", it) for it in options(top)]
    for name, told in commands.items():
        seen = fish_quoted(f"__fish_seen_subcommand_from {name}")
        lines += [f"complete -c {NAME} -n {seen} -a {word} -d {fish_quoted(said)}" for word, said in kinds(told)]
        lines += [fish_option(seen, it) for it in options(told)]
    return "".join(f"{line}\n" for line in lines)


def fish_option(seen, option):
    _, long, takes, said = option
    what = {"FILE": " -r -F", None: ""}.get(takes, " -x")
    return f"complete -c {NAME} -n {seen} -l {long}{what} -d {fish_quoted(said)}"


def fish_quoted(text):
    return "'" + text.replace("\\", "\\\\").replace("'", "\\'") + "'"


def commands():
    """What --help says of each command, in the order of the program's own help."""
    return {name: help_of(name) for name, _ in help_of("").lists["Commands"] if name != "help"}


def made():
    """Each file, with its text."""
    top, listed = help_of(""), commands()
    said = subprocess.run([common.program(), "--version"], capture_output=True, text=True, check=True).stdout.split(" (")[0].strip()
    docs = common.ROOT / "docs"
    return {
        docs / f"{CHECKER}.1": checker_page(), docs / f"{NAME}.1": page(top, listed, said),
        **{docs / f"{name}.1": script_page(name, *told) for name, told in SCRIPTS.items()}, docs / f"completions/{NAME}.bash": bash(top, listed),
        docs / f"completions/_{NAME}": zsh(top, listed), docs / f"completions/{NAME}.fish": fish(top, listed),
    }


def main():
    common.Script(__doc__).runs_program().asked()
    common.write(made())


if __name__ == "__main__":
    sys.exit(main())
