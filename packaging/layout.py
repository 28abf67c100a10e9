"""What is installed, and where: the commands, their man pages, completions, the documents, the gallery, the examples and the Python module.
The installation, the archive and the Debian package all have these files.

`Mistake` is what can't be done, in a line for whoever called."""
import hashlib
import pathlib
import re
import site
import subprocess
import sys
import typing

sys.dont_write_bytecode = True
ROOT = pathlib.Path(__file__).resolve().parent.parent
BUILT, RELEASED, DIST = ROOT / "bin", ROOT / "release", ROOT / "dist"
PROVENANCE = "PROVENANCE"
PROGRAMS = ["wfcheck", "wfverify"]
# the program for a browser, and the page that has it
MODULE, PAGE = "wfcheck.wasm", "wfcheck.html"
# each command that is Python, with the function of wfcheck.doors that it calls
DOORS = {f"wfcheck-{door}": door for door in ("ask", "draw", "lint", "names", "rules", "task")}
# the command that is a script of oracle/, and the scripts that it imports
CHECK, ORACLE = "wfcheck-check", ["second_opinion.py", "obstructions.py", "reports.py", "task_file.py"]
COMMANDS = sorted([*PROGRAMS, *DOORS, CHECK])
SHARE = "share/wfcheck"
# where shells look for completions
COMPLETIONS = {
    "wfcheck.bash": "share/bash-completion/completions/wfcheck", "_wfcheck": "share/zsh/site-functions/_wfcheck",
    "wfcheck.fish": "share/fish/vendor_completions.d/wfcheck.fish",
}
# whole folders and files below SHARE, which stand there as in the repository, so that links between them lead somewhere
SHARED = [
    "README.md", "CHANGELOG.md", "CITATION.cff", "LICENSE", "tools/README.md",
    *sorted(str(it.relative_to(ROOT)) for it in (ROOT / "docs").glob("*.md")), "docs/pictures", "docs/task.schema.json",
    "gallery", "examples", *(f"oracle/{it}" for it in ORACLE), "python/wfcheck", "python/pyproject.toml", "python/backend.py", "python/README.md",
]
LEFT_OUT = {"__pycache__"}
SHA = re.compile(r"^([0-9a-f]{64}) [ *](\S+)$", re.M)
EXECUTABLE, PLAIN = 0o755, 0o644
DOOR = '''#!/usr/bin/env python3
"""The command `{command}`, with the module wfcheck that was installed beside it."""
import os
import sys

sys.dont_write_bytecode = True
sys.path.insert(0, os.path.join(os.path.dirname(os.path.dirname(os.path.realpath(__file__))), "{share}/python"))
try:
    from wfcheck import bytecode
    bytecode.keep()
    from wfcheck import doors
except Exception as error:
    # a status of Python's own would mean an answer
    print(f"{command}: {{type(error).__name__}}: {{error}}", file=sys.stderr)
    sys.exit(3)

sys.exit(doors.{door}())
'''
CHECK_DOOR = '''#!/usr/bin/env python3
"""The command `{command}`: whether a report or an obstruction holds, by the script that was installed beside it."""
import os
import runpy
import sys

sys.dont_write_bytecode = True
FOLDER = os.path.join(os.path.dirname(os.path.dirname(os.path.realpath(__file__))), "{share}/oracle")
sys.path.insert(0, FOLDER)
runpy.run_path(os.path.join(FOLDER, "{script}"), run_name="__main__")
'''
# what this package may install, by paths below the prefix
MINE = re.compile(r"bin/wfcheck(-[a-z]+)?|bin/wfverify|share/man/man1/(wfcheck(-[a-z]+)?|wfverify)\.1|share/wfcheck/(?!.*//)[^\n]*[^/\n]"
                  r"|lib/python3\.\d+/(site|dist)-packages/wfcheck\.pth")
# folders above the file by which Python finds the module
ABOVE_MODULE = re.compile(r"lib(/python3\.\d+(/(site|dist)-packages)?)?")


def is_mine(path):
    """Whether a path below the prefix is one that this package may install: a name, not a way out of the prefix."""
    if any(it in ("", ".", "..") for it in path.split("/")) or "\0" in path:
        return False
    return path in COMPLETIONS.values() or MINE.fullmatch(path) is not None


def is_above_mine(folder):
    """Whether a folder below the prefix is one that this package may make."""
    known = {folder_above for it in ["bin/x", "share/man/man1/x", f"{SHARE}/x", *COMPLETIONS.values()] for folder_above in above(it)}
    return folder == "." or folder in known or is_mine(f"{folder}/x") or ABOVE_MODULE.fullmatch(folder) is not None


def above(path):
    """The folders of a path, the deepest first."""
    return [str(it) for it in pathlib.PurePosixPath(path).parents][:-1]


class Mistake(Exception):
    """What can't be done, in a line."""


class File(typing.NamedTuple):
    """A file that is installed: its bytes, and what may be done with it."""
    data: bytes
    mode: int = PLAIN


def version():
    """The version of the program."""
    return re.search(r'VERSION = "(.*)"', (ROOT / "python/wfcheck/version.py").read_text())[1]


def digest(data):
    return hashlib.sha256(data).hexdigest()


def md5(data):
    """The sum that a Debian package lists of a file."""
    return hashlib.md5(data).hexdigest()


def leave(name, data):
    """Leaves a file in dist/, and lists the SHA-256 of all files of this version that are there."""
    DIST.mkdir(exist_ok=True)
    (DIST / f"{name}.new").write_bytes(data)
    (DIST / f"{name}.new").replace(DIST / name)
    mine = sorted(it for it in DIST.iterdir() if re.match(rf"wfcheck[-_]{re.escape(version())}[-_].*(\.tar\.gz|\.deb|\.whl)$", it.name))
    (DIST / "SHA256SUMS").write_text("".join(f"{digest(it.read_bytes())}  {it.name}\n" for it in mine))
    print(f"dist/{name} has {len(data):,} bytes and the SHA-256 {digest(data)}")


def ran(words, **how):
    """What a command writes. Raises Mistake if it fails or is not there."""
    try:
        run = subprocess.run([str(it) for it in words], capture_output=True, text=True, check=False, **how)
    except OSError as error:
        raise Mistake(f"{words[0]} can't be run: {error.strerror}") from error
    if run.returncode:
        raise Mistake(f"{' '.join(map(str, words))}: {run.stderr.strip() or run.stdout.strip() or f'status {run.returncode}'}")
    return run.stdout


def released(name):
    """The bytes of a released program. Raises Mistake if they are not those that PROVENANCE names."""
    try:
        data, said = (RELEASED / name).read_bytes(), (RELEASED / PROVENANCE).read_text()
    except OSError as error:
        raise Mistake(f"release/{name} can't be taken ({error.strerror}), and bin/ has not both programs: `make build verifier` makes them") from error
    if (digest(data), name) not in SHA.findall(said):
        raise Mistake(f"release/{name} is not the file that release/PROVENANCE names: its SHA-256 is another. `git checkout release` gets it back")
    return data


def judged(path):
    """A program that was built, if it is of the version of the sources."""
    said = ran([path, "--version"])
    if not said.startswith(f"{path.name} {version()} "):
        raise Mistake(f"{path.relative_to(ROOT)} is {said.strip()!r}, and the sources are {version()}: `make build` makes it anew")
    return path.read_bytes()


def programs(say=print):
    """Each program with its bytes: as it was built, or if one was not built, both as they were released."""
    if all((BUILT / name).is_file() for name in PROGRAMS):
        say("the programs are bin/wfcheck and bin/wfverify, as they were built here")
        return {name: judged(BUILT / name) for name in PROGRAMS}
    missing = " and no ".join(f"bin/{name}" for name in PROGRAMS if not (BUILT / name).is_file())
    found = {name: released(name) for name in PROGRAMS}
    say(f"there is no {missing}, so the programs are release/wfcheck and release/wfverify, the released ones")
    return found


def provenance_of(binaries):
    """What PROVENANCE says, if these are the programs that it names; else nothing."""
    file = RELEASED / PROVENANCE
    text = file.read_text() if file.is_file() else ""
    return text if {(digest(data), name) for name, data in binaries.items()} <= {*SHA.findall(text)} else ""


def below(path):
    """The files at or below a path of the repository."""
    if path.is_file():
        return [path]
    return sorted(it for it in path.rglob("*") if it.is_file() and not LEFT_OUT & {*it.parts})


def files(binaries, provenance):
    """Each file that is installed, by its path below the prefix."""
    found = {f"bin/{name}": File(data, EXECUTABLE) for name, data in binaries.items()}
    for command, door in DOORS.items():
        found[f"bin/{command}"] = File(DOOR.format(command=command, share=SHARE, door=door).encode(), EXECUTABLE)
    door = CHECK_DOOR.format(command=CHECK, share=SHARE, script=ORACLE[0])
    found[f"bin/{CHECK}"] = File(door.encode(), EXECUTABLE)
    for command in COMMANDS:
        found[f"share/man/man1/{command}.1"] = File((ROOT / f"docs/{command}.1").read_bytes())
    for name, place in COMPLETIONS.items():
        found[place] = File((ROOT / "docs/completions" / name).read_bytes())
    for path in [file for it in SHARED for file in below(ROOT / it) if file.exists()]:
        found[f"{SHARE}/{path.relative_to(ROOT)}"] = File(path.read_bytes())
    if (RELEASED / PAGE).is_file():
        found[f"{SHARE}/{PAGE}"] = File(released(PAGE))
    if provenance:
        found[f"{SHARE}/{PROVENANCE}"] = File(provenance.encode())
    return dict(sorted(found.items()))


def module_path(top):
    """The file by which Python finds the module below a prefix, by its path there: if Python looks for modules below that prefix."""
    for folder in [site.getusersitepackages()] * bool(site.ENABLE_USER_SITE) + site.getsitepackages():
        path = pathlib.Path(folder, "wfcheck.pth")
        if top in path.parents and is_mine(str(path.relative_to(top))):
            return {str(path.relative_to(top)): File(f"{top / SHARE / 'python'}\n".encode())}
    return {}


def called(main):
    """Runs what a script does, and returns its status: 2 for a mistake, which is told in a line."""
    try:
        return main() or 0
    except Mistake as mistake:
        print(f"{pathlib.Path(sys.argv[0]).name}: {mistake}", file=sys.stderr)
        return 2
