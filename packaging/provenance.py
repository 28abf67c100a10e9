"""Where programs come from: the commit and its sources, the toolchain, the gate that passed over them, and the SHA-256 of the programs.

`checks/build` and `checks/gate` note beside a program from which sources they built it, and `checks/gate` what came of it. What was not
noted is not said here."""
import hashlib
import os
import pathlib
import re
import shutil
import subprocess
import sys
import tempfile

import layout

sys.path.insert(1, str(layout.ROOT / "checks"))
import crates  # noqa: E402

# the C library that a program needs, as it names it itself
NEEDS = re.compile(rb"GLIBC_(\d+)\.(\d+)")
FIELD = re.compile(r"^(\w[\w ]*?)  +(\S.*)$", re.M)
STRIP = ["strip", "--strip-all"]
HEAD = """Where {names} come from. `sha256sum --check PROVENANCE`, beside them, compares them with the last lines.

"""
AGAIN = """
These commands build them again from the same sources:

    git checkout {commit}
    make build
    make verifier
    {strip} bin/wfcheck bin/wfverify
{more}
"""
# how the module and the page are made
MORE = f"    make wasm\n    make page MODULE=bin/{layout.MODULE}\n"


def git(*words):
    """What git says at the top of the repository, or None where it says nothing."""
    try:
        run = subprocess.run(["git", "-C", str(layout.ROOT), *words], capture_output=True, text=True, check=False)
    except OSError:
        return None
    return run.stdout.strip() if run.returncode == 0 else None


def field(text, name):
    """What a text of this module says under a name, or None."""
    return {key: said for key, said in FIELD.findall(text)}.get(name)


def stripped(data):
    """A program without what is of use for a debugger alone."""
    with tempfile.TemporaryDirectory() as folder:
        file = pathlib.Path(folder) / "program"
        file.write_bytes(data)
        layout.ran([*STRIP, file])
        return file.read_bytes()


def needs(binaries):
    """The C library that programs need, in words."""
    found = [tuple(map(int, it)) for data in binaries.values() for it in NEEDS.findall(data)]
    return "GLIBC {}.{} or later".format(*max(found)) if found else "none"


def gate(sources):
    """What the gate said that passed over these sources, or that none has."""
    noted = layout.BUILT / crates.GATE
    if noted.is_file() and field(noted.read_text(), "sources") == sources:
        return field(noted.read_text(), "gate")
    return "no whole gate has passed over these sources"


def told(binaries, commit, sources, others):
    """The text of PROVENANCE for programs that were built from the sources of a commit, and for the other files that stand beside them."""
    fields = {
        "version": layout.version(), "commit": commit, "sources": sources, "kit": layout.ran(["rt", "version"]).strip(),
        "gate": gate(sources), "stripped by": f"{' '.join(STRIP)}, {layout.ran(['strip', '--version']).split(chr(10))[0]}",
        "C library": needs(binaries),
    }
    lines = "".join(f"{name:<13}{said}\n" for name, said in fields.items())
    # the programs come last: where they alone are handed out, their lines are the last two
    shas = "".join(f"{layout.digest(data)}  {name}\n" for name, data in [*others.items(), *binaries.items()])
    names = [*binaries, *others]
    head = HEAD.format(names=f"{', '.join(names[:-1])} and {names[-1]}")
    return f"{head}{lines}{AGAIN.format(commit=commit, strip=' '.join(STRIP), more=MORE if others else '')}{shas}"


def page_files():
    """The module of bin/, and the page that is made of it. Raises Mistake if the module was not built from these sources."""
    module, noted = layout.BUILT / layout.MODULE, layout.BUILT / f"{layout.MODULE}.sources"
    if not module.is_file() or not noted.is_file() or noted.read_text().strip() != crates.sources():
        raise layout.Mistake(f"bin/{layout.MODULE} was not built from these sources: `make wasm` builds it")
    with tempfile.TemporaryDirectory() as folder:
        page = pathlib.Path(folder) / layout.PAGE
        layout.ran([sys.executable, "-B", layout.ROOT / "packaging/page", "--module", module, "--to", page])
        return {layout.MODULE: module.read_bytes(), layout.PAGE: page.read_bytes()}


def built(named="HEAD", others=None):
    """The stripped programs of bin/, with a PROVENANCE that also names other files. Raises Mistake if the programs are not those of the
    sources of a commit."""
    commit, sources = git("rev-parse", "--verify", f"{named}^{{commit}}"), crates.sources()
    if not commit:
        raise layout.Mistake(f"PROVENANCE names a commit, and {named} is none of this repository")
    if git("status", "--porcelain", "--", *crates.SOURCES):
        raise layout.Mistake(f"{' and '.join(crates.SOURCES)} have changes that no commit has: commit them, and build again")
    if git("diff", "--quiet", commit, "HEAD", "--", *crates.SOURCES) is None:
        raise layout.Mistake(f"{named} has another {' or '.join(crates.SOURCES)} than the head: build it at that commit")
    for name in layout.PROGRAMS:
        noted = layout.BUILT / f"{name}.sources"
        if not (layout.BUILT / name).is_file():
            raise layout.Mistake(f"there is no bin/{name}: `make build verifier` leaves both programs")
        if not noted.is_file() or noted.read_text().strip() != sources:
            raise layout.Mistake(f"bin/{name} was not built from these sources: `make build verifier` builds both programs")
    binaries = {name: stripped(layout.judged(layout.BUILT / name)) for name in layout.PROGRAMS}
    return binaries, told(binaries, commit, sources, others or {})


def released(say):
    """The released programs, with their PROVENANCE."""
    binaries = {name: layout.released(name) for name in layout.PROGRAMS}
    say("the programs are release/wfcheck and release/wfverify, the released ones")
    return binaries, (layout.RELEASED / layout.PROVENANCE).read_text()


def chosen(say=print):
    """The programs that are handed out, with their PROVENANCE: the released ones if these are of this version, else those of bin/, stripped.

    So an archive of a version has the released bytes, whoever makes it. If bin/ has other programs, that is said."""
    file = layout.RELEASED / layout.PROVENANCE
    if file.is_file() and field(file.read_text(), "version") == layout.version():
        binaries, text = released(say)
        for name in layout.PROGRAMS:
            if shutil.which(STRIP[0]) and (layout.BUILT / name).is_file() and stripped((layout.BUILT / name).read_bytes()) != binaries[name]:
                say(f"bin/{name} is another: to hand that out, raise the version and call `make release`")
        return binaries, text
    say("the programs are bin/wfcheck and bin/wfverify, stripped")
    return built()


def why_no_commit():
    """Why git names no commit here, in words."""
    try:
        run = subprocess.run(["git", "-C", str(layout.ROOT), "rev-parse", "HEAD"], capture_output=True, text=True, check=False)
    except OSError:
        return "there is no git on the path"
    return f"git says: {run.stderr.strip().partition(chr(10))[0]}"


def time():
    """The time of all files that are handed out: SOURCE_DATE_EPOCH, or that of the commit."""
    told_time = os.environ.get("SOURCE_DATE_EPOCH") or git("log", "-1", "--format=%ct")
    if not told_time or not told_time.isdigit():
        raise layout.Mistake(f"the files get the time of the commit, and {why_no_commit()}. `make deb dist SOURCE_DATE_EPOCH=$(date +%s)` gives a time")
    return int(told_time)
