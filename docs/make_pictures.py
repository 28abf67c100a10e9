#!/usr/bin/env python3
"""Makes the pictures of docs/pictures by the commands that its page shows.

    docs/make_pictures.py [--program FILE]

The commands run one after another in one shell, which finds the installed commands that they name (DOORS), and vote.py, as README.md has it.
`checks/pictures` compares the files with what is made today."""
import os
import pathlib
import re
import subprocess
import sys
import tempfile

sys.path.insert(0, str(pathlib.Path(__file__).resolve().parent.parent / "checks"))
import common  # noqa: E402

FOLDER = common.ROOT / "docs/pictures"
COMMAND = re.compile(r"^\$ (.+)$", re.M)
SCRIPT = re.compile(r"`vote\.py`:\n\n```python\n(.*?)^```$", re.M | re.S)
DOORS = ["draw", "task"]


def commands():
    """The commands of the page, in their order."""
    return COMMAND.findall((FOLDER / "README.md").read_text())


def made():
    """Each file that the commands write for the page, with its text. A command that says something on standard error ends the script."""
    with tempfile.TemporaryDirectory() as room:
        top = pathlib.Path(room)
        (top / "bin").mkdir()
        (top / "bin/wfcheck").symlink_to(common.program())
        for door in DOORS:
            command = top / f"bin/wfcheck-{door}"
            command.write_text(f'#!/bin/sh\nexec "{sys.executable}" -m wfcheck {door} "$@"\n')
            command.chmod(0o755)
        (top / "vote.py").write_text(SCRIPT.search((common.ROOT / "README.md").read_text())[1])
        own = {"PATH": f"{top / 'bin'}:{os.environ['PATH']}", "PYTHONPATH": str(common.ROOT / "python"), "WFCHECK": str(common.program())}
        env = {**os.environ, **own, "PYTHONDONTWRITEBYTECODE": "1"}
        run = subprocess.run(["sh", "-c", "\n".join(commands())], cwd=top, env=env, capture_output=True, text=True)
        if run.stderr:
            raise SystemExit(f"the commands of docs/pictures/README.md say: {run.stderr.strip()}")
        return {FOLDER / it.name: it.read_text() for it in sorted(top.glob("*.svg"))}


def main():
    common.Script(__doc__).runs_program().asked()
    common.write(made())


if __name__ == "__main__":
    main()
