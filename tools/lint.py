#!/usr/bin/env python3
"""lint.py [--all] TASK.json: where a task file is refused, in words; or what in it most likely is a slip. `tools/lint.py --help` says more.
It is what `wfcheck-lint` is, with python/ found beside this folder."""
import pathlib
import sys

sys.dont_write_bytecode = True
sys.path.insert(0, str(pathlib.Path(__file__).resolve().parent.parent / "python"))
from wfcheck import linting  # noqa: E402

if __name__ == "__main__":
    sys.exit(linting.main(sys.argv[1:], "lint.py"))
