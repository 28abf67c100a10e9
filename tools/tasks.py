#!/usr/bin/env python3
"""Task files of the gallery, each from one predicate: `tools/tasks.py --help` says more. It is what `wfcheck-task` is, but writes into
gallery/tasks, over the files that are there."""
import pathlib
import sys

sys.dont_write_bytecode = True
TOP = pathlib.Path(__file__).resolve().parent.parent
sys.path.insert(0, str(TOP / "python"))
from wfcheck import writing  # noqa: E402

if __name__ == "__main__":
    sys.exit(writing.main(sys.argv[1:], "tasks.py", TOP / "gallery/tasks"))
