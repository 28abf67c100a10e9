"""Task files, read from their definition: the reader that the Python module has too (python/wfcheck/task_file.py)."""
import pathlib
import sys

sys.path.insert(1, str(pathlib.Path(__file__).resolve().parent.parent / "python"))
from wfcheck.task_file import *  # noqa: E402, F401, F403
