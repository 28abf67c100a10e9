"""What the tests share: where things are, runs of Python, and which tests need the program."""
import os
import pathlib
import shutil
import subprocess
import sys
import tempfile
import unittest

sys.dont_write_bytecode = True
PYTHON = pathlib.Path(__file__).resolve().parent.parent
ROOT = PYTHON.parent
for folder in (ROOT / "oracle", PYTHON):
    if str(folder) not in sys.path:
        sys.path.insert(0, str(folder))

import wfcheck  # noqa: E402
from wfcheck import running  # noqa: E402

TASKS, ANSWERS = ROOT / "gallery/tasks", ROOT / "gallery/answers"


def has_program():
    """Whether there is a program. The tests name it from then on, so that nothing is told of the released one again and again."""
    try:
        os.environ[running.VARIABLE] = str(running.program())
    except wfcheck.NoProgram:
        return False
    return True


needs_program = unittest.skipUnless(has_program(), "there is no program")


class Case(unittest.TestCase):
    """A test with a folder of its own."""

    def setUp(self):
        self.folder = pathlib.Path(tempfile.mkdtemp()).resolve()
        self.addCleanup(shutil.rmtree, self.folder, ignore_errors=True)

    def python(self, *given, given_text=None, **surroundings):
        """The status and the words of a run of Python in the folder, with the module on the path."""
        env = {**os.environ, "PYTHONPATH": str(PYTHON), "PYTHONDONTWRITEBYTECODE": "1", **surroundings}
        words = [sys.executable, *map(str, given)]
        run = subprocess.run(words, capture_output=True, text=True, cwd=self.folder, env=env, input=given_text, check=False)
        return run.returncode, run.stdout + run.stderr

    def refused(self, number, call, *words, **named):
        """A call is refused by this number."""
        with self.assertRaises(wfcheck.Refused) as caught:
            call(*words, **named)
        self.assertEqual(caught.exception.number, number)
        return caught.exception


def known(task):
    """A task of the gallery."""
    return wfcheck.read(TASKS / f"{task}.json")
