"""The sources of the module: documents, type hints, lengths, and what the page about it names. Needs no program."""
import ast
import importlib
import inspect
import pathlib
import pkgutil
import re
import shutil
import subprocess
import typing
import unittest

from .support import PYTHON, Case, wfcheck

README = PYTHON / "README.md"
SOURCES = sorted((PYTHON / "wfcheck").rglob("*.py"))
LONGEST, OLDEST = 40, (3, 9)
# what runs as soon as it is imported
RUNS = {"wfcheck.__main__"}
# what the page about the module need not name
OTHERS = {"Answer", "Branching", "Closed", "Multiplier", "Node", "Step", "Taken", "View"}


def modules():
    """The modules of the package."""
    names = [it.name for it in pkgutil.walk_packages(wfcheck.__path__, "wfcheck.")]
    return [wfcheck, *(importlib.import_module(it) for it in names if it not in RUNS)]


class Sources(Case):
    """All is told and hinted, no function is long, and nothing needs a later Python than the oldest."""

    def functions(self, file):
        """The functions and classes of a source, and the whole of it."""
        source = ast.parse(file.read_text(), feature_version=OLDEST)
        return source, [it for it in ast.walk(source) if isinstance(it, (ast.FunctionDef, ast.ClassDef))]

    def test_documents(self):
        for file in SOURCES:
            source, found = self.functions(file)
            told = [source, *(it for it in found if not it.name.startswith("__"))]
            self.assertEqual([getattr(it, "name", "the module") for it in told if not ast.get_docstring(it)], [], file)

    def test_hints_and_lengths(self):
        for file in SOURCES:
            for it in self.functions(file)[1]:
                if isinstance(it, ast.ClassDef):
                    continue
                with self.subTest(file=file.name, function=it.name):
                    hinted = [each.annotation for each in [*it.args.args, *it.args.kwonlyargs] if each.arg != "self"]
                    self.assertFalse(None in hinted or it.returns is None, "a hint is missing")
                    self.assertLessEqual(it.end_lineno - it.lineno + 1, LONGEST)
                    parts = [type(part) for hint in [*hinted, it.returns] if hint is not None for part in ast.walk(hint)]
                    self.assertNotIn(ast.BitOr, parts)

    def test_hints_name_what_is_there(self):
        names = {"Answer": importlib.import_module("wfcheck.asking.questions").Answer}
        for module in modules():
            for _, it in inspect.getmembers(module, lambda it: inspect.isfunction(it) or inspect.isclass(it)):
                for function in [it, *(vars(it).values() if inspect.isclass(it) else [])]:
                    if inspect.isfunction(function) and function.__module__.startswith("wfcheck"):
                        typing.get_type_hints(function, localns=names if function.__module__.endswith("notes") else None)

    @unittest.skipUnless(shutil.which("mypy"), "there is no mypy")
    def test_mypy(self):
        words = ["mypy", "--strict", "--cache-dir", str(self.folder), str(PYTHON / "wfcheck")]
        run = subprocess.run(words, capture_output=True, text=True, cwd=pathlib.Path("/"), check=False)
        self.assertEqual((run.returncode, run.stdout.split(":")[0]), (0, "Success"), run.stdout)

    def test_what_is_offered_is_told(self):
        """The document names each call and each error that the module offers, and each kind of answer."""
        text = README.read_text()
        self.assertEqual([it for it in wfcheck.__all__ if it not in OTHERS and not re.search(rf"`{it}\b", text)], [])
        self.assertEqual([it for it in wfcheck.__all__ if not hasattr(wfcheck, it)], [])
