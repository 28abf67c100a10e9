"""Where the bytecode of a command is kept: in a cache folder of the user's own, or nowhere."""
import shutil
import sys

from .support import PYTHON, ROOT, Case

LINES = "import sys\nsys.dont_write_bytecode = True\nfrom wfcheck import bytecode\nbytecode.keep()\nfrom wfcheck import linting\nimport colorsys\nprint(linting.__name__)"


class Kept(Case):
    """A copy of the module that nothing was compiled of."""

    def setUp(self):
        super().setUp()
        self.copy = shutil.copytree(PYTHON, self.folder / "python", ignore=shutil.ignore_patterns("__pycache__", "tests"))
        self.cache = self.folder / "cache"
        self.cache.mkdir()

    def run_it(self, **surroundings):
        """A run of a command of the copy, which has to go well, and the files of bytecode that there are then."""
        how = {"PYTHONPATH": str(self.copy), "XDG_CACHE_HOME": str(self.cache), "PYTHONDONTWRITEBYTECODE": "", **surroundings}
        self.assertEqual(self.python("-c", LINES, **how), (0, "wfcheck.linting\n"))
        return sorted(it.name.partition(".")[0] for it in self.folder.rglob("*.pyc") if it.parent.name != "__pycache__")

    def test_below_the_cache_folder(self):
        """The module's own parts alone, and nothing beside the sources but what was imported before."""
        found = self.run_it()
        self.assertIn("linting", found)
        self.assertNotIn("colorsys", found)
        self.assertEqual(oct((self.cache / "wfcheck").stat().st_mode & 0o777), "0o700")
        (first, *_) = [it for it in (self.cache / "wfcheck").rglob("linting.*.pyc")]
        before = first.stat().st_mtime_ns
        self.run_it()
        self.assertEqual(first.stat().st_mtime_ns, before)

    def test_a_source_that_was_changed_is_compiled_anew(self):
        self.run_it()
        file = self.copy / "wfcheck/linting.py"
        file.write_text(file.read_text() + "\nprint('changed')\n")
        status, said = self.python("-c", LINES, PYTHONPATH=str(self.copy), XDG_CACHE_HOME=str(self.cache), PYTHONDONTWRITEBYTECODE="")
        self.assertEqual((status, said), (0, "changed\nwfcheck.linting\n"))

    def test_a_folder_that_others_may_write_into_is_not_used(self):
        (self.cache / "wfcheck").mkdir()
        (self.cache / "wfcheck").chmod(0o777)
        self.assertEqual(self.run_it(), [])
        shutil.rmtree(self.cache / "wfcheck")
        (self.cache / "wfcheck").symlink_to(self.folder)
        self.assertEqual(self.run_it(), [])

    def test_no_folder_and_none_wanted(self):
        self.assertEqual(self.run_it(XDG_CACHE_HOME="", HOME=""), [])
        self.assertEqual(self.run_it(XDG_CACHE_HOME=str(self.folder / "python/backend.py")), [])
        self.assertEqual(self.run_it(PYTHONDONTWRITEBYTECODE="1"), [])

    def test_the_repository_stays_as_it_is(self):
        """tools/ask writes nothing beside its sources."""
        shutil.copytree(ROOT / "tools", self.folder / "tools")
        for name in (self.copy / "wfcheck").rglob("__pycache__"):
            shutil.rmtree(name)
        self.python(self.folder / "tools/ask", "nothing", "1", XDG_CACHE_HOME=str(self.cache), PYTHONDONTWRITEBYTECODE="", PYTHONPATH="")
        self.assertEqual([it for it in self.copy.rglob("__pycache__")], [])
        self.assertIn("words", {it.name.partition(".")[0] for it in self.cache.rglob("*.pyc")})
        self.assertIsNotNone(sys.implementation.cache_tag)
