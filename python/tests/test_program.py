"""Where the program is looked for, and what is said if it is not there. The programs of these tests are scripts of a line."""
import hashlib
import shutil

from .support import PYTHON, Case

ASKED = "import wfcheck.running as it\ntry:\n    print(it.program())\nexcept it.NoProgram as why:\n    print('no:', why)"
IS_IT = "#!/bin/sh\necho wfcheck 0.0.0\n"


class Places(Case):
    """A copy of the module, with programs around it."""

    def setUp(self):
        super().setUp()
        self.top = self.folder / "top"
        self.copy = shutil.copytree(PYTHON, self.top / "python", ignore=shutil.ignore_patterns("__pycache__", "tests"))

    def place(self, name, text=IS_IT):
        """Puts a program somewhere."""
        path = self.folder / name
        path.parent.mkdir(parents=True, exist_ok=True)
        path.write_text(text)
        path.chmod(0o755)
        return path

    def found(self, named=""):
        """What is found, with a folder `path` as the path."""
        return self.python("-c", ASKED, PYTHONPATH=str(self.copy), PATH=str(self.folder / "path"), WFCHECK=str(named))[1].strip()

    def release(self, text=IS_IT):
        """Puts a released program beside the module, with what PROVENANCE says of the text."""
        path = self.place("top/release/wfcheck")
        path.with_name("PROVENANCE").write_text(f"{hashlib.sha256(text.encode()).hexdigest()}  wfcheck\n")
        return path

    def test_in_their_order(self):
        named, built, released, last = self.place("named"), self.place("top/bin/wfcheck"), self.release(), self.place("path/wfcheck")
        self.assertEqual(self.found(named), str(named))
        self.assertEqual(self.found(), str(built))
        built.unlink()
        told = f"wfcheck: there is no bin/wfcheck, so the released program is run: {released}"
        self.assertEqual(sorted(self.found().split("\n")), sorted([str(released), told]))
        released.unlink()
        self.assertEqual(self.found(), str(last))

    def test_beside_an_installation(self):
        """The module is in PREFIX/share/wfcheck, and the program in PREFIX/bin."""
        self.copy = shutil.move(self.copy, self.folder / "prefix/share/wfcheck/python")
        built = self.place("prefix/bin/wfcheck")
        self.assertEqual(self.found(), str(built))

    def test_nowhere(self):
        self.assertRegex(self.found(), r"^no: there is no program wfcheck: set WFCHECK to the file of the program, put wfcheck on the path, or ")

    def test_a_variable_that_names_no_program(self):
        self.place("bin/wfcheck")
        self.assertRegex(self.found("nowhere"), "^no: the variable WFCHECK names nowhere, which is no file: set WFCHECK")
        self.assertRegex(self.found(self.folder), "which is no file: ")
        other = self.place("other", "#!/bin/sh\necho another\n")
        self.assertEqual(self.found(other), f"no: the variable WFCHECK names {other}, which is another program: its --version does not "
                                            "begin with 'wfcheck'")
        other.chmod(0o644)
        self.assertRegex(self.found(other), "which can't be run .*Permission denied")

    def test_a_released_program_that_was_changed(self):
        self.release(IS_IT + "\n")
        self.assertRegex(self.found(), "^no: release/wfcheck is not the file that release/PROVENANCE names, and is not run")
        (self.top / "release/PROVENANCE").unlink()
        self.assertRegex(self.found(), "^no: release/wfcheck can't be taken .*No such file")
