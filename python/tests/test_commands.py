"""The commands ask, lint, task and restrict, by the doors that they have."""
import os
import re
import signal
import subprocess
import sys

from .support import PYTHON, ROOT, TASKS, Case, known, needs_program

SECONDS = re.compile(r"\d+\.\d\d s")
DOOR = "import sys\nfrom wfcheck import doors\nsys.argv[0] = 'wfcheck-{0}'\nsys.exit(doors.{0}())"


def into_a_closed_pipe(*words):
    """The status of a script whose output nobody reads, and what it says on standard error."""
    reader, writer = os.pipe()
    os.close(reader)
    with open(writer, "wb") as closed:
        run = subprocess.run([sys.executable, *map(str, words)], stdout=closed, stderr=subprocess.PIPE, env={**os.environ, "PYTHONPATH": str(PYTHON)}, check=False)
    return run.returncode, run.stderr


class WithoutProgram(Case):
    """What needs no program."""

    def test_lint_by_three_doors(self):
        """A file that is fine, one that is refused, and one that isn't there."""
        (self.folder / "broken.json").write_text("{}")
        for file, status in [(TASKS / "consensus-2.json", 0), ("broken.json", 2), ("nowhere.json", 2)]:
            doors = [[ROOT / "tools/lint.py"], ["-m", "wfcheck", "lint"], ["-c", DOOR.format("lint")]]
            ends = [self.python(*door, file) for door in doors]
            self.assertEqual([it[0] for it in ends], [status] * 3)
            self.assertEqual(len({re.sub("^.*: (?=nowhere.json can't be read)", "", it[1]) for it in ends}), 1, ends)

    def test_task_writes_here_and_over_nothing(self):
        door = ["-c", DOOR.format("task")]
        self.assertEqual(self.python(*door, "consensus-2"), (0, "consensus-2.json\n"))
        self.assertEqual((self.folder / "consensus-2.json").read_text(), known("consensus-2").text)
        self.assertEqual(self.python(*door, "consensus-2"), (0, "consensus-2.json\n"))
        (self.folder / "consensus-2.json").write_text("mine")
        self.assertEqual(self.python(*door, "consensus-2"), (2, "wfcheck-task: consensus-2.json is there and says something else: it is left as it is\n"))
        self.assertEqual((self.folder / "consensus-2.json").read_text(), "mine")
        self.assertEqual(self.python(*door, "consensus-2", "--folder", "new/one"), (0, "consensus-2.json\n"))
        self.assertEqual((self.folder / "new/one/consensus-2.json").read_text(), known("consensus-2").text)
        self.assertEqual(self.python(*door, "consensus-2", "--folder", "consensus-2.json/one"), (2, "wfcheck-task: consensus-2.json/one: Not a directory\n"))

    def test_task_lists_all(self):
        status, told = self.python("-m", "wfcheck", "task", "--list")
        self.assertEqual((status, sorted(told.split())), (0, sorted(it.stem for it in TASKS.iterdir())))
        for words in ([], ["nothing"], ["--all", "consensus-2"]):
            self.assertEqual(self.python("-m", "wfcheck", "task", *words)[0], 2)

    def test_task_lists_into_a_closed_pipe(self):
        """As `--list | head` does: the command ends, and tells no traceback."""
        for door in ([ROOT / "tools/tasks.py"], ["-m", "wfcheck", "task"]):
            self.assertEqual(into_a_closed_pipe(*door, "--list"), (-signal.SIGPIPE, b""))

    def test_scripts_write_into_a_closed_pipe(self):
        task = TASKS / "consensus-2.json"
        for words in (["oracle/second_opinion.py", task, ROOT / "gallery/answers/consensus-2.obstruction"], ["oracle/finding.py", task],
                      ["oracle/formula.py", task, 1], ["oracle/independent.py", "executions", task, 1]):
            self.assertEqual(into_a_closed_pipe(ROOT / words[0], *words[1:]), (-signal.SIGPIPE, b""), words)
        self.assertEqual(into_a_closed_pipe("-m", "wfcheck", "--help"), (-signal.SIGPIPE, b""))
        status, said = into_a_closed_pipe(ROOT / "oracle/ask.py", task, 0)
        self.assertEqual((status, said.split(b"\n")[-2]), (3, b"ask.py: BrokenPipeError: [Errno 32] Broken pipe"))

    def test_finding_without_a_modulus(self):
        """The oracle writes an obstruction by the first modulus that has a balance, or says that no modulus has one."""
        for task, modulus in [("consensus-2", 2), ("modulo-4-alone", 4), ("modulo-4", 3), ("modulo-9-symmetric", 2)]:
            file = next(it for it in (TASKS / f"{task}.json", ROOT / f"tests/obstructions/{task}.json") if it.is_file())
            status, text = self.python(ROOT / "oracle/finding.py", file)
            self.assertEqual((status, text.split("\n")[3].split(" ")[:2]), (0, ["balance", str(modulus)]))
            (self.folder / "found").write_text(text)
            self.assertEqual(self.python(ROOT / "oracle/second_opinion.py", file, self.folder / "found")[0], 0)
        self.assertEqual(self.python(ROOT / "oracle/finding.py", TASKS / "renaming-2-names-3.json"), (1, "no obstruction by splits, cases and balances of any modulus\n"))

    def test_words_that_mean_nothing(self):
        status, told = self.python("-m", "wfcheck")
        self.assertEqual((status, told.split(" ")[0]), (2, "usage:"))
        self.assertEqual(self.python("-m", "wfcheck", "--help"), (0, told))

    def test_an_exception_has_a_status_of_its_own(self):
        """By each door of each command: Python's own status would mean an answer or a slip."""
        (self.folder / "json.py").write_text("raise RuntimeError('this module is broken')\n")
        path = f"{self.folder}:{PYTHON}"
        for command in ("lint", "task", "draw", "names", "rules"):
            for door in (["-m", "wfcheck", command], ["-c", DOOR.format(command)]):
                status, said = self.python(*door, "x.json", "y", PYTHONPATH=path)
                self.assertEqual((status, "this module is broken" in said, "Traceback" in said), (3, True, False), (door, said))

    def test_an_exception_is_no_answer(self):
        (self.folder / "tempfile.py").write_text("raise RuntimeError('this module is broken')\n")
        status, said = self.python("-m", "wfcheck", "ask", "consensus-2", "1", PYTHONPATH=f"{self.folder}:{ROOT / 'python'}")
        self.assertEqual((status, "this module is broken" in said, "Traceback" in said), (3, True, False))


@needs_program
class Asking(Case):
    """What asks the program."""

    def test_ask_by_both_doors(self):
        """Both say the same and have the same status, but for seconds and the command in the script of an array."""
        given = [["consensus-2", "1"], ["renaming-3-names-5", "0..2", "--solver", "search"], ["--help"], ["nothing", "1"],
                 ["set-agreement-3-2", "9", "--no-obstruction"]]
        for it in given:
            one, other = self.python(ROOT / "tools/ask", *it), self.python("-m", "wfcheck", "ask", *it)
            self.assertEqual((other[0], SECONDS.sub("", other[1])), (one[0], SECONDS.sub("", one[1])), it)

    def test_ask_as_it_is_installed(self):
        status, told = self.python("-c", DOOR.format("ask"), "consensus-2", "1")
        self.assertEqual((status, told.rstrip().split("\n")[-1]), (1, "consensus-2: never, by 1 balance modulo 2"))
        self.assertRegex(self.python("-c", DOOR.format("ask"), "--help")[1], "^usage: wfcheck-ask TASK .. ROUNDS")

    def test_a_job_asks_by_the_same_door(self):
        question = ["set-agreement-3-2", "1", "--no-obstruction", "--solver", "search", "--keep", self.folder / "keep"]
        status, said = self.python("-m", "wfcheck", "ask", *question, "--array", "slurm", "--jobs", "4")
        self.assertEqual(status, 0)
        (self.folder / "job.sh").write_text(said)
        env = {**os.environ, "SLURM_ARRAY_TASK_ID": "1"}
        run = subprocess.run(["sh", self.folder / "job.sh"], capture_output=True, text=True, cwd=self.folder, env=env, check=False)
        self.assertEqual((run.returncode, "none in 16 of the 16 branches" in run.stdout), (0, True))


class Words(Case):
    """The words of `ask`."""

    def test_words_without_options_need_no_parser(self):
        """They come to the same with a parser, and an option comes to what it says."""
        from wfcheck.asking.asked import Words as Asked
        from wfcheck.asking.asked import parsed
        from wfcheck.asking.parsing import parser
        plain, there = parsed(["a", "b", "0..3"], "ask")[1], Asked()
        parser("ask").parse_intermixed_args(["a", "b", "0..3"], there)
        *there.tasks, there.rounds = there.given
        self.assertEqual({**vars(plain), "hint": [*plain.hint]}, vars(there))
        some = parsed(["a", "--hint", "x", "0..3", "--seconds", "2", "--hint", "y", "--show"], "ask")[1]
        self.assertEqual((some.tasks, some.rounds, [*map(str, some.hint)], some.seconds, some.show), (["a"], "0..3", ["x", "y"], 2.0, True))
