"""What `wfcheck` tells of a refusal, byte for byte: its line and the notes below it, as crates/wf_cli/specs/Service/Notes.antt has them.

It shares nothing with the program. Beside words that are not taken it is the usual line, by crates/wf_cli_args/specs/Usage.antt."""
import re

LINT = "`wfcheck-lint FILE` (in the repository tools/lint.py) says in words why a file is no task"
INSTALLED = "is a command of its own, which `make install` installs"
TASK = "the task is read from standard input, as in"
# of a refusal whose line is all of the pattern
NOTES = [
    (r"2 NotJson", f"a task file is JSON text; {LINT}"),
    (r"3 Shape version \d+", f'a task file has the key "version", which is 1 or 2; {LINT}'),
    (r"3 Shape .*|4 Version|7 Colours|(9|10|11|12|13) .*|14 NoInput|18 FirstBlock", LINT),
    (r"5 Processes", "a task has 1 to 4 processes"),
    (r"16 Rounds", "the number of rounds is 0 to 8"),
    (r"17 TooManyExecutions", "after so many rounds the task has more than 500000 executions"),
    (r"20 Syntax 1", "standard input has no report; a task goes behind --task, a solver's proof to `wfcheck proof` or "
     "`wfverify --proof`, an obstruction to verify or explain"),
    (r"21 Header \d+", "the number in this line is not that of the task: the text may be about another task or other rounds"),
    (r"23 Violates \d+", "the map breaks the task's rule in this execution: the report may be about another task"),
    (r"28 Unfinished", "the lines of the report end too soon; `wfcheck solve --verdict` leaves them out"),
    (r"36 OtherRounds", "the third line of a report tells its rounds, and a map is lifted to as many rounds or more"),
    (r"37 NoModel \d+", "the text has no model; `wfcheck proof` checks a solver's proof that there is none"),
    (r"44 NoBranch \d+", "branches are numbered from 0, and `wfcheck branches` lists them"),
]
# a solver's model and its proof may be refused by the same numbers
MODEL = re.compile(r"(38|39) .*")
MODEL_NOTE = "a model is what a SAT solver prints of the question that `wfcheck cnf` writes for the same task and rounds"
PROOF = re.compile(r"(38|39|40|41|61|62|63|64) .*")
PROOF_NOTE = "a proof is about what `wfcheck cnf` writes for the same task, rounds and branch; --lrat is for proofs with hints alone"
FILE_NOTE = "this is about the file that --task names"


def from_file(text):
    return f"the {text} read from standard input and the task from its file, as in"


# what is said beside words that are not taken, by the first of them
USUAL = {
    "solve": f"{TASK} `wfcheck solve --rounds 1 --workers 1 < FILE`; `wfcheck-ask FILE 1` asks SAT solvers too",
    "verify": f"{from_file('report is')} `wfcheck verify --task FILE < REPORT`",
    "views": f"{TASK} `wfcheck views --rounds 1 < FILE`",
    "points": f"{TASK} `wfcheck points --rounds 1 < FILE`",
    "branches": f"{TASK} `wfcheck branches --rounds 1 < FILE`",
    "join": f"{from_file('parts are')} `wfcheck join --task FILE --rounds 1 < PARTS`",
    "cnf": f"{TASK} `wfcheck cnf --rounds 1 < FILE`",
    "model": f"{from_file('model is')} `wfcheck model --task FILE --rounds 1 < MODEL`",
    "proof": f"{from_file('proof is')} `wfcheck proof --task FILE --rounds 1 < PROOF`",
    "trim": f"{from_file('report is')} `wfcheck trim --task FILE < REPORT`",
    "explain": f"{from_file('report is')} `wfcheck explain --task FILE < REPORT`",
    "lift": f"{from_file('report is')} `wfcheck lift --task FILE < REPORT`",
    "executions": f"{TASK} `wfcheck executions --rounds 1 < FILE`",
    "obstruction": f"{TASK} `wfcheck obstruction < FILE`",
    "preset": "nothing is read, as in `wfcheck preset renaming --processes 3 --names 5 > FILE`",
    "ask": f"`wfcheck-ask FILE ROUNDS` {INSTALLED}; in the repository it is tools/ask",
    "lint": f"`wfcheck-lint FILE` {INSTALLED}; in the repository it is tools/lint.py",
    "task": f"`wfcheck-task NAME` {INSTALLED}; in the repository it is tools/tasks.py",
    "draw": f"`wfcheck-draw` {INSTALLED}",
    "names": f"`wfcheck-names` {INSTALLED}",
    "rules": f"`wfcheck-rules` {INSTALLED}",
}
FIRST_WORD = "the first word is a command, as in `wfcheck solve --rounds 1 --workers 1 < FILE`"
CHECKER = "the certificate is read from standard input and the task from its file, as in `wfverify --task FILE < CERTIFICATE`"


def told(refusal, is_filed=False, is_proof=False):
    """The text that tells a refusal, by its line without the program's name: whether the task is in a file, and whether a proof is read."""
    notes = [FILE_NOTE] * (is_filed and refusal == "2 NotJson")
    notes += next(([note] for line, note in NOTES if re.fullmatch(line, refusal)), [])
    notes += [PROOF_NOTE] * (is_proof and PROOF.fullmatch(refusal) is not None)
    notes += [MODEL_NOTE] * (not is_proof and MODEL.fullmatch(refusal) is not None)
    return f"wfcheck: {refusal}\n" + "".join(f"  note: {note}\n" for note in notes)


def beside(words):
    """What `wfcheck` says beside words that it does not take."""
    return USUAL.get(words[0] if words else "", FIRST_WORD)
