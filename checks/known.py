"""What is known of the gallery's tasks, as gallery/rows.tsv has it: a line for each number of rounds that was asked, and one for all of them.

The line of a task with the rounds `every` says in which table of gallery/README.md the task stands, what it is, what theory says, what
is proved here, and if it has an obstruction its nodes, the modulus of its balances, and how many multipliers these have."""
import collections
import csv

import common

ROWS = common.ROOT / "gallery/rows.tsv"
COLUMNS = "table task rounds answer points executions lines needed steps time theory proved tree modulus multipliers about"
EVERY = "every"
Line = collections.namedtuple("Line", COLUMNS)
# a number of rounds of a task, and what its `every` line says of it
Row = collections.namedtuple("Row", "name theory proved rounds answer points executions lines needed steps time")
# a task with an obstruction
Never = collections.namedtuple("Never", "name tree modulus multipliers")


def lines():
    """The lines of the file."""
    with open(ROWS, newline="", encoding="utf-8") as file:
        head, *found = csv.reader(file, delimiter="\t", quoting=csv.QUOTE_NONE)
    if head != COLUMNS.split(" ") or any(len(it) != len(head) for it in found):
        raise ValueError(f"{ROWS} is no table with the columns {COLUMNS}")
    return [Line(*it) for it in found]


def rows():
    """What is known of each number of rounds."""
    of_task = {}
    for line in lines():
        if line.rounds == EVERY:
            of_task[line.task] = line
        else:
            whole, numbers = of_task[line.task], line[line._fields.index("answer"):line._fields.index("theory")]
            yield Row(line.task, whole.theory, whole.proved, int(line.rounds), *numbers)


def nevers():
    """The tasks with an obstruction."""
    return [Never(it.task, it.tree, it.modulus, it.multipliers) for it in lines() if it.tree]
