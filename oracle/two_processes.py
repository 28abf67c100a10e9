#!/usr/bin/env python3
"""two_processes.py TASK: whether a task of two processes has a decision map after any number of rounds, and after how many at least.

After r rounds the executions on an input edge form a path of 3^r edges, and the solo executions are its ends. A decision map is a walk
of that length in the graph of the tuples that the edge allows, between the solo values of both ends. A walk may go back and forth, so a
shorter one will do. Hence the choice of solo values is all there is to decide: the least r is the least, over these choices, with
which on each edge the shortest walk has at most 3^r edges. If no choice joins the ends of each edge, there is no map after any number
of rounds. A shortest walk has at most 2V - 1 edges if each process has at most V values: five rounds are enough for 64 values, six
for 256. In a symmetric task vertices with the same input decide alike.

It shares nothing with the program. It writes `never`, or `from R`, and ends with status 0; status 2 is a task that it doesn't take:
one with another number of processes, or with a first block above 1."""
import argparse
import collections
import sys

sys.dont_write_bytecode = True
import task_file  # noqa: E402

NEVER = None


def least_rounds(task):
    """The least number of rounds with a decision map, or NEVER."""
    rules = [(tuple(map(tuple, entry["in"])), {tuple(it) for it in entry["out"]}) for entry in task["delta"]]
    choices, edges = {}, collections.defaultdict(set)
    for simplex, tuples in rules:
        if len(simplex) == 1:
            vertex = place_of(task, simplex[0])
            choices[vertex] = choices.get(vertex, {it for it, in tuples}) & {it for it, in tuples}
    for simplex, tuples in rules:
        if len(simplex) == 2:
            edges[tuple(place_of(task, it) for it in simplex)].add(frozenset(tuples))
    walks = [(ends, rounds_by_ends(kept)) for ends, alike in edges.items() for kept in alike]
    if not all(choices.values()):
        return NEVER
    every = sorted({rounds for _, by_ends in walks for rounds in by_ends.values()} | {0})
    return next((rounds for rounds in every if has_choice(choices, walks, rounds)), NEVER)


def place_of(task, vertex):
    """The point of a process that runs alone: in a symmetric task the same for each process with this input."""
    return vertex[1] if task["symmetric"] else vertex


def rounds_by_ends(tuples):
    """For each pair of values that a walk along these tuples joins, how many rounds make room for the shortest one."""
    near = collections.defaultdict(set)
    for one, other in tuples:
        near[0, one].add((1, other))
        near[1, other].add((0, one))
    found = {}
    for start in [it for it in near if it[0] == 0]:
        steps, front = {start: 0}, [start]
        for at in front:
            for after in near[at] - steps.keys():
                steps[after] = steps[at] + 1
                front.append(after)
        found.update({(start[1], end): rounds_for(many) for (side, end), many in steps.items() if side == 1})
    return found


def rounds_for(edges):
    """The least r with 3^r at least this number of edges."""
    rounds = 0
    while 3 ** rounds < edges:
        rounds += 1
    return rounds


def has_choice(choices, walks, rounds):
    """Whether solo values can be chosen such that on each edge they are joined within these rounds."""
    joined = [(ends, {pair for pair, needs in by_ends.items() if needs <= rounds}) for ends, by_ends in walks]
    kept = {vertex: set(values) for vertex, values in choices.items()}
    return bool(narrowed(kept, joined)) and extends(kept, joined)


def extends(kept, joined):
    """Whether one of the values that are left at each vertex can be chosen."""
    vertex = next((it for it in sorted(kept) if len(kept[it]) > 1), None)
    if vertex is None:
        return True
    tried = ({**{at: set(values) for at, values in kept.items()}, vertex: {value}} for value in sorted(kept[vertex]))
    return any(narrowed(one, joined) and extends(one, joined) for one in tried)


def narrowed(kept, joined):
    """Removes values that an edge joins with nothing, until nothing changes. Whether each vertex has one left."""
    changes = True
    while changes:
        changes = False
        for (one, other), pairs in joined:
            left = {(a, b) for a, b in pairs if a in kept[one] and b in kept[other] and (one != other or a == b)}
            for vertex, values in ((one, {a for a, _ in left}), (other, {b for _, b in left})):
                if kept[vertex] - values:
                    kept[vertex] &= values
                    changes = True
    return all(kept.values())


def answer(text):
    """What is answered to the bytes of a task file. Raises task_file.Refused."""
    task = task_file.read(text)[0]
    if task["processes"] != 2 or task.get("first_block", 1) > 1:
        raise task_file.Refused("", "it has another number of processes than two, or a first block")
    rounds = least_rounds(task)
    return "never" if rounds is NEVER else f"from {rounds}"


def main():
    words = argparse.ArgumentParser(description=__doc__, formatter_class=argparse.RawDescriptionHelpFormatter, usage="two_processes.py TASK")
    words.add_argument("task")
    asked = words.parse_args()
    try:
        with open(asked.task, "rb") as file:
            print(answer(file.read(task_file.LONGEST + 1)))
    except OSError as error:
        words.error(str(error))
    except task_file.Refused as refused:
        words.error(f"the task is refused{', ' * bool(refused.line)}{refused.line}: {refused.words}")
    return 0


if __name__ == "__main__":
    sys.exit(main())
