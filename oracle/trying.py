#!/usr/bin/env python3
"""trying.py TASK ROUNDS: whether a task has a decision map, by trying.

Each point gets each value in turn. If an execution of which all points have values decides what is not allowed, the value is not the
point's, and the next is tried. This is for the smallest complexes alone: three processes with two values after one round have 12
points. With a larger one the script may never end. Its last line is `map` or `none`."""
import argparse
import sys

sys.dont_write_bytecode = True
import second_opinion  # noqa: E402
import task_file  # noqa: E402


class Trying:
    """The points and executions of a task, which may be tried with other rules of the same shape."""

    def __init__(self, task, rounds):
        self.made = second_opinion.Complex(task, rounds)
        # the executions by their last point
        self.ending = [[] for _ in range(self.made.points)]
        for (simplex, _), (_, points, _) in zip(self.made.signed, self.made.executions):
            self.ending[max(points)].append((simplex, points))

    def map(self, rules, values):
        """The values of a decision map, with what is allowed at each input simplex; None if there is none."""
        decided, left = [], [iter(values)]
        while left:
            value = next(left[-1], None)
            if value is None:
                left.pop()
                decided = decided[:-1]
                continue
            decided.append(value)
            if any(tuple(decided[v] for v in points) not in rules[simplex] for simplex, points in self.ending[len(decided) - 1]):
                decided.pop()
            elif len(decided) == self.made.points:
                return decided
            else:
                left.append(iter(values))
        return None


def main():
    words = argparse.ArgumentParser(
        description=__doc__, formatter_class=argparse.RawDescriptionHelpFormatter, usage="trying.py TASK ROUNDS")
    words.add_argument("task")
    words.add_argument("rounds", type=int, choices=range(second_opinion.MOST_ROUNDS + 1), metavar="ROUNDS")
    asked = words.parse_args()
    try:
        with open(asked.task, "rb") as file:
            task, rules = task_file.read(file.read())
    except OSError as error:
        words.error(str(error))
    except task_file.Refused as refused:
        words.error(f"the task is refused, {refused.line}: {refused.words}")
    tried = Trying(task, asked.rounds)
    print("map" if tried.map(rules, sorted(tried.made.values)) else "none")


if __name__ == "__main__":
    main()
