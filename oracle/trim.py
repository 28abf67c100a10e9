#!/usr/bin/env python3
"""trim.py TASK REPORT: the report of none with the lines that are needed, of the lines that it has.

It goes backwards through the lines, as proof checkers trim clausal proofs. It takes the report as it is, and nobody has proved it:
`wfcheck verify` and `second_opinion.py` say of either report whether it holds."""
import signal
import sys

from reports import Unreadable, read
from second_opinion import Complex, given, judge


class Block:
    """Lines that refute a box: those that take values, and then what ends it, with a block for each case of a branching."""

    def __init__(self, supposed):
        # what its case supposes away; of each line its text, point, value, place in all, and the tuples that would have the value
        self.supposed, self.lines, self.end, self.point, self.cases, self.left = supposed, [], "", None, [], []


class Trimmer:
    def __init__(self, task, report):
        self.made = Complex(task, report.header["rounds"])
        # when each value of a point went, and the blocks that are open, the innermost last
        self.gone, self.open, self.clock = {}, [Block([])], 0
        self.waiting = []
        self.whole = self.open[0]
        for _, (kind, *numbers) in report.steps:
            {"p": self.take, "z": self.close, "b": self.split}[kind](*numbers)

    def take(self, execution, process, value):
        processes, points, allowed = self.made.executions[execution]
        place = processes.index(process)
        rows = [tuple(zip(points, row)) for row in sorted(allowed) if row[place] == value]
        point, self.clock = points[place], self.clock + 1
        if (point, value) in self.gone:
            return
        reasons = [[it for it in row if it in self.gone] for row in rows]
        self.open[-1].lines.append((f"p {execution} {process} {value}", (point, value), reasons))
        self.gone[point, value] = self.clock

    def split(self, point):
        block = self.open[-1]
        block.end, block.point = f"b {point}", point
        block.left = [value for value in sorted(self.made.values) if (point, value) not in self.gone]
        self.waiting.append(list(reversed(block.left)))
        self.begin()

    def begin(self):
        """The next case of the innermost branching."""
        block = self.open[-1]
        value = self.waiting[-1].pop()
        self.clock += 1
        supposed = [(block.point, other) for other in block.left if other != value]
        self.gone.update((it, self.clock) for it in supposed)
        block.cases.append(Block(supposed))
        self.open.append(block.cases[-1])

    def close(self, point):
        """The innermost block ends, and so does each block around it whose cases are all there."""
        self.open[-1].end, self.open[-1].point = f"z {point}", point
        while self.open:
            block = self.open.pop()
            self.finish(block)
            for it in [entry for _, entry, _ in block.lines] + block.supposed:
                del self.gone[it]
            if self.open and self.waiting[-1]:
                return self.begin()
            if self.open:
                self.waiting.pop()

    def finish(self, block):
        """What a block needs, and its text: its own lines backwards, below what its end or its cases need."""
        block.text, block.needs = [block.end], {(block.point, value) for value in self.made.values if (block.point, value) in self.gone}
        if block.cases:
            enough = next((case for case in block.cases if not case.needs.intersection(case.supposed)), None)
            if enough:
                block.text, block.needs = enough.text, enough.needs
            else:
                block.text = block.text + [line for case in block.cases for line in case.text]
                block.needs = block.needs.union(*(case.needs.difference(case.supposed) for case in block.cases))
        kept = []
        for line, entry, reasons in reversed(block.lines):
            if entry in block.needs:
                block.needs.remove(entry)
                kept.append(line)
                for row in sorted(reasons, key=len):
                    if not block.needs.intersection(row):
                        block.needs.add(min(row, key=self.gone.get))
        block.text, block.cases = kept[::-1] + block.text, []


def text_of(task, text):
    report = read(text)
    if report.answer != "none":
        return text
    if not report.steps:
        raise Unreadable("it has no lines")
    front = text.split("\n")[:6]
    return "\n".join([*front, *Trimmer(task, report).whole.text, "end\n"])


def main():
    task, text = given("trim.py", __doc__)
    try:
        sys.stdout.write(text_of(task, text))
    except (Unreadable, AttributeError, KeyError, IndexError, ValueError) as fault:
        sys.exit(f"the report can't be trimmed: {judge(task, text)[1] or fault}")


if __name__ == "__main__":
    signal.signal(signal.SIGPIPE, signal.SIG_DFL)
    main()
