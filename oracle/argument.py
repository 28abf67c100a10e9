#!/usr/bin/env python3
"""argument.py TASK REPORT: a report of none as an argument that a person can read, as `wfcheck explain` writes it. REPORT may also
be the text of an obstruction.

It is written from the definitions in crates/wf_report_explain/specs/Argument, crates/wf_report_explain/specs/Words and crates/wf_tree_explain/specs,
and shares no code with the program. It takes the report as it is: `second_opinion.py` says whether it holds."""
import collections
import itertools
import signal
import sys

from reports import Unreadable, read
from second_opinion import faces, given, judge, point_of, seen_after, simplex_of, words_of

DEEPEST, MOST_TOLD = 12, 8
LEAST_RANGE, MOST_ITEMS, MOST_LEFT = 5, 8, 4
OBSTRUCTION, MOST_TUPLES = "wfcheck obstruction 1\n", 24
PROCESSES = {1: "one process", 2: "two processes", 3: "three processes", 4: "four processes"}


def listed(texts, between, last):
    """The texts in one, the last after a separator of its own."""
    return texts[0] if len(texts) == 1 else between.join(texts[:-1]) + last + texts[-1]


def any_of(texts):
    return listed(texts, ", ", " or ")


def row(texts):
    return "(" + ", ".join(texts) + ")"


def counted(n, noun):
    return f"{n} {noun}" if n == 1 else f"{n} {noun}s"


def items_of(values):
    """What a list of values tells one by one: runs of at least five values, each one more than the one before, and single values."""
    runs = []
    for value in values:
        if runs and value == runs[-1][-1] + 1:
            runs[-1].append(value)
        else:
            runs.append([value])
    return [item for run in runs for item in ([run] if len(run) >= LEAST_RANGE else [[value] for value in run])]


def values_text(values):
    """Eight items at most, and the number of the values behind them."""
    items = items_of(values)
    told = [str(item[0]) if len(item) == 1 else f"{item[0]} to {item[-1]}" for item in items[:MOST_ITEMS]]
    more = sum(map(len, items[MOST_ITEMS:]))
    return f"{', '.join(told)} and {more} more" if more else any_of(told)


def view_text(view, mark):
    process, rest = view
    if isinstance(rest, int):
        return f"{mark}{process}={rest}"
    return f"{mark}{process} saw {{{', '.join(view_text(v, mark) for v in rest)}}}"


def losses_text(losses):
    """Values that a point lost, ascending, each with the step that took it. Those that follow each other and went by one step, or in
    this case, are told together."""
    told = []
    for step, group in itertools.groupby(losses, lambda loss: loss[1]):
        values = values_text([value for value, _ in group])
        told.append(f"{values} in this case" if step is None else f"{values} [{step}]")
    return ", ".join(told)


def words_text(simplex, words, symmetric):
    """The ordered partitions of those who take part, one a round. They stand with their inputs in the first round, or in one block
    before it. In a symmetric task they go by their ranks among those who take part."""
    plain = [f"#{rank}" if symmetric else f"p{process}" for rank, (process, _) in enumerate(simplex)]
    inputs = [f"{name}={value}" for name, (_, value) in zip(plain, simplex)]
    rounds = [inputs, *[plain] * len(words[1:])]
    return " ; ".join(
        "".join("{" + " ".join(name for name, b in zip(names, word) if b == block) + "}" for block in range(max(word) + 1))
        for names, word in zip(rounds, words or [[0] * len(simplex)]))


class Complex:
    def __init__(self, task, rounds):
        self.symmetric = task["symmetric"]
        self.inputs = sorted({f for s in task["inputs"] for f in faces(simplex_of(s))}, key=lambda s: (len(s), s))
        allowed = {simplex_of(e["in"]): sorted({tuple(t) for t in e["out"]}) for e in task["delta"]}
        self.numbers, self.executions = {}, []
        for simplex in self.inputs:
            for words in itertools.product(words_of(task, simplex), repeat=rounds):
                views = list(simplex)
                for word in words:
                    views = seen_after(views, word)
                points = [self.numbers.setdefault(point_of(v, task["symmetric"]), len(self.numbers)) for v in views]
                self.executions.append((simplex, points, allowed[simplex], words))
        self.values = sorted({v for s in task["outputs"] for _, v in s})


class Argument:
    """The losses of each point, with the step that took them or None for a supposition; and the cases that are still to come, the
    next one last."""

    def __init__(self, made):
        self.made, self.step, self.depth, self.lost, self.later, self.lines = made, 1, 0, {}, [], []

    def say(self, text):
        self.lines.append("  " * (1 + min(self.depth, DEEPEST)) + text)

    def left(self, point):
        return [value for value in self.made.values if (point, value) not in self.lost]

    def take(self, execution, process, values):
        """Takes values from a process in turn. A step ends before a value for which it would have to cite itself."""
        simplex, points, allowed, _ = self.made.executions[execution]
        place = [p for p, _ in simplex].index(process)
        taken, needed, reasons = [], [], set()
        for value in values:
            tuples = [it for it in allowed if it[place] == value]
            gone = [[pair for pair in zip(points, it) if pair in self.lost] for it in tuples]
            why = {pairs[0] for pairs in gone if pairs}
            if taken and any(self.lost[pair] == self.step for pair in why):
                self.tell(execution, place, taken, needed, reasons)
                taken, needed, reasons = [], [], set()
            taken.append(value)
            needed += tuples
            reasons |= why
            self.lost.setdefault((points[place], value), self.step)
        self.tell(execution, place, taken, needed, reasons)

    def tell(self, execution, place, taken, needed, reasons):
        """A step that has taken values: the tuples that they need, and the losses for which none of these can be decided."""
        simplex, points, allowed, words = self.made.executions[execution]
        point, names = points[place], row([f"v{v}" for v in points])
        if not needed:
            claim = f"no tuple at {names} has it"
        elif len(needed) <= MOST_TOLD:
            claim = f"{names} would be " + any_of([row([str(x) for x in t]) for t in needed])
        else:
            claim = f"{names} would be one of {len(needed)} tuples"
        by_point = itertools.groupby(sorted(reasons), lambda pair: pair[0])
        told = [f"v{v} is not {losses_text([(value, self.lost[v, value]) for _, value in pairs])}" for v, pairs in by_point]
        because = ", but " + ", and ".join(told) if told else ""
        left = [value for value in self.left(point) if any(it[place] == value for it in allowed)]
        short = left and (len(left) <= MOST_LEFT or len(items_of(left)) == 1)
        rest = f" So v{point} is {values_text(left)}." if short else ""
        where = f"in execution {execution}, {words_text(simplex, words, self.made.symmetric)}"
        self.say(f"{self.step}. v{point} is not {values_text(taken)}: {where}, {claim}{because}.{rest}")
        self.step += 1

    def enter(self):
        if self.later:
            point, value, self.depth, before = self.later.pop()
            self.lost = dict(before)
            self.lost.update({(point, other): None for other in self.left(point) if other != value})
            self.say(f"Case v{point} = {value}")

    def close(self, point):
        self.say(f"v{point} has no value left.")
        self.enter()

    def split(self, point):
        left = self.left(point)
        self.say(f"{self.step}. v{point} is {values_text(left)}.")
        self.step += 1
        self.later += [(point, value, self.depth + 1, dict(self.lost)) for value in reversed(left)]
        self.enter()


def parts_of(steps):
    """Lines that follow each other and take values from one process in one execution go together."""
    for key, group in itertools.groupby(steps, lambda it: it[1][:3] if it[1][0] == "p" else it):
        group = list(group)
        yield (*key, [numbers[3] for _, numbers in group]) if group[0][1][0] == "p" else group[0][1]


def summary_text(simplices, steps, symmetric):
    """The steps, and the input simplices of the executions of which lines speak: how many there are by size, and who is in them."""
    sizes, text = collections.Counter(map(len, simplices)), f"In all: {counted(steps, 'step')} over {counted(len(simplices), 'execution')}"
    if not simplices:
        return text + "."
    names = [f"p{process}" for process in sorted({process for simplex in simplices for process, _ in simplex})]
    whose = f"at most {PROCESSES[max(sizes)]}" if symmetric else listed(names, ", ", " and ")
    return f"{text} of {whose}: {', '.join(f'{sizes[size]} of {PROCESSES[size]}' for size in sorted(sizes))}."


def text_of(task, report):
    report = read(report)
    header, steps = report.header, report.steps
    if report.answer != "none":
        raise SystemExit("the report has a map")
    if not steps:
        raise Unreadable("it has no lines")
    made = Complex(task, header["rounds"])
    argument, parts = Argument(made), list(parts_of(steps))
    used = {part[1] for part in parts if part[0] == "p"}
    points = {part[1] for part in parts if part[0] != "p"}.union(*(made.executions[e][1] for e in used))
    for part in parts:
        {"p": argument.take, "z": argument.close, "b": argument.split}[part[0]](*part[1:])
    views, mark = list(made.numbers), "#" if task["symmetric"] else "p"
    over = f"{len(used)} of {counted(len(made.executions), 'execution')}"
    title = f"No decision map after {counted(header['rounds'], 'round')}: {counted(argument.step - 1, 'step')} over {over}."
    lines = [title, "", "Points", *(f"  v{v} is {view_text(views[v], mark)}" for v in sorted(points)), "Argument", *argument.lines]
    lines.append(summary_text([made.executions[e][0] for e in used], argument.step - 1, task["symmetric"]))
    return "".join(line + "\n" for line in lines)


def nodes_of(text):
    """The nodes of an obstruction in preorder: a word, its numbers, and the numbers of each line behind that belongs to it."""
    nodes = []
    for line in text.split("\n")[3:-2]:
        word, *numbers = line.split(" ")
        numbers = tuple(int(it) for it in numbers)
        if word in ("m", "p"):
            nodes[-1][2].append(numbers)
        else:
            nodes.append((word, numbers, []))
    return nodes


def tuples_text(tuples):
    told = [" ".join(map(str, values)) for values in tuples]
    if len(told) <= MOST_TUPLES:
        return any_of(told) if told else ""
    return f"{', '.join(told[:MOST_TUPLES])}, or one of {len(told) - MOST_TUPLES} more"


def simplex_text(simplex):
    return f"{{{', '.join(f'p{process}={value}' for process, value in simplex)}}}"


def parts_of_tuples(tuples, near):
    """The tuples that hang together, in the order of their first tuples."""
    parts, left = [], list(tuples)
    while left:
        part, front = [], [left.pop(0)]
        while front:
            part += front
            front, left = [it for it in left if any(near(it, x) for x in front)], [it for it in left if not any(near(it, x) for x in front)]
        parts.append(sorted(part))
    return parts


def differ_at(one, other):
    return [place for place, (a, b) in enumerate(zip(one, other)) if a != b]


def part_of(face, simplex, values):
    """What a face of the simplex has of the values of its vertices."""
    return tuple(value for vertex, value in zip(simplex, values) if vertex in face)


class Tree:
    """An obstruction in words. A task at hand has the tuples of each input simplex."""

    def __init__(self, task, nodes):
        self.symmetric, self.left, self.lines = task["symmetric"], list(nodes), []
        self.inputs = sorted({f for s in task["inputs"] for f in faces(simplex_of(s))}, key=lambda s: (len(s), s))
        allowed = {simplex_of(e["in"]): sorted({tuple(t) for t in e["out"]}) for e in task["delta"]}
        self.tell([allowed[simplex] for simplex in self.inputs], 0)

    def say(self, depth, text, entries=(), end=""):
        """A line, and one below it for each entry, with a comma behind all but the last."""
        space = "  " * min(depth, DEEPEST)
        self.lines.append(space + text + ",".join(f"\n{space}  {entry}" for entry in entries) + end)

    def tell(self, hand, depth):
        word, numbers, entries = self.left.pop(0)
        {"balance": self.balance, "case": self.case, "split": self.split, "cover": self.cover}[word](hand, depth, numbers, entries)

    def balance(self, hand, depth, numbers, entries):
        modulus, total = numbers
        told = []
        groups = itertools.groupby(sorted({(s, i, w, y) for w, s, i, *y in ((*m[:3], *map(int, m[3:])) for m in entries) for y in [tuple(y)]}), lambda it: it[:3])
        for (number, place, weight), group in groups:
            simplex = self.inputs[number]
            face = simplex[:place] + simplex[place + 1:]
            names = listed([f"p{process}" for process, _ in face], ", ", " and ") if face else ""
            verb = "decides" if len(face) == 1 else "decide"
            sides = f"{names} {verb} {tuples_text([it[3] for it in group])} as often on {simplex_text(simplex)} as on {simplex_text(face)}"
            told.append((sides if face else f"{simplex_text(simplex)} has one execution") + (f", {weight} times" if weight > 1 else ""))
        self.say(depth, f"Count executions{' with their signs' if modulus > 2 else ''} modulo {modulus}:", told, ".")
        self.say(depth, f"Add these equations up. Each tuple that is allowed counts as often on the left as on the right modulo {modulus}, but the single"
                 f" executions add {total} on the right. So 0 would be {total} modulo {modulus}.")

    def alike(self, one, other):
        """Whether executions on two simplices decide alike."""
        return one == other or self.symmetric and [x for _, x in one] == [x for _, x in other]

    def case(self, hand, depth, numbers, _):
        simplex = self.inputs[numbers[0]]
        steps = 1 if len(simplex) > 1 else 0
        parts = parts_of_tuples(hand[numbers[0]], lambda a, b: len(differ_at(a, b)) <= steps)
        if steps:
            which = f"all executions decide tuples of one part of {len(parts)}: they are joined by changes of a single view"
        else:
            which = f"there is one execution, which decides one of {len(parts)} values"
        self.say(depth, f"On {simplex_text(simplex)} {which}.")
        for number, part in enumerate(parts, 1):
            self.say(depth, f"Part {number}: {tuples_text(part)}.")
            self.tell([[it for it in tuples if it in part] if self.alike(simplex, other) else tuples for other, tuples in zip(self.inputs, hand)],
                      depth + 1)

    def split(self, hand, depth, numbers, _):
        simplex, tuples = self.inputs[numbers[0]], hand[numbers[0]]
        new = 1 + max((x for it in hand for t in it for x in t), default=0)
        names = [{} for _ in simplex]
        for place, named in enumerate(names):
            seen, free = set(), new
            for part in parts_of_tuples(tuples, lambda a, b: a[place] == b[place] and len(differ_at(a, b)) <= 1 and len(simplex) > 1):
                value = part[0][place]
                name, free = (free, free + 1) if value in seen else (value, free)
                seen.add(value)
                named.update({it: name for it in part})
        told = []
        for place, named in enumerate(names):
            for name in sorted({it for it in named.values() if it >= new}):
                called = [it for it in tuples if named[it] == name]
                told.append(f"{called[0][place]} of p{simplex[place][0]} is called {name} in {tuples_text(called)}")
        where = f"On {simplex_text(simplex)}"
        if told:
            self.say(depth, f"{where} and its faces a value has a name of its own for each part of what is decided beside it:", told, ".")
        else:
            self.say(depth, f"{where} no value is taken apart.")
        renamed = {it: tuple(named[it] for named in names) for it in tuples}
        choices = {process: {} for process, _ in simplex}
        for it, named in renamed.items():
            for (process, _), value, name in zip(simplex, it, named):
                choices[process].setdefault(value, {value}).add(name)
        self.tell([
            self.on_face(other, simplex, rows, renamed.items()) if set(other) <= set(simplex) else self.elsewhere(other, rows, choices)
            for other, rows in zip(self.inputs, hand)], depth)

    @staticmethod
    def on_face(face, simplex, rows, renamed):
        """What the face has of the tuples with other names, if it allows what it has of them without."""
        return sorted({part_of(face, simplex, named) for it, named in renamed if part_of(face, simplex, it) in rows})

    @staticmethod
    def elsewhere(simplex, rows, choices):
        """Each process decides any name of a value."""
        return sorted({it for row in rows for it in itertools.product(*(choices.get(p, {}).get(x, {x}) for (p, _), x in zip(simplex, row)))})

    def cover(self, hand, depth, numbers, moves):
        number, sheets, corner = numbers
        simplex, tuples = self.inputs[number], hand[number]
        new = 1 + max((x for it in hand for t in it for x in t), default=0)
        there = [f"p{process}" for process, _ in simplex] + ["nobody"] * 4
        told = [f"from {a} of {there[i]} to {b} of {there[j]} the sheets {listed([str(k) for k in range(len(to))], ', ', ' and ')} go to "
                f"{listed([str(k) for k in to], ', ', ' and ')}" for i, a, j, b, *to in moves]
        first = (f"On {simplex_text(simplex)} and its faces values lie on sheets 0 to {sheets - 1}, and {there[corner]} alone is on sheet 0. Value V on sheet S"
                 f" is called V + S * {new}. Values of one execution lie on one sheet")
        self.say(depth, f"{first}, but" if told else first, told, ".")

        def moved(sheet, i, a, j, b):
            for first, x, second, y, *to in moves:
                if (first, x, second, y) == (i, a, j, b):
                    return to[sheet]
                if (first, x, second, y) == (j, b, i, a):
                    return to.index(sheet)
            return sheet

        lifted = [(it, tuple(x + new * (sheet if place == corner else moved(sheet, corner, it[corner], place, x)) for place, x in enumerate(it)))
                  for it in tuples for sheet in range(sheets)]
        values = {x for it in hand for t in it for x in t}
        choices = {process: {x: {x + new * sheet for sheet in range(sheets)} for x in values} for process, _ in simplex}
        self.tell([
            rows if other == (simplex[corner],)
            else self.on_face(other, simplex, rows, lifted) if set(other) <= set(simplex) else self.elsewhere(other, rows, choices)
            for other, rows in zip(self.inputs, hand)], depth)


def obstruction_text_of(task, text):
    """An obstruction in words."""
    nodes = nodes_of(text)
    symmetric = (" The task is symmetric, so this is about comparison-based protocols: a simplex stands for all with the same inputs in the order of their processes, and points are views"
                 " up to the names of the processes.")
    signs = ("An execution of n processes after r rounds counts with a minus sign if n * r and the number of blocks in its words"
             " differ by an odd number.\n")
    return "".join([
        f"No decision map after any number of rounds.\n\nSuppose that there is a decision map.{symmetric if task['symmetric'] else ''}\n",
        *(f"{line}\n" for line in Tree(task, nodes).lines),
        signs if any(word == "balance" and numbers[0] > 2 for word, numbers, _ in nodes) else "",
    ])


def main():
    task, text = given("argument.py", __doc__)
    if text.startswith(OBSTRUCTION):
        sys.stdout.write(obstruction_text_of(task, text))
        return
    try:
        sys.stdout.write(text_of(task, text))
    except (Unreadable, KeyError, IndexError, ValueError) as fault:
        sys.exit(f"the report can't be told: {judge(task, text)[1] or fault}")


if __name__ == "__main__":
    signal.signal(signal.SIGPIPE, signal.SIG_DFL)
    main()
