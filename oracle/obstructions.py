"""The text of an obstruction, and its first fault about a task: by docs/FORMAT.md alone, and slowly.

An obstruction is a tree, whose nodes stand in preorder. A case, a split or a cover turns the task at hand into others: if it has a
decision map after some number of rounds, one of those has one after as many. A balance shows that its task has none. A fault is told
twice: as `wfcheck verify` refuses the text, like `56 OtherSum 8`, and in words."""
import collections
import itertools
import math

import reports
import task_file

FIRST, HEADER = "wfcheck obstruction 1", ["processes", "simplices"]
LONGEST, MOST_NODES, MOST_LEVELS, MOST_NAME, MOST_TUPLES = 16_777_216, 65_536, 64, 255, 1_000_000
# the numbers of a line of each kind; below a cover stand `p` lines, and below a balance `m` lines
NODES = {"case": ["number"], "split": ["number"], "cover": ["number", "value", "value"], "balance": ["number", "number"]}
MOVE, MULTIPLIER, MOST_OTHERS = ["process", "value", "process", "value"], ["number", "number", "process"], 3
ENTRIES = {"cover": "p", "balance": "m"}

# The numbers of the header by their names, the nodes in their order, and the line of `end`.
Obstruction = collections.namedtuple("Obstruction", [*HEADER, "nodes", "end"])
# A node: its line, its word and its numbers, and its `p` or `m` lines.
Node = collections.namedtuple("Node", "line name numbers entries")
Entry = collections.namedtuple("Entry", "line numbers")


class Refused(Exception):
    """The refusal without the program's name, and the same in words."""

    def __init__(self, line, words):
        super().__init__(line)
        self.line, self.words = line, words


# ---- the text


def is_obstruction(text):
    """Whether the first line of a text says that the text is an obstruction."""
    return text.startswith(f"{FIRST}\n")


def broken(at, words):
    return Refused(f"20 Syntax {at}", f"line {at}: {words}")


def numbers(line, name, kinds, at):
    """The numbers of a line that begins with this word."""
    try:
        return reports.numbers(line, name, kinds, at)
    except reports.Unreadable as unreadable:
        raise Refused(f"20 Syntax {at}", str(unreadable))


def read(text):
    """The obstruction that a text is. The text has the right first line."""
    if len(text) > LONGEST:
        raise Refused("1 TooLong", f"it has more than {LONGEST:,} bytes")
    # what stands behind the last line feed is no line
    *lines, rest = text.split("\n")
    header, nodes = [], []
    for at in itertools.count(2):
        if at > len(lines):
            raise broken(at, "the line is missing, or no line feed ends it")
        line, word = lines[at - 1], lines[at - 1].split(" ")[0]
        if len(header) < len(HEADER):
            header += numbers(line, HEADER[len(header)], ["number"], at)
        elif word in NODES:
            nodes.append(Node(at, word, numbers(line, word, NODES[word], at), []))
            if word == "cover" and nodes[-1].numbers[1] == 0:
                raise broken(at, "it has no sheet")
        elif nodes and word == ENTRIES.get(nodes[-1].name):
            read_entry(nodes[-1], line, at)
        elif line == "end":
            if len(lines) > at or rest:
                raise broken(at + 1, "something stands behind `end`")
            return Obstruction(*header, nodes, at)
        else:
            raise broken(at, "no such line may stand there")


def read_entry(node, line, at):
    """Puts a `p` line to its cover, or an `m` line to its balance. They ascend by what they are about."""
    if node.name == "cover":
        found, key = numbers(line, "p", [*MOVE, *["value"] * node.numbers[1]], at), slice(4)
        if found[0] >= found[2] or any(sheet >= node.numbers[1] for sheet in found[4:]):
            raise broken(at, "its places do not ascend, or there is no such sheet")
    else:
        others = max(0, min(line.count(" ") - len(MULTIPLIER), MOST_OTHERS))
        found, key = numbers(line, "m", [*MULTIPLIER, *["value"] * others], at), slice(1, None)
    if node.entries and node.entries[-1].numbers[key] >= found[key]:
        raise broken(at, "it does not come after the line before it")
    node.entries.append(Entry(at, found))


# ---- the task at hand


def without(it, place):
    return it[:place] + it[place + 1:]


def kept(it, places):
    return tuple(it[place] for place in places)


class Hand:
    """A task at hand: the input simplices, and the tuples that are allowed at each, ascending."""

    def __init__(self, inputs, allowed, symmetric):
        self.inputs, self.allowed, self.symmetric = inputs, [sorted(set(it)) for it in allowed], symmetric

    def kin(self, simplex):
        """Executions on two simplices decide alike where this is the same: in a symmetric task processes are known by their ranks."""
        return tuple(value for _, value in simplex) if self.symmetric else simplex

    def values(self):
        """The values of its tuples, or 0 where there are no tuples."""
        return sorted({value for tuples in self.allowed for it in tuples for value in it}) or [0]

    def new_name(self):
        """The first name above all values."""
        return 1 + max(self.values())


def hand_of(task):
    """The task itself."""
    inputs, allowed = task_file.complex_of(task["inputs"]), collections.defaultdict(list)
    for entry in task["delta"]:
        allowed[task_file.simplex_of(entry["in"])] += map(tuple, entry["out"])
    return Hand(inputs, [allowed[simplex] for simplex in inputs], task["symmetric"])


def parts(tuples, free):
    """Parts of ascending tuples, by their first ones: steps join them, and a step changes the value at one of the free places."""
    near, done = collections.defaultdict(list), set()
    for it in tuples:
        for place in free:
            near[place, without(it, place)].append(it)
    for first in tuples:
        if first not in done:
            part, waiting = {first}, [first]
            while waiting:
                it = waiting.pop()
                more = {other for place in free for other in near.pop((place, without(it, place)), [])} - part
                part |= more
                waiting += more
            done |= part
            yield sorted(part)


def components(hand, number):
    """The parts of what is allowed at a simplex. The executions on a simplex are joined by steps that change the last view of one
    process; a process alone has one view."""
    many = len(hand.inputs[number])
    return list(parts(hand.allowed[number], range(many) if many > 1 else []))


def cases(hand, number):
    """A task for each part of what is allowed at a simplex, which then is all that is allowed there."""
    simplex = hand.inputs[number]
    for part in components(hand, number):
        alone = [set(part).intersection(tuples) if hand.kin(other) == hand.kin(simplex) else tuples
                 for other, tuples in zip(hand.inputs, hand.allowed)]
        yield Hand(hand.inputs, alone, hand.symmetric)


# ---- splits and covers


def names_of(hand, number):
    """What a split puts in place of each tuple of a simplex. The executions that agree on the view of one process are joined by steps
    that keep it: each part of the tuples with a value at a place has a name of its own. The first one keeps the value."""
    tuples, places = hand.allowed[number], range(len(hand.inputs[number]))
    names = {it: list(it) for it in tuples}
    for place in places:
        taken, new = set(), itertools.count(hand.new_name())
        for part in parts(tuples, [it for it in places if it != place]):
            value = part[0][place]
            name = next(new) if value in taken else value
            taken.add(value)
            for it in part:
                names[it][place] = name
    return {it: [tuple(them)] for it, them in names.items()}


def split(hand, node):
    """The task with names in place of the values of a simplex."""
    number, = node.numbers
    lifts = names_of(hand, number)
    if any(name > MOST_NAME for them in lifts.values() for it in them for name in it):
        raise too_large(node, "names")
    choices = collections.defaultdict(set)
    for it, (named,) in lifts.items():
        for (process, _), value, name in zip(hand.inputs[number], it, named):
            choices[process, value] |= {value, name}
    return stepped(hand, node, lifts, lambda process, value: choices.get((process, value), [value]))


def cover(hand, node):
    """The task with the values of a simplex on sheets. Moves lead sheets from a value at a place to a value at another, and round a
    tuple each sheet to itself. The subdivided simplex has no hole, so a decision map gives each view on it a sheet."""
    number, sheets, corner = node.numbers
    simplex, tuples, new = hand.inputs[number], hand.allowed[number], hand.new_name()
    if len(simplex) < 2:
        raise Refused(f"66 OneParticipant {node.line}", f"line {node.line}: a simplex of one participant has no cover")
    if corner >= len(simplex):
        raise Refused(f"53 NoPlace {node.line}", f"line {node.line}: input simplex {number} has no place {corner}")
    moves = {tuple(move[:4]): move[4:] for _, move in node.entries}
    for at, it in enumerate(tuples):
        if not is_flat(moves, it, sheets):
            words = f"line {node.line}: round {list(it)}, tuple {at} of input simplex {number}, a sheet does not come to itself"
            raise Refused(f"68 NotFlat {node.line} {at}", words)
    if sheets * new > MOST_NAME + 1:
        raise too_large(node, "names")
    lifts = {it: [tuple(value + new * moved(moves, it, corner, place, sheets)[sheet] for place, value in enumerate(it))
                  for sheet in range(sheets)] for it in tuples}
    inside = {process for process, _ in simplex}
    # the corner alone is on sheet 0
    return stepped(
        hand, node, lifts, lambda process, value: [value + new * sheet for sheet in range(sheets if process in inside else 1)], (simplex[corner],))


def moved(moves, it, i, j, sheets):
    """The sheet at place j of a tuple for each sheet at place i."""
    if (i, it[i], j, it[j]) in moves:
        return moves[i, it[i], j, it[j]]
    back = moves.get((j, it[j], i, it[i]), range(sheets)) if i != j else range(sheets)
    return [back.index(sheet) if sheet in back else sheets for sheet in range(sheets)]


def is_flat(moves, it, sheets):
    """Whether going from a place of a tuple to another by a third leads each sheet where it goes directly."""
    places = range(len(it))
    to = {(i, j): moved(moves, it, i, j, sheets) for i in places for j in places}
    return all(max(go) < sheets for go in to.values()) and all(
        to[j, k][to[i, j][sheet]] == to[i, k][sheet] for i in places for j in places for k in places for sheet in range(sheets))


def stepped(hand, node, lifts, choices, corner=None):
    """The task after a split or a cover. A face of its simplex keeps what it keeps of the tuples that are put in place of one, if it
    allows what it keeps of that; on other simplices each process has its choices. A corner stays as it is."""
    simplex, made = hand.inputs[node.numbers[0]], []
    for face, allowed in zip(hand.inputs, hand.allowed):
        if face == corner:
            made.append((len(allowed), allowed))
        elif set(face) <= set(simplex):
            made.append(on_face(set(allowed), lifts, [simplex.index(vertex) for vertex in face]))
        else:
            made.append(elsewhere(allowed, [[choices(process, value) for (process, _), value in zip(face, it)] for it in allowed]))
    if sum(many for many, _ in made) > MOST_TUPLES:
        raise too_large(node, "tuples")
    return Hand(hand.inputs, [list(tuples) for _, tuples in made], hand.symmetric)


def on_face(allowed, lifts, places):
    """How many tuples a face gets, those counted each time that come more than once, and these tuples."""
    these = [them for it, them in lifts.items() if kept(it, places) in allowed]
    return sum(map(len, these)), (kept(it, places) for them in these for it in them)


def elsewhere(allowed, chosen):
    """The same of a simplex that is no face, by the choices for each place of each tuple."""
    return sum(math.prod(map(len, it)) for it in chosen), (made for it in chosen for made in itertools.product(*it))


# ---- balances


class Balance:
    """The sum of equations, each so many times as its multiplier says. A participant of a simplex, with values for the others, gives an
    equation: the signed number of executions in which the others decide these is the same with and without it."""

    def __init__(self, hand, node):
        self.hand, (self.modulus, self.sum) = hand, node.numbers
        self.multipliers = [(hand.inputs[number], place, tuple(others), weight) for _, (weight, number, place, *others) in node.entries]
        self.weights = collections.Counter()
        for simplex, place, others, weight in self.multipliers:
            self.weights[hand.kin(simplex), place, others] += weight
            self.weights[hand.kin(without(simplex, place)), None, others] -= weight

    def count(self, simplex, it):
        """How often a tuple of a simplex counts in the sum."""
        places = [*((place, without(it, place)) for place in range(len(it))), (None, it)]
        return sum(self.weights[self.hand.kin(simplex), place, others] for place, others in places) % self.modulus

    def vertices(self):
        """The sum of the equations of processes that are alone, where the other side is 1."""
        return -self.weights[(), None, ()] % self.modulus


def judge_multiplier(hand, modulus, line, weight, number, place, *others):
    """Judges one multiplier by itself."""
    judge_simplex(hand, line, number)
    many = len(hand.inputs[number])
    if place >= many:
        raise Refused(f"53 NoPlace {line}", f"line {line}: input simplex {number} has no place {place}")
    if len(others) != many - 1:
        raise Refused(f"54 OthersLength {line}", f"line {line}: {many} processes take part, and the number of values is {len(others)}")
    if not 1 <= weight < modulus:
        raise Refused(f"55 WeightRange {line}", f"line {line}: the weight {weight} is not from 1 to {modulus - 1}")


def balance(hand, node):
    """The balance that a node is, if it is one of the task at hand."""
    modulus, total = node.numbers
    if not 1 <= total < modulus:
        words = f"line {node.line}: the sum is not from 1 to the modulus less 1: {total}, and the modulus is {modulus}"
        raise Refused(f"51 SumRange {node.line}", words)
    for line, multiplier in node.entries:
        judge_multiplier(hand, modulus, line, *multiplier)
    made = Balance(hand, node)
    if made.vertices() != total:
        raise Refused(f"56 OtherSum {node.line}", f"line {node.line}: the multipliers of vertices add up to {made.vertices()}, and not {total}")
    for number, (simplex, tuples) in enumerate(zip(hand.inputs, hand.allowed)):
        for at, it in enumerate(tuples):
            if many := made.count(simplex, it):
                words = (f"line {node.line}: {list(it)}, tuple {at} of input simplex {number}, {task_file.shown(simplex)}, "
                         f"counts {many}, and not 0")
                raise Refused(f"57 NotBalanced {node.line} {number} {at}", words)
    return made


# ---- the tree


def too_large(node, what):
    return Refused(f"69 TooLarge {node.line} {what}", f"line {node.line}: above the limit of {what}")


def judge_simplex(hand, line, number):
    if number >= len(hand.inputs):
        raise Refused(f"52 NoSimplex {line}", f"line {line}: there is no input simplex {number}")


def balances(hand, nodes, end, level=0):
    """The balances of the tree that begins with the first of these nodes, and takes its nodes."""
    if not nodes:
        raise Refused(f"58 NoTree {end}", f"line {end}: the text ends, and a tree has to begin")
    node = nodes.popleft()
    if node.name == "balance":
        return [balance(hand, node)]
    if level == MOST_LEVELS:
        raise too_large(node, "levels")
    if node.name != "case" and hand.symmetric:
        raise Refused(f"65 Symmetric {node.line}", f"line {node.line}: a symmetric task has no splits and no covers")
    judge_simplex(hand, node.line, node.numbers[0])
    if node.name == "case":
        below = cases(hand, node.numbers[0])
    else:
        below = [(split if node.name == "split" else cover)(hand, node)]
    return [it for task in below for it in balances(task, nodes, end, level + 1)]


def judge(task, text):
    """The balances of an obstruction, if the text is one of the task. Raises its first fault otherwise."""
    found, hand = read(text), hand_of(task)
    for line, name, right in ((2, "processes", task["processes"]), (3, "simplices", len(hand.inputs))):
        if getattr(found, name) != right:
            raise Refused(f"21 Header {line}", f"{name} should be {right}")
    if task.get("first_block", 1) > 1:
        raise Refused("50 FirstBlock", f'an obstruction says nothing about a task with "first_block" {task["first_block"]}')
    if len(found.nodes) > MOST_NODES:
        raise too_large(found.nodes[MOST_NODES], "nodes")
    nodes = collections.deque(found.nodes)
    leaves = balances(hand, nodes, found.end)
    if nodes:
        raise Refused(f"59 Behind {nodes[0].line}", f"line {nodes[0].line}: the tree has ended before this node")
    return leaves
