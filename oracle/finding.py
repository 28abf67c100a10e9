#!/usr/bin/env python3
"""finding.py TASK MODULUS: an obstruction of the task whose balances are modulo a prime or a power of a prime, slowly.
finding.py TASK: one whose balances are modulo 2, 3, 4, 5, 7, 8, 9 or 2147483647, each by the first of these that has one.

It shares nothing with the program, and is for small tasks. First it looks for a balance of the task at hand. Each allowed tuple has an
unknown: the signed number of executions that decide it. Each participant of a simplex, with values for the others, is an equation, and
elimination finds multipliers with which these add up to a number that is not 0, wherever there are any. Where there are none, it takes
the values of simplices apart until nothing changes. Then it goes through the cases of a simplex that has the fewest. Neither loses
anything: a task with a balance has one in each case too. With --covers N it tries covers of two sheets last, at most N above each other.

It answers as `wfcheck obstruction` does: it writes the obstruction, and ends with status 0; or it says what it tried, and ends with
status 1: `no obstruction by splits, cases and balances modulo M`, or `.. of any modulus`. It says that of a case with nothing left to
take apart, where whole numbers solve all equations: covers may show something then. Status 2: the words or the task are refused."""
import argparse
import collections
import itertools
import math
import signal
import sys

sys.dont_write_bytecode = True
import obstructions  # noqa: E402
import task_file  # noqa: E402

MODULI = [2, 3, 4, 5, 7, 8, 9, 2147483647]
MOST_COVERS = 64
# the term of no process, which is 1
EMPTY = (), ()

# Weights by term, and the equations that they come from: each by the number of its simplex, the place and the values of the others.
Combination = collections.namedtuple("Combination", "terms equations")


# ---- balances


def equations(hand):
    """The equations of a task at hand. Where executions on simplices decide alike, the first simplex stands for all."""
    numbers, allowed = {}, collections.defaultdict(set)
    for number, (simplex, tuples) in enumerate(zip(hand.inputs, hand.allowed)):
        numbers.setdefault(hand.kin(simplex), number)
        allowed[hand.kin(simplex)].update(tuples)
    allowed[()].add(())
    for simplex, number in numbers.items():
        for place in range(len(simplex)):
            face = obstructions.without(simplex, place)
            sums = {others: {(face, others): -1} for others in allowed[face]}
            for it in allowed[simplex]:
                sums.setdefault(obstructions.without(it, place), {})[simplex, it] = 1
            for others in sorted(sums):
                yield Combination(sums[others], {(number, place, others): 1})


def first_term(combination):
    """A term with the most places: the empty one comes last."""
    return max(combination.terms, key=lambda term: (len(term[1]), term))


def added(one, other, times, modulus):
    """One combination and so many times another."""
    sums = []
    for mine, its in zip(one, other):
        total = {key: (mine.get(key, 0) + times * its.get(key, 0)) % modulus for key in mine.keys() | its.keys()}
        sums.append({key: weight for key, weight in total.items() if weight})
    return Combination(*sums)


NOTHING = Combination({}, {})


class Echelon:
    """Combinations modulo a power of a prime: at most one for each first term, where its weight divides the modulus. All combinations of
    what was put in that begin at some term are multiples of that one, with others behind it."""

    def __init__(self, modulus):
        self.modulus, self.pivots = modulus, {}

    def put(self, combination):
        """Puts a combination in. What is left of it behind its first term goes on."""
        waiting = [combination]
        while waiting:
            combination = waiting.pop()
            if not combination.terms:
                continue
            term = first_term(combination)
            common = math.gcd(combination.terms[term], self.modulus)
            pivot = self.pivots.get(term)
            if pivot and common % pivot.terms[term] == 0:
                times = -(combination.terms[term] // pivot.terms[term])
                waiting.append(added(combination, pivot, times, self.modulus))
                continue
            unit = pow(combination.terms[term] // common, -1, self.modulus)
            self.pivots[term] = made = added(NOTHING, combination, unit, self.modulus)
            # its weight at the first term is 0 times this modulus, and others of its weights may not be
            waiting.append(added(NOTHING, made, self.modulus // common, self.modulus))
            if pivot:
                waiting.append(pivot)


def balance(hand, modulus):
    """A balance of the task at hand by this modulus, or None."""
    echelon = Echelon(modulus)
    for equation in equations(hand):
        echelon.put(added(NOTHING, equation, 1, modulus))
        if EMPTY in echelon.pivots:
            found = echelon.pivots[EMPTY]
            entries = [obstructions.Entry(0, [weight, number, place, *others]) for (number, place, others), weight in found.equations.items()]
            return node("balance", modulus, -found.terms[EMPTY] % modulus, entries=sorted(entries, key=lambda it: it.numbers[1:]))
    return None


def has_integers(hand):
    """Whether whole numbers solve the equations. If so, no modulus has a balance; if not, some modulus has one."""
    every = [it.terms for it in equations(hand)]
    unknowns = collections.defaultdict(dict)
    for number, terms in enumerate(every):
        for term, weight in terms.items():
            unknowns[term][number] = weight
    right = {number: -weight for number, weight in unknowns.pop(EMPTY, {}).items()}
    free = list(unknowns.values())
    for number in range(len(every)):
        chosen = reduced(free, number)
        wanted = right.get(number, 0)
        if not chosen:
            if wanted:
                return False
            continue
        if wanted % chosen[number]:
            return False
        # this unknown has one value from now on
        subtract(right, chosen, wanted // chosen[number])
    return True


def reduced(free, number):
    """Changes the unknowns, as Euclid's algorithm does, until at most one is in an equation, and takes that one out."""
    there = [unknown for unknown in free if number in unknown]
    while len(there) > 1:
        least = min(there, key=lambda unknown: abs(unknown[number]))
        for unknown in there:
            if unknown is not least:
                subtract(unknown, least, unknown[number] // least[number])
        there = [unknown for unknown in there if number in unknown]
    if there:
        free[:] = [unknown for unknown in free if unknown is not there[0]]
    return there[0] if there else None


def subtract(one, other, times):
    """Takes so many times one row of numbers from another."""
    for key, weight in other.items():
        one[key] = one.get(key, 0) - times * weight
        if not one[key]:
            del one[key]


# ---- trees


def node(name, *numbers, entries=()):
    """A node, without the number of its line."""
    return obstructions.Node(0, name, list(numbers), list(entries))


def taken_apart(hand, room):
    """The splits that are left until nothing changes, the largest simplices first, and the task after them."""
    steps, changes = [], not hand.symmetric
    while changes:
        changes = False
        for number in reversed([number for number, simplex in enumerate(hand.inputs) if len(simplex) > 2]):
            step = node("split", number)
            below = after(hand, [step])
            if len(steps) < room and below and below.allowed != hand.allowed:
                hand, changes = below, True
                steps.append(step)
    return steps, hand


def after(hand, steps):
    """The task after these splits, or None if it is too large."""
    try:
        for step in steps:
            hand = obstructions.split(hand, step)
        return hand
    except obstructions.Refused:
        return None


def next_case(hand):
    """The simplex with the fewest parts, if these are several. In a symmetric task one part is a case too if a simplex that is alike
    allows more. None if no case changes anything."""
    for many, number in sorted((len(obstructions.components(hand, number)), number) for number in range(len(hand.inputs))):
        if many > 1 or hand.symmetric and next(obstructions.cases(hand, number)).allowed != hand.allowed:
            return number
    return None


def turns(tuples, many):
    """Moves that change two sheets, such that each tuple is flat. Up to the names of sheets there are no others."""
    edges = sorted({(i, it[i], j, it[j]) for it in tuples for i, j in itertools.combinations(range(many), 2)})
    joined, free = {}, []
    for edge in edges:
        # edges that join what nothing else joins change no sheet
        ends = [root(joined, edge[:2]), root(joined, edge[2:])]
        if ends[0] == ends[1]:
            free.append(edge)
        joined[ends[0]] = ends[1]
    bits, pivots = {edge: 1 << at for at, edge in enumerate(free)}, {}
    for it in tuples:
        for places in itertools.combinations(range(many), 3):
            row = 0
            for i, j in itertools.combinations(places, 2):
                row ^= bits.get((i, it[i], j, it[j]), 0)
            while row and row.bit_length() in pivots:
                row ^= pivots[row.bit_length()]
            if row:
                pivots[row.bit_length()] = row
    chosen = [at for at in range(len(free)) if at + 1 not in pivots]
    for number in range(1, min(2 ** len(chosen), MOST_COVERS)):
        turned = sum(1 << at for place, at in enumerate(chosen) if number >> place & 1)
        for at in sorted(pivots):
            turned |= (bin(pivots[at] & turned).count("1") & 1) << at - 1
        yield [obstructions.Entry(0, [*edge, 1, 0]) for edge in free if bits[edge] & turned]


def root(joined, it):
    while joined.get(it, it) != it:
        it = joined[it]
    return it


class Finder:
    """Looks for trees whose balances are by these moduli. `left` is the task at hand at which it gave up last."""

    def __init__(self, moduli):
        self.moduli, self.left = moduli, None

    def leaf(self, hand):
        """A tree of one node: where nothing is allowed at a simplex, it has no case."""
        empty = (node("case", number) for number, tuples in enumerate(hand.allowed) if not tuples)
        balances = (found for modulus in self.moduli if (found := balance(hand, modulus)))
        return next(([found] for found in itertools.chain(empty, balances)), None)

    def tree(self, hand, covers=0, room=obstructions.MOST_LEVELS):
        """The nodes of a tree of the task at hand, or None."""
        if (found := self.leaf(hand)) or not room:
            return found
        steps, below = taken_apart(hand, room)
        if steps and self.leaf(below):
            return self.by_fewest(hand, steps)
        found = self.by_cases(below, covers, room - len(steps)) if len(steps) < room else None
        return found and steps + found

    def by_fewest(self, hand, steps):
        """A leaf below as few of these splits as it takes, each being left out in turn."""
        for step in steps[:]:
            fewer = [it for it in steps if it is not step]
            below = after(hand, fewer)
            if below and self.leaf(below):
                steps = fewer
        return steps + self.leaf(after(hand, steps))

    def by_cases(self, hand, covers, room):
        """The trees of the cases of a simplex; or where no case is left, a cover."""
        number = next_case(hand)
        if number is None:
            self.left = hand
            return self.by_covers(hand, covers, room) if covers and not hand.symmetric else None
        trees = [node("case", number)]
        for task in obstructions.cases(hand, number):
            found = self.tree(task, covers, room - 1)
            if not found:
                return None
            trees += found
        return trees

    def by_covers(self, hand, covers, room):
        """A tree below a cover of two sheets."""
        for number, simplex in enumerate(hand.inputs):
            for moves in turns(hand.allowed[number], len(simplex)) if len(simplex) > 2 else []:
                step = node("cover", number, 2, 0, entries=moves)
                try:
                    found = self.tree(obstructions.cover(hand, step), covers - 1, room - 1)
                except obstructions.Refused:
                    found = None
                if found:
                    return [step, *found]
        return None


def find(task, moduli=MODULI, covers=0):
    """The nodes of an obstruction, or None."""
    return Finder(moduli).tree(obstructions.hand_of(task), covers)


def has_none(task):
    """Whether cases, splits and balances show nothing, whatever the moduli."""
    finder = Finder(MODULI)
    return not finder.tree(obstructions.hand_of(task)) and finder.left is not None and has_integers(finder.left)


def text_of(task, nodes):
    """The text of an obstruction."""
    header = [task["processes"], len(task_file.complex_of(task["inputs"]))]
    lines = [obstructions.FIRST, *(f"{name} {number}" for name, number in zip(obstructions.HEADER, header))]
    for it in nodes:
        lines.append(" ".join(map(str, [it.name, *it.numbers])))
        lines += [" ".join(map(str, [obstructions.ENTRIES[it.name], *entry.numbers])) for entry in it.entries]
    return "\n".join([*lines, "end", ""])


def is_prime_power(number):
    """Whether a number is a prime or a power of one."""
    prime = next((it for it in range(2, math.isqrt(max(number, 0)) + 1) if number % it == 0), number)
    while number > 1 and number % prime == 0:
        number //= prime
    return number == 1 and prime > 1


def asked_for():
    """The words, and the task, or the end with status 2."""
    words = argparse.ArgumentParser(
        description=__doc__, formatter_class=argparse.RawDescriptionHelpFormatter, usage="finding.py TASK [MODULUS] [--covers N]")
    words.add_argument("task")
    words.add_argument("modulus", type=int, nargs="?")
    words.add_argument("--covers", type=int, default=0, metavar="N")
    asked = words.parse_args()
    if asked.modulus is not None and not is_prime_power(asked.modulus):
        words.error(f"{asked.modulus} is no prime and no power of one")
    try:
        with open(asked.task, "rb") as file:
            task = task_file.read(file.read(task_file.LONGEST + 1))[0]
    except OSError as error:
        words.error(str(error))
    except task_file.Refused as refused:
        words.error(f"the task is refused, {refused.line}: {refused.words}")
    if task.get("first_block", 1) > 1:
        words.error("a task with a first block above 1 has no obstruction")
    return asked, task


def main():
    asked, task = asked_for()
    moduli = [asked.modulus] if asked.modulus else MODULI
    found = find(task, moduli, asked.covers)
    if not found:
        is_whole = asked.modulus is None and not asked.covers and has_none(task)
        tried = f"{'covers, ' if asked.covers else ''}splits, cases and balances"
        print(f"no obstruction by {tried} {'of any modulus' if is_whole else f'modulo {str(moduli)[1:-1]}'}", file=sys.stderr)
        return 1
    print(text_of(task, found), end="")
    return 0


if __name__ == "__main__":
    signal.signal(signal.SIGPIPE, signal.SIG_DFL)
    sys.exit(main())
