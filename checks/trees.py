"""Small tasks, and trees about them that are changed in one place: a part of checks/fuzz.

A tree is what oracle/finding.py finds, often with cases, splits and covers above it that nobody needs; where it finds none, nodes at
random take its place. What is said of it is what oracle/obstructions.py finds."""
import itertools
import json
import random

import common  # noqa: F401
import finding
import obstructions
import task_file

# values and sheets that a change puts in, beside those near what was there
NUMBERS = [0, 1, 2, 3, 5, 254, 255, 256, 2**32 - 1, 2**32]
MODULI = [2, 3, 4]
# so many names and nodes at most in a tree, so that it is judged soon
MOST_NAMES, MOST_NODES = 40, 60


def random_task(choose):
    """A task of one to four processes. In a symmetric one some simplices with the same inputs have different rules. Some simplices
    allow nothing."""
    processes = choose.choice([1, 2, 2, 3, 3, 3, 4])
    values = range(choose.choice([2, 2, 3]) if processes < 4 else 2)
    symmetric, version = choose.random() < 0.3, choose.choice([1, 2])
    inputs = {tuple((p, choose.randrange(2)) for p in range(processes)) for _ in range(choose.choice([1, 1, 2, 3]))}
    density, rules, delta = [choose.choice([0.2, 0.3, 0.5, 0.7, 0.9]) for _ in range(processes)], {}, []
    for simplex in task_file.complex_of(sorted(inputs)):
        key = tuple(value for _, value in simplex) if symmetric else simplex
        every = list(itertools.product(values, repeat=len(simplex)))
        if key not in rules or choose.random() < 0.1:
            some = [it for it in every if choose.random() < density[len(simplex) - 1]]
            rules[key] = some or [choose.choice(every)] * (choose.random() < 0.8)
        delta.append({"in": simplex, "out": rules[key]})
    outputs = [list(enumerate(it)) for it in itertools.product(values, repeat=processes)]
    task = {"version": version, "processes": processes, "symmetric": symmetric, "inputs": sorted(inputs), "outputs": outputs, "delta": delta}
    if version == 2:
        task["first_block"] = choose.choice([1] * 19 + [2])
    return json.loads(json.dumps(task))


def random_entry(choose, node, simplices):
    """A line that may stand below a node: a move of a cover, or a multiplier of a balance."""
    if node.name == "cover":
        first, second = sorted(choose.sample(range(4), 2))
        sheets = choose.sample(range(node.numbers[1]), node.numbers[1])
        return obstructions.Entry(0, [first, choose.randrange(4), second, choose.randrange(4), *sheets])
    others = [choose.randrange(4) for _ in range(choose.randrange(4))]
    return obstructions.Entry(0, [choose.randrange(1, max(2, node.numbers[0])), choose.randrange(simplices + 1), choose.randrange(3), *others])


def random_node(choose, simplices, names=("case", "split", "cover", "balance")):
    """A node with one of these names, and some lines below it."""
    name, simplex = choose.choice(names), choose.randrange(simplices + (choose.random() < 0.1))
    if name in ("case", "split"):
        return finding.node(name, simplex)
    modulus = choose.choice(MODULI)
    numbers = [simplex, choose.choice([1, 2, 2, 3]), choose.randrange(3)] if name == "cover" else [modulus, choose.randrange(1, modulus)]
    made = finding.node(name, *numbers)
    made.entries.extend(random_entry(choose, made, simplices) for _ in range(choose.choice([0, 0, 1, 2, 4])))
    return made


def flat_moves(choose, hand, simplex, sheets):
    """Moves of a cover that come of other names for the sheets at each value, so that each tuple is flat."""
    tuples, places = hand.allowed[simplex], range(len(hand.inputs[simplex]))
    names = {end: choose.sample(range(sheets), sheets) for end in sorted({(i, it[i]) for it in tuples for i in places})}
    edges = sorted({(i, it[i], j, it[j]) for it in tuples for i, j in itertools.combinations(places, 2)})
    there = lambda edge: [names[edge[2:]][names[edge[:2]].index(sheet)] for sheet in range(sheets)]
    return [obstructions.Entry(0, [*edge, *there(edge)]) for edge in edges]


def below(hand, step):
    """The tasks that a node makes of a task at hand."""
    if step.name == "case":
        return list(obstructions.cases(hand, step.numbers[0]))
    return [(obstructions.split if step.name == "split" else obstructions.cover)(hand, step)]


def grown(choose, hand, levels):
    """A tree of the task at hand with up to so many levels that nobody needs, or None."""
    if levels and choose.random() < 0.6:
        step = random_node(choose, len(hand.inputs), ["case"] if hand.symmetric else ["case", "split", "cover"])
        tasks = []
        if step.numbers[0] < len(hand.inputs):
            if step.name == "cover":
                step.entries[:] = flat_moves(choose, hand, *step.numbers[:2])
            try:
                tasks = below(hand, step)
            except obstructions.Refused:
                pass
        trees = [grown(choose, it, levels - 1) if it.new_name() < MOST_NAMES else None for it in tasks]
        if tasks and all(trees) and sum(map(len, trees)) < MOST_NODES:
            return [step, *itertools.chain(*trees)]
    return finding.Finder(choose.sample(MODULI, 2)).tree(hand)


def number_changed(choose, numbers, most):
    """Changes one of these numbers."""
    place = choose.randrange(len(numbers))
    near = max(0, numbers[place] + choose.choice([-1, 1, 1, 2]))
    numbers[place] = choose.choice([near] * 8 + [choose.randrange(most), choose.choice(NUMBERS)])


def changed(choose, nodes, simplices):
    """The nodes of a tree, changed in one place."""
    nodes = [it._replace(numbers=[*it.numbers], entries=[one._replace(numbers=[*one.numbers]) for one in it.entries]) for it in nodes]
    at, how = choose.randrange(len(nodes)), choose.randrange(10)
    having = [it for it in nodes if it.entries]
    if how == 0:
        del nodes[at]
    elif how == 1:
        nodes.insert(at + choose.randrange(2), choose.choice([random_node(choose, simplices), choose.choice(nodes)]))
    elif how == 2:
        nodes[at:at + 2] = reversed(nodes[at:at + 2])
    elif how < 5 or not having:
        number_changed(choose, nodes[at].numbers, simplices)
    else:
        covers = [it for it in having if it.name == "cover"]
        node = choose.choice(covers if covers and choose.random() < 0.5 else having)
        place = choose.randrange(len(node.entries))
        if how == 5:
            del node.entries[place]
        elif how == 6:
            node.entries.append(random_entry(choose, node, simplices))
        else:
            number_changed(choose, node.entries[place].numbers, simplices)
    return nodes


def in_order(nodes):
    """The same with lines below each node that ascend, each once by what it is about."""
    found = []
    for node in nodes:
        key = (lambda it: it.numbers[:4]) if node.name == "cover" else lambda it: it.numbers[1:]
        lines = {tuple(key(it)): it for it in node.entries}
        found.append(node._replace(entries=[lines[it] for it in sorted(lines)]))
    return found


def text_of(choose, task, nodes):
    """The text of nodes, nearly always in the order of the grammar."""
    return finding.text_of(task, in_order(nodes) if choose.random() < 0.95 else nodes).encode()


def case(seed, number):
    """A task by its number, and a text about it."""
    choose = random.Random(f"trees {seed}:{number}")
    task = random_task(choose)
    hand = obstructions.hand_of(task)
    nodes = grown(choose, hand, 3) or [random_node(choose, len(hand.inputs)) for _ in range(choose.choice([1, 2, 3]))]
    if choose.random() < 0.8:
        nodes = changed(choose, nodes, len(hand.inputs))
    return task, text_of(choose, task, nodes)
