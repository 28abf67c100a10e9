"""Random tasks of all kinds, for checks/joins and checks/solves; those of symmetric_task for checks/fuzz.

A task of random_task has one to four processes, names or ranks, a first block of one to three, one to three input facets of any sizes,
and one to five output values. What is allowed at a simplex is drawn at random, or from what is left of the tuples of larger simplices.
A network has edges between a few inputs, and mostly no map, which shows only behind some branches."""
import itertools
import json

import second_opinion
import task_file


def random_task(choose):
    """A task as its JSON value."""
    processes = choose.choice([1, 2, 2, 2, 3, 3, 3, 3, 4])
    version, symmetric = choose.choice([1, 2]), choose.random() < 0.3
    most = {1: 5, 2: 5, 3: 4, 4: 3}[processes]
    every = range(64 if version == 1 else 256)
    values = sorted(choose.sample(every, choose.randint(1, most))) if choose.random() < 0.2 else [*range(choose.randint(2, most))]
    inputs = sorted({facet(choose, processes) for _ in range(choose.choice([1, 1, 2, 3]))})
    draw = choose.choice([rules_by_density, rules_from_above])
    rules = [*draw(choose, list(task_file.complex_of(inputs)), values, symmetric)]
    return task_of(choose, processes, version, symmetric, rules)


def random_network(choose):
    """A task of three or four processes, as its JSON value. Some inputs of process 0 may be in no edge, so that they make many branches.
    Else each value of a vertex has one at the other end of an edge, and in some tasks a few more: so no value is lost before a branch."""
    processes, own, values = choose.choice([3, 3, 4]), choose.randint(1, 4), range(choose.choice([2, 3, 3, 4]))
    free = choose.choice([(), (64,), (8, 8), (9, 8), (4, 4, 4), (3, 3, 3, 3), (2, 2, 2, 2, 2, 2)])
    pairs = itertools.combinations([(p, len(free) + it) for p in range(processes) for it in range(own)], 2)
    edges = [it for it in pairs if it[0][0] < it[1][0]]
    inputs = sorted(choose.sample(edges, min(len(edges), choose.randint(processes * own - 1, 2 * processes * own))))
    more, every = choose.choice([0, 0, 0.1, 0.2]), list(itertools.product(values, repeat=2))
    rules = {it: [(value,) for value in values] for it in task_file.complex_of(inputs)}
    for edge in inputs:
        rules[edge] = sorted({*zip(values, choose.sample(values, len(values)))} | {it for it in every if choose.random() < more})
    rules |= {((0, at),): [(value,) for value in range(size)] for at, size in enumerate(free)}
    return task_of(choose, processes, choose.choice([1, 2]), choose.random() < 0.15, sorted(rules.items()))


def symmetric_task(choose):
    """A task of two or three processes, in which what some may decide follows from their inputs alone: a few tuples, or any."""
    count, values = choose.choice([2, 3]), choose.choice([2, 3, 4])
    facet = tuple(enumerate(choose.choices(range(2), k=count)))
    rules, outputs = {}, set()
    for simplex in second_opinion.faces(facet):
        tuples = list(itertools.product(range(values), repeat=len(simplex)))
        some = choose.sample(tuples, min(len(tuples), choose.randrange(1, 5))) if choose.random() < 0.3 * len(simplex) else tuples
        rule = rules.setdefault(tuple(value for _, value in simplex), some)
        outputs |= {tuple(zip((process for process, _ in simplex), decided)) for decided in rule}
    delta = [{"in": simplex, "out": rules[tuple(value for _, value in simplex)]} for simplex in second_opinion.faces(facet)]
    return {"version": 1, "processes": count, "symmetric": True, "inputs": [facet], "outputs": sorted(outputs), "delta": delta}


def task_of(choose, processes, version, symmetric, rules):
    """The task with these rules at its input simplices."""
    outputs = sorted({tuple(zip((p for p, _ in simplex), it)) for simplex, rule in rules for it in rule})
    task = {"version": version, "processes": processes, "symmetric": symmetric, "inputs": [simplex for simplex, _ in rules],
            "outputs": outputs, "delta": [{"in": simplex, "out": rule} for simplex, rule in rules]}
    return json.loads(json.dumps(task | ({"first_block": choose.choice([1, 1, 2, 3])} if version == 2 else {})))


def facet(choose, processes):
    """An input facet: mostly of all processes, with inputs of 0 or 1."""
    some = sorted(choose.sample(range(processes), choose.randint(1, processes))) if choose.random() < 0.15 else range(processes)
    return tuple((p, choose.randrange(2)) for p in some)


def rules_by_density(choose, simplices, values, symmetric):
    """At each simplex tuples at random, in a symmetric task mostly the same where inputs agree; seldom none."""
    density, known = [choose.choice([0.3, 0.5, 0.7, 0.85]) for _ in range(4)], {}
    for simplex in simplices:
        every = list(itertools.product(values, repeat=len(simplex)))
        key = tuple(value for _, value in simplex) if symmetric else simplex
        if key not in known or choose.random() < 0.1:
            some = [it for it in every if choose.random() < density[len(simplex) - 1]]
            known[key] = some or [choose.choice(every)] * (choose.random() < 0.9)
        yield simplex, known[key]


def rules_from_above(choose, simplices, values, symmetric):
    """At the largest simplices tuples at random; at a face some of those that a larger simplex leaves there, one at least."""
    some, density, found = choose.choice([0.25, 0.5, 0.75]), choose.choice([0.3, 0.5, 0.7]), {}
    for simplex in reversed(simplices):
        key = tuple(value for _, value in simplex) if symmetric else simplex
        above = {tuple(value for vertex, value in zip(larger, it) if vertex in simplex)
                 for larger in found if {*simplex} < {*larger} for it in found[larger]}
        every = sorted(above) or list(itertools.product(values, repeat=len(simplex)))
        same = next((rule for other, rule in found.items() if symmetric and tuple(value for _, value in other) == key), None)
        rule = [it for it in every if choose.random() < (some if above else density)] or [choose.choice(every)]
        found[simplex] = same or rule
    return [(simplex, found[simplex]) for simplex in simplices]


def text_of(task):
    """The text of a task's file."""
    return json.dumps(task, separators=(",", ":")).encode()


def rounds_within(choose, task, most_executions):
    """A number of rounds up to 2 after which there are no more executions than that, or 0."""
    return choose.choice([it for it in (0, 1, 1, 2) if not it or second_opinion.executions_of(task, it) <= most_executions])
