"""Small tasks, and what `wfcheck obstruction` has to say of each: a part of checks/fuzz.

Each task is asked about modulo 2 and 3, and without a modulus; the kept ones modulo 4, 8 and 9 as well. Modulo 2 covers are asked for too,
if there is nothing without them. The program has to find an obstruction wherever oracle/finding.py does, and oracle/obstructions.py has to
accept what it finds, of this task. It may say that no modulus has an obstruction only where oracle/finding.py finds whole numbers that show
it."""
import itertools
import json
import random
import re

import common
import finding
import obstructions
import task_file

ROOT = common.ROOT
PRIMES = [2, 3]
POWERS = [2, 3, 4, 8, 9]
# tasks of tests/obstructions, and the moduli of POWERS by which they have a balance
KEPT = {
    "modulo-4-alone": [4, 8],
    "modulo-4": [3, 4, 8, 9],
    "modulo-4-symmetric": [3, 4, 8, 9],
    "modulo-9-symmetric": [2, 4, 8, 9],
}
NONE_FOUND = re.compile(r"no obstruction by splits, cases and balances (?:(of any modulus)|modulo (\d+(?:, \d+)*))\n")
# a larger modulus is not asked of oracle/finding.py in a case
LARGEST = 9
# the modulus by which covers are asked for too
WITH_COVERS = 2


def random_task(choose):
    """A task of two or three processes with two or three values. In a symmetric one some simplices with the same inputs have different
    rules."""
    processes, values = choose.choice([2, 2, 3, 3, 3]), range(choose.choice([2, 2, 3]))
    symmetric = choose.random() < 0.5
    inputs = {tuple((p, choose.randrange(2)) for p in range(processes)) for _ in range(choose.choice([1, 1, 2]))}
    outputs = [list(enumerate(it)) for it in itertools.product(values, repeat=processes)]
    density, rules, delta = [choose.choice([0.3, 0.5, 0.7, 0.85]) for _ in range(processes)], {}, []
    for simplex in task_file.complex_of(sorted(inputs)):
        key = tuple(value for _, value in simplex) if symmetric else simplex
        every = list(itertools.product(values, repeat=len(simplex)))
        if key not in rules or choose.random() < 0.1:
            rules[key] = [it for it in every if choose.random() < density[len(simplex) - 1]] or [choose.choice(every)]
        delta.append({"in": simplex, "out": rules[key]})
    task = {"version": 1, "processes": processes, "symmetric": symmetric, "inputs": sorted(inputs), "outputs": outputs, "delta": delta}
    return json.dumps(task, separators=(",", ":")).encode()


def case(seed, number):
    """The text of a task by its number, and the moduli by which it is asked about."""
    return random_task(random.Random(f"{seed}:{number}")), PRIMES


def kept():
    """The texts of the kept tasks by their names, and the moduli by which they have a balance."""
    return {name: ((ROOT / f"tests/obstructions/{name}.json").read_bytes(), having) for name, having in KEPT.items()}


def wrong(run, text, moduli, having=None):
    """What is wrong with what the program says of a task, or None."""
    task = task_file.read(text)[0]
    for modulus in moduli:
        found = finding.find(task, [modulus])
        if having is not None and bool(finding.balance(obstructions.hand_of(task), modulus)) != (modulus in having):
            return f"oracle/finding.py finds {'no' if modulus in having else 'a'} balance modulo {modulus}"
        if fault := wrong_modulus(run, task, text, modulus, 0, found):
            return f"modulo {modulus}: {fault}"
        if modulus == WITH_COVERS and not found and (fault := wrong_modulus(run, task, text, modulus, 1, finding.find(task, [modulus], 1))):
            return f"modulo {modulus} with a cover: {fault}"
    if having is not None and (least := finding.find(task)[-1].numbers[0]) != having[0]:
        return f"oracle/finding.py finds a balance modulo {least}, and not modulo {having[0]}"
    return wrong_whole(task, run(["obstruction"], text))


def wrong_modulus(run, task, text, modulus, covers, found):
    """What is wrong with what the program says of a task, a modulus and so many covers, or None."""
    if found:
        obstructions.judge(task, finding.text_of(task, found))
    ran = run(["obstruction", "--modulus", str(modulus), *["--covers", str(covers)] * (covers > 0)], text)
    if ran.returncode == 0 or found:
        return wrong_found(task, modulus, ran)
    tried = "covers, splits, cases and balances" if covers else "splits, cases and balances"
    right = (ran.returncode, ran.stdout, ran.stderr) == (1, b"", f"no obstruction by {tried} modulo {modulus}\n".encode())
    return None if right else f"there is none: {shown(ran)}"


def wrong_found(task, modulus, ran):
    """What is wrong with an obstruction that the program writes, by this modulus if there is one, or None."""
    if (ran.returncode, ran.stderr) != (0, b""):
        return f"there is one: {shown(ran)}"
    try:
        judged = obstructions.judge(task, ran.stdout.decode())
    except (obstructions.Refused, UnicodeDecodeError) as refused:
        return f"what is found is refused: {refused}"
    moduli = sorted({it.modulus for it in judged})
    return None if modulus is None or moduli in ([], [modulus]) else f"the obstruction is modulo {moduli}"


def wrong_whole(task, ran):
    """What is wrong with what the program says of a task without a modulus, or None."""
    if ran.returncode == 0:
        return wrong_found(task, None, ran)
    said = NONE_FOUND.fullmatch(ran.stderr.decode(errors="replace"))
    if ran.returncode != 1 or ran.stdout or not said:
        return shown(ran)
    if said[1]:
        return None if finding.has_none(task) else "some modulus has an obstruction, and it says that none has"
    for modulus in [it for it in map(int, said[2].split(", ")) if it <= LARGEST]:
        if finding.find(task, [modulus]):
            return f"it says that there is none, and there is one modulo {modulus}"
    return None


def shown(ran):
    return f"status {ran.returncode}, {ran.stderr[:80]}, {len(ran.stdout)} bytes written"
