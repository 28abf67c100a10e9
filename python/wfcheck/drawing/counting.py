"""Obstructions as weights: which tuples carry which weight on which simplex, and the count of a choice of values.

The picture knows no text. `balanced` has the weights of a list of multipliers, and `weights_of` those of an obstruction that is one
balance."""
import dataclasses
import random
from typing import Dict, Iterable, List, NamedTuple, Optional, Sequence, Tuple

from ..answers import Obstruction
from ..tasks import Simplex
from .subdivision import Complex, Rules

# at an input simplex, a participant and the values of the others: a multiplier
Multipliers = Dict[Tuple[Simplex, int, Tuple[int, ...]], int]


@dataclasses.dataclass
class Weights:
    """What is counted: each tuple at an input simplex has a weight, and the count is `sum` modulo `modulus`, whatever is decided."""
    modulus: int
    sum: int
    tuples: Dict[Tuple[Simplex, Tuple[int, ...]], int]

    def simplices(self) -> List[Simplex]:
        """The input simplices that have a tuple with a weight."""
        return list(dict.fromkeys(it for it, _ in self.tuples))


def weights_of(rules: Rules, found: Obstruction) -> Optional[Weights]:
    """The weights of an obstruction, which `verify` accepted; None of a tree of more nodes, whose balances count in other tasks."""
    if [it.name for it in found.nodes] != ["balance"]:
        return None
    multipliers: Multipliers = {(it.simplex, it.participant, it.others): it.weight for it in found.multipliers()}
    return balanced(rules, found.nodes[0].numbers[0], multipliers)


def balanced(rules: Rules, modulus: int, multipliers: Multipliers) -> Weights:
    """The weights that multipliers of equations give to all tuples: with t at a simplex s, the multipliers of s at t without a participant,
    less those of the simplices d of one participant more, at t. The sum is that of the vertices' multipliers. In a symmetric task the first
    simplex with some inputs stands for all that have them in the order of ranks, since executions on these decide alike."""
    def key_of(simplex: Simplex) -> Simplex:
        """What simplices have in common on which executions decide alike."""
        return tuple((0, value) for _, value in simplex) if rules.symmetric else simplex

    first: Dict[Simplex, Simplex] = {}
    for it in rules.simplices:
        first.setdefault(key_of(it), it)
    tuples: Dict[Tuple[Simplex, Tuple[int, ...]], int] = {}
    for (named, participant, others), factor in multipliers.items():
        place, simplex = [p for p, _ in named].index(participant), first[key_of(named)]
        for value in rules.values:
            key = simplex, (*others[:place], value, *others[place:])
            tuples[key] = tuples.get(key, 0) + factor
        if len(simplex) > 1:
            face = first[key_of(simplex[:place] + simplex[place + 1:])]
            tuples[face, others] = tuples.get((face, others), 0) - factor
    total = sum(factor for (simplex, _, _), factor in multipliers.items() if len(simplex) == 1)
    return Weights(modulus, total % modulus, {it: weight % modulus for it, weight in sorted(tuples.items()) if weight % modulus})


class Counted(NamedTuple):
    """An execution that counts: its number, its sign and the weight of its tuple."""
    execution: int
    sign: int
    weight: int


def choices(made: Complex, any_value: bool) -> List[List[int]]:
    """The values from which each point draws: those that the task allows there to its process, or all if it allows none or any will do."""
    found: List[List[int]] = [made.rules.values] * len(made.classes)
    if any_value:
        return found
    for view, point in made.points.items():
        simplex = tuple(sorted(made.views[view].carrier))
        place = [p for p, _ in simplex].index(made.views[view].process)
        allowed = {it[place] for it in made.rules.allowed.get(simplex, [])}
        found[point] = [it for it in found[point] if it in allowed] or made.rules.values
    return found


def drawn_values(listed: Iterable[Sequence[int]], seed: int) -> List[int]:
    """A value for each point, the same for the same seed."""
    chance = random.Random(seed)
    return [each[int(chance.random() * len(each))] for each in listed]


def count(made: Complex, weights: Weights, values: Sequence[int]) -> List[Counted]:
    """The executions that count if the points have these values."""
    found = []
    for number, execution in enumerate(made.executions):
        weight = weights.tuples.get((execution.simplex, made.tuple_of(number, values)), 0)
        if weight:
            found.append(Counted(number, made.sign(number), weight))
    return found


def count_text(counted: Sequence[Counted], modulus: int) -> str:
    """The count in words, as "5 - 2 = 3, and 3 modulo 2 is 1"."""
    plus = sum(it.weight for it in counted if it.sign > 0)
    minus = sum(it.weight for it in counted if it.sign < 0)
    return f"{plus} - {minus} = {plus - minus}, and {plus - minus} modulo {modulus} is {(plus - minus) % modulus}"
