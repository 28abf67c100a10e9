"""Tasks that are drawn at random, each by a seed and its number.

First come three densities: of the largest simplices, of the faces between, and of the processes alone. Then the larger simplices come
before their faces. Of the tuples that may be allowed, each is with the density; if none is, one of them. A tuple may be allowed at a
face if each larger simplex has a tuple that goes on from it. If there is none, the task is drawn again. So what is drawn is pruned."""
import random
from typing import Iterator, List, Optional, Set

from .shapes import Rules, Shape, shadow

# between which numbers densities lie: of the largest simplices, of the faces between, and of the processes alone
DENSITIES = ((0.15, 0.9), (0.2, 1.0), (0.1, 1.0))


def codes(shape: Shape, seed: int, many: int) -> List[str]:
    """The codes of the first so many tasks that are unlike those before, ascending."""
    found: Set[str] = set()
    drawn = draws(shape, seed)
    while len(found) < many:
        found.add(next(drawn))
    return sorted(found)


def draws(shape: Shape, seed: int) -> Iterator[str]:
    """One code after another."""
    number = 0
    while True:
        rules = drawn(shape, random.Random(f"{shape.tag} {seed} {number}"))
        number += 1
        if rules is not None:
            yield shape.code(rules)


def drawn(shape: Shape, choose: random.Random) -> Optional[Rules]:
    """A task by its masks, or None if nothing may be allowed somewhere."""
    densities = [low + (high - low) * choose.random() for low, high in DENSITIES]
    rules: Rules = {}
    for place, level in enumerate(shape.levels()):
        density = densities[0 if place == 0 else 2 if place == shape.processes - 1 else 1]
        larger = shape.levels()[place - 1] if place else []
        for face in level:
            most = (1 << len(shape.tuples(len(face)))) - 1
            for whole in larger:
                if set(face) < set(whole):
                    most &= shadow(shape, whole, face, rules[whole])
            if not most:
                return None
            rules[face] = some(choose, most, density)
    return rules


def some(choose: random.Random, most: int, density: float) -> int:
    """A mask of some of the bits of another, each with a density; if none is taken, one."""
    bits = [1 << place for place in range(most.bit_length()) if most >> place & 1]
    return sum(bit for bit in bits if choose.random() < density) or bits[int(choose.random() * len(bits))]
