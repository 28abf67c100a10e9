"""All tasks of a shape with one facet, up to symmetry: permutations of the processes, and of the values of each process.

A task is listed if it is pruned: each tuple of a face is part of one that is allowed at each larger simplex, and something is allowed
at each simplex. Others have decision maps after the same rounds as what is left of them, if all that no larger simplex goes on from is
taken away. Of the tasks that symmetries make of one, the one with the least masks is listed, in the order of its code."""
import itertools
from typing import Iterator, List, NamedTuple, Sequence, Tuple

from .shapes import Shape, Values, mask_from, shadow

# the masks of the simplices of one size
Masks = Tuple[int, ...]


class Move(NamedTuple):
    """What a symmetry does to the simplices of one size: to which place each goes, and what becomes of each of its masks."""
    places: Tuple[int, ...]
    tables: Tuple[List[int], ...]

    def of(self, masks: Masks) -> Masks:
        """What becomes of the masks."""
        moved = [0] * len(masks)
        for place, table, mask in zip(self.places, self.tables, masks):
            moved[place] = table[mask]
        return tuple(moved)


# a symmetry: a move for each size, the largest first
Symmetry = List[Move]


def symmetries(shape: Shape) -> List[Symmetry]:
    """The symmetries of a shape with one facet."""
    n, values = shape.processes, range(shape.values)
    orders = [*itertools.permutations(range(n))]
    return [[move(shape, order, named, size) for size in range(n, 0, -1)]
            for order in orders for named in itertools.product(itertools.permutations(values), repeat=n)]


def move(shape: Shape, order: Sequence[int], named: Sequence[Sequence[int]], size: int) -> Move:
    """What a symmetry does to simplices of a size: process p becomes order[p], and its value v becomes named[p][v]."""
    faces = [*itertools.combinations(range(shape.processes), size)]
    places, tables = [], []
    for face in faces:
        target = tuple(sorted(order[p] for p in face))
        places.append(faces.index(target))
        tables.append(table(shape, [moved(face, each, order, named) for each in shape.tuples(size)]))
    return Move(tuple(places), tuple(tables))


def moved(face: Sequence[int], values: Values, order: Sequence[int], named: Sequence[Sequence[int]]) -> Values:
    """What becomes of a tuple of a face."""
    ended = {order[p]: named[p][value] for p, value in zip(face, values)}
    return tuple(ended[p] for p in sorted(ended))


def table(shape: Shape, ends: Sequence[Values]) -> List[int]:
    """What becomes of each mask, if each bit's tuple becomes one of these."""
    bits = [mask_from(shape, [each]) for each in ends]
    found = [0]
    for bit in bits:
        found += [it | bit for it in found]
    return found


def classes(shape: Shape) -> Iterator[Tuple[str, int]]:
    """The code of each class of tasks, ascending, and how many tasks are in the class."""
    every = symmetries(shape)
    for masks, kept in longer(shape, [], every):
        rules = dict(zip(shape.faces(), [it for level in masks for it in level]))
        yield shape.code(rules), len(every) // len(kept)


def longer(shape: Shape, begun: List[Masks], kept: List[Symmetry]) -> Iterator[Tuple[List[Masks], List[Symmetry]]]:
    """The tasks that begin with the masks of the larger simplices, each with the symmetries that leave it as it is. The masks that begin it
    are left as they are by those that are kept."""
    size = len(begun)
    if size == shape.processes:
        yield begun, kept
        return
    for masks in itertools.product(*map(below, room(shape, begun))):
        images = [(symmetry[size].of(masks), symmetry) for symmetry in kept]
        if all(image >= masks for image, _ in images):
            yield from longer(shape, [*begun, masks], [symmetry for image, symmetry in images if image == masks])


def room(shape: Shape, begun: List[Masks]) -> List[int]:
    """What each simplex of the next size may allow at most, since all larger ones have to go on from it."""
    levels = shape.levels()
    if not begun:
        return [(1 << len(shape.tuples(shape.processes))) - 1]
    above = [*zip(levels[len(begun) - 1], begun[-1])]
    return [common([shadow(shape, whole, face, mask) for whole, mask in above if set(face) < set(whole)]) for face in levels[len(begun)]]


def common(masks: Sequence[int]) -> int:
    """What all masks allow."""
    found = masks[0]
    for mask in masks:
        found &= mask
    return found


def below(most: int) -> List[int]:
    """The masks that allow something, and nothing that this one does not, ascending."""
    found, mask = [], most
    while mask:
        found.append(mask)
        mask = mask - 1 & most
    return found[::-1]
