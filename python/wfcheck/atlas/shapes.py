"""Codes: a task in a word. A code begins with the tag of a shape, which says how many processes there are, what they begin with, and how
many values each may decide. Behind the tag stands a mask for each input simplex: which tuples are allowed there.

`b-7e-f.6.9-3.1.2` has the shape `b`, three processes that begin with 0 and decide 0 or 1. 7e is the mask of the triangle; f, 6 and 9
are those of the edges 01, 02 and 12; 3, 1 and 2 those of the processes alone. Bit k of a mask, from the lowest, is the tuple that k is
to the base of the values, the lowest process being the last digit. So 6 allows (1, 0) and (0, 1): it has the bits 1 and 2."""
import functools
import itertools
from typing import Dict, List, NamedTuple, Sequence, Tuple

from ..tasks import Mistake, Simplex, Task, simplices, text_of

# what is decided at a simplex, by ascending process
Values = Tuple[int, ...]
Rules = Dict[Simplex, int]


class Shape(NamedTuple):
    """What all tasks of a table have in common: a tag, the inputs of the facets by process, and how many values there are, from 0 on."""
    tag: str
    facets: Tuple[Values, ...]
    values: int

    @property
    def processes(self) -> int:
        """How many processes there are."""
        return len(self.facets[0])

    def levels(self) -> List[List[Simplex]]:
        """The input simplices by their sizes, the largest first; those of one size in the order of their numbers."""
        return levels_of(self)

    def faces(self) -> List[Simplex]:
        """The input simplices in the order of a code."""
        return [simplex for level in self.levels() for simplex in level]

    def tuples(self, size: int) -> List[Values]:
        """The tuples of so many processes, in the order of the bits of a mask."""
        return tuples_of(self.values, size)

    def code(self, rules: Rules) -> str:
        """The code of a task, by the masks of its simplices."""
        groups = [".".join(f"{rules[it]:0{digits(self, len(it))}x}" for it in level) for level in self.levels()]
        return "-".join([self.tag, *groups])

    def rules(self, code: str) -> Rules:
        """The masks that a code tells. Raises Mistake if the code is none of this shape."""
        tag, *groups = code.split("-")
        masks = [group.split(".") for group in groups]
        levels = self.levels()
        if tag != self.tag or [*map(len, masks)] != [*map(len, levels)]:
            raise Mistake(f"{code!r} is no code: {self.code({it: 1 for it in self.faces()})} is one")
        return {it: mask_of(self, code, it, mask) for level, group in zip(levels, masks) for it, mask in zip(level, group)}

    def task(self, code: str) -> Task:
        """The task that a code tells."""
        rules = self.rules(code)
        lists = {it: sorted(allowed(self, it, rules[it])) for it in reversed_levels(self)}
        ends = {tuple(zip((p for p, _ in it), each)) for it, several in lists.items() for each in several}
        return Task(code, text_of({"version": 1, "processes": self.processes, "symmetric": False}, lists, ends))


@functools.lru_cache(maxsize=None)
def levels_of(shape: Shape) -> List[List[Simplex]]:
    """The input simplices of a shape by their sizes, the largest first."""
    found = simplices([tuple(enumerate(each)) for each in shape.facets])
    return [[it for it in found if len(it) == size] for size in range(shape.processes, 0, -1)]


def reversed_levels(shape: Shape) -> List[Simplex]:
    """The input simplices in the order of their numbers, the smallest first."""
    return [simplex for level in reversed(shape.levels()) for simplex in level]


@functools.lru_cache(maxsize=None)
def tuples_of(values: int, size: int) -> List[Values]:
    """The tuples of so many places, with the first place counting fastest."""
    return [each[::-1] for each in itertools.product(range(values), repeat=size)]


def digits(shape: Shape, size: int) -> int:
    """How many hexadecimal digits a mask of tuples of this size has."""
    return -(-len(shape.tuples(size)) // 4)


def mask_of(shape: Shape, code: str, simplex: Simplex, text: str) -> int:
    """The mask that a word of a code is. Raises Mistake if it is none."""
    width = digits(shape, len(simplex))
    if len(text) != width or set(text) - set("0123456789abcdef"):
        raise Mistake(f"{code!r} is no code: {text!r} is no mask of {width} hexadecimal digits")
    mask = int(text, 16)
    if not 0 < mask < 1 << len(shape.tuples(len(simplex))):
        raise Mistake(f"{code!r} is no code: the mask {text} allows nothing, or what is no tuple")
    return mask


def allowed(shape: Shape, simplex: Simplex, mask: int) -> List[Values]:
    """The tuples that a mask allows at a simplex."""
    return [each for place, each in enumerate(shape.tuples(len(simplex))) if mask >> place & 1]


def mask_from(shape: Shape, tuples: Sequence[Values]) -> int:
    """The mask of some tuples of one size."""
    return sum(1 << shape.tuples(len(tuples[0])).index(each) for each in tuples) if tuples else 0


def part(whole: Simplex, face: Simplex, values: Values) -> Values:
    """What those of a face decide, if those of the whole decide these values."""
    return tuple(value for vertex, value in zip(whole, values) if vertex in face)


@functools.lru_cache(maxsize=None)
def shadow(shape: Shape, whole: Simplex, face: Simplex, mask: int) -> int:
    """The mask of what those of a face may decide, if those of the whole decide what a mask allows."""
    found = {part(whole, face, each) for each in allowed(shape, whole, mask)}
    return mask_from(shape, sorted(found))


BITS = (0, 1)
BINARY = Shape("b", ((0, 0, 0),), 2)
TERNARY = Shape("t", ((0, 0, 0),), 3)
EIGHT = Shape("e", tuple(itertools.product(BITS, repeat=3)), 3)
EDGE = Shape("p", ((0, 0),), 3)
CYCLE = Shape("c", tuple(itertools.product(BITS, repeat=2)), 3)
SHAPES = {it.tag: it for it in (BINARY, TERNARY, EIGHT, EDGE, CYCLE)}
