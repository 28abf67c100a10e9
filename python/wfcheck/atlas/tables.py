"""The tables of the atlas: which tasks stand in each, and how far they are asked about."""
from typing import Callable, List, NamedTuple

from ..tasks import Mistake, Task
from . import classes, drawing, symmetric
from .shapes import BINARY, CYCLE, EDGE, EIGHT, SHAPES, TERNARY, Shape

SEED = 20261129


class Table(NamedTuple):
    """A table: its name, what stands in it, its codes in their order, how many rounds are asked about, and how many seconds a run has."""
    name: str
    about: str
    codes: Callable[[], List[str]]
    rounds: int
    seconds: float


def listed(shape: Shape) -> List[str]:
    """The codes of all tasks of a shape, up to symmetry."""
    return [code for code, _ in classes.classes(shape)]


def broken() -> List[str]:
    """The codes of generalized symmetry breaking."""
    return sorted(code for n in (3, 4) for code in symmetric.codes(n))


def at_random(name: str, about: str, shape: Shape, many: int, seconds: float) -> Table:
    """A table of tasks that are drawn."""
    return Table(name, f"{many:,} of {about}, drawn by the seed {SEED}", lambda: drawing.codes(shape, SEED, many), 3, seconds)


TABLES = [
    Table("three-binary", "three processes, one input facet, two values: all pruned tasks up to symmetry", lambda: listed(BINARY), 3, 30),
    Table("symmetry-breaking", "generalized symmetry breaking of three and four processes, up to five and seven values", broken, 3, 120),
    Table("two-edge", "two processes, one input edge, three values: all pruned tasks up to symmetry", lambda: listed(EDGE), 3, 30),
    at_random("two-cycle", "two processes, a cycle of four input edges, three values", CYCLE, 2_000, 30),
    at_random("three-ternary", "three processes, one input facet, three values", TERNARY, 5_000, 30),
    at_random("eight-facets", "three processes, eight input facets, three values", EIGHT, 1_000, 30),
]
NAMES = {it.name: it for it in TABLES}


def task_of(code: str) -> Task:
    """The task that a code tells. Raises Mistake if it is none."""
    tag = code.partition("-")[0]
    if tag in SHAPES:
        return SHAPES[tag].task(code)
    if tag.startswith("gsb"):
        return symmetric.task_of(code)
    raise Mistake(f"{code!r} is no code: a code begins with one of {', '.join([*SHAPES, 'gsb3', 'gsb4'])}")
