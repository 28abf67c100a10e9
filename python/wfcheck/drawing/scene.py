"""What is drawn: points and executions at their places, with labels, colours and marks, and the words beside them."""
import dataclasses
import math
from typing import Dict, Iterable, List, Optional, Sequence, Set, Tuple

from ..names import Names
from ..tasks import Simplex, faces
from .embedding import GAP, Layout, Patch, layout, middle_of, place, shares
from .graphs import XY
from .subdivision import Complex, Rules

# the lengths of sides in pixels by rounds: of triangles, and of edges of a graph
SIDES, EDGES = [300.0, 520.0, 820.0, 1180.0], [260.0, 420.0, 720.0, 1080.0]
# how much shorter sides are if there are so many groups of patches in a row
SHORTER, LEAST_PART = {1: 1.0, 2: 0.74, 3: 0.56, 4: 0.46}, 0.38
MOST_RADIUS, LEAST_RADIUS, READABLE = 12.0, 2.0, 6.5
MARGIN, ABOVE, TINY = 64.0, 44.0, 1e-6
MANY_MARKS = 60


class TooLarge(Exception):
    """A picture that would have too much to see, told in a line."""


@dataclasses.dataclass
class Spot:
    """A point at one of its places: a view, its process, and what stands at it. `value` has a colour, and `marks` are classes."""
    view: int
    point: int
    process: int
    at: XY
    title: str
    label: str = ""
    value: Optional[int] = None
    marks: Set[str] = dataclasses.field(default_factory=set)


@dataclasses.dataclass
class Cell:
    """An execution at one of its places: the spots at which it ends. All places but the first are copies."""
    execution: int
    spots: Tuple[int, ...]
    title: str
    is_copy: bool = False
    label: str = ""
    value: Optional[int] = None
    marks: Set[str] = dataclasses.field(default_factory=set)
    # what a label stands away from
    middle: XY = (0.0, 0.0)


@dataclasses.dataclass
class Note:
    """A text at a place: the name of a corner or of a face."""
    at: XY
    text: str
    kind: str


@dataclasses.dataclass
class Scene:
    """A picture: y grows downwards. `values` are those that the legend has, `count` is what an obstruction counts."""
    heading: str
    about: str = ""
    lines: List[str] = dataclasses.field(default_factory=list)
    spots: List[Spot] = dataclasses.field(default_factory=list)
    cells: List[Cell] = dataclasses.field(default_factory=list)
    notes: List[Note] = dataclasses.field(default_factory=list)
    processes: List[int] = dataclasses.field(default_factory=list)
    values: List[int] = dataclasses.field(default_factory=list)
    palette: List[int] = dataclasses.field(default_factory=list)
    size: XY = (0.0, 0.0)
    radius: float = MOST_RADIUS
    count: str = ""
    values_are: str = "decided values"
    names: Names = Names()

    @property
    def is_readable(self) -> bool:
        """Whether the spots are large enough for a label."""
        return self.radius >= READABLE

    @property
    def is_crowded(self) -> bool:
        """Whether so many small executions are marked that marks have to be thin."""
        return not self.is_readable and sum("lit" in it.marks for it in self.cells) > MANY_MARKS


def counted(number: int, noun: str) -> str:
    """A number with a noun."""
    return f"{number:,} {noun}" if number == 1 else f"{number:,} {noun}s"


def chosen_facets(rules: Rules, wanted: Iterable[Simplex]) -> List[Simplex]:
    """Few facets in which all these simplices lie, by how many each has of what is left."""
    left, found = [*wanted], []
    while left:
        best = max(rules.facets, key=lambda facet: sum(set(it) <= set(facet) for it in left))
        found.append(best)
        left = [it for it in left if not set(it) <= set(best)]
    return [it for it in rules.facets if it in found]


class Drawer:
    """Puts the executions of a complex at the places that a layout has, each once at each place."""

    def __init__(self, made: Complex, found: Layout, scene: Scene) -> None:
        self.made, self.layout, self.scene = made, found, scene
        self.scale, self.shares = scale_of(made, found), shares(made)
        self.spots: Dict[Tuple[int, int, int], int] = {}
        self.placed: Set[Tuple[int, ...]] = set()
        self.seen: Set[int] = set()

    def at(self, xy: XY) -> XY:
        """A place of the layout on the sheet, where y grows downwards."""
        return xy[0] * self.scale, -xy[1] * self.scale

    def spot(self, view: int, patch: Patch) -> int:
        """The spot of a view in a patch, which is a new one if nothing stands there."""
        x, y = place(self.shares[view], patch.corners)
        key = view, round(x / TINY), round(y / TINY)
        if key not in self.spots:
            self.spots[key] = len(self.scene.spots)
            point = self.made.points[view]
            title = f"v{point}: {self.made.view_text(view)}"
            self.scene.spots.append(Spot(view, point, self.made.views[view].process, self.at((x, y)), title))
        return self.spots[key]

    def cell(self, number: int, patch: Patch) -> None:
        """Draws an execution in a patch."""
        ends = tuple(self.spot(view, patch) for view in self.made.executions[number].ends)
        if (number, *ends) not in self.placed:
            self.placed.add((number, *ends))
            title = f"execution {number}: {self.made.execution_text(number)}"
            self.scene.cells.append(Cell(number, ends, title, number in self.seen, middle=self.at(patch.middle)))
            self.seen.add(number)

    def draw(self, inside: bool) -> None:
        """Draws all executions of the patches, or those of at most two processes alone."""
        by_simplex: Dict[Simplex, List[int]] = {}
        for number, execution in enumerate(self.made.executions):
            by_simplex.setdefault(execution.simplex, []).append(number)
        for patch in self.layout.patches:
            for face in [it for it in faces(patch.simplex) if inside or len(it) < 3]:
                for number in by_simplex[face]:
                    self.cell(number, patch)

    def name_corners(self) -> None:
        """Gives the corners of patches the names of their inputs."""
        seen = set()
        for patch in self.layout.patches:
            for (process, value), xy in patch.corners.items():
                key = process, value, round(xy[0] / TINY), round(xy[1] / TINY)
                if key not in seen:
                    seen.add(key)
                    where = beside(self.at(xy), self.at(patch.middle), self.scene.radius)
                    self.scene.notes.append(Note(where, f"p{process} = {self.scene.names.input(value)}", "corner"))

    def name_faces(self) -> None:
        """Gives each edge that is drawn at several places a letter."""
        places: Dict[Simplex, Dict[Tuple[int, int], Tuple[XY, XY]]] = {}
        for patch in self.layout.patches:
            for edge in [it for it in faces(patch.simplex) if len(it) == 2]:
                middle = self.at(middle_of([patch.corners[it] for it in edge]))
                known = places.setdefault(edge, {})
                known.setdefault((round(middle[0]), round(middle[1])), (middle, self.at(middle_of([*patch.corners.values()]))))
        for number, listed in enumerate(it for it in places.values() if len(it) > 1):
            for at, center in listed.values():
                self.scene.notes.append(Note(away(at, center, self.scene.radius + 9), letters(number), "face"))


def drawn(made: Complex, facets: Sequence[Simplex], heading: str, inside: bool = True) -> Scene:
    """The scene of a complex over some facets, or of their faces of at most two processes alone."""
    scene = Scene(heading, processes=sorted({p for it in facets for p, _ in it}), palette=made.rules.values, names=made.rules.names)
    drawer = Drawer(made, layout(facets), scene)
    drawer.draw(inside)
    scene.radius = max(LEAST_RADIUS, min(MOST_RADIUS, 0.36 * nearest([it.at for it in scene.spots])))
    drawer.name_corners()
    if drawer.layout.is_apart:
        drawer.name_faces()
    on_sheet(scene)
    return scene


def scale_of(made: Complex, found: Layout) -> float:
    """How many pixels a side is long."""
    is_graph = all(len(it.simplex) < 3 for it in found.patches)
    side = (EDGES if is_graph else SIDES)[min(made.rounds, 3)]
    wide = max(x for it in found.patches for x, _ in it.corners.values())
    if is_graph:
        return side / (1.0 if wide <= 1.01 else 1.5 if wide <= 2.1 else 2.2)
    columns = max(1, round((wide + GAP) / (1 + GAP)))
    return side * SHORTER.get(columns, LEAST_PART)


def on_sheet(scene: Scene) -> None:
    """Moves all so that the least coordinates have a margin, and says how large the sheet is."""
    every = [it.at for it in scene.spots] + [it.at for it in scene.notes]
    left = min(x for x, _ in every) - MARGIN
    top = min([it.at[1] - ABOVE for it in scene.spots] + [it.at[1] - MARGIN / 2 for it in scene.notes])
    scene.size = max(x for x, _ in every) - left + MARGIN, max(y for _, y in every) - top + MARGIN / 2
    for spot in scene.spots:
        spot.at = spot.at[0] - left, spot.at[1] - top
    for note in scene.notes:
        note.at = note.at[0] - left, note.at[1] - top
    for cell in scene.cells:
        cell.middle = cell.middle[0] - left, cell.middle[1] - top


def letters(number: int) -> str:
    """The name of the face with a number: a, b, .., z, aa, ab, .."""
    return (letters(number // 26 - 1) if number >= 26 else "") + chr(ord("a") + number % 26)


def away(at: XY, middle: XY, far: float) -> XY:
    """The place that lies so far from another one, seen from a middle: below it if they are one place."""
    x, y = at[0] - middle[0], at[1] - middle[1]
    length = math.hypot(x, y)
    return (at[0], at[1] + far) if length < 1 else (at[0] + far * x / length, at[1] + far * y / length)


def beside(at: XY, middle: XY, radius: float) -> XY:
    """Where the name of a corner stands: above or below it, or at its side if it lies at the side of the middle."""
    x, y = at[0] - middle[0], at[1] - middle[1]
    length = math.hypot(x, y)
    if length < 1 or abs(y) < 0.02 * length:
        return at[0], at[1] + radius + 18
    if abs(y) < 0.3 * length:
        return at[0] + math.copysign(radius + 32, x), at[1]
    return at[0] + 14 * x / length, at[1] + math.copysign(radius + 19, y)


def nearest(places: Sequence[XY]) -> float:
    """The least distance of two places."""
    ordered, least = sorted(places), math.inf
    for number, one in enumerate(ordered):
        for other in ordered[number + 1:]:
            if other[0] - one[0] >= least:
                break
            least = min(least, math.dist(one, other))
    return least
