"""From views to coordinates: the standard embedding of Ch, over places of the input vertices in the plane.

A vertex of process p that saw k views lies at 1/(2k-1) of the place of p's own view plus 2/(2k-1) of the sum of the others'. A *patch* is
an input simplex of at most three vertices with places of its vertices. A picture is made of patches, which may share places."""
import math
from typing import Dict, List, NamedTuple, Sequence

from ..tasks import Simplex
from .graphs import Vertex, XY, connected, disc, graph
from .subdivision import Complex

HEIGHT = math.sqrt(3) / 2
# how far apart patches stand that share no place, as a part of a side
GAP = 0.42
# an equilateral triangle, and the middle of the sides of one that is twice as large
TRIANGLE = [(0.0, 0.0), (1.0, 0.0), (0.5, HEIGHT)]
NET = [(0.5, HEIGHT), (1.5, HEIGHT), (1.0, 0.0)]
NET_CORNERS = {(0, 2): (0.0, 0.0), (1, 2): (2.0, 0.0), (0, 1): (1.0, 2 * HEIGHT)}


class Patch(NamedTuple):
    """An input simplex with the places of its vertices, and the middle of what it is part of."""
    simplex: Simplex
    corners: Dict[Vertex, XY]
    middle: XY


class Layout(NamedTuple):
    """The patches of a picture, and whether places that several facets share are drawn several times."""
    patches: List[Patch]
    is_apart: bool


def shares(made: Complex) -> List[Dict[Vertex, float]]:
    """For each view, the parts of the input vertices in its place: its barycentric coordinates."""
    found: List[Dict[Vertex, float]] = []
    for view in made.views:
        if view.start is not None:
            found.append({view.start: 1.0})
            continue
        parts: Dict[Vertex, float] = {}
        whole = 2 * len(view.seen) - 1
        for seen in view.seen:
            part = (1 if made.views[seen].process == view.process else 2) / whole
            for vertex, share in found[seen].items():
                parts[vertex] = parts.get(vertex, 0.0) + part * share
        found.append(parts)
    return found


def place(share: Dict[Vertex, float], corners: Dict[Vertex, XY]) -> XY:
    """The point of the plane with these shares of the corners."""
    return sum(part * corners[it][0] for it, part in share.items()), sum(part * corners[it][1] for it, part in share.items())


def middle_of(places: Sequence[XY]) -> XY:
    """The middle of some places."""
    return sum(x for x, _ in places) / len(places), sum(y for _, y in places) / len(places)


def moved(places: Dict[Vertex, XY], by: XY) -> Dict[Vertex, XY]:
    """Places, each moved as far."""
    return {it: (x + by[0], y + by[1]) for it, (x, y) in places.items()}


def patches_at(facets: Sequence[Simplex], places: Dict[Vertex, XY]) -> List[Patch]:
    """Patches of facets that share the places of their vertices."""
    middle = middle_of([*places.values()])
    return [Patch(it, {vertex: places[vertex] for vertex in it}, middle) for it in facets]


def net(facet: Simplex) -> List[Patch]:
    """The boundary of a tetrahedron unfolded: one face in the middle, and the fourth vertex at three corners."""
    around, top = dict(zip(facet, NET)), facet[3]
    middle = middle_of(NET)
    found = [Patch(facet[:3], around, middle)]
    for (one, other), corner in NET_CORNERS.items():
        face = (facet[one], facet[other], top)
        found.append(Patch(face, {**{it: around[it] for it in face[:2]}, top: corner}, middle))
    return found


def alone(facet: Simplex) -> List[Patch]:
    """A facet by itself."""
    if len(facet) == 4:
        return net(facet)
    return patches_at([facet], dict(zip(facet, TRIANGLE)))


def side_by_side(groups: Sequence[List[Patch]], columns: int) -> List[Patch]:
    """Groups of patches in rows of so many, the first at the left of the top row."""
    found: List[Patch] = []
    size = [max((xy[at] for group in groups for it in group for xy in it.corners.values()), default=0.0) for at in (0, 1)]
    rows = math.ceil(len(groups) / columns)
    for number, group in enumerate(groups):
        row, column = divmod(number, columns)
        by = column * (size[0] + GAP), (rows - 1 - row) * (size[1] + GAP + 0.1)
        for it in group:
            found.append(Patch(it.simplex, moved(it.corners, by), (it.middle[0] + by[0], it.middle[1] + by[1])))
    return found


def group_of(facets: Sequence[Simplex]) -> List[List[Patch]]:
    """The patches of a connected complex: in one group if it fits in the plane, else a group for each facet."""
    if max(map(len, facets)) <= 2:
        return [patches_at(facets, graph(facets))]
    flat = disc(facets) if len(facets) > 1 else None
    return [patches_at(facets, flat)] if flat else [alone(it) for it in facets]


def layout(facets: Sequence[Simplex]) -> Layout:
    """Where the facets of an input complex are drawn."""
    parts = connected(facets)
    groups = [group for part in parts for group in group_of(part)]
    columns = min(len(groups), 3 if len(groups) == 6 else 4 if len(groups) <= 12 else 8)
    return Layout(side_by_side(groups, columns), len(groups) > len(parts) or any(len(it) == 4 for it in facets))
