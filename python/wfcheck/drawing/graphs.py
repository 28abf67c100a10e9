"""Places of vertices in the plane: of a path, a cycle, a disc of triangles, or any graph."""
import math
from typing import Dict, List, Optional, Sequence, Set, Tuple

from ..tasks import Simplex, faces

Vertex = Tuple[int, int]
XY = Tuple[float, float]
Neighbours = Dict[Vertex, List[Vertex]]
TURNS, THINNEST = 400, 0.08
# how many pairs of vertices are looked at until all have their places
MOST_STEPS = 1_000_000


def connected(simplices: Sequence[Simplex]) -> List[List[Simplex]]:
    """Simplices by the connected parts of their complex, each in order. The parts are in the order of their last simplices."""
    above: Dict[Vertex, Vertex] = {}

    def root(vertex: Vertex) -> Vertex:
        """The vertex that stands for the part of another one."""
        while above[vertex] != vertex:
            above[vertex] = vertex = above[above[vertex]]
        return vertex

    for simplex in simplices:
        for vertex in simplex:
            above.setdefault(vertex, vertex)
            above[root(vertex)] = root(simplex[0])
    found: Dict[Vertex, List[Simplex]] = {}
    last: Dict[Vertex, int] = {}
    for place, simplex in enumerate(simplices):
        part = root(simplex[0])
        found.setdefault(part, []).append(simplex)
        last[part] = place
    return [found[part] for part in sorted(found, key=lambda it: last[it])]


def neighbours(simplices: Sequence[Simplex]) -> Neighbours:
    """The vertices of simplices, each with those that share an edge with it."""
    found: Dict[Vertex, Set[Vertex]] = {}
    for simplex in simplices:
        for vertex in simplex:
            found.setdefault(vertex, set()).update(it for it in simplex if it != vertex)
    return {it: sorted(found[it]) for it in sorted(found)}


def walk(around: Neighbours, first: Vertex) -> List[Vertex]:
    """The vertices of a path or a cycle in their order, from one of them on."""
    found = [first]
    while True:
        more = [it for it in around[found[-1]] if it not in found]
        if not more:
            return found
        found.append(more[0])


def polygon(vertices: Sequence[Vertex], side: float = 1.0) -> Dict[Vertex, XY]:
    """Vertices on a circle, with an edge of this length at the bottom."""
    many = len(vertices)
    radius = side / (2 * math.sin(math.pi / many))
    angles = [-math.pi / 2 + math.pi / many * (2 * at - 1) for at in range(many)]
    return lowest({it: (radius * math.cos(angle), radius * math.sin(angle)) for it, angle in zip(vertices, angles)})


def lowest(places: Dict[Vertex, XY]) -> Dict[Vertex, XY]:
    """Places moved so that the least coordinates are 0."""
    left, low = min(x for x, _ in places.values()), min(y for _, y in places.values())
    return {it: (x - left, y - low) for it, (x, y) in places.items()}


def graph(simplices: Sequence[Simplex]) -> Dict[Vertex, XY]:
    """Places for a connected graph: a path on a line, a cycle as a polygon, others by the lengths of their shortest paths."""
    around = neighbours(simplices)
    degrees = sorted(map(len, around.values()))
    if len(around) == 1:
        return {it: (0.0, 0.0) for it in around}
    if degrees[-1] <= 2 and degrees[0] == 1:
        return {it: (float(at), 0.0) for at, it in enumerate(walk(around, next(it for it in around if len(around[it]) == 1)))}
    if degrees[-1] <= 2:
        return polygon(walk(around, next(iter(around))))
    return by_distances(around)


def distances(around: Neighbours) -> Dict[Vertex, Dict[Vertex, int]]:
    """How many edges a shortest path between two vertices has."""
    found = {}
    for start in around:
        far, border = {start: 0}, [start]
        while border:
            after = []
            for it in border:
                for other in around[it]:
                    if other not in far:
                        far[other] = far[it] + 1
                        after.append(other)
            border = after
        found[start] = far
    return found


def by_distances(around: Neighbours) -> Dict[Vertex, XY]:
    """Places whose distances are near to those in the graph: each turn moves a vertex to where the others would have it."""
    far = distances(around)
    order = sorted(around, key=lambda it: (far[next(iter(around))][it], it))
    places = {it: (math.cos(2.4 * at) * (1 + at / len(order)), math.sin(2.4 * at) * (1 + at / len(order))) for at, it in enumerate(order)}
    for _ in range(min(TURNS, MOST_STEPS // len(order) ** 2)):
        for it in order:
            x, y, weights = 0.0, 0.0, 0.0
            for other in order:
                if other == it:
                    continue
                wanted = far[it].get(other, len(order))
                dx, dy = places[it][0] - places[other][0], places[it][1] - places[other][1]
                length, weight = math.hypot(dx, dy) or 1e-6, 1.0 / wanted ** 2
                x += weight * (places[other][0] + wanted * dx / length)
                y += weight * (places[other][1] + wanted * dy / length)
                weights += weight
            places[it] = x / weights, y / weights
    return lowest(turned(places))


def turned(places: Dict[Vertex, XY]) -> Dict[Vertex, XY]:
    """Places turned so that they are widest from left to right."""
    many = len(places)
    mx, my = sum(x for x, _ in places.values()) / many, sum(y for _, y in places.values()) / many
    xx = sum((x - mx) ** 2 - (y - my) ** 2 for x, y in places.values())
    xy = sum(2 * (x - mx) * (y - my) for x, y in places.values())
    angle = -0.5 * math.atan2(xy, xx)
    sine, cosine = math.sin(angle), math.cos(angle)
    return {it: ((x - mx) * cosine - (y - my) * sine, (x - mx) * sine + (y - my) * cosine) for it, (x, y) in places.items()}


def border_of(triangles: Sequence[Simplex]) -> Optional[List[Vertex]]:
    """The border of a disc of triangles as a cycle, or None if they are no disc."""
    edges: Dict[Simplex, int] = {}
    for triangle in triangles:
        for edge in faces(triangle):
            if len(edge) == 2:
                edges[edge] = edges.get(edge, 0) + 1
    vertices = {it for triangle in triangles for it in triangle}
    outer = [it for it, many in edges.items() if many == 1]
    if max(edges.values()) > 2 or len(vertices) - len(edges) + len(triangles) != 1:
        return None
    around = neighbours(outer)
    if any(len(it) != 2 for it in around.values()):
        return None
    cycle = walk(around, next(iter(around)))
    return cycle if len(cycle) == len(around) else None


def disc(facets: Sequence[Simplex]) -> Optional[Dict[Vertex, XY]]:
    """Places for a disc of triangles, none of them thin, or None: the border is a polygon, and each other vertex is in the middle of its
    neighbours."""
    cycle = border_of(facets) if all(len(it) == 3 for it in facets) else None
    if not cycle:
        return None
    around, places = neighbours(facets), polygon(cycle)
    inner = [it for it in around if it not in places]
    middle = sum(x for x, _ in places.values()) / len(places), sum(y for _, y in places.values()) / len(places)
    places.update({it: middle for it in inner})
    for _ in range(TURNS if inner else 0):
        for it in inner:
            near = [places[other] for other in around[it]]
            places[it] = sum(x for x, _ in near) / len(near), sum(y for _, y in near) / len(near)
    return places if min(abs(area([places[it] for it in facet])) for facet in facets) > THINNEST else None


def area(corners: Sequence[XY]) -> float:
    """The area of a triangle, which is negative if its corners go round with the clock."""
    (ax, ay), (bx, by), (cx, cy) = corners
    return ((bx - ax) * (cy - ay) - (cx - ax) * (by - ay)) / 2
