"""The scene of a task's output complex: a graph of what processes may decide, with the tuples lit that some inputs allow."""
from typing import Dict, List, Optional, Sequence, Tuple

from ..names import Names
from ..tasks import Simplex, Task, facets, simplices
from .graphs import Vertex, XY, by_distances, connected, disc, graph, lowest, neighbours
from .scene import MARGIN, MOST_RADIUS, Cell, Scene, Spot, TooLarge, counted, nearest
from .subdivision import Rules, rules_of

MOST_VERTICES, MOST_TRIANGLES, SIDE, GAP = 120, 9_000, 150.0, 1.0
WIDEST = 1000.0


def allowed_simplices(rules: Rules, simplex: Simplex) -> List[Simplex]:
    """The tuples that an input simplex allows, as output simplices."""
    return [tuple((p, value) for (p, _), value in zip(simplex, each)) for each in rules.allowed[simplex]]


def outputs_of(rules: Rules) -> List[Simplex]:
    """The output simplices that some inputs allow, and their faces."""
    return simplices({each for it in rules.simplices for each in allowed_simplices(rules, it)})


def places_of(listed: Sequence[Simplex]) -> Dict[Vertex, XY]:
    """Places for all vertices of a complex: its connected parts stand side by side."""
    found: Dict[Vertex, XY] = {}
    left = 0.0
    for part in connected(listed):
        whole = facets(part)
        flat = disc(whole) if len(whole) > 1 else None
        edges = all(len(it) <= 2 for it in part)
        places = flat or (graph(part) if edges else lowest(by_distances(neighbours(part))))
        found.update({it: (x + left, y) for it, (x, y) in places.items()})
        left = max(x for x, _ in found.values()) + GAP
    return found


def pinched(tuples: Sequence[Simplex]) -> List[Vertex]:
    """The vertices about which triangles fall apart: no walk over edges at the vertex joins them all."""
    links: Dict[Vertex, List[Simplex]] = {}
    for each in tuples:
        for vertex in each if len(each) == 3 else ():
            links.setdefault(vertex, []).append(tuple(it for it in each if it != vertex))
    return [vertex for vertex in sorted(links) if len(connected(links[vertex])) > 1]


def simplex_text(simplex: Simplex, names: Names = Names()) -> str:
    """An input simplex in words."""
    return "{" + ", ".join(f"p{p}={names.input(value)}" for p, value in simplex) + "}"


def tuple_text(simplex: Simplex, names: Names) -> str:
    """An output simplex in words."""
    return ", ".join(f"p{p} decides {names.value(value)}" for p, value in simplex)


def chosen_simplex(rules: Rules, inputs: Optional[Simplex]) -> Simplex:
    """The input simplex that is asked for, or the first facet."""
    if inputs is None:
        return rules.facets[0]
    wanted = tuple(sorted(inputs))
    if wanted not in rules.simplices:
        raise TooLarge(f"{simplex_text(wanted, rules.names)} is no input simplex of the task")
    return wanted


def of_outputs(task: Task, inputs: Optional[Simplex]) -> Scene:
    """The output complex, with the tuples lit that are allowed for an input simplex. Raises TooLarge."""
    rules = rules_of(task)
    if rules.processes > 3:
        raise TooLarge("the outputs of four processes are not drawn")
    simplex = chosen_simplex(rules, inputs)
    triangles = {each for it in rules.simplices if len(it) == 3 for each in allowed_simplices(rules, it)}
    if len(triangles) > MOST_TRIANGLES:
        raise TooLarge(f"{len(triangles):,} triangles are too many to draw, and {MOST_TRIANGLES:,} is the most")
    listed = outputs_of(rules)
    vertices = [it[0] for it in listed if len(it) == 1]
    if not vertices or len(vertices) > MOST_VERTICES:
        raise TooLarge(f"the output complex has {counted(len(vertices), 'vertex').replace('vertexs', 'vertices')}: "
                       f"from 1 to {MOST_VERTICES} are drawn")
    scene = Scene(f"{task.name}: the output complex", palette=rules.values, processes=sorted({p for p, _ in vertices}), values=rules.values, names=rules.names)
    set_places(scene, listed, vertices)
    lit, told = set(allowed_simplices(rules, simplex)), simplex_text(simplex, rules.names)
    for cell, it in zip(scene.cells, listed):
        cell.marks = {"lit"} if it in lit else set()
        cell.title = tuple_text(it, rules.names) + (f": allowed for {told}" if it in lit else "")
    scene.about = f"Lit: what {told} allows, {counted(len(lit), 'tuple')}." if lit else \
        f"{told} allows nothing."
    for vertex in pinched(sorted(lit)):
        scene.spots[vertices.index(vertex)].marks = {"empty"}
        scene.lines.append(f"p{vertex[0]} = {rules.names.value(vertex[1])} is a pinch point: about it the lit triangles fall apart.")
    return scene


def set_places(scene: Scene, listed: Sequence[Simplex], vertices: Sequence[Vertex]) -> None:
    """Gives a scene the vertices and simplices of an output complex at their places."""
    places = places_of(listed)
    wide = max(x for x, _ in places.values())
    scale = min(SIDE * (1.6 if len(vertices) <= 12 else 1.0), WIDEST / max(wide, 1.0))
    low = max(y for _, y in places.values()) * scale
    at: Dict[Vertex, Tuple[float, float]] = {it: (x * scale + MARGIN, low - y * scale + MARGIN / 2) for it, (x, y) in places.items()}
    scene.spots = [Spot(-1, number, it[0], at[it], tuple_text((it,), scene.names), value=it[1]) for number, it in enumerate(vertices)]
    scene.radius = min(MOST_RADIUS, 0.3 * nearest([*at.values()])) if len(at) > 1 else MOST_RADIUS
    middle = sum(x for x, _ in at.values()) / len(at), sum(y for _, y in at.values()) / len(at)
    numbers = {it: number for number, it in enumerate(vertices)}
    scene.cells = [Cell(number, tuple(numbers[each] for each in it), tuple_text(it, scene.names), middle=middle) for number, it in enumerate(listed)]
    scene.size = wide * scale + 2 * MARGIN, low + MARGIN


def lit_by(rules: Rules) -> List[List[int]]:
    """Of each input simplex the numbers of the output simplices that it allows."""
    numbers = {it: number for number, it in enumerate(outputs_of(rules))}
    return [[numbers[each] for each in allowed_simplices(rules, it)] for it in rules.simplices]
