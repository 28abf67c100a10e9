"""Where the label of an execution stands, so that it hides as little as may be."""
import math
from typing import Sequence, Tuple

from .graphs import XY, area
from .scene import READABLE

# the sizes of labels beside large and small spots, and the least in a triangle, also if many are crowded
LARGE, SMALL, LEAST, LEAST_CROWDED = 11.0, 9.0, 7.0, 5.5
FINE = 12
# places in a triangle by their parts of the corners, its middle first
SHARES = [(1 / 3, 1 / 3, 1 / 3)] + [(a / FINE, b / FINE, (FINE - a - b) / FINE) for a in range(1, FINE) for b in range(1, FINE - a)]


def label_place(places: Sequence[XY], middle: XY, radius: float, crowded: bool) -> Tuple[XY, float]:
    """The place of a label and its size, for an execution between spots at these places: in a triangle, else beside it."""
    size, least = LARGE if radius >= READABLE else SMALL, LEAST_CROWDED if crowded else LEAST
    if len(places) == 3:
        where, room = roomiest(places, radius)
        return where, max(least, min(size, room))
    if len(places) == 2:
        return beside_edge(places[0], places[1], middle, radius), size
    (x, y), far = places[0], radius * 0.8 + 18
    return (x - far if x < middle[0] else x + far, y - far * 0.55), size


def roomiest(corners: Sequence[XY], radius: float) -> Tuple[XY, float]:
    """The place in a triangle that has most room beside its edges and the spots at its corners, and how much."""
    sides = [math.dist(corners[1], corners[2]), math.dist(corners[0], corners[2]), math.dist(corners[0], corners[1])]
    heights = [2 * abs(area(corners)) / side for side in sides]
    best: Tuple[float, XY] = -math.inf, corners[0]
    for parts in SHARES if radius >= READABLE else SHARES[:1]:
        x, y = (sum(part * corner[at] for part, corner in zip(parts, corners)) for at in (0, 1))
        room = min(*(part * each * 1.5 for part, each in zip(parts, heights)), *(math.dist((x, y), it) - radius * 1.2 for it in corners))
        # rounded, so that the same place is found whatever the last digits are
        best = max(best, (round(room, 3), (x, y)), key=lambda it: it[0])
    return best[1], best[0]


def beside_edge(one: XY, other: XY, middle: XY, radius: float) -> XY:
    """The place beside the middle of an edge: at the side that looks away from the middle of the whole, or above."""
    x, y = (one[0] + other[0]) / 2, (one[1] + other[1]) / 2
    across = other[1] - one[1], one[0] - other[0]
    length = math.hypot(*across)
    outwards = across[0] * (x - middle[0]) + across[1] * (y - middle[1])
    if abs(outwards) < 1:
        outwards = -across[1]
    far = math.copysign(radius + 12 if length < 5 * radius else radius * 0.55 + 11, outwards)
    return x + far * across[0] / length, y + far * across[1] / length
