"""Colours of values, which colour-blind readers can tell apart, and how processes look: by shape and shade."""
from typing import List, NamedTuple, Sequence, Tuple

# of Okabe and Ito's eight, in an order in which neighbours differ in lightness too
FEW = ["#56b4e9", "#e69f00", "#009e73", "#f0e442", "#0072b2", "#d55e00", "#cc79a7", "#8c8c8c"]
# from dark blue to yellow, for many values in their order (cividis)
MANY = [(0, 34, 78), (53, 69, 108), (102, 105, 112), (148, 142, 119), (200, 184, 102), (254, 232, 56)]
DARKEST = 0.42


class Shade(NamedTuple):
    """How a process looks: its shape, its colour, and that of a text on it."""
    shape: str
    fill: str
    text: str


SHADES = [Shade("circle", "#1b1f24", "#ffffff"), Shade("square", "#ffffff", "#1b1f24"), Shade("diamond", "#a9b0b8", "#1b1f24"),
          Shade("triangle", "#dde1e6", "#1b1f24")]


def colour(value: int, values: Sequence[int]) -> str:
    """The colour of a value among these."""
    place = values.index(value)
    if len(values) <= len(FEW):
        return FEW[place]
    at = place / (len(values) - 1) * (len(MANY) - 1)
    low = min(int(at), len(MANY) - 2)
    return written([round(a + (b - a) * (at - low)) for a, b in zip(MANY[low], MANY[low + 1])])


def written(rgb: Sequence[int]) -> str:
    """A colour as SVG has it."""
    return "#" + "".join(f"{it:02x}" for it in rgb)


def read(text: str) -> List[int]:
    """The parts of a colour."""
    return [int(text[at:at + 2], 16) for at in (1, 3, 5)]


def tint(text: str, part: float) -> str:
    """A colour of which only a part is left, with white."""
    return written([round(255 - (255 - it) * part) for it in read(text)])


def ink(fill: str) -> str:
    """The colour of a text on a colour."""
    linear = [((it / 255 + 0.055) / 1.055) ** 2.4 for it in read(fill)]
    light = 0.2126 * linear[0] + 0.7152 * linear[1] + 0.0722 * linear[2]
    return "#ffffff" if light < DARKEST * 0.5 else "#1b1f24"


def outline(shape: str, x: float, y: float, radius: float) -> Tuple[str, str]:
    """An element of SVG and its attributes: a shape about a place, all shapes about as large."""
    if shape == "circle":
        return "circle", f'cx="{short(x)}" cy="{short(y)}" r="{short(radius)}"'
    if shape == "square":
        half = radius * 0.9
        return "rect", f'x="{short(x - half)}" y="{short(y - half)}" width="{short(2 * half)}" height="{short(2 * half)}"'
    if shape == "diamond":
        far = radius * 1.25
        corners = [(x, y - far), (x + far, y), (x, y + far), (x - far, y)]
    else:
        far = radius * 1.4
        corners = [(x, y - far), (x + far * 0.87, y + far / 2), (x - far * 0.87, y + far / 2)]
    return "path", f'd="M{"L".join(f"{short(a)} {short(b)}" for a, b in corners)}z"'


def short(number: float) -> str:
    """A number with at most one digit behind the point."""
    text = f"{number:.1f}"
    return text[:-2] if text.endswith(".0") else text if text != "-0.0" else "0"
