"""A scene as SVG: the same bytes each time, text as text, and a title at each point and execution."""
import re
from typing import List, Tuple
from xml.sax.saxutils import escape, quoteattr

from .labels import label_place
from .palette import SHADES, colour, ink, outline, short, tint
from .scene import Cell, Note, Scene, Spot

STYLE = """
.wf text{font-family:Helvetica,Arial,'Liberation Sans','DejaVu Sans',sans-serif;fill:#1b1f24;text-anchor:middle}
.wf .paper{fill:#fff}.wf .cell{fill:#f4f6f8;stroke:#7b848f;stroke-linejoin:round}.wf line.cell{stroke:#3d444d}
.wf .lit{fill:#efe0f5;stroke:#6d2a86;stroke-width:2.4}.wf line.lit{stroke:#6d2a86;stroke-width:4.5}
.wf circle.lit{stroke-width:2.4}
.wf .cited{fill:#f8f1fb;stroke:#9a6bb0;stroke-width:1.6;stroke-dasharray:5 3}
.wf line.cited{stroke:#9a6bb0;stroke-width:3.2}
.wf .spot{stroke:#1b1f24}.wf .dim .spot{stroke:#9aa2ab}.wf .halo{fill:#6d2a86}
.wf .ring{fill:none;stroke:#6d2a86;stroke-width:2.4}.wf .ring.cited{fill:none}
.wf .badge{fill:#fff;stroke:#6d2a86;stroke-width:1.2}.wf .badge.plus{fill:#1b1f24;stroke:#1b1f24}
.wf .number.plus{fill:#fff}
.wf .heading{font-size:17px;font-weight:bold;text-anchor:start}
.wf .about,.wf .key,.wf .line{font-size:13px;text-anchor:start;fill:#3d444d}
.wf .count{font-size:16px;font-weight:bold;text-anchor:start}
.wf .corner{font-size:13px;font-style:italic;paint-order:stroke;stroke:#fff;stroke-width:3px}
.wf .face{font-size:12px;font-style:italic;fill:#57606a}.wf .number{font-weight:bold}
.wf.fine .lit{stroke-width:1.1}.wf.fine line.lit{stroke-width:2.4}.wf.fine .cited{stroke-width:.9;stroke-dasharray:3 2}
.wf.fine .badge{stroke-width:.6}
""".replace("\n", "")
TOP, ROW, PAD = 64.0, 21.0, 24.0
LEAST_WIDTH = 430.0


# what XML has no letter for: names of files and of values may have it
NO_XML = "[\x00-\x08\x0b\x0c\x0e-\x1f\x7f-\x9f\ud800-\udfff\ufffe\uffff]"


def svg(scene: Scene, paged: bool = False, live: bool = False) -> str:
    """The scene as the text of an SVG file. On a page it has rings that a script may light, and a live one has all that may be shown."""
    legend, bottom = legend_of(scene, live)
    width = max(scene.size[0], LEAST_WIDTH, *(text_width(it) + 2 * PAD for it in [scene.heading + "   ", scene.about, *scene.lines]),
                *(1.1 * text_width(value_text(scene, it)) + 2 * PAD + 32 for it in scene.values))
    height = TOP + scene.size[1] + bottom
    left = (width - scene.size[0]) / 2
    view = f"0 0 {short(width)} {short(height)}"
    told = " ".join(filter(None, [scene.about, scene.count, *scene.lines]))
    kind = "wf fine" if scene.is_crowded else "wf"
    parts = [
        f'<svg xmlns="http://www.w3.org/2000/svg" class="{kind}" viewBox="{view}" width="{short(width)}" height="{short(height)}" '
        f'role="img" aria-label={quoteattr(f"{scene.heading}. {told}")}>',
        f"<style>{STYLE}</style>",
        f'<rect class="paper" width="{short(width)}" height="{short(height)}" rx="6"/>',
        f'<text class="heading" x="{short(PAD)}" y="32">{escape(scene.heading)}</text>',
        f'<text class="about" x="{short(PAD)}" y="53">{escape(scene.about)}</text>',
        f'<g transform="translate({short(left)} {short(TOP)})">',
        *drawing(scene, paged, live),
        "</g>",
        f'<g transform="translate({short(PAD)} {short(TOP + scene.size[1])})">', *legend, "</g>", "</svg>", "",
    ]
    return letters("\n".join(parts))


def letters(text: str) -> str:
    """A text in which `_` stands for what XML has no letter for."""
    return re.sub(NO_XML, "_", text)


def text_width(text: str) -> float:
    """About how wide a text of the usual size is."""
    return 6.5 * len(text)


def drawing(scene: Scene, paged: bool, live: bool) -> List[str]:
    """The cells by size, marked ones above the others, then the spots, and the labels above all."""
    thin = 1.1 if scene.radius > 9 else 0.9 if scene.radius > 5 else 0.45
    order = sorted(scene.cells, key=lambda it: (len(it.spots) < 3, bool(it.marks & {"lit"})))
    parts = [f'<g stroke-width="{thin}">', *(cell(it, scene) for it in order if len(it.spots) > 1), "</g>"]
    parts += [f'<g stroke-width="{1.1 if scene.radius > 5 else 0.5}">', *(spot(it, scene, live) for it in scene.spots), "</g>"]
    parts += [ring(it, scene) for it in order if len(it.spots) == 1 and (it.marks or paged)]
    crowded = scene.is_crowded
    parts += [label(it, scene, crowded) for it in scene.cells if it.label or live and scene.count]
    return parts + [note(it) for it in scene.notes]


def marks_of(kind: str, marks: List[str]) -> str:
    """The attribute that has the classes of an element."""
    return f'class="{" ".join([kind, *sorted(marks)])}"'


def cell(it: Cell, scene: Scene) -> str:
    """An execution of two or three processes."""
    title = f"<title>{escape(it.title)}</title>"
    places = [scene.spots[at].at for at in it.spots]
    fill = f' style="fill:{tint(colour(it.value, scene.palette), 0.5)}"' if it.value is not None else ""
    head = f'{marks_of("cell", [*it.marks])} data-e="{it.execution}"'
    if len(places) == 2:
        (ax, ay), (bx, by) = places
        stroke = f' style="stroke:{colour(it.value, scene.palette)};stroke-width:4"' if it.value is not None else ""
        return f'<line {head} x1="{short(ax)}" y1="{short(ay)}" x2="{short(bx)}" y2="{short(by)}"{stroke}>{title}</line>'
    return f'<path {head} d="M{"L".join(f"{short(x)} {short(y)}" for x, y in places)}z"{fill}>{title}</path>'


def ring(it: Cell, scene: Scene) -> str:
    """An execution of one process: a ring about its point, which shows if the execution is marked."""
    (x, y), = (scene.spots[at].at for at in it.spots)
    where = f'cx="{short(x)}" cy="{short(y)}" r="{short(scene.radius * 1.6)}"'
    return f'<circle {marks_of("ring", [*it.marks])} data-e="{it.execution}" {where}/>'


def spot(it: Spot, scene: Scene, live: bool) -> str:
    """A point: the shape and shade of its process, in it the colour and number of its value if it has one, else its label."""
    shade = SHADES[it.process]
    radius = scene.radius * (1.15 if it.value is not None else 1.0)
    name, where = outline(shade.shape, *it.at, radius)
    fill, text = tint(shade.fill, 0.4) if "dim" in it.marks else shade.fill, it.label
    inks = f' data-ink="{ink(fill)}" data-y="{short(it.at[1])}" data-r="{short(radius)}"' if live else ""
    halo, around = outline(shade.shape, *it.at, radius + 4)
    parts = [f'<g {marks_of("at", [*it.marks])} data-v="{it.point}"{inks}><title>{escape(it.title)}</title>',
             f'<{halo} class="halo" {around}/>' if "empty" in it.marks else "", f'<{name} class="spot" fill="{fill}" {where}/>']
    if it.value is not None or live:
        hidden = ' style="display:none"' if it.value is None else ""
        fill = fill if it.value is None else colour(it.value, scene.palette)
        name, where = outline(shade.shape, *it.at, radius * 0.74)
        parts.append(f'<{name} class="value" fill="{fill}" {where}{hidden}/>')
        text = it.label or ("" if it.value is None else str(it.value))
    if (text or live) and scene.is_readable:
        parts.append(inside(it, text, radius, ink(fill)))
    return "".join(parts) + "</g>"


def inside(it: Spot, text: str, radius: float, fill: str) -> str:
    """A text in the middle of a spot."""
    size = radius * (1.7 if text == "×" else {1: 1.15, 2: 1.0, 3: 0.84}.get(len(text), 0.62))
    y = it.at[1] + size * 0.36 + (radius * 0.06 if SHADES[it.process].shape == "triangle" else 0)
    return f'<text x="{short(it.at[0])}" y="{short(y)}" font-size="{short(size)}" style="fill:{fill}">{escape(text)}</text>'


def label(it: Cell, scene: Scene, crowded: bool) -> str:
    """The label of a cell, on a badge."""
    (x, y), size = label_place([scene.spots[at].at for at in it.spots], it.middle, scene.radius, crowded)
    wide = max(size * 1.55, size * (0.62 * len(it.label) + 0.7))
    sign = [mark for mark in it.marks if mark in ("plus", "minus")]
    hidden = "" if it.label else ' hidden=""'
    high = size * 1.56
    box = f'x="{short(x - wide / 2)}" y="{short(y - high / 2)}" width="{short(wide)}" height="{short(high)}" rx="{short(high / 2)}"'
    where = f'x="{short(x)}" y="{short(y + size * 0.36)}" font-size="{short(size)}"'
    return (f'<g class="mark" data-e="{it.execution}"{hidden}><rect {marks_of("badge", sign)} {box}/>'
            f'<text {marks_of("number", sign)} {where}>{escape(it.label)}</text></g>')


def note(it: Note) -> str:
    """The name of a corner or of a face."""
    return f'<text class="{it.kind}" x="{short(it.at[0])}" y="{short(it.at[1] + 4.5)}">{escape(it.text)}</text>'


def legend_of(scene: Scene, live: bool) -> Tuple[List[str], float]:
    """The legend under the picture, and how high it is: the processes, the values, what is counted, and lines in words."""
    parts, x, y = [], 0.0, 14.0
    for process in scene.processes:
        name, where = outline(SHADES[process].shape, x + 9, y, 7.5)
        parts += [f'<{name} class="spot" fill="{SHADES[process].fill}" {where}/>', said("key", x + 23, y, f"process {process}")]
        x += 106
    if scene.values:
        x, y, is_named = 0.0, y + ROW, any(value_text(scene, it) != str(it) for it in scene.values)
        room = max(scene.size[0], LEAST_WIDTH) - 2 * PAD
        for value in scene.values:
            told = value_text(scene, value)
            wide = 9 * len(str(value)) + 1.1 * text_width(told[len(str(value)):])
            if is_named and x and x + 32 + wide > room:
                x, y = 0.0, y + ROW
            where = f'x="{short(x + 1)}" y="{short(y - 7)}" width="14" height="14" rx="2"'
            parts += [f'<rect class="spot" {where} fill="{colour(value, scene.palette)}"/>', said("key", x + 22, y, told)]
            x += 32 + wide
        if is_named and x + 4 + text_width(scene.values_are) > room:
            x, y = 0.0, y + ROW
        parts.append(said("key", x + 4, y, scene.values_are))
    if scene.count and not live:
        y += ROW + 6
        parts.append(said("count", 0.0, y, scene.count))
    for line in scene.lines:
        y += ROW
        parts.append(said("line", 0.0, y, line))
    return parts, y + 24


def value_text(scene: Scene, value: int) -> str:
    """A value as the legend tells it: the number, and its name if it has one."""
    name = scene.names.value(value)
    return name if name == str(value) else f"{value} {name}"


def said(kind: str, x: float, y: float, text: str) -> str:
    """A line of the legend."""
    return f'<text class="{kind}" x="{short(x)}" y="{short(y + 4.5)}">{escape(text)}</text>'
