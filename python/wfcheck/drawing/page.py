"""A scene as one HTML page: the picture, and beside it what can be chosen. It works from a file, and needs nothing from elsewhere."""
import dataclasses
import json
from html import escape
from typing import Any, Dict, List, Sequence, Tuple

from ..names import Names, told as named
from .argument import Argument, Step, shown
from .counting import Weights, choices
from .outputs import allowed_simplices, lit_by, pinched, simplex_text
from .palette import colour, ink
from .scene import Scene, counted
from .script import SCRIPT, STYLE
from .subdivision import Complex, Rules
from .svg import letters, svg

# what stands beside a picture, and what the script is given
Side = Tuple[str, Dict[str, Any]]
POLICY = "default-src 'none'; style-src 'unsafe-inline'; script-src 'unsafe-inline'"
KEYS = '<p>Choose by click, or by <kbd>Tab</kbd> and the arrow keys. <kbd>Esc</kbd> shows the whole.</p>'


def page(scene: Scene, side: Side) -> str:
    """The text of an HTML file."""
    words, data = side
    scene = dataclasses.replace(scene, about=data.get("about", scene.about), lines=data.get("lines", scene.lines))
    colours = {str(it): [colour(it, scene.palette), ink(colour(it, scene.palette))] for it in scene.palette}
    # a script ends at the first "</": no text of a task has it as data then
    told = json.dumps({**data, "colours": colours}, separators=(",", ":"), sort_keys=True).replace("</", "<\\/")
    return letters("\n".join([
        "<!DOCTYPE html>", '<html lang="en">', "<head>", '<meta charset="utf-8">',
        '<meta name="viewport" content="width=device-width, initial-scale=1">', '<meta name="color-scheme" content="light dark">',
        f'<meta http-equiv="Content-Security-Policy" content="{POLICY}">',
        f"<title>{escape(scene.heading)}</title>", f"<style>{STYLE}</style>", "</head>", "<body>", "<main>",
        "<figure>", svg(scene, True, data["live"]), "</figure>",
        f'<section aria-label="{escape(scene.heading)}">', f"<h1>{escape(scene.heading)}</h1>", words, "</section>", "</main>",
        f'<script type="application/json" id="data">{told}</script>', f"<script>{SCRIPT}</script>", "</body>", "</html>", "",
    ]))


def item(executions: Sequence[int], points: Sequence[int], **others: Any) -> Dict[str, Any]:
    """What the script is given of something that can be chosen: what it lights."""
    return {"e": [*executions], "v": [*points], "c": [], **others}


def choice(number: int, text: str, depth: int = 0) -> str:
    """The entry of a list that can be chosen."""
    indent = f' style="margin-left:{min(depth, 12) * 18}px"' if depth else ""
    return f'<li{indent}><button type="button" data-item="{number}" aria-pressed="false">{escape(text)}</button></li>'


def of_argument(argument: Argument, names: Names = Names()) -> Side:
    """The steps of a refutation."""
    places = {step.number: at for at, step in enumerate(argument.steps())}
    entries: List[str] = []
    items: List[Dict[str, Any]] = []
    for it in argument.items:
        depth = argument.cases[it.case].depth
        if isinstance(it, Step):
            entries.append(choice(len(items), f"{it.number}. {named(it.text, names)}", depth))
            items.append(item([] if it.execution is None else [it.execution], it.points, k=it.case, about=it.point,
                              left=None if it.left is None else shown(it.left),
                              c=[places[number] for number in it.cites if number in places]))
        else:
            if items and items[-1]["about"] == it.empty:
                items[-1]["left"] = "×"
            entries.append(f'<li style="margin-left:{min(depth, 12) * 18}px"><span>{escape(named(it.text, names))}</span></li>')
    words = [KEYS, "<p>A step lights its execution and points, and with dashes the executions of the steps that it cites.</p>",
             '<ol aria-label="Steps of the argument">', *entries, "</ol>"]
    return "\n".join(words), {"live": True, "items": items, "cases": [[it.outer, it.point, it.value] for it in argument.cases]}


def of_values(scene: Scene) -> Side:
    """The values that are decided, each with the executions in which all decide it."""
    entries: List[str] = []
    items: List[Dict[str, Any]] = []
    for value in scene.values:
        points = sorted({it.point for it in scene.spots if it.value == value})
        executions = sorted({it.execution for it in scene.cells if it.value == value})
        entries.append(choice(len(items), f"{scene.names.value(value)}: decided at {counted(len(points), 'point')}, by all in "
                                          f"{counted(len(executions), 'execution')}"))
        items.append(item(executions, points))
    return "\n".join([KEYS, '<ul aria-label="Values">', *entries, "</ul>"]), {"live": False, "items": items}


def of_participants(scene: Scene, made: Complex) -> Side:
    """The input simplices that are drawn, each with its executions."""
    by_simplex: Dict[Any, List[int]] = {}
    for it in dict.fromkeys(cell.execution for cell in scene.cells):
        by_simplex.setdefault(made.executions[it].simplex, []).append(it)
    entries: List[str] = []
    items: List[Dict[str, Any]] = []
    for simplex in [it for it in made.rules.simplices if it in by_simplex]:
        found = by_simplex[simplex]
        entries.append(choice(len(items), f"{simplex_text(simplex, made.rules.names)}: {counted(len(found), 'execution')}"))
        items.append(item(found, []))
    return "\n".join([KEYS, '<ul aria-label="Input simplices">', *entries, "</ul>"]), {"live": False, "items": items}


def of_inputs(rules: Rules, chosen: Any) -> Side:
    """The input simplices, each with the tuples that it allows."""
    entries = []
    for number, it in enumerate(rules.simplices):
        points = [f"p{p} = {rules.names.value(value)}" for p, value in pinched(allowed_simplices(rules, it))]
        about = f"{simplex_text(it, rules.names)} allows {counted(len(rules.allowed[it]), 'tuple')}"
        entries.append(choice(number, f"{about}, which fall apart at {' and '.join(points)}" if points else about))
    items = [item(lit, []) for lit in lit_by(rules)]
    words = "\n".join([KEYS, '<ul aria-label="Input simplices">', *entries, "</ul>"])
    data = {"live": False, "items": items, "first": rules.simplices.index(chosen), "about": "Lit: the tuples that the chosen inputs allow.",
            "lines": []}
    return words, data


def tuple_by_names(values: Sequence[int], names: Names) -> str:
    """A tuple as a list has it: by numbers with spaces, or by names in brackets."""
    if not names.values:
        return " ".join(map(str, values))
    return f"({', '.join(map(names.value, values))})"


def of_weights(made: Complex, weights: Weights, text: str) -> Side:
    """The tuples that count, the count, and a button that draws other values."""
    numbers = {it: number for number, it in enumerate(made.rules.simplices)}
    groups: Dict[Any, List[str]] = {}
    for (simplex, values), weight in weights.tuples.items():
        groups.setdefault((simplex, weight), []).append(tuple_by_names(values, made.rules.names))
    entries = [f"<li><span>{escape(simplex_text(simplex, made.rules.names))}, weight {weight}</span><div>{escape(', '.join(told))}</div></li>"
               for (simplex, weight), told in groups.items()]
    words = ["<p>Each point has any value. An execution counts with its sign and the weight of its tuple.</p>",
             '<div class="tools"><button type="button" id="draw">Other values</button>',
             '<label><input type="checkbox" id="any"> also values that the inputs forbid</label></div>',
             f'<output id="count" aria-live="polite">{escape(text)}</output>',
             f"<p>The count is {weights.sum} modulo {weights.modulus}, whatever the values. A decision map would have 0.</p>",
             "<h2>Tuples that count</h2>", '<ul aria-label="Tuples that count">', *entries, "</ul>"]
    about = f"Values by chance after {counted(made.rounds, 'round')}."
    data = {"live": True, "items": [], "about": about, "lines": [], "modulus": weights.modulus, "values": made.rules.values,
            "choices": choices(made, False),
            "weights": {f"{numbers[simplex]}:{','.join(map(str, values))}": weight
                        for (simplex, values), weight in weights.tuples.items()},
            "executions": [[numbers[it.simplex], made.sign(number), *(made.points[view] for view in it.ends)]
                           for number, it in enumerate(made.executions)]}
    return "\n".join(words), data
