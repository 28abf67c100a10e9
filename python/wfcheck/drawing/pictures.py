"""The scene of each kind of picture: a complex, a map, a refutation, an obstruction."""
from typing import Dict, List, NamedTuple, Optional, Sequence

from ..tasks import Simplex, Task
from .argument import Argument, shown, values_left
from .counting import Weights, choices, count, count_text, drawn_values
from .scene import Scene, TooLarge, chosen_facets, counted, drawn
from .subdivision import Complex, Rules, many_executions, rules_of, words

KINDS = {1: "vertices", 2: "edges", 3: "triangles", 4: "tetrahedra"}
# how many triangles a picture may have, how many executions are looked at, and how many edges and steps there may be
MOST_TRIANGLES, MOST_EXECUTIONS, MOST_EDGES, MOST_STEPS = 9_000, 60_000, 3_000, 3_000


class Choice(NamedTuple):
    """What of a complex is drawn: the facets with these inputs or all, and their faces of at most two processes alone."""
    inputs: Optional[Simplex] = None
    faces: bool = False
    all: bool = False


class Part(NamedTuple):
    """A complex, and the facets of it that are drawn."""
    name: str
    made: Complex
    facets: List[Simplex]
    inside: bool

    def scene(self, heading: str, about: str) -> Scene:
        """The scene of the part, with what is left out."""
        scene = drawn(self.made, self.facets, f"{self.name}: {heading}", self.inside)
        scene.about, whole = about, self.made.rules.facets
        if len(self.facets) < len(whole):
            of = KINDS[max(map(len, whole))]
            scene.lines.append(f"Drawn: {len(self.facets)} of {len(whole)} input {of}.")
        if any(it.kind == "face" for it in scene.notes):
            scene.lines.append("Edges with the same letter are one.")
        if not self.inside:
            scene.lines.append("Executions of more than two processes are left out.")
        elif any(len(it) == 4 for it in self.facets):
            scene.lines.append("The boundary of a tetrahedron, unfolded. Executions of all four processes are left out.")
        return scene


def part_of(task: Task, rounds: int, choice: Choice, needed: Optional[Sequence[Simplex]] = None, counts: bool = False) -> Part:
    """The part of a task's complex that is drawn: with all its executions if they are counted. Raises TooLarge."""
    rules = rules_of(task)
    facets = facets_of(rules, choice, needed)
    many = 0 if choice.faces else triangles(rules, rounds, facets)
    if many > MOST_TRIANGLES:
        raise TooLarge(f"{many:,} triangles are too many to draw, and {MOST_TRIANGLES:,} is the most: --faces draws the boundary, "
                       "and --input one input")
    most = 4 if counts else 2 if choice.faces else 3
    if many_executions(rules, rounds, most) > MOST_EXECUTIONS or edges(rules, rounds, facets) > MOST_EDGES:
        raise TooLarge(f"after {counted(rounds, 'round')} this complex is too large to draw: ask for fewer rounds")
    return Part(task.name, Complex(rules, rounds, most), facets, not choice.faces)


def facets_of(rules: Rules, choice: Choice, needed: Optional[Sequence[Simplex]]) -> List[Simplex]:
    """The facets that are drawn: those with the wanted inputs, those that are needed, or all."""
    wanted = set(choice.inputs or ())
    found = [it for it in rules.facets if wanted <= set(it)]
    if not found:
        raise TooLarge("no input of the task has " + ", ".join(f"p{p}={rules.names.input(value)}" for p, value in sorted(wanted)))
    return found if choice.all or choice.inputs or needed is None else chosen_facets(rules, needed)


def triangles(rules: Rules, rounds: int, facets: Sequence[Simplex]) -> int:
    """How many triangles are drawn of these facets: of four processes those of the boundary."""
    many = {3: 1, 4: 4}
    return sum(many.get(len(it), 0) * len(words(3, rules.first_block)) ** rounds for it in facets)


def edges(rules: Rules, rounds: int, facets: Sequence[Simplex]) -> int:
    """How many edges of the subdivided edges of these facets are drawn."""
    many = {2: 1, 3: 3, 4: 9}
    return sum(many.get(len(it), 0) * len(words(2, rules.first_block)) ** rounds for it in facets)


def of_complex(task: Task, rounds: int, choice: Choice) -> Scene:
    """A complex, each point with its number."""
    part = part_of(task, rounds, choice)
    scene = part.scene(f"the complex after {counted(rounds, 'round')}", sizes(part))
    for spot in scene.spots if rounds <= 1 or len(scene.spots) <= 60 else []:
        spot.label = str(spot.point)
    return scene


def sizes(part: Part) -> str:
    """How many points and executions a complex has, as far as they are drawn for some input."""
    told = f"{counted(len(part.made.classes), 'point')}, {counted(len(part.made.executions), 'execution')}"
    most = 3 if part.inside else 2
    if len(part.made.rules.simplices[-1]) > most:
        return f"{told} of at most {'three' if most == 3 else 'two'} processes"
    return f"{told} in all" if len(part.facets) < len(part.made.rules.facets) else told


def of_map(task: Task, rounds: int, values: Sequence[int], choice: Choice) -> Scene:
    """A decision map, by the values of the points."""
    part = part_of(task, rounds, choice)
    scene = part.scene(f"a decision map after {counted(rounds, 'round')}", sizes(part))
    decide(scene, part.made, values)
    return scene


def decide(scene: Scene, made: Complex, values: Sequence[int]) -> None:
    """Gives points their values, and executions the value that all decide there."""
    scene.values = made.rules.values
    for spot in scene.spots:
        spot.value = values[spot.point]
        spot.title += f" decides {made.rules.names.value(spot.value)}"
    for cell in scene.cells:
        decided = {scene.spots[it].value for it in cell.spots}
        cell.value = decided.pop() if len(decided) == 1 else None


def of_refutation(task: Task, rounds: int, argument: Argument, choice: Choice) -> Scene:
    """A refutation: the executions of its argument with the numbers of their steps, and the points with the values that are forced."""
    if len(argument.steps()) > MOST_STEPS:
        raise TooLarge(f"an argument of {len(argument.steps()):,} steps is too long to draw, and {MOST_STEPS:,} is the most")
    steps: Dict[int, List[int]] = {}
    for step in argument.steps():
        if step.execution is not None:
            steps.setdefault(step.execution, []).append(step.number)
    part = part_of(task, rounds, choice, simplices_of(task, rounds, [*steps]))
    title, _, about = argument.title.partition(": ")
    scene = part.scene(f"{title[0].lower()}{title[1:]}", f"The argument in words has {about}")
    forced, emptied = values_left(argument), argument.emptied()
    used = {point for step in argument.steps() for point in step.points}
    for cell in scene.cells:
        if cell.execution in steps:
            cell.marks.add("lit")
            cell.label = numbers_text(steps[cell.execution]) if not cell.is_copy or len(cell.spots) > 1 else ""
    for spot in scene.spots:
        if spot.point in emptied:
            spot.marks, spot.label = {"empty"}, "×"
        elif forced.get(spot.point, "").isdigit():
            spot.value = int(forced[spot.point])
        elif spot.point in forced:
            spot.label = shown(forced[spot.point])
        elif spot.point not in used:
            spot.marks = {"dim"}
    scene.values = sorted({it.value for it in scene.spots if it.value is not None})
    scene.values_are = "forced value" if len(scene.values) == 1 else "forced values"
    scene.lines.append("A number on an execution is that of a step. × is a point without a value left.")
    return scene


def simplices_of(task: Task, rounds: int, executions: Sequence[int]) -> List[Simplex]:
    """The input simplices of executions, by their numbers."""
    rules, found, first = rules_of(task), [], 0
    for simplex in rules.simplices:
        many = len(words(len(simplex), rules.first_block)) ** rounds
        found += [simplex] * any(first <= it < first + many for it in executions)
        first += many
    return found


def numbers_text(numbers: Sequence[int]) -> str:
    """The numbers of steps, or the first and how many there are more."""
    return ", ".join(map(str, numbers)) if len(numbers) <= 3 else f"{numbers[0]} +{len(numbers) - 1}"


def of_obstruction(task: Task, rounds: int, weights: Weights, seed: int, any_value: bool, choice: Choice) -> Scene:
    """An obstruction, counted on a choice of values after some rounds."""
    part = part_of(task, rounds, choice, weights.simplices(), counts=True)
    scene = part.scene("no decision map after any number of rounds", f"Values by chance after {counted(rounds, 'round')} (seed {seed}).")
    values = drawn_values(choices(part.made, any_value), seed)
    found = count(part.made, weights, values)
    for spot in scene.spots:
        spot.value = values[spot.point]
    scene.values = part.made.rules.values
    by_execution = {it.execution: it for it in found}
    for cell in scene.cells:
        it = by_execution.get(cell.execution)
        if it:
            cell.marks |= {"lit", "plus" if it.sign > 0 else "minus"}
            cell.label = f"{'+' if it.sign > 0 else '−'}{it.weight}"
    scene.count = count_text(found, weights.modulus)
    hidden = len(by_execution.keys() - {it.execution for it in scene.cells})
    if hidden:
        scene.lines.append(f"{counted(hidden, 'execution')} of the count {'is' if hidden == 1 else 'are'} not drawn.")
    if any(it.is_copy and it.label for it in scene.cells):
        scene.lines.append("An execution that is drawn several times counts once.")
    scene.lines.append("Whatever the points decide, the count stays. A decision map would have 0.")
    return scene
