"""Answers as pictures where a notebook shows them."""
from typing import Optional, Union

from ..answers import Map, Obstruction, Refutation
from ..questions import explained
from ..running import Error
from ..tasks import Task
from . import pictures
from .argument import argument_of
from .counting import weights_of
from .outputs import of_outputs
from .pictures import Choice
from .scene import Scene, TooLarge
from .subdivision import rules_of
from .svg import svg

ROUNDS, SEED = 1, 1


def picture_of(answer: Union[Map, Refutation, Obstruction]) -> Optional[str]:
    """An answer as SVG. None if it is too large to draw, its task's text is none, the program can't be asked about its argument, or it is
    an obstruction of more nodes than one balance."""
    try:
        scene = scene_of(answer)
        return svg(scene) if scene else None
    except (TooLarge, Error, KeyError):
        return None


def picture_of_task(task: Task) -> Optional[str]:
    """The output complex of a task as SVG, or its inputs if there are four processes. None if it is too large to draw or the text is none."""
    try:
        rules = rules_of(task)
        return svg(of_outputs(task, None) if rules.processes <= 3 else pictures.of_complex(task, 0, Choice()))
    except (TooLarge, Error, LookupError, RecursionError, TypeError, ValueError):
        return None


def scene_of(answer: Union[Map, Refutation, Obstruction]) -> Optional[Scene]:
    """The scene of an answer, of an obstruction after one round if it is one balance."""
    if isinstance(answer, Map):
        return pictures.of_map(answer.task, answer.rounds, [*answer.values.values()], Choice())
    if isinstance(answer, Refutation):
        return pictures.of_refutation(answer.task, answer.rounds, argument_of(explained(answer.task, answer)), Choice())
    weights = weights_of(rules_of(answer.task), answer)
    return pictures.of_obstruction(answer.task, ROUNDS, weights, SEED, False, Choice()) if weights else None
