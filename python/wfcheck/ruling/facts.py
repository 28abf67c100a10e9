"""What a view knows, as far as rules speak of it."""
import functools
from typing import Dict, FrozenSet, List, Mapping, NamedTuple, Sequence, Tuple

from ..views import View

Saw = FrozenSet[int]


class Facts(NamedTuple):
    """What a view knows: its process or rank, the input of each process that it knows, and whom each of them saw in each round of which the
    view knows, and which inputs it knew then: rounds are numbered from 0 on."""
    process: int
    inputs: Mapping[int, int]
    saw: Mapping[Tuple[int, int], Saw]
    knew: Mapping[Tuple[int, int], FrozenSet[int]]

    @property
    def known(self) -> List[int]:
        """The processes that it knows, ascending."""
        return [*self.inputs]

    @property
    def values(self) -> List[int]:
        """The inputs that it knows, by process."""
        return [*self.inputs.values()]

    @property
    def own(self) -> int:
        """Its own input."""
        return self.inputs[self.process]

    @property
    def place(self) -> int:
        """Its rank among those that it knows, from 0 on."""
        return self.known.index(self.process)

    def seen(self, at: int) -> Saw:
        """Whom it saw in a round."""
        return self.saw[self.process, at]

    def place_in(self, at: int) -> int:
        """Its rank among those that it saw in a round, from 0 on."""
        return sorted(self.seen(at)).index(self.process)

    def others(self, at: int) -> Sequence[Saw]:
        """Whom others saw in a round, as far as it knows."""
        return [it for (process, when), it in self.saw.items() if when == at and process != self.process]

    def others_knew(self, at: int) -> Sequence[FrozenSet[int]]:
        """Which inputs others knew after a round, as far as it knows."""
        return [it for (process, when), it in self.knew.items() if when == at and process != self.process]


@functools.lru_cache(maxsize=200_000)
def facts_of(view: View) -> Facts:
    """What a view knows."""
    process, inside = view
    if isinstance(inside, int):
        return Facts(process, {process: inside}, {}, {})
    every = [facts_of(each) for each in inside]
    inputs: Dict[int, int] = {p: value for it in every for p, value in it.inputs.items()}
    saw = {key: it for each in every for key, it in each.saw.items()}
    last = 1 + max((at for _, at in saw), default=-1)
    knew = {key: it for each in every for key, it in each.knew.items()}
    return Facts(process, dict(sorted(inputs.items())), {**saw, (process, last): frozenset(it.process for it in every)},
                 {**knew, (process, last): frozenset(inputs.values())})
