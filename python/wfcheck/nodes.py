"""The nodes of obstructions in words."""
from typing import Iterable, Tuple

# nodes of obstructions, in the order in which they are counted
KINDS = ["split", "cover", "case", "balance"]


def nodes_in_words(nodes: Iterable[Tuple[str, int]]) -> str:
    """How many nodes of each kind an obstruction has, and the moduli of its balances, as `2 splits, 1 balance modulo 2`. Each node is given by
    its name and its first number."""
    listed = list(nodes)
    counts = [(sum(name == kind for name, _ in listed), kind) for kind in KINDS]
    told = ", ".join(f"{many:,} {kind}{'s' * (many > 1)}" for many, kind in counts if many)
    moduli = sorted({number for name, number in listed if name == "balance"})
    return f"{told} modulo {', '.join(map(str, moduli))}" if moduli else told
