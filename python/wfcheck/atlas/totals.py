"""How many tasks of each table have which answer, as a table of gallery/atlas/README.md."""
import collections
from typing import Dict, List, Sequence

from .deciding import Line

BALANCE, MODULUS = "balance", "2"
HEADS = ["Table", "Tasks", "from 0", "from 1", "from 2", "from 3", "never", "of these by one balance", "modulo 2", "other answers"]


def answers(lines: Sequence[Line]) -> Dict[str, int]:
    """How many lines have each answer."""
    return dict(sorted(collections.Counter(it.answer for it in lines).items()))


def row(name: str, lines: Sequence[Line]) -> List[str]:
    """The row of a table."""
    found = answers(lines)
    single = [it for it in lines if it.nodes == BALANCE]
    numbers = [len(lines), *(found.pop(it, 0) for it in HEADS[2:7]), len(single), sum(it.moduli == MODULUS for it in single)]
    others = "; ".join(f"{many:,} {answer}" for answer, many in found.items())
    return [f"[{name}]({name}.tsv)", *(f"{it:,}" for it in numbers), others or "none"]


def table(kept: Dict[str, Sequence[Line]]) -> str:
    """The table of all tables, in Markdown."""
    rows = [HEADS, ["---", *["--:"] * (len(HEADS) - 2), "---"], *(row(name, lines) for name, lines in kept.items())]
    return "".join(f"| {' | '.join(it)} |\n" for it in rows)


