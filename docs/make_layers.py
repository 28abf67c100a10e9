#!/usr/bin/env python3
"""Draws the layers of crates.txt into docs/ARCHITECTURE.md, between two remarks.

    docs/make_layers.py

A layer is what stands below one remark of crates.txt, and the highest comes first. An arrow leads from a crate to the crates that it
stands on, without those that it reaches through another one anyway. Crates of the kit are left out. `checks/manual` compares the
drawing with what is made today."""
import pathlib
import re
import sys

sys.path.insert(0, str(pathlib.Path(__file__).resolve().parent.parent / "checks"))
import common  # noqa: E402
import crates  # noqa: E402

PAGE = common.ROOT / "docs/ARCHITECTURE.md"
PLACE = re.compile(r"(<!-- drawn by docs/make_layers.py -->\n).*?(<!-- end of the drawing -->)", re.S)
# the first remark of crates.txt says what its lines are
FIRST = "A line for each crate"


def layers():
    """The remark of each layer, with its crates, in the order of crates.txt."""
    found = []
    for line in (common.ROOT / "crates.txt").read_text().split("\n"):
        if line.startswith("# ") and not line[2:].startswith(FIRST):
            found.append((line[2:].rstrip("."), []))
        elif ":" in line and not line.startswith("#"):
            found[-1][1].append(line.split(":")[0].split()[0])
    return found


def straight(lines, below):
    """Each crate with the crates that it stands on and that no other of these reaches, the highest first."""
    own = {name: [it for it in words if it in lines] for name, words in lines.items()}
    return {name: [it for it in lines if it in words and not any(it in below[other] for other in words)][::-1] for name, words in own.items()}


def drawing():
    """The drawing, as text."""
    lines = crates.lines()
    arrows = straight(lines, crates.below(lines))
    width = max(map(len, lines))
    for remark, names in reversed(layers()):
        yield f"{remark}\n"
        for name in reversed(names):
            yield f"    {name:<{width}} --> {' '.join(arrows[name])}\n" if arrows[name] else f"    {name}\n"


def made():
    """The page, with its text."""
    text = "".join(drawing())
    return {PAGE: PLACE.sub(lambda it: f"{it[1]}```\n{text}```\n{it[2]}", PAGE.read_text())}


def main():
    common.Script(__doc__).asked()
    common.write(made())


if __name__ == "__main__":
    sys.exit(main())
