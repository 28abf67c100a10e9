"""crates.txt, as the scripts read it: each crate, the libraries that its line names, and the crates that it stands on. How many crates
can be proved side by side. And what tells the sources of the product from others."""
import hashlib
import os
import re

import common

BESIDE = re.compile(r"\w+_tests|wf_examples|wf_bench")
# what the sources of the product are of: a list of crates and their folders, and in these the parts that are proved and built
SOURCES, PARTS = ["crates.txt", "crates"], ["src", "specs", "proofs"]
# beside a program in bin/: what came of the gate that built it
GATE = "gate"
# what the proof of a crate takes at most
ROOM = 5 << 30


def lines():
    """Each crate of crates.txt with the words of its line, in their order."""
    found = {}
    for line in (common.ROOT / "crates.txt").read_text().split("\n"):
        head, colon, words = line.partition("#")[0].partition(":")
        if colon:
            found[head.split()[0]] = words.split()
    return found


def below(named):
    """Each crate with the crates that it stands on, straight or through others; the lowest crates come first."""
    found = {}
    while len(found) < len(named):
        before = len(found)
        for name, words in named.items():
            straight = {*words} & {*named}
            if name not in found and straight <= {*found}:
                found[name] = straight.union(*(found[it] for it in straight))
        if len(found) == before:
            raise ValueError(f"crates.txt: these stand on one another: {' '.join(it for it in named if it not in found)}")
    return found


def is_product(name):
    """Whether a crate is part of the product: not a crate of tests, of examples or of benchmarks."""
    return not BESIDE.fullmatch(name)


def sources():
    """The SHA-256 of the product's sources: crates.txt, and each file of a product crate that is proved or built, with its path."""
    found = [common.ROOT / "crates.txt"]
    for name in filter(is_product, lines()):
        found += [it for part in PARTS for it in (common.ROOT / "crates" / name / part).rglob("*") if it.is_file()]
    whole = hashlib.sha256()
    for file in sorted(found):
        whole.update(f"{hashlib.sha256(file.read_bytes()).hexdigest()}  {file.relative_to(common.ROOT)}\n".encode())
    return whole.hexdigest()


def note(program):
    """Notes beside a program in bin/ from which sources it was built."""
    common.BUILT.with_name(f"{program}.sources").write_text(f"{sources()}\n")


def at_once():
    """How many crates can be proved side by side: RT_JOBS, or as many as there are processors and memory for."""
    if (told := os.environ.get("RT_JOBS", "")).isdigit():
        return max(1, int(told))
    memory = os.sysconf("SC_PHYS_PAGES") * os.sysconf("SC_PAGE_SIZE")
    return max(1, min(len(os.sched_getaffinity(0)), memory // ROOM))
