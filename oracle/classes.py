#!/usr/bin/env python3
"""classes.py PROCESSES VALUES: how many small tasks there are, all of them and up to symmetry. None of them is listed for that.

The tasks have one input facet. Process p may decide values 0 to VALUES - 1. A task is counted if it is pruned: something is allowed at each
simplex, and each tuple that is allowed at a face is part of one that is allowed at each larger simplex. A symmetry permutes the
processes, and the values of each process. By Burnside's lemma the tasks up to symmetry are the mean, over all symmetries, of how many
tasks a symmetry leaves as they are.

A tuple is a set of pairs (process, value) here. A symmetry leaves a task as it is exactly if what it makes of the tuples at a face are the
tuples at the face that the face becomes. So of the faces that it turns into one another, the tuples at one of them say those at the
others, and the tuples at that one are a union of orbits of the power of the symmetry that turns the face into itself.

The script writes both numbers. 3 2 takes some seconds, and 2 3 less than one. It has no code of the program or of the module."""
import itertools
import math
import sys


def symmetries(processes, values):
    """What each symmetry makes of the pairs (process, value)."""
    for order in itertools.permutations(range(processes)):
        for named in itertools.product(itertools.permutations(range(values)), repeat=processes):
            yield {(p, v): (order[p], named[p][v]) for p in range(processes) for v in range(values)}


def image(symmetry, tuple_):
    """What a symmetry makes of a tuple."""
    return frozenset(symmetry[pair] for pair in tuple_)


def orbits(things, turn):
    """The orbits of things, each in the order of the turns."""
    left, found = set(things), []
    while left:
        orbit = [left.pop()]
        while (after := turn(orbit[-1])) != orbit[0]:
            left.remove(after)
            orbit.append(after)
        found.append(orbit)
    return found


def power(symmetry, exponent):
    """A symmetry, done so many times."""
    found = {pair: pair for pair in symmetry}
    for _ in range(exponent):
        found = {pair: symmetry[after] for pair, after in found.items()}
    return found


def at(face, tuples):
    """What is left of tuples at a face."""
    return frozenset(frozenset(pair for pair in each if pair[0] in face) for each in tuples)


def unions(parts):
    """The unions of one or more of these parts."""
    for size in range(1, len(parts) + 1):
        for some in itertools.combinations(parts, size):
            yield frozenset(itertools.chain(*some))


class Counting:
    """How many pruned tasks a symmetry leaves as they are."""

    def __init__(self, symmetry, processes, values):
        self.symmetry, self.processes, self.values = symmetry, processes, values
        self.to = {p: after for (p, _), (after, _) in symmetry.items()}
        self.known = {}

    def orbits_of_faces(self, size):
        """The faces of a size, by orbits."""
        faces = map(frozenset, itertools.combinations(range(self.processes), size))
        return orbits(faces, lambda face: frozenset(self.to[p] for p in face))

    def room(self, face, larger):
        """What may be allowed at a face at most."""
        if not larger:
            return frozenset(map(frozenset, itertools.product(*[[(p, v) for v in range(self.values)] for p in face])))
        return frozenset.intersection(*[at(face, tuples) for whole, tuples in larger.items() if face < whole])

    def parts(self, orbit, larger):
        """The orbits of tuples at the first face of an orbit, of which the tuples there are a union."""
        key = (orbit[0], self.room(orbit[0], larger))
        if key not in self.known:
            turned = power(self.symmetry, len(orbit))
            self.known[key] = orbits(key[1], lambda each: image(turned, each))
        return self.known[key]

    def spread(self, orbit, tuples):
        """The tuples at each face of an orbit, if these are the ones at the first."""
        found = {}
        for face in orbit:
            found[face] = tuples
            tuples = frozenset(image(self.symmetry, each) for each in tuples)
        return found

    def tasks(self, size, larger):
        """How many tasks there are with these tuples at the faces of more than `size` processes."""
        several = self.orbits_of_faces(size)
        parts = [self.parts(orbit, larger) for orbit in several]
        if size == 1:
            return math.prod(2 ** len(it) - 1 for it in parts)
        found = 0
        for chosen in itertools.product(*[[*unions(it)] for it in parts]):
            spread = [self.spread(orbit, tuples) for orbit, tuples in zip(several, chosen)]
            found += self.tasks(size - 1, {face: tuples for each in spread for face, tuples in each.items()})
        return found


def counted(processes, values):
    """How many tasks there are, and how many up to symmetry."""
    fixed = [Counting(it, processes, values).tasks(processes, {}) for it in symmetries(processes, values)]
    assert sum(fixed) % len(fixed) == 0, fixed
    # the first symmetry is the one that changes nothing
    return fixed[0], sum(fixed) // len(fixed)


def main(words):
    if len(words) != 2 or not all(it.isdecimal() and int(it) > 0 for it in words):
        print(__doc__, file=sys.stderr)
        return 2
    labelled, classes = counted(*map(int, words))
    print(f"{labelled} tasks, {classes} up to symmetry")
    return 0


if __name__ == "__main__":
    sys.exit(main(sys.argv[1:]))
