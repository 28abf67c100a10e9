#!/usr/bin/env python3
"""lrat.py TASK ROUNDS [--branch I] < PROOF: whether a clausal proof with hints refutes the question of a task, straight from docs/FORMAT.md.

What `wfcheck proof --lrat` answers, byte for byte: it shares nothing with the program, and is here to be read. With --branch the proof is
about that branch alone, which has to be there. A step is a lemma with an id, literals and hints, or a deletion. A lemma follows if its
hints, looked at one by one with all its literals false, leave one literal each that isn't false, and at last none. A lemma that does not
follow is kept if it is a resolution asymmetric tautology (RAT) on its first literal. Each kept clause with that literal's negation has a
group of hints then, unless it is true: a negative one that names the clause, and those behind it. The status is 0 if the proof is accepted, else 2."""
import re
import signal
import sys
from typing import NamedTuple

import rup

# words, and what stands between them; a comment begins where a step may
WORD = re.compile(rb"[^ \t\r\n]+")
BLANK = re.compile(rb"[ \t\r\n]*")
NUMBER = re.compile(rb"-?[0-9]+")
# an id is at most so many times the number of clauses so far, and larger numbers are all alike
GROWTH, LARGEST = 64, 1 << 60


class Group(NamedTuple):
    """Some hints of a lemma, and the id of the clause that they are about."""
    name: int
    hints: list


class Ledger:
    """The clauses by their ids, the largest id, how many clauses there ever were, and whether one of them is empty."""

    def __init__(self, clauses):
        self.clauses = {at: clause for at, clause in enumerate(clauses, 1)}
        self.last, self.many, self.is_refuted = len(clauses), len(clauses), [] in clauses

    def copy(self):
        other = Ledger([])
        other.clauses, other.last, other.many, other.is_refuted = self.clauses.copy(), self.last, self.many, self.is_refuted
        return other

    def learn(self, line, name, clause, hints):
        """Takes a lemma, or raises why it is refused."""
        if not self.last < name <= GROWTH * (self.many + 1):
            raise rup.Refused(f"64 IdOutOfRange {line}")
        self.justify(line, clause, hints)
        self.clauses[name], self.last, self.many = clause, name, self.many + 1
        self.is_refuted |= not clause

    def justify(self, line, clause, hints):
        """Raises why the hints of a lemma show neither that it follows nor that it is RAT."""
        false = set(clause)
        if any(-it in false for it in clause):
            return
        first, *groups = groups_of(hints)
        if self.leads_to_conflict(line, false, first.hints):
            return
        if not clause:
            raise rup.Refused(f"62 NoConflict {line}")
        self.resolve(line, clause[0], false, groups)

    def resolve(self, line, pivot, false, groups):
        """Goes through the kept clauses with the pivot's negation, each with its group, and raises why one is not settled."""
        waiting = list(groups)
        for name, clause in sorted(self.clauses.items()):
            if -pivot not in clause:
                continue
            group = waiting.pop(0) if waiting and waiting[0].name == name else None
            others = [it for it in clause if it != -pivot]
            if any(-it in false for it in others):
                continue
            if group is None:
                raise rup.Refused(f"61 ClauseLeftOut {line}" if groups else f"62 NoConflict {line}")
            if not self.leads_to_conflict(line, {*false, *others}, group.hints):
                raise rup.Refused(f"62 NoConflict {line}")

    def leads_to_conflict(self, line, false, hints):
        """Follows hints while these literals are false, adds what they make false, and says whether a clause is false at last."""
        for hint in hints:
            if hint not in self.clauses:
                raise rup.Refused(f"63 UnknownHint {line}")
            left = [it for it in self.clauses[hint] if it not in false]
            if not left:
                return True
            if len(left) > 1:
                raise rup.Refused(f"62 NoConflict {line}")
            false.add(-left[0])
        return False

    def delete(self, names):
        for name in names:
            self.clauses.pop(name, None)


def groups_of(hints):
    """The hints of a lemma as groups: the first up to a negative hint, named 0, and one more for each negative hint and those behind it."""
    groups = [Group(0, [])]
    for hint in hints:
        if hint < 0:
            groups.append(Group(-hint, []))
        else:
            groups[-1].hints.append(hint)
    return groups


def number_of(word, line):
    """The number that a word is, up to a size from which on all are alike."""
    if not NUMBER.fullmatch(word) or word[:1] == b"-" and not int(word):
        stray(word, line)
    return max(-LARGEST, min(int(word), LARGEST))


def id_of(word, line):
    """The id that a word is, or 0."""
    number = number_of(word, line)
    if number < 0:
        raise rup.Refused(f"38 NotALiteral {line}")
    return number


def literal(word, line, variables):
    """The literal that a word is, or 0."""
    number = number_of(word, line)
    if abs(number) > variables:
        raise rup.Refused(f"39 NoSuchVariable {line}")
    return number


def stray(word, line):
    """Refuses a word that is no number: as binary if the first byte by which it is none is no byte of a text."""
    good = re.match(rb"-?[0-9]*", word).end() if re.match(rb"-?[0-9]|-", word) else 0
    if good < len(word) and not 32 <= word[good] < 127:
        raise rup.Refused("42 Binary: ask the solver for text by --no-binary")
    raise rup.Refused(f"38 NotALiteral {line}")


class Words:
    """The words of a text one by one, with the line of each."""

    def __init__(self, text):
        self.text, self.at, self.line = text, 0, 1

    def skip(self):
        """Passes over blanks; whether there is another word."""
        end = BLANK.match(self.text, self.at).end()
        self.line += self.text.count(b"\n", self.at, end)
        self.at = end
        return end < len(self.text)

    def comment(self):
        """Passes over a comment, without the line feed behind it."""
        end = self.text.find(b"\n", self.at)
        self.at = len(self.text) if end < 0 else end

    def next(self):
        """The next word; a text that ends before it, or in an unfinished step, has no contradiction."""
        if not self.skip():
            raise rup.Refused(f"41 NoContradiction {self.line}")
        word = WORD.match(self.text, self.at).group()
        self.at += len(word)
        return word


def steps(text, variables):
    """Each step of a text: the line in which it ends, and its id, literals and hints; or the ids that it deletes."""
    words = Words(text)
    while True:
        if words.skip() and words.text[words.at] in b"c%":
            words.comment()
            continue
        word = words.next()
        if word[:1] == b"a":
            raise rup.Refused("42 Binary: ask the solver for text by --no-binary")
        name, clause, names = id_of(word, words.line), [], []
        word = words.next()
        if word[:1] == b"d":
            # the letter may stand right before the first id
            words.at -= len(word) - 1
            while (it := id_of(words.next(), words.line)):
                names.append(it)
            yield words.line, None, None, names
            continue
        while (it := literal(word, words.line, variables)):
            clause.append(it)
            word = words.next()
        while (it := number_of(words.next(), words.line)):
            names.append(it)
        yield words.line, name, clause, names


def judge(ledger, variables, text):
    """Why a proof is refused, or None. The ledger is changed."""
    try:
        ahead = steps(text, rup.most_variables(variables))
        while not ledger.is_refuted:
            line, name, clause, names = next(ahead)
            if clause is None:
                ledger.delete(names)
            else:
                ledger.learn(line, name, clause, names)
    except rup.Refused as refused:
        return str(refused)
    return None


if __name__ == "__main__":
    signal.signal(signal.SIGPIPE, signal.SIG_DFL)
    sys.exit(rup.main("lrat.py", __doc__, lambda clauses, *proof: judge(Ledger(clauses), *proof)))
