#!/usr/bin/env python3
"""rup.py TASK ROUNDS [--branch I] < PROOF: whether a clausal proof refutes the question of a task, straight from docs/FORMAT.md.

What `wfcheck proof` answers, byte for byte, and slowly, most of all a number of millions of digits: it shares nothing with the program,
and is here to be read. With --branch the proof is about that branch alone, which has to be there. A proof is lemmas and deletions. A lemma
follows if unit propagation, with all its literals false, makes a kept clause false. A lemma that does not follow is kept if it is a
resolution asymmetric tautology (RAT) on its first literal. Literals that hold without an assumption hold from then on, whatever is
deleted. The status is 0 if the proof is accepted, else 2."""
import argparse
import collections
import json
import pathlib
import re
import signal
import sys

import formula
import independent

# a number may have any number of digits, of which Python reads 4,300 if it isn't told
if hasattr(sys, "set_int_max_str_digits"):
    sys.set_int_max_str_digits(0)

BLANKS = b" \t\r\n"
NUMBER = re.compile(rb"-?[0-9]*")
COMMENT = re.compile(rb"[c%][^\n]*")
# a proof may bring in as many variables again as the question has, and so many more; no number may be larger than the second one
SPARE_VARIABLES, MOST_VARIABLES = 65536, 2147483646


class Refused(Exception):
    """A proof that is not accepted, with the line that says so."""


class Kept:
    """The clauses that are kept, and the literals that hold because of them."""

    def __init__(self, clauses=()):
        self.many, self.users = collections.Counter(), collections.defaultdict(set)
        self.held, self.is_refuted = set(), False
        for clause in clauses:
            self.add(clause)

    def copy(self):
        other = Kept()
        other.many, other.held, other.is_refuted = self.many.copy(), set(self.held), self.is_refuted
        other.users.update((literal, set(clauses)) for literal, clauses in self.users.items())
        return other

    def follows(self, lemma):
        """Whether unit propagation finds a contradiction where all of the lemma's literals are false."""
        return self.is_refuted or not self.spread(set(self.held), [-it for it in lemma])

    def is_rat(self, lemma):
        """Whether the lemma's resolvents on its first literal follow; a literal that holds is a clause of its own."""
        if not lemma or -lemma[0] in self.held:
            return False
        negation = -lemma[0]
        return all(self.follows(lemma + [it for it in clause if it != negation]) for clause in self.users.get(negation, ()))

    def add(self, clause):
        clause = tuple(sorted(set(clause)))
        self.many[clause] += 1
        for literal in clause:
            self.users[literal].add(clause)
        left = self.left_of(clause, self.held)
        if left is not None and len(left) < 2:
            self.is_refuted |= not left or not self.spread(self.held, left)

    def delete(self, clause):
        clause = tuple(sorted(set(clause)))
        if self.many[clause] > 0:
            self.many[clause] -= 1
            if self.many[clause] == 0:
                for literal in clause:
                    self.users[literal].discard(clause)

    def spread(self, held, literals):
        """Adds to what holds these literals and all that they force; whether no clause is false then."""
        waiting = list(literals)
        while waiting:
            literal = waiting.pop()
            if -literal in held:
                return False
            if literal in held:
                continue
            held.add(literal)
            for clause in self.users[-literal]:
                left = self.left_of(clause, held)
                if left is not None and not left:
                    return False
                if left is not None and len(left) == 1:
                    waiting += left
        return True

    @staticmethod
    def left_of(clause, held):
        """The literals that are not false, or None where one holds."""
        return None if not held.isdisjoint(clause) else {it for it in clause if -it not in held}


def steps(text, variables):
    """Each step of a proof's text: the line in which it ends, whether it is a deletion, and its literals."""
    at, line, is_deletion, clause = 0, 1, False, []
    while at < len(text):
        between = not is_deletion and not clause
        if text[at] in BLANKS:
            line += text[at:at + 1] == b"\n"
            at += 1
        elif between and text[at] in b"c%":
            at = COMMENT.match(text, at).end()
        elif between and text[at] in b"d":
            is_deletion = True
            at += 1
        elif between and text[at] in b"a":
            raise Refused("42 Binary: ask the solver for text by --no-binary")
        else:
            word = NUMBER.match(text, at).group()
            at += len(word)
            if at < len(text) and text[at] not in BLANKS and not 32 <= text[at] < 127:
                raise Refused("42 Binary: ask the solver for text by --no-binary")
            if word in (b"", b"-") or at < len(text) and text[at] not in BLANKS or word[:1] == b"-" and int(word) == 0:
                raise Refused(f"38 NotALiteral {line}")
            if abs(int(word)) > variables:
                raise Refused(f"39 NoSuchVariable {line}")
            if int(word):
                clause.append(int(word))
            else:
                yield line, is_deletion, clause
                is_deletion, clause = False, []
    raise Refused(f"41 NoContradiction {line}")


def question(task, rounds, branch=None):
    """The number of variables of a task's question, or of that of a branch, and its clauses."""
    text = formula.text(task, rounds) if branch is None else independent.cnf(task, rounds, branch)
    lines = [line.split() for line in text.splitlines() if line[0] != "c"]
    return int(lines[0][2]), [list(map(int, line[:-1])) for line in lines[1:]]


def most_variables(variables):
    """The largest variable of a proof about a question with so many variables."""
    return min(2 * variables + SPARE_VARIABLES, MOST_VARIABLES)


def judge(kept, variables, text):
    """Why a proof is refused, or None. What is kept is changed."""
    try:
        ahead = steps(text, most_variables(variables))
        while not kept.is_refuted:
            line, is_deletion, clause = next(ahead)
            if is_deletion:
                kept.delete(clause)
            elif kept.follows(clause) or kept.is_rat(clause):
                kept.add(clause)
            else:
                raise Refused(f"40 NotImplied {line}")
    except Refused as refused:
        return str(refused)
    return None


def place(task, rounds, branch):
    """Where a branch is, as the line that says what is accepted tells it."""
    return "" if branch is None else f" in branch {branch} of {len(independent.split(independent.opinion.Complex(task, rounds)))}"


def accepted(rounds, where=""):
    """The line that says that there is no decision map, or none there."""
    return f"accepted none{where} at {rounds} round{'' if rounds == 1 else 's'}\n"


def main(name, told, judged):
    """Runs a script of this name. `judged` says why a proof is refused, by the clauses, the number of variables, and the text."""
    script = argparse.ArgumentParser(prog=name, description=told, formatter_class=argparse.RawDescriptionHelpFormatter)
    script.add_argument("task", type=pathlib.Path, metavar="TASK")
    script.add_argument("rounds", type=int, metavar="ROUNDS")
    script.add_argument("--branch", type=int, metavar="I")
    asked = script.parse_args()
    try:
        task = json.loads(asked.task.read_bytes())
    except (OSError, ValueError) as error:
        script.error(f"{asked.task} is no task that can be read: {error}")
    variables, clauses = question(task, asked.rounds, asked.branch)
    refusal = judged(clauses, variables, sys.stdin.buffer.read())
    sys.stdout.write(f"wfcheck: {refusal}\n" if refusal else accepted(asked.rounds, place(task, asked.rounds, asked.branch)))
    return 2 if refusal else 0


if __name__ == "__main__":
    signal.signal(signal.SIGPIPE, signal.SIG_DFL)
    sys.exit(main("rup.py", __doc__, lambda clauses, *proof: judge(Kept(clauses), *proof)))
