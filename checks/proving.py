"""Random proofs about small questions, and what `wfcheck proof` has to say of each: a part of checks/fuzz.

Half of the proofs have hints. Most of their steps are taken: clauses that follow, definitions of new variables, blocked clauses and other
resolution asymmetric tautologies, and deletions; some have a fault. The program has to answer what oracle/rup.py or oracle/lrat.py does, with the
very line of a refusal. No proof may be accepted of a question that has a model, whatever that oracle says: models are looked for here."""
import json
import random
from typing import NamedTuple

import finder
import lrat
import refusals
import rup

# how often a step is made anew that would be refused, how often one is left so, how often groups of hints are damaged, and how often bytes
# of a proof are changed
TRIES, FAULTY, GROUPS_FAULTY, OTHER_BYTES = 12, 0.06, 0.12, 0.15
BYTES = [*(b"%d" % it for it in range(10)), b"-", b" ", b"\n", b"\r", b"\t", b" 0", b"d", b"d ", b"c", b"%", b"a", b"x", b"+", b"\0", b"\x7f", b"\xff", b"\x0b"]


class Proof(NamedTuple):
    """A task's text, a number of rounds, the number of variables and the clauses of that question, and a proof, with hints or without."""
    task: bytes
    rounds: int
    variables: int
    clauses: list
    has_hints: bool
    text: bytes


def case(seed, number):
    """A proof by its number."""
    choose = random.Random(f"proofs {seed}:{number}")
    task = finder.random_task(choose)
    rounds = choose.choice([0, 0, 0, 1]) if json.loads(task)["processes"] == 2 else 0
    variables, clauses = rup.question(json.loads(task), rounds)
    has_hints = choose.random() < 0.5
    steps = (hinted_steps if has_hints else plain_steps)(choose, variables, clauses)
    text = b"\n".join(steps) + choose.choice([b"", b"\n", b"\n", b"\n"])
    return Proof(task, rounds, variables, clauses, has_hints, with_other_bytes(choose, text) if choose.random() < OTHER_BYTES else text)


def with_other_bytes(choose, text):
    """A text of which some bytes are left out, put in, or turned."""
    for _ in range(choose.choice([1, 1, 2, 3])):
        at = choose.randrange(len(text) + 1)
        text = text[:at] + choose.choice([b"", *BYTES]) + text[at + choose.randrange(2):]
    return text


def words(numbers):
    """Numbers as a step has them."""
    return b" ".join(b"%d" % it for it in [*numbers, 0])


def clause(choose, variables, clauses):
    """A clause that may follow from these."""
    how, some = choose.randrange(5), list(choose.choice(clauses))
    if how == 0 or not some:
        return [choose.choice([-1, 1]) * choose.randint(1, variables) for _ in range(choose.choice([1, 1, 2, 3]))]
    if how == 1:
        return [*some, choose.choice([-1, 1]) * choose.randint(1, variables)]
    if how == 2:
        choose.shuffle(some)
        return some[1:]
    pivot = choose.choice(some)
    others = [it for it in clauses if -pivot in it]
    joined = {*some, *(choose.choice(others) if others else [])} - {pivot, -pivot}
    return choose.sample(sorted(joined), len(joined))


def definition(choose, variables):
    """Clauses that say that the next variable is the conjunction of some literals, in an order that may be wrong."""
    parts = [choose.choice([-1, 1]) * choose.randint(1, variables) for _ in range(choose.choice([1, 2, 2, 3]))]
    found = [[variables + 1, *(-it for it in parts)], *([-variables - 1, it] for it in parts)]
    if choose.random() < 0.2:
        choose.shuffle(found)
    return found


def parted(choose, variables, clauses):
    """Clauses that part some of these by the next variable: a part of each with its negation, and the rest of all with the variable."""
    whole = [choose.sample(it, len(it)) for it in choose.sample(clauses, min(len(clauses), choose.choice([1, 1, 2, 3])))]
    cuts = [choose.randint(0, len(it)) for it in whole]
    rest = {it: None for each, cut in zip(whole, cuts) for it in each[cut:]}
    return [*([-variables - 1, *each[:cut]] for each, cut in zip(whole, cuts)), [variables + 1, *rest]]


def plain_steps(choose, variables, clauses):
    """The lines of a proof without hints, which ends in the contradiction at most times."""
    kept, there, lines = rup.Kept(clauses), [*clauses], []

    def add(lemma):
        """Adds a lemma, if it is one that is taken, or to be a fault."""
        taken = kept.is_refuted or kept.follows(lemma) or kept.is_rat(lemma)
        if taken or choose.random() < FAULTY:
            lines.append(words(lemma))
            there.append(lemma)
            if taken:
                kept.add(lemma)
        return taken

    for _ in range(choose.randint(1, 10)):
        how = choose.randrange(6)
        if how == 0:
            gone = choose.choice(there)
            lines.append(b"d " + words(choose.sample(gone, len(gone))))
            kept.delete(gone)
        elif how == 1:
            for lemma in definition(choose, variables):
                add(lemma)
            variables += 1
        else:
            for _ in range(TRIES):
                if add(clause(choose, variables, there)):
                    break
    return lines + [b"0"] * (choose.random() < 0.9)


def forced(ledger, false):
    """Hints that lead to a conflict while these literals are false, or as many as tell something, and whether there is a conflict."""
    false, hints, found = set(false), [], True
    while found:
        found = False
        for at, each in ledger.clauses.items():
            left = [it for it in each if it not in false]
            if not left:
                return [*hints, at], True
            if len(left) == 1 and -left[0] not in false:
                false.add(-left[0])
                hints.append(at)
                found = True
    return hints, False


def false_after(ledger, false, hints):
    """The literals that are false once these hints were followed."""
    false = set(false)
    ledger.leads_to_conflict(0, false, hints)
    return false


def hints_of(choose, ledger, lemma):
    """Hints that show a lemma, if there are some: those of the lemma itself, or behind them a group for each clause of a RAT step."""
    hints, follows = forced(ledger, lemma)
    if not lemma or follows and choose.random() < 0.6:
        return hints
    hints = hints[:choose.choice([0, 0, 1, len(hints) - follows])]
    false, found = false_after(ledger, lemma, hints), []
    for at, each in ledger.clauses.items():
        others = [it for it in each if it != -lemma[0]]
        if -lemma[0] in each and not any(-it in false for it in others):
            found += [-at, *forced(ledger, {*false, *others})[0]]
        elif -lemma[0] in each and choose.random() < 0.3:
            found += [-at, *choose.choice([[], [], [at]])]
    stray = [] if choose.random() < 0.8 else [-choose.randint(1, ledger.last + 1)]
    return [*hints, *found, *stray]


def blocked(choose, clauses):
    """A clause that may be blocked on its first literal: for each clause with that literal's negation it has another one's, or for all but one."""
    pivot = choose.choice(choose.choice([it for it in clauses if it]))
    others = [[it for it in each if it != -pivot] for each in clauses if -pivot in each]
    found = sorted({-choose.choice(it) for it in others if it})
    choose.shuffle(found)
    return [pivot, *found[choose.choice([0, 1, 1]):]]


def with_a_fault(choose, hints, last):
    """Hints of which one is left out, put in, or turned; or of a lemma with groups, one group is gone, exchanged, or about another clause."""
    starts = [0, *(at for at, it in enumerate(hints) if it < 0), len(hints)]
    groups = [hints[at:end] for at, end in zip(starts, starts[1:])]
    how, at = choose.randrange(5), choose.randrange(len(groups))
    if len(groups) > 1 and how == 0:
        del groups[at]
    elif len(groups) > 1 and how == 1:
        to = choose.randrange(len(groups))
        groups[at], groups[to] = groups[to], groups[at]
    elif len(groups) > 1 and how == 2:
        groups[-1] = [-choose.randint(1, last), *groups[-1][1:]]
    elif len(groups) > 1 and how == 3:
        groups[at], groups[at - 1] = groups[at][:1], groups[at - 1] + groups[at][1:]
    else:
        hints = [*hints]
        at = choose.randrange(len(hints) + 1)
        hints[at:at + choose.randrange(2)] = choose.choice([[], [choose.randint(1, last + 1)], [-choose.randint(1, last)]])
        return hints
    return [it for each in groups for it in each]


def hinted_steps(choose, variables, clauses):
    """The lines of a proof with hints, which ends in the contradiction at most times."""
    ledger, lines = lrat.Ledger(clauses), []

    def add(lemma):
        """Adds a lemma, if it is one that is taken, or to be a fault."""
        name, hints = ledger.last + choose.choice([1, 1, 1, 2, 7]), hints_of(choose, ledger, lemma)
        try:
            ledger.copy().learn(0, name, lemma, hints)
            if choose.random() < (GROUPS_FAULTY if any(it < 0 for it in hints) else FAULTY):
                hints = with_a_fault(choose, hints, ledger.last)
        except rup.Refused:
            if choose.random() >= FAULTY:
                return False
        lines.append(b"%d %s %s" % (name, words(lemma), words(hints)))
        ledger.clauses[name], ledger.last, ledger.many = lemma, name, ledger.many + 1
        return True

    for _ in range(choose.randint(1, 10)):
        how = choose.randrange(8)
        if how == 0 and ledger.clauses:
            gone = [choose.choice([*ledger.clauses, ledger.last + 1]) for _ in range(choose.randint(0, 2))]
            lines.append(b"%d d %s" % (ledger.last, words(gone)))
            ledger.delete(gone)
        elif how < 3:
            for lemma in definition(choose, variables) if choose.randrange(2) else parted(choose, variables, [*ledger.clauses.values()]):
                add(lemma)
            variables += 1
        elif any(ledger.clauses.values()):
            for _ in range(TRIES):
                there = [*ledger.clauses.values()]
                if add(blocked(choose, there) if how < 5 else clause(choose, variables, there)):
                    break
    if choose.random() < 0.9:
        lines.append(b"%d 0 %s" % (ledger.last + 1, words(forced(ledger, [])[0])))
    return lines


def has_model(clauses, held=frozenset()):
    """Whether some literals beside those that hold satisfy all clauses."""
    left = [[it for it in each if -it not in held] for each in clauses if not held & {*each}]
    if not left:
        return True
    shortest = min(left, key=len)
    return any(has_model(left, held | {it}) for it in shortest)


def wrong(run, file, proof):
    """What is wrong with what the program says of a proof about a task, whose text is written to the file, or None; and what it says in a
    word."""
    if proof.has_hints:
        refusal = lrat.judge(lrat.Ledger(proof.clauses), proof.variables, proof.text)
    else:
        refusal = rup.judge(rup.Kept(proof.clauses), proof.variables, proof.text)
    file.write_bytes(proof.task)
    ran = run(["proof", "--task", str(file), "--rounds", str(proof.rounds), *["--lrat"] * proof.has_hints], proof.text)
    said = ran.stderr.split(b" ")[1:3][-1:] or [b"accepted"]
    if ran.returncode == 0 and has_model(proof.clauses):
        return "accepted, and the question has a model", "accepted"
    answer = (2, b"", refusals.told(refusal, is_proof=True).encode()) if refusal else (0, rup.accepted(proof.rounds).encode(), b"")
    fault = None if (ran.returncode, ran.stdout, ran.stderr) == answer else f"should be {answer}: {ran.returncode}, {ran.stdout[:80]}, {ran.stderr[:80]}"
    return fault, said[0].decode(errors="replace").strip()
