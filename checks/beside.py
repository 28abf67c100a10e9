"""wfverify beside wfcheck: the words by which it does the same, and whether it does. A part of checks/verifier and checks/fuzz.

If there is no wfverify beside the program that a script runs, nothing is compared."""
import common
import running

COMMANDS = {"verify": [], "proof": ["--proof"]}


# how a refusal begins, which names the program
NAMES = b"wfcheck: ", b"wfverify: "


class Otherwise(Exception):
    """What wfverify does otherwise than wfcheck, in words."""


class Shown:
    """How many runs were shown to wfverify too."""
    many = 0


def words_of(words):
    """The words by which wfverify is to do what these ask of wfcheck; None if that is not its to do."""
    command, *others = words or [""]
    if command not in COMMANDS or "--branch" in others:
        return None
    return others if "--lrat" in others else [*COMMANDS[command], *others]


def told_by_wfverify(told):
    """What wfverify tells where wfcheck tells this: a refusal begins with the name of the program, and all else is the same."""
    own, other = NAMES
    return other + told.removeprefix(own) if told.startswith(own) else told


def compare(words, given, ran, seconds, memory=None):
    """Has wfverify do what a run of wfcheck did, if that is its to do, and compares all that both write, tell and answer."""
    own, program = words_of(words), common.program().with_name("wfverify")
    if own is None or not program.is_file():
        return
    Shown.many += 1
    other = running.run([program, *own], given, seconds, memory)
    if (other.returncode, other.stdout, other.stderr) != (ran.returncode, ran.stdout, told_by_wfverify(ran.stderr)):
        raise Otherwise(f"wfverify: status {other.returncode}, {other.stdout[:80]}, {other.stderr[:80]}; "
                        f"wfcheck: status {ran.returncode}, {ran.stdout[:80]}, {ran.stderr[:80]}")
