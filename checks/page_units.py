"""The scripts of page/ beside the Python module and the oracles: tasks, complexes, places, obstructions, rules and refusals have to be the same.

`tests` runs them in a browser, on a page that has all their functions. Each yields a name, and what is wrong or nothing."""
import collections
import json
import pathlib
import random
import re
import shlex
import subprocess
import sys
import tempfile

import common
import obstructions
import task_texts
import wfcheck
from wfcheck import names as naming
from wfcheck.atlas import shapes
from wfcheck.drawing import main as drawing_main
from wfcheck.drawing import subdivision
from wfcheck.ruling.telling import ruled

sys.path.append(str(common.ROOT / "packaging"))
sys.path.append(str(common.ROOT / "docs"))
import bundle  # noqa: E402
import make_pictures  # noqa: E402

PAGE = common.ROOT / "page"
# the modules whose functions the tests call
MODULES = ["tasks", "making", "codes", "names", "subdivision", "embedding", "scene", "argument", "obstructions", "counting", "outputs", "linting", "ruling"]
NUMBERED = [("consensus-2", 3), ("consensus-3", 2), ("majority-3", 1), ("renaming-3-names-5", 2), ("consensus-3-first-block-2", 2), ("symmetry-breaking-4", 1),
            ("consensus-3-bits", 0)]
RULED = [("path-3", 1), ("approximate-2-by-3", 1), ("commit-adopt-3", 2), ("renaming-3-names-5", 2), ("set-agreement-3-3", 0)]
# how near places have to be, in pixels
NEAR = 0.02
MOST_TEXT, LOOSE = 1_000_000, re.compile(rb"\d[.eE]|\d{16}|-\d|\\u[dD]|\xff|\xfe|\x80")
PREDICATES = [
    ("consensus", 2, [(0, 1)], range(2), {}, lambda s, e: len({*e.values()}) == 1 and {*e.values()} <= {*s.values()},
     "(s, e) => new Set(Object.values(e)).size === 1 && Object.values(e).every(v => Object.values(s).includes(v))"),
    ("renaming", 3, [(0, 0, 0)], range(5), {"symmetric": True}, lambda s, e: len({*e.values()}) == len(e), "(s, e) => new Set(Object.values(e)).size === Object.values(e).length"),
    ("partly", 3, [{0: 0, 1: 1}, {2: 5}], range(3), {"first_block": 2}, lambda s, e: sum(e.values()) <= 2, "(s, e) => Object.values(e).reduce((a, b) => a + b, 0) <= 2"),
]


def page(folder):
    """A page that has the functions of all modules in one object."""
    folder = pathlib.Path(folder)
    for it in PAGE.glob("*.js"):
        (folder / it.name).symlink_to(it)
    lines = []
    for it in MODULES:
        exported = sorted({*bundle.EXPORT.findall((PAGE / f"{it}.js").read_text())})
        lines.append(f'import {{ {", ".join(exported)} }} from "./{it}.js";\nObject.assign(globalThis, {{ {", ".join(exported)} }});\n')
    imports, rest = "".join(it.split("\n")[0] + "\n" for it in lines), "".join(it.split("\n")[1] + "\n" for it in lines)
    (folder / "all.js").write_text(imports + rest)
    script = bundle.bundle(folder, "all.js").replace("</", "<\\/")
    file = folder / "units.html"
    file.write_text(f'<!doctype html><meta charset="utf-8"><title>units</title><script>{script}</script>')
    return file


def unlike(found, wanted):
    """What is wrong where something is not as it has to be, or nothing."""
    return "" if found == wanted else f"{str(found)[:300]}, and not {str(wanted)[:300]}"


def text_of(name):
    return common.task_file(name).read_text()


def asked(words, text=""):
    """What the program writes."""
    return subprocess.run([common.program(), *map(str, words)], input=text, capture_output=True, text=True, check=False).stdout


def tasks(window):
    """Tasks that predicates make, and codes of the atlas."""
    for name, processes, inputs, values, options, legal, script in PREDICATES:
        made = wfcheck.task(name, processes, inputs, legal, values, **options)
        given = {"processes": processes, "inputs": [[*(it.items() if isinstance(it, dict) else enumerate(it))] for it in inputs], "values": [*values],
                 "symmetric": options.get("symmetric", False), "firstBlock": options.get("first_block")}
        yield f"the task {name} from a predicate", unlike(window.script(f"return taskFrom(arguments[0], {script})", given), made.text)
    rows = [line.split("\t")[0] for line in (common.ROOT / "gallery/atlas/three-binary.tsv").read_text().split("\n")[2:] if line]
    chosen = random.Random(7).sample(rows, 150)
    yield "the tasks of codes", unlike(window.script("return arguments[0].map(it => taskOfMasks(masksOf(it)))", chosen), [shapes.BINARY.task(it).text for it in chosen])
    yield "the classes of codes", unlike(window.script("return arguments[0].map(it => classOf(masksOf(it)))", chosen), chosen)
    moved = "return arguments[0].map(it => { const m = masksOf(it); return classOf({ t: [...Array(8).keys()].reduce((s, k) => s | (m.t >> k & 1) << (k ^ 1), 0), " \
            "e: [m.e[0], m.e[1], m.e[2]].map((e, at) => at < 2 ? [...Array(4).keys()].reduce((s, k) => s | (e >> k & 1) << (k ^ 1), 0) : e), " \
            "v: [[0, 2, 1, 3][m.v[0]], m.v[1], m.v[2]] }); })"
    yield "the classes of codes with 0 and 1 of process 0 exchanged", unlike(window.script(moved, chosen), chosen)


def complexes(window):
    """Executions and points, with their numbers and words."""
    for name, rounds in NUMBERED:
        made = subdivision.Complex(subdivision.rules_of(wfcheck.read(common.task_file(name))), rounds)
        wanted = [[[made.points[view] for view in it.ends] for it in made.executions], [made.execution_text(at) for at in range(len(made.executions))],
                  sorted({(point, made.view_text(view)) for view, point in made.points.items()}), [made.sign(at) for at in range(len(made.executions))]]
        found = window.script("const made = new Complex(rulesOf(arguments[0]), arguments[1]); const told = new Map(made.points.flatMap((p, v) => [[p + made.viewText(v), [p, made.viewText(v)]]]));"
                              "return [made.executions.map(it => it.ends.map(v => made.points[v])), made.executions.map((_, at) => made.executionText(at)), [...told.values()], "
                              "made.executions.map((_, at) => made.sign(at))]", text_of(name), rounds)
        found[2] = sorted(map(tuple, found[2]))
        for what, one, other in zip(["ends", "words of executions", "words of points", "signs"], found, wanted):
            yield f"{what} of {name} after {rounds}", unlike(one, other)


def scenes():
    """The scenes of the ten pictures of docs/pictures, each with the task and the facets that it draws, as Python makes them."""
    from wfcheck.drawing import pictures
    kept, real = [], pictures.drawn

    def keeping(made, facets, *others):
        scene = real(made, facets, *others)
        kept.append((made, facets, scene))
        return scene

    pictures.drawn = keeping
    parser = drawing_main.words("draw")
    try:
        with tempfile.TemporaryDirectory() as room:
            for command in [it for it in make_pictures.commands() if not it.startswith("draw()")]:
                command, _, to = command.partition(" > ")
                words = shlex.split(command.replace("bin/wfcheck", str(common.program())))
                if words[0] != "draw":
                    given, _, source = command.partition(" < ")
                    run = shlex.split(given.replace("bin/wfcheck", str(common.program())))
                    (pathlib.Path(room) / to).write_text(subprocess.run(run, input=(common.ROOT / source).read_text(), capture_output=True, text=True, check=False).stdout)
                    continue
                wanted = parser.parse_args(words[1:])
                report = (pathlib.Path(room) / wanted.report).read_text() if wanted.report else None
                before = len(kept)
                picture = drawing_main.picture(wfcheck.read(common.ROOT / wanted.task), report, wanted)
                yield to, wanted, picture.scene, kept[before] if len(kept) > before else None
    finally:
        pictures.drawn = real


def places(window):
    """Places of the ten pictures: relative to the first point, since margins differ."""
    for name, wanted, scene, drawn in scenes():
        text = (common.ROOT / wanted.task).read_text()
        if drawn:
            made, facets, _ = drawn
            found = window.script("const [text, rounds, facets] = arguments, rules = rulesOf(text), made = new Complex(rules, rounds, rules.processes > 3 ? 3 : 4), scene = sceneOf(made, facets);"
                                  "return scene.spots.map(it => [it.point, it.process, ...it.at])", text, made.rounds, facets)
        else:
            found = window.script("return sceneOfOutputs(rulesOf(arguments[0]), { chromatic: true }).scene.spots.map(it => [it.point, it.process, ...it.at])", text)
        mine = [(it.point, it.process, *it.at) for it in scene.spots]
        if [it[:2] for it in map(tuple, found)] != [it[:2] for it in mine]:
            yield f"places of {name}", f"{len(found)} points in another order than the {len(mine)} of Python"
            continue
        far = max(abs((it[axis] - found[0][axis]) - (other[axis] - mine[0][axis])) for it, other in zip(found, mine) for axis in (2, 3))
        yield f"places of {name}, {len(mine)} points", "" if far < NEAR else f"some are {far:.2f} pixels from where Python has them"


def trees(window):
    """The tasks at hand in obstructions, and their balances."""
    for file in sorted(common.ANSWERS.glob("*.obstruction")):
        text, task = file.read_text(), json.loads(text_of(file.stem))
        nodes = obstructions.read(text).nodes
        wanted = []
        waiting = [obstructions.hand_of(task)]
        for node in nodes:
            hand = waiting.pop()
            wanted.append([[list(it) for it in tuples] for tuples in hand.allowed])
            if node.name == "case":
                waiting += reversed([*obstructions.cases(hand, node.numbers[0])])
            elif node.name != "balance":
                waiting.append(getattr(obstructions, node.name)(hand, node))
        found = window.script("const rules = rulesOf(arguments[0]), hands = handsOf(rules, nodesOf(arguments[1]));"
                              "return hands.map(it => rules.simplices.map(s => it.rules.allowed.get(keyOf(s))))", text_of(file.stem), text)
        yield f"the tasks at hand of {file.name}", unlike(found, wanted)
        if task["processes"] > 3:
            continue
        counts = window.script(
            "const rules = rulesOf(arguments[0]), hand = handsOf(rules, nodesOf(arguments[1])).find(it => it.node.name === 'balance'), weights = balanced(hand.rules, hand.node), found = [];"
            "for (const rounds of [0, 1, 2]) { const made = new Complex(hand.rules, rounds); if (made.executions.length > 5000) break; for (let turn = 0; turn < 5; turn++) {"
            "const values = Array.from({ length: made.classes.size }, () => hand.rules.values[Math.floor(Math.random() * hand.rules.values.length)]);"
            "const sum = [...countOf(made, weights, values).values()].reduce((a, b) => a + b, 0); found.push(((sum % weights.modulus) + weights.modulus) % weights.modulus); } }"
            "return [found, weights.sum, rules.simplices.flatMap(s => hand.rules.allowed.get(keyOf(s)).filter(t => weights.tuples.get(keyOf(s) + ':' + t.join()))).length]",
            text_of(file.stem), text)
        yield f"the count of {file.name} is the same for all values", unlike({*counts[0]}, {counts[1]}) or unlike(counts[2], 0)


def new_names(window):
    """What the values are called that splits and covers make."""
    for name, wanted in [("hourglass", [[3, "1′"]]), ("loop-torus-punctured", [[it + 7, f"{it} on sheet 1"] for it in range(7)])]:
        text = (common.ANSWERS / f"{name}.obstruction").read_text()
        found = window.script("return [...handsOf(rulesOf(arguments[0]), nodesOf(arguments[1])).pop().names]", text_of(name), text)
        yield f"names of new values of {name}", unlike(found, wanted)


def rules(window):
    """Maps as rules: as many as Python finds, with the same words."""
    for name, rounds in RULED:
        path = common.ROOT / f"examples/{name}.json" if (common.ROOT / f"examples/{name}.json").is_file() else common.task_file(name)
        text = path.read_text()
        found = wfcheck.solve(wfcheck.read(path), rounds)
        listed = ruled(found)
        wanted = [[", ".join(test.words for test in it.tests), it.outcome.words, it.points] for it in listed]
        made = window.script("return rulesOfMap(...arguments)", text, rounds, [*found.values.values()], {"values": {}, "inputs": {}})
        yield f"rules of {name} after {rounds}", unlike([[it["words"], it["outcome"], it["points"]] for it in made],
                                                        [[words if at + 1 < len(wanted) else "else" if at else "always", *rest] for at, (words, *rest) in enumerate(wanted)])


def refusals(window):
    """Task files that are refused: the line that the program answers, and words with the place."""
    found = collections.Counter()
    for data, wanted in task_texts.rows():
        # a browser keeps no number as it is written, and takes lone surrogates and the last of two keys: of these the program tells
        if len(data) > MOST_TEXT or LOOSE.search(data):
            continue
        text = data.decode(errors="replace")
        told = window.script("try { judgeFile(arguments[0]); return ''; } catch (error) { return error.line ?? String(error); }", text)
        if told != wanted:
            yield f"the refusal of {text[:80]!r}", unlike(told, wanted)
        else:
            found[wanted.split(" ")[0] or "accepted"] += 1
    yield f"refusals of texts: {dict(found)}", "" if len(found) >= 12 else f"there are only {len(found)} kinds"


def named(window):
    """Texts with names."""
    names = naming.names_of({0: "no", 1: "yes", 3: "late"}, {0: "left", 1: "right"})
    for name, rounds in [("majority-3", 1), ("consensus-2", 2), ("approximate-2-by-3", 1)]:
        text = text_of(name)
        with tempfile.NamedTemporaryFile("w", suffix=".json") as file:
            file.write(text)
            file.flush()
            told = asked(["explain", "--task", file.name], asked(["solve", "--rounds", rounds, "--workers", 1], text)) + asked(["points", "--rounds", rounds], text)
        given = {"values": {str(k): v for k, v in names.values}, "inputs": {str(k): v for k, v in names.inputs}}
        yield f"names in the argument of {name}", unlike(window.script("return named(...arguments)", told, given), naming.told(told, names))


def tests(window, folder):
    """All of them."""
    window.go(f"file://{page(folder)}")
    for part in (tasks, complexes, places, trees, new_names, rules, refusals, named):
        yield from part(window)
