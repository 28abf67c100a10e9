"""What people do with the page, in a browser: each part is given a `Visit`, and yields names of what was tried with what is wrong, or nothing."""
import base64
import os
import pathlib
import subprocess
import tempfile
import time
import xml.etree.ElementTree
import zlib

import browser
import common
import known

# what the page may take for a question of the gallery, in seconds, and for all of them
EACH, ALL = 30, 120
READY = "document.getElementById('engine').textContent.includes('proved')"
IDLE = "document.getElementById('busy').hidden && !document.querySelector('#rules')?.textContent.startsWith('looking')"
ERRORS = "return [...document.querySelectorAll('.error')].filter(it => !it.hidden && it.offsetParent).map(it => it.textContent).join('\\n')"
# questions by a link, and the headline that answers each
QUESTIONS = [
    ("known=set-agreement-3-2&rounds=2", "set-agreement-3-2: never, by 1 balance modulo 2 (as in the gallery)"),
    ("known=hourglass&rounds=1", "hourglass: never, by 1 split, 1 balance modulo 2 (as in the gallery)"),
    ("known=loop-torus-punctured&rounds=1", "loop-torus-punctured: never, by 1 cover, 1 balance modulo 2 (as in the gallery)"),
    ("small=b-7e-7.d.e-2.3.1&rounds=2", "b-7e-7.d.e-2.3.1: from 2 (as in the atlas)"),
    ("known=no-minority-3&rounds=1", "no-minority-3: from 0 (as in the gallery)"),
    ("known=renaming-3-names-5&rounds=2", "renaming-3-names-5: from 2 (as in the gallery)"),
    ("known=consensus-4&rounds=2", "consensus-4: never, by 1 balance modulo 2 (as in the gallery)"),
    ("known=majority-3&rounds=1&seek=0", "majority-3: none up to 1 (the gallery: never)"),
    ("known=consensus-3-first-block-2&rounds=1", None),
    ("known=approximate-2-by-9&rounds=1", "approximate-2-by-9: none up to 1 (the gallery: from 2)"),
    ("known=consensus-2&rounds=8&seek=0", "consensus-2: none up to 8 (the gallery: never)"),
    ("known=consensus-4&rounds=4&seek=0", "consensus-4: none up to 3; 17 TooManyExecutions (the gallery: never)"),
    ("known=symmetry-breaking-3&rounds=1", "symmetry-breaking-3: never, by 1 balance modulo 3 (as in the gallery)"),
]
# predicates with a mistake: the text, the fields, the line and words of what is told
MISTAKES = [
    ("it throws", "function legal(start, end) {\n  return values(end).nothing.more;\n}", {}, 2, "TypeError"),
    ("it throws in a function of its own", "const more = it => it.x.y;\nfunction legal(start, end) {\n  return more(end);\n}", {}, 1, "TypeError"),
    ("it answers nothing", "\nfunction legal(start, end) {\n  values(end);\n}", {}, 2, "answers nothing"),
    ("it answers a number", "function legal(start, end) {\n  return 1;\n}", {}, 1, "answers the number 1"),
    ("it looks up who takes no part", "function legal(start, end) {\n  // together\n  return end[0] === end[1];\n}", {}, 3, "looks up process 1 where only 0 takes part"),
    ("it allows nothing", "function legal(start, end) {\n  return false;\n}", {}, 1, "allows nothing"),
    ("it can't be read", "function legal(start, end) {\n  return = 3;\n}", {}, 2, "SyntaxError"),
    ("it has no end of its text", "function legal(start, end) {\n  return true;\n", {}, 3, "SyntaxError"),
    ("there is none", "const x = 3;", {}, None, "There is no function legal"),
    ("inputs of too few", "function legal() { return true; }", {"inputs-own": "0"}, None, "has 1 of 2 values"),
    ("no values", "function legal() { return true; }", {"values": ""}, None, "Values: there is none"),
    ("values that are none", "function legal() { return true; }", {"values": "0, x"}, None, "is no number"),
    ("a value that is too large", "function legal() { return true; }", {"values": "0, 64"}, None, "above 63"),
    ("a name of no value", "function legal() { return true; }", {"names-values": "7=seven"}, None, "7 has a name"),
    ("two of one name", "function legal() { return true; }", {"names-values": "0=a, 1=a"}, None, "two have one name"),
    ("a name of a folder", "function legal() { return true; }", {"name": "../x"}, None, "without a folder"),
]
# texts of files, and the number and words of their refusals
REFUSED = [
    ("", "2 NotJson", "the file is empty"),
    ("wfcheck report 1\n", "2 NotJson", "a text that wfcheck wrote"),
    ('{"version": 1, "processes": 2}', "3 Shape symmetric 0", 'the key "symmetric" is missing'),
    ('{"version":1,"processes":1,"symmetric":false,"inputs":[[[0,0]]],"outputs":[[[0,0]]],"delta":[]}', "9 DeltaMissing 0", "has no entry for it"),
    ('{"version":1,"processes":1,"symmetric":false,"inputs":[[[0,0]]],"outputs":[[[0,0]]],"delta":[{"in":[[0,0]],"out":[[0,1]]}]}', "12 OutLength 0 0",
     "2 values for 1 processes"),
    ('{"version":1.0,"processes":1,"symmetric":false,"inputs":[[[0,0]]],"outputs":[[[0,0]]],"delta":[{"in":[[0,0]],"out":[[0]]}]}', "3 Shape version 0", ""),
]
# predicates that would reach something outside of their worker: each has to end in a mistake that has these words
HOSTILE = [
    ("a request", "await fetch('https://example.org/x')", "Refused|Failed|violates|fetch"),
    ("a socket", "new WebSocket('wss://example.org/'); await new Promise((_, no) => setTimeout(() => no(Error('later')), 400))", "Refused|violates|later|SecurityError|insecure"),
    ("another script", "importScripts('https://example.org/x.js')", "importScripts|Refused|NetworkError"),
    ("evaluation", "eval('1')", "EvalError|unsafe-eval|Evaluating"),
    ("the page", "document.title = 'x'", "document is not defined"),
    ("its window", "parent.document", "parent is not defined"),
]
MARKUP = "<img src=x onerror=\"document.title='reached'\">"


class Visit:
    """A page in a browser."""

    def __init__(self, window, url):
        self.window, self.url = window, url

    def open(self, fragment=""):
        """Opens the page with a fragment, and waits until the program is there and the question is answered."""
        self.window.go(self.url + ("#" + fragment if fragment else ""))
        self.window.until(READY, seconds=20)
        self.settle()

    def settle(self, seconds=EACH):
        """Waits until nothing runs and the page has something to show."""
        time.sleep(0.05)
        self.window.until(f"{IDLE} && document.getElementById('headline').textContent", seconds=seconds)

    def text(self, element):
        """The text of an element."""
        return self.window.script("return document.getElementById(arguments[0]).textContent", element)

    def errors(self):
        """What errors are told."""
        return self.window.script(ERRORS)

    def fill(self, **fields):
        """Writes texts into fields, as typing does."""
        for name, text in fields.items():
            self.window.script("const it = document.getElementById(arguments[0]); it.value = arguments[1]; it.dispatchEvent(new Event('input', { bubbles: true }));"
                               "it.dispatchEvent(new Event('change', { bubbles: true }))", name.replace("_", "-"), text)

    def ask(self):
        """Presses the button, and waits for the answer."""
        self.window.click("#ask")
        self.settle()


def unlike(found, wanted):
    return "" if found == wanted else f"{found!r}, and not {wanted!r}"


def lacks(text, *words):
    """What a text has not of what it has to have."""
    missing = [it for it in words if it not in text]
    return f"{text[:300]!r} has not {missing[0]!r}" if missing else ""


def questions(visit):
    """Each kind of answer, by a link; and the words beside the picture are there."""
    for fragment, wanted in QUESTIONS:
        visit.open(fragment)
        found = visit.text("headline")
        yield f"#{fragment}", unlike(found, wanted) if wanted else lacks(found, fragment.split("&")[0].split("=")[1] + ":")
        yield f"#{fragment}, words", "" if len(visit.text("words")) > 80 and not visit.text("words").startswith("null") else visit.text("words")
        shown = visit.window.script("return [...document.querySelectorAll('#picture .at')].every(it => it.getAttribute('aria-label'))")
        yield f"#{fragment}, the names of points", "" if shown else "some point has none"


def ways(visit):
    """The four ways to a question: the gallery, a small task, a predicate, and a file that is chosen, pasted or dropped."""
    visit.open()
    visit.fill(search="lattice four")
    yield "the gallery, searched", unlike(visit.window.script("return [...document.querySelectorAll('#list b')].map(it => it.textContent)"), ["lattice-agreement-4"])
    visit.window.click("#list label")
    visit.ask()
    yield "a task of the gallery, asked", lacks(visit.text("headline"), "lattice-agreement-4: ", "as in the gallery")
    visit.window.click("#tab-small")
    visit.window.click("[data-octa=t0]")
    yield "a tuple is clicked on", lacks(visit.window.script("return document.getElementById('code').value"), "b-7f-")
    visit.fill(code="b-7f-f.f.f-3.3.3")
    visit.ask()
    yield "a small task, asked", unlike(visit.text("headline"), "b-7f-f.f.f-3.3.3: from 0 (as in the atlas)")
    visit.fill(filter_answer="never", filter_by="case, 2 balances mod 2, 3")
    visit.window.until("document.getElementById('table-many').textContent.startsWith('1')", seconds=5)
    code = visit.window.script("return document.querySelector('#table-rows button').textContent")
    visit.window.script("document.querySelector('#table-rows button').click()")
    visit.settle()
    yield "a line of the atlas, asked again", unlike(visit.text("headline"), f"{code}: never, by 1 case, 2 balances modulo 2, 3 (as in the atlas)")
    visit.window.click("#random")
    yield "one at random", lacks(visit.window.script("return document.getElementById('code').value"), "b-")
    visit.window.click("#tab-own")
    for example, wanted in [("consensus", "mine: never"), ("vote", "vote-1: never"), ("approximate", "thirds: from 1"), ("agreement", "two-of-three: never"),
                            ("renaming", "renaming: from 2"), ("leader", "leader: never")]:
        visit.fill(example=example)
        visit.ask()
        yield f"the example {example}", lacks(visit.text("headline"), wanted)
    visit.window.click("#tab-file")
    with tempfile.TemporaryDirectory() as folder:
        file = pathlib.Path(folder) / "chosen.json"
        file.write_text((common.ROOT / "examples/path-3.json").read_text())
        visit.window.upload("#file", file)
        visit.window.until("document.getElementById('summary').textContent.startsWith('chosen')", seconds=5)
    visit.ask()
    yield "a file that is chosen", unlike(visit.text("headline"), "chosen: from 1")
    visit.fill(paste=(common.ROOT / "examples/path-3.json").read_text())
    visit.window.click("#take")
    visit.ask()
    yield "a text that is pasted", unlike(visit.text("headline"), "pasted: from 1")
    visit.window.script("const data = new DataTransfer(); data.items.add(new File([arguments[0]], 'dropped.json')); document.getElementById('answer').dispatchEvent("
                        "new DragEvent('drop', { dataTransfer: data, bubbles: true, cancelable: true }))", (common.ROOT / "examples/consensus-2.json").read_text())
    visit.window.until("document.getElementById('summary').textContent.startsWith('dropped')", seconds=5)
    visit.ask()
    yield "a file that is dropped", unlike(visit.text("headline"), "dropped: never, by 1 balance modulo 2")


def mistakes(visit):
    """Mistakes of predicates, each at its line, and refused files with the program's number."""
    visit.open()
    visit.window.click("#tab-own")
    for name, code, fields, line, words in MISTAKES:
        visit.fill(example="consensus")
        visit.fill(predicate=code, **{key.replace("-", "_"): text for key, text in fields.items()})
        visit.ask()
        told = visit.errors()
        marked = visit.window.script("return document.querySelector('#gutter .bad')?.textContent ?? null")
        yield f"a mistake: {name}", lacks(told, words, *[f"Line {line}: "] * (line is not None)) or unlike(marked, line and str(line))
    visit.window.click("#tab-file")
    for text, number, words in REFUSED:
        visit.fill(paste=text)
        visit.window.click("#take")
        visit.window.until("[...document.querySelectorAll('.error')].some(it => !it.hidden && it.textContent.includes('refuses'))", seconds=5)
        yield f"a refused file: {number}", lacks(visit.errors(), number, words)
        visit.fill(paste=(common.ROOT / "examples/path-3.json").read_text())
        visit.window.click("#take")
    visit.fill(code="x")
    yield "a code that is none", lacks(visit.window.script("return document.getElementById('error-small').textContent"), "is no code")


def stop(visit):
    """A search without an end, and a predicate without one, stop at once; and the page stays alive meanwhile."""
    visit.open()
    visit.fill(search="set-agreement-3-2-all")
    visit.window.click("#list label")
    visit.fill(rounds="2")
    visit.window.script("document.getElementById('seek').checked = false")
    visit.window.click("#ask")
    visit.window.until("document.getElementById('doing').textContent.includes('solve after 1') && /· \\d+ s/.test(document.getElementById('doing').textContent)", seconds=20)
    begun = time.monotonic()
    visit.window.click("#stop")
    visit.settle()
    yield "a search is stopped", "" if time.monotonic() - begun < 2 else f"it took {time.monotonic() - begun:.1f} s"
    yield "what is told of it", lacks(visit.errors(), "Stopped") or lacks(visit.text("headline"), "set-agreement-3-2-all: none up to 0")
    visit.fill(search="path")
    visit.fill(search="consensus-2")
    visit.window.click("#list label")
    visit.fill(rounds="1")
    visit.ask()
    yield "the next question after a stop", lacks(visit.text("headline"), "consensus-2: none up to 1")
    visit.window.click("#tab-own")
    for name, code in [("asked without an end", "function legal(start, end) { for (;;) {} }"), ("read without an end", "for (;;) {}\nfunction legal() { return true; }")]:
        visit.fill(predicate=code)
        visit.window.click("#ask")
        time.sleep(0.5)
        yield f"a predicate is {name}", lacks(visit.text("doing"), "asking the predicate")
        visit.window.click("#stop")
        visit.window.until("document.getElementById('busy').hidden", seconds=3)
    visit.fill(example="consensus")
    visit.window.script("document.getElementById('seek').checked = true")
    visit.ask()
    yield "a predicate after one without an end", lacks(visit.text("headline"), "mine: never")


def links(visit):
    """A link brings the same question; a predicate that comes with one waits until one asks."""
    visit.open()
    visit.window.click("#tab-own")
    visit.fill(example="vote", rounds="1")
    visit.ask()
    link = visit.window.script("return location.hash")
    visit.window.go(visit.url + link)
    visit.window.until("document.getElementById('meaning').textContent.includes('came with a link')", seconds=10)
    yield "a predicate of a link waits", unlike(visit.window.script("return [document.getElementById('name').value, document.getElementById('names-values').value, document.getElementById('rounds').value]"),
                                               ["vote-1", "0=no, 1=yes, 2=abstain", "1"])
    visit.ask()
    yield "and is asked", lacks(visit.text("headline"), "vote-1: never")
    visit.window.click("#tab-file")
    visit.fill(paste=(common.ROOT / "examples/path-3.json").read_text())
    visit.window.click("#take")
    visit.ask()
    link = visit.window.script("return location.hash")
    visit.open(link[1:])
    yield "a file in a link", unlike(visit.text("headline"), "pasted: from 1")
    bomb = zlib.compressobj(9, zlib.DEFLATED, -15)
    packed = base64.urlsafe_b64encode(bomb.compress(b" " * 40_000_000) + bomb.flush()).decode().rstrip("=")
    visit.window.go(visit.url + "#file=" + packed)
    visit.window.until("document.getElementById('error-answer').textContent.includes('longer than a task may be')", seconds=20)
    yield "a link that unpacks to 40 million bytes", unlike(visit.errors(), "This link can't be read: it is longer than a task may be")
    for name, fragment in [("no base64", "own=%%%"), ("no text", "file=AAAA&name=x"), ("no task", "known=nothing"), ("no code", "small=b-1"),
                           ("no object", "own=MzIyMjQGAA"), ("a fragment of markup", "known=" + MARKUP)]:
        visit.window.go(visit.url + "#" + fragment)
        visit.window.until(READY, seconds=10)
        visit.settle()
        yield f"a link with {name}", unlike(visit.window.script("return document.querySelectorAll('#answer img, #question img').length"), 0)


def hostile(visit):
    """Predicates of somebody else reach nothing, and names are never read as markup."""
    visit.open()
    visit.window.click("#tab-own")
    for name, code, words in HOSTILE:
        visit.fill(example="consensus")
        is_waiting = "await" in code
        visit.fill(predicate=f"let said = 'nothing';\nconst tried = (async () => {{ try {{ {code}; said = 'REACHED'; }} catch (error) {{ said = String(error); }} }})();\n"
                             + ("const from = performance.now();\n" if is_waiting else "") + "function legal(start, end) { throw new Error(said); }")
        if is_waiting:
            # the answer comes later than the first question, so the worker is told again
            visit.fill(predicate=f"self.tried = (async () => {{ try {{ {code}; return 'REACHED'; }} catch (error) {{ return String(error); }} }})();\n"
                                 "const real = self.postMessage.bind(self);\nself.postMessage = it => self.tried.then(said => real({ kind: 'mistake', text: said, line: 1 }));\n"
                                 "function legal(start, end) { return true; }")
        visit.ask()
        told = visit.errors()
        yield f"a predicate tries {name}", f"{told!r} says that it was reached" if "REACHED" in told else "" if any(it in told for it in words.split("|")) else f"{told!r} says nothing of it"
    yield "no request was sent", unlike([it for it in visit.window.requests() if it.startswith(("http", "ws"))], [])
    visit.window.logged()
    visit.fill(example="vote")
    visit.fill(names_values=f"0={MARKUP}, 1=yes, 2=abstain", name="x<b>y")
    visit.ask()
    visit.window.script("document.querySelector('[data-key=outputs]').click()")
    yield "names with markup", unlike(visit.window.script("return [document.querySelectorAll('#answer img, #question img, #answer b b').length, document.title === 'reached']"), [0, False])
    yield "and they are shown as text", lacks(visit.text("legend"), "<img src=x")
    visit.window.script("document.getElementById('chips').lastElementChild.click()")
    yield "also beside a picture", unlike(visit.window.script("return document.querySelectorAll('#answer img').length"), 0)
    forged = "self.onmessage = null;\npostMessage({ kind: 'made', text: '{\"version\": 1}' });\nfunction legal() { return true; }"
    visit.fill(example="consensus", predicate=forged)
    visit.ask()
    yield "a task that a predicate forges is judged", lacks(visit.errors(), "refused, 3 Shape processes 0")


def downloads(visit, folder):
    """Files that are saved: the task is read and the certificate accepted by the native checker, and the picture is well-formed."""
    for fragment, key, name, accepted in [
            ("known=set-agreement-3-2&rounds=1", "never", "set-agreement-3-2.obstruction", "accepted none at every number of rounds"),
            ("known=majority-3&rounds=1&seek=0", "1", "majority-3-r1.none.txt", "accepted none"), ("known=approximate-3-by-2&rounds=2", "1", "approximate-3-by-2-r1.map.txt", "accepted map"),
            ("known=hourglass&rounds=1", "never", "hourglass.obstruction", "accepted none at every number of rounds")]:
        visit.open(fragment)
        visit.window.script("document.querySelector(`[data-key=\"${arguments[0]}\"]`).click()", key)
        task = folder / (fragment.split("&")[0].split("=")[1] + ".json")
        for button, wanted in [("#get-task", task.name), ("#get-certificate", name), ("#get-svg", f"{task.stem}-{'r' if key.isdigit() else ''}{key}.svg")]:
            visit.window.click(button)
            end = time.monotonic() + 8
            while not (folder / wanted).is_file() and time.monotonic() < end:
                time.sleep(0.05)
            yield f"{wanted} is saved", "" if (folder / wanted).is_file() else f"{sorted(it.name for it in folder.iterdir())}"
        run = subprocess.run([common.program().with_name("wfverify"), "--task", task], input=(folder / name).read_text(), capture_output=True, text=True, check=False)
        yield f"{name} is accepted by wfverify", unlike(run.stdout.strip(), accepted)
        yield f"{task.name} has the gallery's bytes", unlike(task.read_text(), common.task_file(task.stem).read_text())
        root = xml.etree.ElementTree.fromstring((folder / f"{task.stem}-{'r' if key.isdigit() else ''}{key}.svg").read_text())
        yield f"the picture of {task.stem}", "" if root.tag.endswith("svg") and len([*root.iter()]) > 20 else "it has nothing in it"
    visit.window.click("#show-commands")
    lines = visit.text("commands").split("\n")
    with tempfile.TemporaryDirectory() as room:
        (pathlib.Path(room) / "gallery").symlink_to(common.ROOT / "gallery")
        run = subprocess.run(["sh", "-e", "-c", "\n".join(lines)], cwd=room, capture_output=True, text=True, env={"PATH": f"{common.program().parent}:/usr/bin:/bin"}, check=False)
    yield "the commands for a shell", lacks(run.stdout, "accepted none at every number of rounds") or unlike(run.stderr, "")


def keyboard(visit):
    """A question asked, an answer read, a point changed and a tab opened by keys alone."""
    visit.open()
    visit.window.script("document.getElementById('search').focus()")
    visit.window.press(*"loop-disc", "Enter", "Enter")
    visit.settle()
    yield "a task searched and asked", lacks(visit.text("headline"), "loop-disc: from 1")
    visit.window.press(["Shift", "Tab"], ["Shift", "Tab"], "Right")
    yield "another tab", unlike(visit.window.script("return document.activeElement.id"), "tab-small")
    visit.window.press("Tab", "Space")
    yield "a tuple turned", lacks(visit.window.script("return document.activeElement.dataset.octa ?? ''"), "t7")
    visit.open("known=set-agreement-3-2&rounds=1")
    visit.window.script("document.querySelector('#chips [aria-pressed=true]').focus()")
    count = visit.window.script("return document.querySelector('.sum').textContent")
    for _ in range(12):
        visit.window.press("Tab")
        if visit.window.script("return Boolean(document.activeElement.dataset?.v)"):
            break
    yield "Tab comes to the picture", lacks(visit.window.script("return document.activeElement.dataset.v ?? 'elsewhere'"), "0")
    before = visit.window.script("return document.activeElement.dataset.v")
    visit.window.press("Right")
    yield "an arrow goes to another point", "" if visit.window.script("return document.activeElement.dataset.v") != before else "it is the same"
    visit.window.press("Right", "Enter")
    label = visit.window.script("return document.activeElement.getAttribute('aria-label')")
    yield "a point is told", lacks(label, "v", "saw", "decides")
    after = visit.window.script("return document.querySelector('.sum').textContent")
    yield "the count stays", unlike(after.split("≡")[1], count.split("≡")[1])
    visit.window.press("+", "+")
    zoomed = visit.window.script("return document.querySelector('#picture svg').classList.contains('zoomed')")
    visit.window.press("0")
    yield "zoom by keys", "" if zoomed and not visit.window.script("return document.querySelector('#picture svg').classList.contains('zoomed')") else "it doesn't"
    visit.open("known=majority-3&rounds=1&seek=0")
    visit.window.script("document.querySelector('#words ol button').focus()")
    visit.window.press("Down", "Enter")
    yield "a step is chosen", unlike(visit.window.script("return [document.activeElement.getAttribute('aria-pressed'), document.querySelectorAll('#picture .lit').length > 0]"), ["true", True])


def gallery(visit):
    """All tasks of the gallery, with the answers of gallery/rows.tsv wherever no solver was needed."""
    rows = {}
    for it in known.rows():
        rows.setdefault(it.name, []).append(it)
    visit.open()
    begun = time.monotonic()
    for line in [it for it in known.lines() if it.rounds == known.EVERY]:
        # beyond a row that takes longer there is nothing to ask about here
        of_task = rows.get(line.task, [])
        long = [it.rounds for it in of_task if it.answer not in ("map", "none") or it.time not in ("< 1 s", "1 s", "2 s")]
        most = min(max((it.rounds for it in of_task), default=0), min(long, default=9) - 1)
        short = [it for it in of_task if it.rounds <= most]
        visit.window.script("document.getElementById('rounds').value = arguments[1]; document.querySelector(`#list input[value=\"${arguments[0]}\"]`).click();"
                            "document.getElementById('ask').click()", line.task, most)
        visit.settle()
        found = visit.text("headline").split(" (")[0].removeprefix(f"{line.task}: ")
        if line.tree:
            wrong = "" if found.startswith("never, by ") else f"{found!r}, and not never"
        else:
            maps, nones = ([it.rounds for it in short if it.answer == answer and it.rounds <= most] for answer in ("map", "none"))
            wanted = f"from {min(maps)}" if maps else f"none up to {max(nones)}" if nones else None
            wrong = unlike(found, wanted) if wanted else ""
        yield f"{line.task}, up to {most}", wrong or visit.errors()
    took, load = time.monotonic() - begun, os.getloadavg()[0] / os.cpu_count()
    # a machine with other work says nothing about the page
    yield f"all in {took:.0f} s", "" if took < ALL * max(1, load) else f"{ALL} s is the most"


def looks(visit):
    """At three sizes and in dark: no text below 14 px, contrast of at least 4.5, nothing beyond the edge, nothing under another thing."""
    script = pathlib.Path(__file__).with_name("page_looks.js").read_text()
    for size, dark in [((1280, 800), False), ((390, 844), False), ((1280, 800), True), ((390, 844), True)]:
        visit.window.size(*size)
        visit.window.dark(dark)
        for fragment in ["known=set-agreement-3-2&rounds=1", "known=majority-3&rounds=1&seek=0", "small=b-7e-7.d.e-2.3.1&rounds=2", "known=hourglass&rounds=1"]:
            visit.open(fragment)
            visit.window.script("for (const id of ['tab-own', 'tab-file', 'tab-small', 'tab-known']) { document.getElementById('panel-' + id.slice(4)).hidden = false; }")
            found = visit.window.script(script)
            yield f"#{fragment} at {size[0]} by {size[1]}{', dark' if dark else ''}", "; ".join(found)
    visit.window.size(1280, 800)
    visit.window.dark(False)


def old_browser(visit):
    """A browser without 64-bit memories gets one clear sentence."""
    visit.window.cdp("Page.addScriptToEvaluateOnNewDocument", source="WebAssembly.validate = () => false")
    visit.window.go(visit.url)
    visit.window.until("document.getElementById('engine').textContent.includes(\"can't run\")", seconds=10)
    yield "a browser without 64-bit memories", unlike(visit.errors(), "This browser has no WebAssembly with 64-bit memories, which the program needs: Chrome or Edge 133, or Firefox 134, or later.")


def firefox(url):
    """The page in Firefox: the program is there, and questions are answered."""
    with browser.Firefox() as window:
        visit = Visit(window, url)
        for fragment, wanted in [QUESTIONS[0], QUESTIONS[1], QUESTIONS[3]]:
            visit.open(fragment)
            yield f"Firefox, #{fragment}", unlike(visit.text("headline"), wanted)
        window.script("document.getElementById('tab-own').click(); document.getElementById('predicate').value = 'function legal(start, end) {\\n  return end[0] === end[1];\\n}';"
                      "document.getElementById('ask').click()")
        visit.settle()
        yield "Firefox, a mistake at its line", lacks(visit.errors(), "Line 2: The predicate looks up process 1")
