"""Modules of page/ as one script, for a page that is one file.

A module has lines `import { name, .. } from "./file.js";` or `import "./file.js";` at its head, and `export` before a declaration of one name.
Each becomes a function that is called once, in an order in which no module comes before one that it imports."""
import pathlib
import re

import layout

IMPORT = re.compile(r'^import (?:\{([^}]*)\} from )?"\./([\w.-]+)";\n', re.M)
EXPORT = re.compile(r"^export (?=(?:async )?(?:const|class|function)\*? (\w+))", re.M)


def ordered(folder, name, found, above=()):
    """Puts the text of a module behind those of the modules that it imports, each once."""
    if name in above:
        raise layout.Mistake(f"page/{name} imports itself by way of {' and '.join(above[above.index(name) + 1:]) or 'itself'}")
    if name not in found:
        try:
            text = (folder / name).read_text()
        except OSError as error:
            raise layout.Mistake(f"page/{name} can't be read: {error.strerror}, and {above[-1] if above else 'the page'} needs it") from error
        for _, other in IMPORT.findall(text):
            ordered(folder, other, found, (*above, name))
        found[name] = text


def variable(name):
    """What the exports of a module are called."""
    return "$" + re.sub(r"\W", "_", name.removesuffix(".js"))


def module(name, text, exported):
    """A module as a function that is called once."""
    heads = []
    for wanted, other in IMPORT.findall(text):
        names = [it.strip() for it in wanted.split(",") if it.strip()]
        missing = sorted({*names} - exported[other])
        if missing:
            raise layout.Mistake(f"page/{name} imports {', '.join(missing)}, and page/{other} doesn't export that")
        heads += [f"const {{ {', '.join(names)} }} = {variable(other)};\n"] if names else []
    body = EXPORT.sub("", IMPORT.sub("", text)).strip("\n")
    if re.search(r"^(import|export)\b", body, re.M):
        raise layout.Mistake(f"page/{name} imports or exports in a way that packaging/bundle.py doesn't know")
    returned = ", ".join(sorted(exported[name]))
    return f"const {variable(name)} = (() => {{\n{''.join(heads)}{body}\nreturn {{ {returned} }};\n}})();\n"


def bundle(folder, name):
    """The text of a module with all that it imports, in strict mode."""
    found = {}
    ordered(pathlib.Path(folder), name, found)
    exported = {it: {*EXPORT.findall(text)} for it, text in found.items()}
    return '"use strict";\n' + "".join(module(it, text, exported) for it, text in found.items())
