#!/usr/bin/env python3
"""The definitions on which some definitions rest, which a reader has to believe to believe these.

    checks/believed.py wf_run_solve Headline AnswersAreTrue      how many definitions and lines, crate by crate
    checks/believed.py --list wf_run_solve Texts Solves          their names too

It goes through specs/*.antt by the names that each definition uses, as the imports of its file say whose they are. What the
compiler writes for types of the code (`specs.declared`) and what the kit has is counted apart, by names.
"""
import collections
import re
import sys

import common

ROOT = common.ROOT
HEAD = re.compile(r"^(?:abbrev |unfoldable )?(?:pub )?(?:record |data )?([^\s:({]+)(?=[\s:({])")
USE = re.compile(r"^use Rattle\.([\w.]+?)(?:\.\{([^}]*)\}| as (\S+))?$")
WORD = re.compile(r"[^\s(){}.,;λ→×⊎]+|(?<=\.)[^\s(){}.,;]+")


class Module:
    """A file of definitions: the text of each, and whose the names are that it imports."""

    def __init__(self, file):
        self.texts, self.names, self.others = collections.OrderedDict(), {}, {}
        name = None
        for line in file.read_text().split("\n"):
            use = USE.match(line)
            if use:
                self.read_use(*use.groups())
            elif line and not line[0].isspace() and not line.startswith(("--", "module ", "use ", "pub mod", "mod ")):
                found = HEAD.match(line)
                name = found[1] if found else name
                self.texts.setdefault(name, []).append(line)
            elif name and line.strip() and not line.startswith("--"):
                self.texts[name].append(line)

    def read_use(self, path, listed, other):
        if other:
            self.others[other] = path
        for each in (listed or "").split(","):
            old, _, new = each.strip().partition(" as ")
            self.names[new or old] = (path, old)


def modules():
    """Each file of definitions, by the name under which it is imported."""
    files = [it.relative_to(ROOT / "crates") for it in sorted(ROOT.glob("crates/*/specs/**/*.antt")) if it.stem != "Lib"]
    return {".".join(it.with_suffix("").parts): Module(ROOT / "crates" / it) for it in files}


def closure(known, start):
    """The definitions reached, each as its module and name; and the names of the kit and of the code's types."""
    reached, outside, left = set(), set(), list(start)
    while left:
        path, name = left.pop()
        module = known.get(path)
        if module is None or name not in module.texts:
            outside.add((path, name))
            continue
        if (path, name) in reached:
            continue
        reached.add((path, name))
        for word in set(WORD.findall("\n".join(module.texts[name]))):
            if word in module.names:
                left.append(module.names[word])
            elif word in module.texts and word != name:
                left.append((path, word))
        for other, whole in module.others.items():
            left += [(whole, it) for it in re.findall(rf"\b{re.escape(other)}\.(\w+)", "\n".join(module.texts[name]))]
    return reached, outside


def main():
    script = common.Script(__doc__)
    script.add_argument("crate", metavar="CRATE")
    script.add_argument("module", metavar="MODULE")
    script.add_argument("names", nargs="+", metavar="NAME")
    script.add_argument("--list", action="store_true", help="says the names of the definitions too")
    asked = script.asked()
    known = modules()
    path = f"{asked.crate}.specs.{asked.module}"
    missing = [it for it in asked.names if path not in known or it not in known[path].texts]
    if missing:
        script.error(f"{path} has no {missing[0]}")
    reached, outside = closure(known, [(path, it) for it in asked.names])
    crates = collections.Counter()
    lines = collections.Counter()
    for module, name in sorted(reached):
        crate = module.split(".")[0]
        crates[crate] += 1
        lines[crate] += len(known[module].texts[name])
        if asked.list:
            print(f"{module}.{name}: {len(known[module].texts[name])} lines")
    for crate, many in crates.most_common():
        print(f"{crate}: {many} definitions, {lines[crate]} lines")
    types = {it for it in outside if ".declared" in it[0]}
    print(f"in all {sum(crates.values())} definitions, {sum(lines.values())} lines; beside them {len(types)} names of the code's types, "
          f"and {len(outside - types)} of the kit's definitions")


if __name__ == "__main__":
    main()
