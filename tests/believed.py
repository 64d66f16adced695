#!/usr/bin/env python3
"""Lists the definitions that the contract of a run rests on: what one must read to know what is
proved about it.

usage: tests/believed.py [--names] [RUN]       with --names, each definition, too

RUN is a public function, by default `run_check`; of others, `run_explain` and `run_redact`. From the
names in its `ensures`, this follows the names in crates/*/specs, and prints for each file how many
definitions are reached and how many lines they have, without imports, comments and empty lines. Last
comes the sum. What the kit defines (lists, numbers, characters, JSON), and the types, traits and
constants of the code that definitions use, are not counted.
"""

import re
import sys
from pathlib import Path

sys.dont_write_bytecode = True
TOP = Path(__file__).resolve().parent.parent
sys.path.append(str(TOP / "scripts"))

from lsptools.base import outputs

USE = re.compile(r"(?:pub )?use ([\w.]+?)(?:\.\{(.*)\}| as (\w+))?$")
GHOST_USE = re.compile(r"^ghost use ([\w.]+)\.\{(.*)\};$", re.M)
HEAD = re.compile(r"(?:abbrev |record |data |pub )*([^\s:({]+)")
PART = re.compile(r"\s+(?:pub )?([\w-]+) :")
WORD = re.compile(r"[^\s(){}.,;]+")
QUALIFIED = re.compile(r"(\w+)\.([\w-]+)")


class Module:
    """A file of definitions: the lines of each, the definition that each name belongs to (that of a
    constructor or a field too), and the module that an imported name is from."""

    def __init__(self, path):
        self.path, self.lines, self.owners, self.imports = path, {}, {}, {}
        current = None
        for line in path.read_text().splitlines():
            if use := USE.match(line):
                self.add_import(*use.groups())
            elif line and not line[0].isspace() and not line.startswith("--"):
                current = self.lines.setdefault(HEAD.match(line)[1].replace("◌", ""), [])
                current.append(line)
            elif line.strip() and not line.strip().startswith("--"):
                current.append(line)
        for name, lines in self.lines.items():
            for part in [name, *(found[1] for found in map(PART.match, lines[1:]) if found)]:
                self.owners.setdefault(part, name)

    def add_import(self, module, names, alias):
        for name in (names or "").split(","):
            self.imports[name.strip().replace("◌", "")] = module
        if alias:
            self.imports[alias] = module

    def named(self, name):
        """What a definition names, each with the module that has it."""
        text = " ".join(self.lines[name])
        for word in set(WORD.findall(text)):
            yield (self.imports.get(word), word)
            yield (None, word)
        for alias, word in QUALIFIED.findall(text):
            yield (self.imports.get(alias), word)


def modules():
    """All files of definitions, by the name under which they are imported."""
    found = {}
    for path in sorted(TOP.glob("crates/*/specs/**/*.antt")):
        _, crate, *rest = path.relative_to(TOP).with_suffix("").parts
        found[".".join(["Rattle", crate, *rest])] = Module(path)
    return found


def cited(run, known):
    """The definitions that the contract of a public function names, each with its module."""
    for path in sorted(TOP.glob("crates/*/src/**/*.rt")):
        text = path.read_text()
        head = re.search(rf"^pub fn {run}\b.*?^(?=\{{)", text, re.S | re.M)
        if head and "ensures" in head[0]:
            words = set(WORD.findall(head[0].partition("ensures")[2]))
            names = ((place, it) for place, imported in GHOST_USE.findall(text) for it in imported.split(", "))
            named = ((origin(known, place, it), it) for place, it in names if it in words)
            return [(place, it) for place, it in named if place in known]
    sys.exit(f"tests/believed.py: no public function {run} with a contract")


def origin(known, place, word):
    """The module that defines a name which this one has or passes on."""
    while place in known and word not in known[place].owners and word in known[place].imports:
        place = known[place].imports[word]
    return place


def reached(run="run_check"):
    """The names of the definitions that are reached from the contract of a run, by file."""
    known, found = modules(), {}
    waiting = cited(run, known)
    while waiting:
        place, word = waiting.pop()
        module = known[place]
        name = module.owners[word]
        names = found.setdefault(module, [])
        if name in names:
            continue
        names.append(name)
        for other, named in module.named(name):
            other = origin(known, other or place, named)
            if other in known and named in known[other].owners:
                waiting.append((other, named))
    return found


def lines_of(item):
    """How many lines the definitions of a file have."""
    module, names = item
    return sum(len(module.lines[name]) for name in names)


def main(words):
    runs = [it for it in words if it != "--names"]
    if len(runs) > 1 or any(it.startswith("-") for it in runs):
        sys.exit(__doc__)
    found, total = reached(*runs), 0
    for module, names in sorted(found.items(), key=lambda it: it[0].path):
        lines = lines_of((module, names))
        total += lines
        print(f"{module.path.relative_to(TOP)}: {len(names)} definitions, {lines} lines")
        if "--names" in words:
            print("".join(f"  {name}\n" for name in module.lines if name in names), end="")
    print(f"{len(found)} files, {sum(map(len, found.values()))} definitions, {total} lines")
    return 0


if __name__ == "__main__":
    sys.exit(outputs.ended("tests/believed.py", main, sys.argv[1:]))
