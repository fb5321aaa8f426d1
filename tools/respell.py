#!/usr/bin/env python3
"""Brings this repository's own words of specs/ and proofs/ to the spelling of the installed Rattle, once.

Run at the top of the repository after the toolchain's own script. A word or lemma with dashes gets underscores, a fact
or type with dashes gets capitals in place of them. Names that Rattle makes (goals, steps of a path, invariants) and
names of its library keep their spelling, and so do strings, functions of src/ and everything that a program reads or
prints. Names that come to equal another in a file where they stand are listed: read that list. (Those of today are words
of specs/ beside the function of src/ that computes them, and a fact beside its module; Rattle keeps the two apart.)

    tools/respell.py [--list] [--write]
"""
import collections
import glob
import re
import sys

SOURCES = (
    glob.glob("crates/*/specs/**/*.antt", recursive=True)
    + glob.glob("crates/*/proofs/**/*.antt", recursive=True)
    + glob.glob("crates/*/src/**/*.rt", recursive=True)
)
PAGES = ["README.md"] + glob.glob("docs/*.md")
CRATES = "values|conditions|kinds|rules|market|book|replay|house|trials|trigger"
WORD = re.compile(r"[^\s(){}\[\],;:.\"`]+")
DEFINED = re.compile(r"^(\s*)((?:abbrev |unfoldable |pub |data |record )*)([^\s(){}.,;:]+) (?::|[({][^:]* :)\s*(.*)")
IMPORTED = re.compile(r"use ([^\s{}]+)\.\{([^}]*)\}")
# Names of local variables, which no line defines.
LOCALS = ["New-is", "four-places", "keep-next", "rest-is", "book-read"]


def spelled(name):
    if name[0].isupper() and name not in LOCALS:
        return "".join(part[:1].upper() + part[1:] for part in name.split("-"))
    return name.replace("-", "_").lower() if name in LOCALS else name.replace("-", "_")


def gather():
    own, kept, library = set(LOCALS), set(), set()
    for path in SOURCES:
        text = open(path, encoding="utf-8").read()
        for line in text.split("\n"):
            found = DEFINED.match(line)
            if path.endswith(".antt") and found and not line.lstrip().startswith("--"):
                (kept if found.group(4).startswith("goal") else own).add(found.group(3))
        for module, names in IMPORTED.findall(text):
            for name in names.split(","):
                name = name.strip().split(" as ")[0]
                if ".Goals" in module or ".Given" in module:
                    kept.add(name)
                elif not re.match(rf"Rattle\.({CRATES})\.(specs|proofs)\.(?!declared)", module):
                    library.add(name)
    return own - kept, kept, library


def main():
    own, kept, library = gather()
    renamed = {name: spelled(name) for name in own if "-" in name[1:-1] and name not in library}
    used = collections.defaultdict(set)
    for path in SOURCES:
        for line in open(path, encoding="utf-8"):
            for found in WORD.finditer(line):
                used[found.group(0)].add(path)
    clashes = []
    for old, new in sorted(renamed.items()):
        together = used[old] & used[new]
        if together or new in own or new in library:
            clashes.append((old, new, sorted(together)[:3], new in own, new in library))
    backwards = collections.Counter(renamed.values())
    clashes += [(new, n) for new, n in backwards.items() if n > 1]
    for clash in clashes:
        print("falls together:", *clash)
    if "--list" in sys.argv:
        for old, new in sorted(renamed.items()):
            print(old, new)
    if "--write" not in sys.argv:
        return

    def word(found):
        return renamed.get(found.group(0), found.group(0))

    def code(text):
        return WORD.sub(word, text)

    def quoted(text):
        return re.sub(r"`[^`\n]*`", lambda found: code(found.group(0)), text)

    for path in SOURCES:
        lines = []
        for line in open(path, encoding="utf-8").read().split("\n"):
            mark = "--" if path.endswith(".antt") else "//"
            at = line.find(mark)
            if path.endswith(".rt") and '"' in line:
                lines.append(line)
            elif at >= 0:
                lines.append(code(line[:at]) + quoted(line[at:]))
            else:
                lines.append(code(line))
        open(path, "w", encoding="utf-8").write("\n".join(lines))
    for path in PAGES:
        text = open(path, encoding="utf-8").read()
        open(path, "w", encoding="utf-8").write(quoted(text))


main()
