#!/usr/bin/env python3
"""Brings the repository's own names in specs/ and proofs/ to the spelling of Rattle's library.

usage: python3 tools/spell_names.py        at the top of the repository, once, after port.py

Functions, lemmas, fields and constructors get snake case: `zeroIfUnused` becomes `zero_if_unused`, and the lemma
`found-entry` becomes `found_entry`. A lemma that would get its function's name ends in `_lem`. Types, modules and names
of Rattle source keep their spelling. The names that change are found in the tree. A later run would take the names of goals,
which have dashes, for the repository's own, so it refuses a tree that has answers to goals.
"""

import collections
import glob
import re

TOKEN = re.compile(r"[^\s(){}\[\],;.λ:\"`]+")
DECLARED = re.compile(r"(\s*)(?:abbrev |unfoldable |pub |open |pattern )*([^\s(){}\[\],;.λ:\"`]+) :")
IMPORT = re.compile(r"(?:pub )?use ([^\s.{]+)\.([^\s.{]+)[^{]*\{(.*)\}")
CAMEL = re.compile(r"[a-z][A-Za-z0-9_'-]*$")


def is_camel(name):
    return bool(CAMEL.match(name)) and bool(re.search(r"[a-z0-9][A-Z]", name))


def snake(name):
    name = re.sub(r"(?<=[a-z0-9])([A-Z]+)", lambda m: "_" + m.group(1).lower(), name)
    return name.replace("-", "_")


def proof_files():
    return sorted(glob.glob("crates/*/specs/**/*.antt", recursive=True) + glob.glob("crates/*/proofs/**/*.antt", recursive=True))


def names():
    """What becomes of each name of specs/ and proofs/."""
    declared = collections.defaultdict(set)
    used = set()
    library = set()
    own = {path.split("/")[1] for path in glob.glob("crates/*/src")}
    for path in proof_files():
        with open(path) as file:
            for line in file:
                if line.lstrip().startswith("--"):
                    continue
                m = DECLARED.match(line)
                if m:
                    declared[m.group(2)].add((path, len(m.group(1))))
                used.update(TOKEN.findall(line))
                m = IMPORT.match(line)
                if m and not (m.group(1) == "Rattle" and m.group(2) in own):
                    library.update(TOKEN.findall(m.group(3)))
    camel = {n: snake(n) for n in used if is_camel(n)}
    functions = set(camel.values())
    change = {}
    # a lemma that is in snake case already, where a function in camel case gets its name
    for n, places in declared.items():
        if n in functions and n not in camel and any(indent == 0 for _, indent in places):
            change[n] = n + "_lem"
    change.update(camel)
    for n in declared:
        if CAMEL.match(n) and "-" in n and n not in camel:
            to = snake(n)
            change[n] = to + "_lem" if to in functions or to in used else to
    # the library's names are its own
    return {n: to for n, to in change.items() if n not in library}


def turned(line, change, dashes):
    """The line with each name changed; names with a dash only where dashes are part of a name."""
    def one(m):
        name = m.group(0)
        to = change.get(name)
        if to is None or (not dashes and "-" in name):
            return name
        # a path of Rattle's own, or a field that Rattle makes
        if name.islower() and "-" not in name and m.start() and line[m.start() - 1] == ".":
            return name
        return to
    return TOKEN.sub(one, line)


def rewrite(path, change, dashes):
    with open(path) as file:
        old = file.read()
    new = "".join(turned(line, change, dashes) for line in old.splitlines(keepends=True))
    if new != old:
        with open(path, "w") as file:
            file.write(new)


def main():
    if glob.glob("crates/*/proofs/**/Answers.antt", recursive=True):
        raise SystemExit("spell_names: this tree has answers to goals, whose names it would turn: it has run already")
    change = names()
    for path in proof_files():
        rewrite(path, change, True)
    clauses = {n: to for n, to in change.items() if is_camel(n)}
    for path in sorted(glob.glob("crates/*/src/**/*.rt", recursive=True) + glob.glob("crates/*/must-fail/*.edit")):
        rewrite(path, clauses, False)
    for n in sorted(change):
        print(n, change[n])


main()
