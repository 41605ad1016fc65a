#!/usr/bin/env python3
"""Brings this repository's own definitions and lemmas to the spelling of today's Rattle: whole words joined by underscores.

usage: python3 tools/port_names.py [--look]     at the top, once, right after port.py (docs/PORT.md tells when that was)

A name is turned if a file of specs/, or a file that stands right in proofs/, declares it, and if it has a hyphen or a capital behind
a small letter. It is turned in every .antt file and in the ghost items and clauses of every .rt file, but in a file that imports that
very name from a library. In the files of one function's proof (proofs/F/) only names are turned that the file imports from this
repository, and fields. With --look nothing is written, and what would fall together is listed.
"""

import collections
import os
import re
import sys

NAME = r"[^\s(){}.;,@\"«»\[\]]+"
DECLARED = re.compile(rf"(?m)^\s*(?:\| )?(?:(?:pub|abbrev|unfoldable|opaque) )*({NAME})(?: \{{[^{{}}\n]*\}})* :(?=\s)")
USE = re.compile(r"(?m)^\s*(?:ghost )?use ([^\s;{]+?)(?:\.?\{([^}]*)\})?(?: as (\S+?))?;?$")
TOKEN = re.compile(rf"(?<![^\s(){{}}.;,@\[\]]){NAME}")
OLD = re.compile(r"[a-z][^A-Z]*-|[a-z0-9]+[A-Z]|[a-z].*[-a-z0-9][A-Z]")


def snake(name):
    name = re.sub(r"(?<=[a-z0-9])([A-Z])", lambda m: "_" + m[1].lower(), name)
    name = re.sub(r"-([A-Z])", lambda m: "_" + m[1].lower(), name)
    return name.replace("-", "_")


def files():
    for folder, dirs, names in os.walk("crates"):
        dirs[:] = sorted(d for d in dirs if d != "out")
        for name in sorted(names):
            if name.endswith((".antt", ".rt")):
                yield os.path.join(folder, name)


def of_function(path):
    """Is it a file of one function's proof?"""
    return re.match(r"crates/\w+/proofs/.+/", path) is not None


def read(path):
    with open(path, encoding="utf-8") as f:
        return f.read()


def main():
    texts = {p: read(p) for p in files()}
    own = {d for d in os.listdir("crates")}
    declared = collections.defaultdict(set)
    for p, t in texts.items():
        if p.endswith(".antt") and not of_function(p):
            for m in DECLARED.finditer(t):
                declared[m[1]].add(p)
    table = {n: snake(n) for n in declared if OLD.match(n) and not n[0].isupper()}
    table = {a: b for a, b in table.items() if a != b}

    def is_own(path):
        steps = path.split(".")
        return steps[0] in ("Rattle", "package") and len(steps) > 1 and steps[1] in own

    # what would fall together in a file of definitions or lemmas: the definition keeps the plain name, the other one says that it holds
    back = collections.defaultdict(set)
    for a, b in table.items():
        back[b].add(a)
    tokens = {p: set(TOKEN.findall(t)) for p, t in texts.items() if p.endswith(".antt") and not of_function(p)}
    for b, names in sorted(back.items()):
        names = names | ({b} if b in declared else set())
        if len(names) == 1 or not any(len(names & it) > 1 for it in tokens.values()):
            continue

        def rank(n):
            in_specs = any("/specs/" in p for p in declared[n])
            return (not in_specs, "-" in n, n == b, n)

        first, *others = sorted(names, key=rank)
        for n in others:
            table[n] = b + "_holds"
        print("look: fall together:", b, "is", first, "and", b + "_holds", "is", *others)
    for p, it in tokens.items():
        for n in sorted(it & set(table)):
            if table[n] in it and table[n] not in back:
                print("look: in one file:", p, n, table[n])

    changed = 0
    for p, t in texts.items():
        library, mine = set(), set()
        for m in USE.finditer(t):
            items = {i.strip().split(" as ")[0] for i in (m[2] or "").split(",") if i.strip()}
            (mine if is_own(m[1]) else library).update(items)
        def turn(m):
            n = m[0]
            if n not in table or n in library:
                return n
            if p.endswith(".rt") and "-" not in n and not re.search("[A-Z]", n):
                return n
            if of_function(p) and n not in mine and t[m.start() - 1 : m.start()] != ".":
                return n
            return table[n]

        # a use of a file of one function's proof names what that file declares, which stays
        new = TOKEN.sub(turn, t)
        if new != t:
            changed += 1
            if "--look" not in sys.argv:
                with open(p, "w", encoding="utf-8") as f:
                    f.write(new)
    print(f"{len(table)} names, {changed} files")


if __name__ == "__main__":
    main()
