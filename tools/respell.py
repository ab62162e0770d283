#!/usr/bin/env python3
"""Respells this repository's own definitions and lemmas: words in snake case, facts and types in camel case.

usage: python3 tools/respell.py      (at the top of the repository, once, after the kit's own port.py)

A name is one that a file of specs/ or proofs/ declares, and not a goal of a function. It is turned wherever it stands
as a whole word: in the .antt files, in the clauses and ghost items of the .rt files, in must-fail edits, and between
backticks in README.md and docs/. A file that takes the same word from a library keeps it there.
"""
import collections
import os
import re

WORD = re.compile(r"[^\s(){}\[\];:,.λ`\"]+")
NAME = r"[^\s(){}\[\];:,.λ`\"]+"
DECLARED = re.compile(rf"^ *(?:abbrev |unfoldable |pub )*({NAME}(?: {NAME})*) ?:(?![=:])\s*(.*)")
FORMED = re.compile(rf"^ *(?:pub )?(?:record|data) ({NAME})")
LIBRARY = re.compile(r"use (?:Rattle\.std|Rattle\.core|borrow|denote|Prim|mathlib|antt|native|lib)[^{\n]*\{([^}]*)\}")
# facts that did not begin with a capital
FACTS = {"is-edited": "IsEdited", "is-taken": "IsTaken", "is_none": "IsNoFault", "Is-some": "IsSomeId", "Goes_on": "GoesOn"}


def files(top, *endings):
    for folder, dirs, names in os.walk(top):
        dirs[:] = sorted(d for d in dirs if d not in ("out", "target", ".git"))
        for name in sorted(names):
            if name.endswith(endings):
                yield os.path.join(folder, name)


def read(path):
    with open(path, encoding="utf-8") as f:
        return f.read()


def respelled(name):
    if name in FACTS:
        return FACTS[name]
    parts = name.split("-")
    if name[0].isupper():
        return parts[0] + "".join(p[:1].upper() + p[1:] for p in parts[1:])
    return "_".join(parts)


def declared(path):
    names = set()
    for line in read(path).split("\n"):
        if line.lstrip().startswith(("--", "let ", "in ", "use ")):
            continue
        m = FORMED.match(line)
        if m:
            names.add(m[1])
            continue
        m = DECLARED.match(line)
        if m and not m[2].startswith("goal."):
            names.update(m[1].split())
    return {n for n in names if n in FACTS or ("-" in n and re.search("[A-Za-z]", n))}


def main():
    every = list(files("crates", ".antt"))
    names = set().union(*map(declared, every))
    turned = {n: respelled(n) for n in names}
    falls = collections.Counter(turned.values())
    for n in sorted(n for n in names if falls[turned[n]] > 1):
        print(f"falls together: {n} -> {turned[n]}")
    for path in every + list(files("crates", ".rt", ".edit")) + ["README.md"] + list(files("docs", ".md")):
        text = read(path)
        keep = {w.strip() for m in LIBRARY.finditer(text) for w in m[1].split(",")}
        words = set(WORD.findall(text))
        here = {n: t for n, t in turned.items() if n in words and n not in keep}
        if not path.endswith(".antt"):
            here.pop("is_none", None)  # a method of the code
        for n, t in sorted(here.items()):
            if t in words:
                print(f"look: {path}: {t} stood there beside {n}")
        def turn(m):
            return here.get(m[0], m[0])
        if path.endswith(".md"):
            new = re.sub(r"`[^`\n]*`", lambda m: WORD.sub(turn, m[0]), text)
        elif path.endswith((".rt", ".edit")):
            new = re.sub(r"\"(?:[^\"\\]|\\.)*\"|" + WORD.pattern, lambda m: m[0] if m[0].startswith('"') else turn(m), text)
        else:
            new = WORD.sub(turn, text)
        if new != text:
            with open(path, "w", encoding="utf-8") as f:
                f.write(new)


if __name__ == "__main__":
    main()
