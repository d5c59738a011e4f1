#!/usr/bin/env python3
"""Spells the repository's own definitions, fields and lemmas in snake case, as today's Rattle does.

usage: tools/spell.py        at the top of the repository, once, after port.py

`gridOf` becomes `grid_of`, `each-stops` becomes `each_stops`. Types, functions of src/, exported C
names, goals (which the toolchain names) and whatever is imported from a library keep their names.
It prints the names that would meet another one in some file, and those it leaves alone.
"""

import glob
import os
import re
import sys

WORD = r"[^\s(){}.;,@\"«»`]+"
DECLARED = re.compile(r"(?m)^ *(?:(?:pub|abbrev|unfoldable|record|ruleset|data) +)*"
                      rf"({WORD})(?: +(?:\(|\{{)[^:]*:[^()]*[)}}])*(?: +\([^)]*\))* *:")
USE = re.compile(r"\buse ([^\s;{]+)(\{[^;}]*\})?", re.M)
# Variables of definitions and lemmas that are in camel case.
VARIABLES = {"sqrtDt", "workAfter", "nonPositive", "spotError", "priceError", "sideBatch"}
QUIET = re.compile(r"--[^\n]*|//[^\n]*")
LIBRARY = re.compile(r"(?!Rattle\.)|Rattle\.(std|core|io|libc|os)\b")


def snake(name):
    words = re.sub(r"(?<=[a-z0-9])[A-Z]", lambda m: "_" + m[0].lower(), name)
    return words.replace("-", "_")


def wants(name):
    if not name[0].islower() or not name.isascii():
        return False
    return bool(re.search(r"[a-z0-9][A-Z]", name)) or bool(re.search(r"[a-z0-9]-[a-z0-9]", name))


def read(path):
    with open(path, encoding="utf-8") as f:
        return f.read()


def is_function_proof(path):
    return os.path.basename(path) in ("Proof.antt", "Answers.antt", "Invariants.antt")


def imported(text):
    """The words that a file takes from a library, and those it takes from the repository."""
    library, own = set(), set()
    for path, items in USE.findall(QUIET.sub("", text)):
        names = re.findall(WORD, items) if items else []
        (library if LIBRARY.match(path) else own).update(names)
    return library, own


def turned(text, table):
    return re.sub(WORD, lambda m: table.get(m[0], m[0]), text)


def main():
    antt = [p for p in glob.glob("crates/*/**/*.antt", recursive=True) if "/out/" not in p]
    rust = [p for p in glob.glob("crates/*/src/**/*.rt", recursive=True)]
    edits = sorted(glob.glob("crates/*/must-fail/*.edit"))
    documents = sorted(glob.glob("docs/**/*.md", recursive=True)) + ["README.md"]
    declared = set()
    for path in antt:
        if not is_function_proof(path):
            declared |= {n for n in DECLARED.findall(QUIET.sub("", read(path))) if wants(n)}
    declared |= VARIABLES
    table = {n: snake(n) for n in sorted(declared)}
    # A lemma or field that would have a definition's name gets `_lem`.
    taken = {n for o, n in table.items() if "-" not in o} | {"form_of", "pair_at"}
    table = {o: n + "_lem" if "-" in o and n in taken else n for o, n in table.items()}

    # A lemma of one file, whose name the definition lastStep takes.
    path = "crates/batch/proofs/Claim.antt"
    text = turned(read(path), {"last_step": "last_step_lem"})
    with open(path, "w", encoding="utf-8") as f:
        f.write(text)

    for path in antt + rust:
        text = read(path)
        code = QUIET.sub("", text)
        library, own = imported(text)
        here = {o: n for o, n in table.items() if o not in library or o in own}
        words = set(re.findall(WORD, code))
        for old, new in here.items():
            if old in words and new in words and not path.endswith(".rt"):
                print(f"meets: {path}: {old} and {new}")
        if path.endswith(".rt"):
            fields = set(re.findall(r"\b(\w+):(?!:)", code))
            for old, new in here.items():
                if old in own and new in fields:
                    print(f"hidden: {path}: {old} and a parameter or field {new}")
        after = turned(text, here)
        if after != text:
            with open(path, "w", encoding="utf-8") as f:
                f.write(after)
    # What port.py respelled stands in the edits and in the documents in the old spelling yet.
    now = {n for path in antt for n in re.findall(WORD, QUIET.sub("", read(path)))}
    for path in edits + documents:
        for old in re.findall(r"\b[a-z][a-z0-9]*(?:[A-Z][a-z0-9]*)+\b", read(path)):
            if snake(old) in now:
                table.setdefault(old, snake(old))
    for path in edits:
        lines = read(path).split("\n")
        lines = [turned(l, table) if l.startswith(("old:", "new:")) else l for l in lines]
        with open(path, "w", encoding="utf-8") as f:
            f.write("\n".join(lines))
    for path in documents:
        text = read(path)
        camel = {o: n for o, n in table.items() if "-" not in o}
        after = re.sub(r"`[^`\n]*`", lambda m: turned(m[0], camel), text)
        if after != text:
            with open(path, "w", encoding="utf-8") as f:
                f.write(after)
    seen = {}
    for old, new in table.items():
        seen.setdefault(new, []).append(old)
    for new, olds in seen.items():
        if len(olds) > 1:
            print(f"together: {' '.join(olds)} are all {new}")
    print(f"spell: {len(table)} names")
    return 0


if __name__ == "__main__":
    sys.exit(main())
