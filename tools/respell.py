#!/usr/bin/env python3
"""Brings the repository's own definitions and lemmas to the spelling of the library: words in snake case.

usage: python3 tools/respell.py            at the top of the repository, once, after port.py
       python3 tools/respell.py --pages    the same names in README.md and docs/ (docs/PORT.md and patches aside)

A name in lower camel case becomes one in snake case (`wordsFor`, `words_for`), in crates/*/src, specs, proofs
and must-fail. Types, modules and constructors keep their capitals, functions of src/ their names, and strings
are not touched. A lemma that then has the name of the definition that it is about gets `_lem`.
"""

import os
import re
import sys

TOKEN = re.compile(r"(?<![\w'])[a-z][A-Za-z0-9_]*(?![A-Za-z0-9_])")
HUMP = re.compile(r"(?<=[a-z0-9])([A-Z])")
HEX = re.compile(r"x[0-9A-F]{2}$")
# Lemmas whose names the scripts had already turned, and that would now fall together with a definition.
LEMMAS = {"units_in": "units_in_lem", "known_as": "known_as_lem", "held_in": "held_in_lem", "left_by": "left_by_lem"}
FIRST = {"getD": "get_or"}


def snake(word):
    if HEX.match(word):
        return word
    if word in FIRST:
        return FIRST[word]
    return HUMP.sub(lambda m: "_" + m.group(1).lower(), word)


def turn(text, lemmas):
    def one(m):
        word = m.group(0)
        if lemmas and word in LEMMAS:
            return LEMMAS[word]
        return snake(word)

    return TOKEN.sub(one, text)


def outside_strings(line, lemmas):
    parts = re.split(r'(b?"(?:[^"\\]|\\.)*")', line)
    return "".join(p if i % 2 else turn(p, lemmas) for i, p in enumerate(parts))


def files(pages):
    if pages:
        yield "README.md"
        for f in sorted(os.listdir("docs")):
            if f.endswith(".md") and f != "PORT.md":
                yield os.path.join("docs", f)
        return
    for folder, dirs, names in os.walk("crates"):
        dirs[:] = sorted(d for d in dirs if d not in ("out", "data"))
        for f in sorted(names):
            if f.endswith((".rt", ".antt", ".edit")):
                yield os.path.join(folder, f)


def main():
    pages = "--pages" in sys.argv[1:]
    changed = 0
    for path in files(pages):
        with open(path, encoding="utf-8") as f:
            old = f.read()
        lemmas = "/proofs/" in path and path.endswith(".antt")
        if pages:
            new = re.sub(r"`[^`\n]*`", lambda m: turn(m.group(0), False), old)
        elif path.endswith(".antt"):
            new = turn(old, lemmas)
        else:
            new = "\n".join(outside_strings(line, False) for line in old.split("\n"))
        if new != old:
            with open(path, "w", encoding="utf-8") as f:
                f.write(new)
            changed += 1
    print(f"respell: {changed} files changed")


main()
