#!/usr/bin/env python3
"""Functions and types of crates/*/src that say the same up to names, types and numbers: candidates for twins.

tools/twins.py [ROOT]    a line for each group of two and more: its size in words, and where each stands
"""
import glob
import os
import re
import sys

root = sys.argv[1] if len(sys.argv) > 1 else os.path.join(os.path.dirname(os.path.abspath(__file__)), "..")
WORDS = set("fn pub if else match while for in return let mut struct enum impl as true false self loop".split())
groups = {}
for path in sorted(glob.glob(os.path.join(root, "crates/*/src/*.rt"))):
    if "/sumbilak_c/" in path:
        continue
    text = open(path).read()
    for m in re.finditer(r"^( *)(?:pub(?:\(crate\))? )?(?:fn|struct|enum) (\w+)", text, re.M):
        end = text.find("\n" + m.group(1) + "}", m.end())
        lines = text[m.start():end].split("\n")
        clause, kept = False, []
        for line in lines:
            bare = line.strip()
            if bare.startswith("//"):
                continue
            if bare.startswith(("requires", "ensures", "ghost ")):
                clause = True
            if clause and bare == "{":
                clause = False
            if not clause:
                kept.append(bare)
        tokens = re.findall(r"[A-Za-z_]\w*|\d[\w_]*|[^\s\w]", " ".join(kept))
        skeleton = tuple(t if t in WORDS else "N" if t[0].isdigit() else "I" if re.match(r"\w", t) else t for t in tokens)
        if len(skeleton) >= 24:
            where = os.path.relpath(path, os.path.join(root, "crates")).replace("/src/", "::").replace(".rt", "")
            groups.setdefault(skeleton, []).append(f"{where}::{m.group(2)}")
found = sorted((g for g in groups.items() if len(g[1]) > 1), key=lambda g: -len(g[0]))
for skeleton, places in found:
    print(len(skeleton), ", ".join(places))
print(f"{len(found)} groups, {sum(len(p) for _, p in found)} places")
