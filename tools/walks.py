#!/usr/bin/env python3
"""Turns proofs/F/Proof.antt of the older form, a list of answers under the older names, into Invariants.antt and Answers.antt.

usage: python3 tools/walks.py NAMES CRATE..     at the top of the repository

NAMES is a folder with CRATE/names.json for each crate, as `rattle check --generated NAMES/CRATE --old-names` writes it.
Answers that are `search rules` alone go: the check finds them. What cannot be turned from the text is named in a line 'by hand:'.
"""

import json
import os
import re
import sys

NAME = r"[^\s(){}\[\],.:;=λ→×|]+"
PATH = re.compile(r"(?<![\w'.\-₀-₉])([A-Za-z_][\w'\-₀-₉]*)((?:\.[A-Za-z0-9_][\w'\-₀-₉]*)+|(?![\w'\-.₀-₉]))")


def norm(word):
    return re.sub(r"_lem$", "", word.replace("-", "_").lower())


def clauses_of(root):
    """The names of the ensures of each function, by crate::module::function."""
    found = {}
    for folder, dirs, files in os.walk(os.path.join(root, "crates")):
        dirs[:] = [d for d in dirs if d != "out"]
        if os.path.basename(folder) != "src":
            continue
        crate = os.path.basename(os.path.dirname(folder))
        for f in files:
            if not f.endswith(".rt"):
                continue
            mod = "" if f in ("lib.rt", "main.rt") else f[:-3] + "::"
            text = open(os.path.join(folder, f), encoding="utf-8").read()
            for m in re.finditer(r"\bfn (\w+)[^\n]*?(?:\n(?!    (?:requires|ensures)|\{)[^\n]*)*((?:\n    (?:requires|ensures)[^\n]*(?:\n        [^\n]*)*)*)\n\{", text):
                names = re.findall(r"\n    ensures(?: (\w+))? \{", m.group(2))
                found[f"{crate}::{mod}{m.group(1)}"] = names
                found.setdefault(f"{crate}::*::{m.group(1)}", names)
    return found


class Walk:
    def __init__(self, names, key, clauses):
        self.n = names[key]
        self.clauses = clauses
        self.place = {p[0]: (i, p) for i, p in enumerate(self.n["places"])}
        self.hand = []

    def chain(self, place):
        while place is not None:
            i, p = self.place[place]
            yield i, p
            place = p[1]

    def requires(self, rest):
        pre = self.n["pre"]
        if not pre:
            return "c.requires" + "".join("." + r for r in rest)
        fields = pre["fields"]
        i = 0
        rest = list(rest)
        while i < len(fields) - 1:
            if rest and rest[0] == "1":
                rest.pop(0)
                i += 1
            elif rest and rest[0] == "0":
                rest.pop(0)
                return "c.requires." + fields[i] + "".join("." + r for r in rest)
            else:
                self.hand.append("requires as a whole")
                return "c.requires" + "".join("." + r for r in rest)
        return "c.requires." + fields[i] + "".join("." + r for r in rest)

    def nested(self, names, rest):
        """A path into nested pairs, as a path into the record of the clauses."""
        if len(names) < 2 or not all(names):
            return "".join("." + r for r in rest)
        rest = list(rest)
        for i, name in enumerate(names):
            last = i == len(names) - 1
            if last or (rest and rest[0] == "0"):
                if not last:
                    rest.pop(0)
                return "." + name + "".join("." + r for r in rest)
            if rest and rest[0] == "1":
                rest.pop(0)
            elif rest and rest[0] == names[i]:
                return "".join("." + r for r in rest)
            else:
                return "".join("." + r for r in rest)
        return ""

    def path(self, place, segs):
        """c.SEGS at the goal's place, with no `before`."""
        while segs and segs[0] == "before":
            segs = segs[1:]
        if not segs:
            return "c"
        head, rest = segs[0], segs[1:]
        if head in ("args", "ranges", "lifetimes", "type_size"):
            return f"c.{head}" + "".join("." + r for r in rest)
        if head in ("requires", "pre"):
            return self.requires(rest)
        for i, p in self.chain(place):
            arm = self.n["arms"][i]
            if arm:
                for field, old, path in arm[2]:
                    if norm(old) == norm(head) and path and rest[: len(path)] == path and not field.endswith("-own"):
                        return f"c.{arm[0]}.{field}" + "".join("." + r for r in rest[len(path) :])
            if p[2][0] and norm(p[2][0]) == norm(head):
                at = self.place[place][0]
                if rest[:1] == ["given"]:
                    for var, old in self.n["typed"][at]:
                        if norm(old) == norm(head):
                            return f"c.type_inv.{var}" + "".join("." + r for r in rest[1:])
                if rest[:1] == ["ensures"] and p[3]:
                    names = self.clauses.get(p[3])
                    if names is None:
                        parts = p[3].split("::")
                        names = self.clauses.get(f"{parts[0]}::*::{parts[-1]}", [])
                    return f"c.{p[2][1]}.ensures" + self.nested(names, rest[1:])
                if rest[:1] == ["branch"]:
                    rest = ["branch-raw", *rest[1:]]
                return f"c.{p[2][1]}" + "".join("." + r for r in rest)
        self.hand.append("no step " + head)
        return "c." + head + "".join("." + r for r in rest)

    def rewrite(self, place, body):
        aliases = {"c"}
        self.aliases = aliases
        # a `let` that only names a place
        def drop(m):
            name, path = m.group(2), m.group(3)
            segs = path.split(".")
            if segs[0] in aliases and all(s == "before" for s in segs[1:]):
                aliases.add(name)
                return ""
            return m.group(0)

        body = re.sub(r"([ ]*)let (" + NAME + r") = ([A-Za-z_][\w'\-.]*) in(?:\n|[ ]?)", drop, body)

        lhs = body.find(" =")

        def one(m):
            if m.group(1) not in aliases:
                return m.group(0)
            segs = [s for s in m.group(2).split(".") if s]
            if m.group(1) == "c" and not segs:
                if m.start() > lhs:
                    self.hand.append("c itself")
                return "c"
            if not segs:
                self.hand.append("a place as an argument: " + m.group(1))
            return self.path(place, segs)

        body = PATH.sub(one, body)
        body = re.sub(r"^(\S.*? =)[ ]*\n[ ]*(\S[^\n]*)$", lambda m: m.group(1) + " " + m.group(2) if len(m.group(1) + m.group(2)) < 100 and body.count("\n") < 2 else m.group(0), body)
        return body


def split_tuple(text):
    """The parts of '(a, b, ..)', or None."""
    text = text.strip()
    if not (text.startswith("(") and text.endswith(")")):
        return None
    parts, depth, at = [], 0, 1
    i = 0
    while i < len(text):
        ch = text[i]
        if ch in "([{":
            depth += 1
        elif ch in ")]}":
            depth -= 1
            if depth == 0 and i != len(text) - 1:
                return None
        elif ch == "," and depth == 1:
            parts.append(text[at:i].strip())
            at = i + 1
        i += 1
    last = text[at:-1].strip()
    if last:
        parts.append(last)
    return parts if len(parts) > 1 else None


def as_record(body, fields):
    """The answer's last tuple, as a record of the clauses."""
    head, eq, rest = body.partition(" =")
    # past the lets
    at = 0
    for m in re.finditer(r"(?<![\w'\-])in(?=[\s(])", rest):
        # an `in` outside every bracket
        before = rest[: m.start()]
        if all(before.count(o) == before.count(c) for o, c in ("()", "[]", "{}")):
            at = m.end()
    lets, last = rest[:at], rest[at:]
    parts = []
    text = last
    for k in range(len(fields) - 1):
        pieces = split_tuple(text)
        if pieces is None:
            whole = text.strip()
            if k or re.match(r"(search|omega|cc|rw|simp|grind)\b", whole) or "\n" in whole:
                return None
            ends = [".0", ".1"] if len(fields) == 2 else [".0", ".1.0", ".1.1"] if len(fields) == 3 else None
            if ends is None:
                return None
            return made(head, lets, fields, [f"({whole}){e}" for e in ends])
        if len(pieces) == len(fields) - k:
            parts += pieces
            text = None
            break
        if len(pieces) == 2:
            parts.append(pieces[0])
            text = pieces[1]
        else:
            return None
    if text is not None:
        parts.append(text)
    if len(parts) != len(fields):
        return None
    return made(head, lets, fields, parts)


def made(head, lets, fields, parts):
    inner = "\n".join(f"      {f} = {p};" for f, p in zip(fields, parts))
    return f"{head} ={lets}{' ' if not lets else ' '}record {{\n{inner}\n    }}"


def used(uses, text):
    out = []
    for line in uses:
        m = re.match(r"use ([^{]*)\.\{(.*)\}$", line)
        if not m:
            last = line.split(" as ")[-1].split(".")[-1].strip()
            if re.search(r"(?<![\w'\-])" + re.escape(last) + r"(?![\w'\-])", text):
                out.append(line)
            continue
        keep = []
        for item in m.group(2).split(", "):
            word = item.split(" as ")[-1].strip()
            if "◌" in word:
                core = [w for w in word.split("◌") if w]
                ok = all(c in text for c in core)
            else:
                ok = re.search(r"(?<![\w'\-])" + re.escape(word) + r"(?![\w'\-])", text)
            if ok:
                keep.append(item)
        if keep:
            out.append(f"use {m.group(1)}.{{{', '.join(keep)}}}")
    return out


def blocks(text):
    """(comment, declaration) of each top-level declaration past the use lines."""
    comment, lines, out, uses, head = [], [], [], [], []
    started = False
    for line in text.split("\n"):
        if line.startswith("use "):
            started = True
            uses.append(line)
            continue
        if not started:
            head.append(line)
            continue
        if line.startswith("--"):
            if lines:
                out.append((comment, "\n".join(lines).rstrip()))
                comment, lines = [], []
            comment.append(line)
        elif not line.strip():
            if lines:
                out.append((comment, "\n".join(lines).rstrip()))
                comment, lines = [], []
        else:
            lines.append(line)
    if lines:
        out.append((comment, "\n".join(lines).rstrip()))
    return head, uses, out


def turn(root, names, crate, folder, clauses):
    path = os.path.join(folder, "Proof.antt")
    text = open(path, encoding="utf-8").read()
    where = os.path.relpath(folder, os.path.join(root, "crates", crate, "proofs")).replace(os.sep, ".")
    key = f"Rattle-{crate}-proofs.{where}.Lts"
    if key not in names or "tie.spec" not in text:
        return f"by hand: {crate} {where}: {'no names' if key not in names else 'a walk'}"
    walk = Walk(names, key, clauses)
    n = walk.n
    needs = {}
    for (old, new), (place, _) in zip(n["needs"], n["asked_at"]):
        needs[norm(old)] = (old, new, place)
    head, uses, decls = blocks(text)
    uses = [u for u in uses if ".Statement.{statement}" not in u and not u.endswith(" as tie")]
    invariants, answers, hand, places = [], [], [], {}
    for comment, decl in decls:
        t = re.search(r"\((\S+) : tie\.([^\s()]+)", decl)
        if t and not re.match(r"\S+ : tie\.", decl):
            name = re.match(r"(?:abbrev )?(\S+)", decl).group(1)
            inner = [name] if name != "module" else re.findall(r"^  (?:abbrev )?(\S+) :", decl, re.M)
            for p in n["places"]:
                if norm(p[0]) == norm(t.group(2)):
                    for x in inner:
                        places[x] = n["places_by_name"][walk.place[p[0]][0]]
        elif re.match(r"abbrev (?!invariant|decreases)(\S+) : tie\.Start", decl):
            places[decl.split()[1]] = "Start"
    imported = sorted(set(places.values()))
    for comment, decl in decls:
        first = decl.split("\n")[0]
        note = "\n".join(comment) + "\n" if comment else ""
        m = re.match(r"abbrev (invariant|decreases)-(\S+) : tie\.", first)
        if m:
            kind, loop = m.group(1), norm(m.group(2))
            entry = None
            for ((old, new), variables), changed in zip(n["loops"], n["changed"]):
                if norm(old) == loop:
                    entry = (new, variables, changed)
            if entry is None:
                hand.append(first)
                continue
            new, variables, changed = entry
            body = "\n".join(decl.split("\n")[1:])
            m = re.match(r"\S+((?: " + NAME + r")*) =", body)
            args = m.group(1).split()
            want = [f"l.initial.{v}" if ch else f"l.{v}" for v, ch in zip(variables, changed)] + [f"l.{v}" for v, ch in zip(variables, changed) if ch]
            if len(args) != len(want):
                hand.append(f"{first}: {len(args)} arguments, not {len(want)}")
            rhs = body[m.end() :]
            for a, w in zip(args, want):
                if a != "_":
                    rhs = re.sub(r"(?<![\w'.\-₀-₉])" + re.escape(a) + r"(?![\w'\-₀-₉])", w, rhs)
            is_for = any(x[1] == "overflow_step-" + new.split("-", 1)[1] or x[1].startswith("overflow_step-" + re.sub(r"-\d+$", "", new.split("-", 1)[-1])) for x in n["needs"])
            if kind == "decreases" and is_for:
                continue
            invariants.append(f"{note}abbrev pub {kind}-{new} : goal.{kind}-{new}\n{kind}-{new} l ={rhs}")
            continue
        m = re.match(r"(\S+) : tie\.Need-(\S+)", first)
        if m:
            name = m.group(1)
            found = needs.get(norm(m.group(2))) or needs.get(norm(re.sub(r"^(overflow|slice_bounds|slice-bounds|offset|bounds)-", "", m.group(2))))
            lines = decl.split("\n")[1:]
            while lines and lines[0].startswith(" "):
                lines.pop(0)
            unfolding = ""
            if lines and lines[0].startswith("unfolding"):
                unfolding = lines.pop(0) + "\n"
            body = "\n".join(lines)
            if re.fullmatch(re.escape(name) + r" c(?: κs)? =\s*search (rules|needs)", body.strip()):
                continue
            if found is None:
                hand.append(f"no goal for {m.group(2)}: {body}")
                continue
            old, new, place = found
            walk.hand = []
            body = walk.rewrite(place, body)
            body = re.sub(r"^" + re.escape(name) + r"(?= )", new, body)
            body = re.sub(r"^(\S+ c) κs\b", r"\1", body)
            fields = n["asked"].get(old)
            if fields:
                turned = as_record(body, fields)
                if turned is None:
                    walk.hand.append(f"a record of {', '.join(fields)}")
                else:
                    body = turned
            for helper, at_place in places.items():
                body, k = re.subn(r"(?<![\w'.\-])" + re.escape(helper) + r" (c(?![\w'.\-])|\(c\)|" + "|".join(sorted(walk.aliases, key=len, reverse=True)) + r")(?![\w'.\-])", f"{helper} (goal.at.{new} c).{at_place}", body)
                if k:
                    walk.hand = [h for h in walk.hand if h != "c itself" and not h.startswith("a place as an argument")]
            for h in walk.hand:
                hand.append(f"{new}: {h}")
            answers.append(f"{note}pub {new} : goal.{new}\n{unfolding}{body}")
            continue
        if re.match(r"pub \S+ : .*statement M", first):
            continue
        # a helper of its own
        place = None
        t = re.search(r"\((\S+) : tie\.(\S+?)((?: invariant-\S+| decreases-\S+)*)\)", decl)
        if t:
            for p in n["places"]:
                if norm(p[0]) == norm(t.group(2)):
                    place = p[0]
            if not place:
                hand.append(f"a helper over a place: {first}")
            if place:
                new = n["places_by_name"][walk.place[place][0]]
                decl = re.sub(r"\((\S+) : tie\.(\S+?)((?: invariant-\S+| decreases-\S+)*)\)", rf"(\1 : {new})", decl)
                decl = decl if t.group(1) == "c" else re.sub(r"(?<![\w'.\-])" + re.escape(t.group(1)) + r"(?![\w'\-])", "c", decl)
                walk.hand = []
                decl = "\n".join(walk.rewrite(place, line) if True else line for line in [decl])
        elif "abbrev " in first and ": tie.Start" in first:
            decl = decl.replace("tie.Start", "Start")
        elif "tie." in decl:
            hand.append(f"a helper: {first}")
        answers.append(note + decl)
    at = f"Rattle.{crate}.proofs.{where}"
    title = "\n".join(h for h in head if h.strip())
    title = title + "\n" if title else ""
    if invariants:
        body = "\n\n".join(invariants) + "\n"
        with open(os.path.join(folder, "Invariants.antt"), "w", encoding="utf-8") as f:
            f.write(title + "\n".join([*used(uses, body), f"use {at}.Given as goal"]) + "\n\n" + body)
    if answers:
        body = "\n\n".join(answers) + "\n"
        with open(os.path.join(folder, "Answers.antt"), "w", encoding="utf-8") as f:
            more = [f"use {at}.Goals.{{{', '.join(imported)}}}"] if imported else []
            f.write(("" if invariants else title) + "\n".join([*used(uses, body), f"use {at}.Goals as goal", *more]) + "\n\n" + body)
    os.remove(path)
    if not invariants and not answers:
        os.rmdir(folder)
    return "\n".join(f"by hand: {crate} {where}: {h}" for h in hand)


def main():
    root = os.getcwd()
    given, crates = sys.argv[1], sys.argv[2:]
    clauses = clauses_of(root)
    for crate in crates:
        with open(os.path.join(given, crate, "names.json"), encoding="utf-8") as f:
            names = json.load(f)
        for folder, dirs, files in os.walk(os.path.join(root, "crates", crate, "proofs")):
            dirs.sort()
            if "Proof.antt" in files:
                said = turn(root, names, crate, folder, clauses)
                if said:
                    print(said)


main()
