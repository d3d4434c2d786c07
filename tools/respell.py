#!/usr/bin/env python3
"""Respells the definitions and lemmas of this repository: words in snake case, facts and types in camel case.

usage: python3 tools/respell.py [--list]     at the top, once, right after the kit's port.py
A name is turned only where the repository defines it; names that Rattle makes of a proof (goals, steps) stay.
It has been run, and is kept to show what it did. Don't run it again: it goes by text, and takes one citation of the library's
drop-append-le for a definition.
"""
import glob
import re
import sys

# Those that would fall together with a struct or a function of src/, and two after a word of the library that has a new name.
SPECIAL = {
    "Worked-cents": "WorkedCentsDefined",
    "Worked-splits": "WorkedSplitsDefined",
    "congestion-price": "congestion_price_at",
    "negℤ-*ℤ": "neg_ℤ-*ℤ",
    "abs-negℤ": "abs_neg_ℤ",
}
# What ends a word in a .antt file, in a clause, and in an edit.
WORD = re.compile(r"[^\s(){}.,;\"`|/]+")
HEAD = re.compile(
    r"^(?P<indent> *)(?:(?:pub|abbrev|unfoldable|mutual|instance) )*(?P<kind>record |data )?(?P<name>[^\s(){}.,;\"]+)(?= (?:[^=\n]*)?:|(?= \())"
)
GOAL = re.compile(r":\s*(?:goal|need|given)\.\S+\s*$")


def files(*patterns):
    return sorted(p for pattern in patterns for p in glob.glob(pattern, recursive=True) if "/out/" not in p)


def turned(name):
    if name in SPECIAL:
        return SPECIAL[name]
    if not re.search(r"[A-Za-z]", name):
        return name
    parts = name.split("-")
    if any(p and not re.search(r"[A-Za-z0-9]", p) for p in parts) or "" in parts:
        return name
    if parts[0][0].isupper():
        return "".join(p[0].upper() + p[1:] for p in parts)
    joined = "_".join(parts)
    # a capital inside a word of a name that is no fact, as in floorMod
    return re.sub(r"(?<=[a-z0-9])([A-Z])", lambda m: "_" + m.group(1).lower(), joined)


def defined(text):
    found = []
    for line in text.split("\n"):
        if line.startswith(("use ", "--", "open ", "pub mod ", "mod ", "unfolding ", "infix")):
            continue
        if GOAL.search(line):
            continue
        m = HEAD.match(line)
        if not m:
            continue
        rest = line[m.end("name"):]
        if not re.match(r"\s*(?::|\(.*:|\{.*:|\s[^=]*:)", rest) and not m.group("kind"):
            continue
        if m.group("name") in ("let", "λ", "in", "|", "elim", "where", "module"):
            continue
        found.append(m.group("name"))
    return found


def respelled(path, text, new):
    def words(part):
        return WORD.sub(lambda m: new.get(m.group(0), m.group(0)), part)

    # comments, strings and plain words of a page stay
    if path.endswith(".md"):
        return re.sub(r"`[^`\s]+`", lambda m: words(m.group(0)), text)
    stays = re.compile(r'"(?:[^"\\\n]|\\.)*"|' + (r"(?:^|(?<= ))--[^\n]*" if path.endswith(".antt") else r"//[^\n]*"), re.M)
    made, end = [], 0
    for m in stays.finditer(text):
        made += [words(text[end : m.start()]), m.group(0)]
        end = m.end()
    return "".join(made + [words(text[end:])])


def main():
    antt = files("crates/*/specs/**/*.antt", "crates/*/proofs/**/*.antt")
    new = {}
    known = set()
    for p in antt:
        for name in defined(open(p, encoding="utf-8").read()):
            known.add(name)
            t = turned(name)
            if t != name:
                new[name] = t
    for name, t in sorted(new.items()):
        if t in known:
            print("falls together:", name, t)
    others = {}
    for name, t in new.items():
        others.setdefault(t, []).append(name)
    for t, names in others.items():
        if len(names) > 1:
            print("falls together:", names, t)
    if "--list" in sys.argv:
        for name, t in sorted(new.items()):
            print(name, "->", t)
        return
    every = antt + files("crates/*/src/**/*.rt", "crates/*/must-fail/*.edit", "docs/*.md", "README.md")
    for p in every:
        text = open(p, encoding="utf-8").read()
        made = respelled(p, text, new)
        if made != text:
            open(p, "w", encoding="utf-8").write(made)


main()
