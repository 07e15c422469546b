#!/usr/bin/env python3
"""Respells this repository's own definitions and lemmas as today's Rattle does: words in snake case, facts in camel case.

usage: python3 tools/respell.py      at the top of the repository, once, after port.py
       python3 tools/respell.py README.md docs/X.md ..      in pages: names between backquotes only

tools/respelled.txt has a line for each name: the old one and the new one. A dash stays where it joins names. Code, strings and the
names that Rattle makes in a function's proof keep their spelling. Names that would fall together are told apart by the lines below the table in `apart`.
"""

import glob
import os
import re
import sys

here = os.path.dirname(os.path.abspath(__file__))
with open(os.path.join(here, "respelled.txt"), encoding="utf-8") as f:
    table = dict(line.split() for line in f if line.strip())
TOKEN = re.compile(r"(?<![\w'\-])[A-Za-z][\w'\-]*")
PATH = re.compile(r"([A-Za-z_][\w'\-]*)\.$")
FIELDS = set(open(os.path.join(here, "respelled_fields.txt"), encoding="utf-8").read().split())

# Names that would fall together with a respelled one: in these files the older name makes room.
apart = [
    (r"crates/(runs)/proofs/", r"\brow_read\b", "row_read_lem"),
    (r"crates/(rack|promises)/proofs/", r"\bgoes_on\b", "goes_on_lem"),
    (r"crates/abstraction/proofs/", r"\bread_back\b", "read_back_lem"),
]


def respelled(text):
    def one(m):
        name = m.group()
        new = table.get(name)
        if new is None:
            return name
        before = PATH.search(text, max(0, m.start() - 80), m.start())
        if before and "-" in name and not before.group(1)[0].isupper() and name not in FIELDS:
            return name
        return new

    return TOKEN.sub(one, text)


def ghost_only(text):
    """Of a source file: `ghost use` lines, clauses and comments, and no code."""
    out, deep, clause = [], 0, False
    for line in text.split("\n"):
        if clause or re.match(r"\s*(ghost use |requires\*?\b|ensures\*?\b|ghost\b|//)", line):
            if not line.lstrip().startswith("//"):
                deep += line.count("{") - line.count("}")
                clause = deep > 0
            line = respelled(line)
        out.append(line)
    return "\n".join(out)


def small_lists(text):
    """`small`, of a list, is a fact: AllWithin. The word is a field elsewhere, so it goes by what a file imports."""
    if not re.search(r"Rattle\.rows\.specs\.Bounds\.\{[^}]*\bsmall\b", text) and "abbrev pub small :" not in text:
        return text
    text = re.sub(r"(Rattle\.rows\.specs\.Bounds\.\{[^}]*?)\bsmall\b(?!-)", r"\1AllWithin", text)
    text = text.replace("abbrev pub small :", "abbrev pub AllWithin :").replace("\nsmall B s =", "\nAllWithin B s =").replace("-- small  ", "-- AllWithin  ")
    word = re.compile(r"(?<![\w'.\-])small (?=[A-Za-z0-9(])")
    # In a comment it is a word, and once it is a variable.
    kept = ("--", "//", "written-fits gs xs n small", "small-fits (within-small (small v)")
    return "\n".join(l if l.lstrip().startswith(kept) else word.sub("AllWithin ", l) for l in text.split("\n"))


def aligned(text):
    """A file's table of names: '-- name — what it is', the dashes below one another."""
    lines, i = text.split("\n"), 0
    while i < len(lines):
        j = i
        while j < len(lines) and re.match(r"-- \S.*? +— ", lines[j]):
            j += 1
        if j > i:
            rows = [re.match(r"-- (\S.*?) +— (.*)", l).groups() for l in lines[i:j]]
            wide = max(len(a) for a, _ in rows)
            lines[i:j] = [f"-- {a.ljust(wide)} — {b}" for a, b in rows]
        i = max(j, i + 1)
    return "\n".join(lines)


def main(pages):
    if pages:
        for p in pages:
            with open(p, encoding="utf-8") as f:
                text = f.read()
            new = re.sub(r"`[^`\n]*`", lambda m: respelled(m.group()), text)
            if new != text:
                with open(p, "w", encoding="utf-8") as f:
                    f.write(new)
        return
    for p in sorted(glob.glob("crates/*/**/*.rt", recursive=True) + glob.glob("crates/*/**/*.antt", recursive=True)):
        if "/out/" in p:
            continue
        with open(p, encoding="utf-8") as f:
            text = f.read()
        new = text
        for where, old, name in apart:
            if re.match(where, p):
                new = re.sub(old, name, new)
        if p.endswith(".rt"):
            new = ghost_only(small_lists(new))
        else:
            new = respelled(small_lists(new))
            if "/specs/" in p:
                new = aligned(new)
        if new != text:
            with open(p, "w", encoding="utf-8") as f:
                f.write(new)


main(sys.argv[1:])
