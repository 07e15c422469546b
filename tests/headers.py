#!/usr/bin/env python3
"""The table of names at the head of each file of specs/ names exactly the public definitions of the file, each once; and no line of specs/ and
src/ is longer than a person can read across.

A line of the table is `-- name — meaning`; several names stand with commas, `a .. b` is all from a to b as the file has them.
"""
import sys

from definitions import ROOT, Crates, Unknown

WIDEST = 160


def named(file, order):
    """The names of the table, ranges written out."""
    lines = [line.removeprefix("--").strip() for line in file.head]
    for line in lines[lines.index("") + 1:] if "" in lines else []:
        if " — " not in line:
            continue
        for one in line.split(" — ")[0].split(","):
            first, _, last = one.strip().partition(" .. ")
            if not last:
                yield first
            elif first in order and last in order:
                yield from order[order.index(first):order.index(last) + 1]
            else:
                yield one.strip()


def header_faults():
    crates = Crates()
    for key in crates.files:
        if key[1] != "specs":
            continue
        file = crates.file(key)
        order = [d.name for d in file.definitions if d.public]
        names = list(named(file, order))
        for name in dict.fromkeys(names):
            if name not in order:
                yield f"{file}: the table has {name}, the file has not"
            elif names.count(name) > 1:
                yield f"{file}: the table has {name} twice"
        for name in order:
            if name not in names:
                yield f"{file}: the table lacks {name}"


def long_lines():
    for folder in ("specs", "src"):
        for path in sorted((ROOT / "crates").glob(f"*/{folder}/**/*")):
            if path.suffix in (".antt", ".rt"):
                for number, line in enumerate(path.read_text().splitlines(), 1):
                    if len(line) > WIDEST:
                        yield f"{path.relative_to(ROOT)}:{number}: {len(line)} characters, more than {WIDEST}"


if __name__ == "__main__":
    try:
        bad = list(header_faults()) + list(long_lines())
    except Unknown as fault:
        bad = [f"headers: {fault}"]
    print("\n".join(bad), end="\n" if bad else "")
    sys.exit(1 if bad else 0)
