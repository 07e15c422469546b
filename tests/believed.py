#!/usr/bin/env python3
"""What a reader has to believe: the definitions that the public contracts and the promises reach, name by name.

    tests/believed.py            prints them by file, with lines (without comments, `use` lines and blank ones)
    tests/believed.py --check    compares them with the list in README, and with where they stand
    tests/believed.py --write    writes the list into README

Reached is what the `ensures` of a public call names, what the types on the pages of promises name, and what the signature and the clauses of
a definition that is reached name. A constructor reaches its type. The proofs behind the promises do not count.
"""
import re
import sys

from definitions import ROOT, Crates, Unknown

# The public calls; of exports every function that C sees.
CALLS = {
    "programs": ["check", "action_part", "part_place"],
    "runs": ["step"],
    "rack": ["rack_step"],
    "ask": ["ask"],
    "judge": ["judge"],
    "findings": ["findings"],
    "show": ["show"],
    "streams": ["next", "answered"],
    "view": ["new", "successor", "successor_at", "successor_of"],
    "report": ["report"],
    "exports": [],
}
PROMISES = [("promises", "proofs", page) for page in ("Promises", "Further", "Worked")]
README = ROOT / "README.md"
BEGIN, END = "<!-- begin: tests/believed.py --write -->", "<!-- end -->"


class Believed:
    """The reached definitions, by file from the bottom up."""

    def __init__(self):
        crates = Crates()
        roots = set()
        for crate, functions in CALLS.items():
            roots |= crates.contracts(crate, functions)
        for page in PROMISES:
            for promise in crates.file(page).definitions:
                roots |= crates.named_by(promise, with_body=False)
        reached = crates.reached(roots)
        self.types = sorted("::".join(d[1:]) for d in reached if isinstance(d, tuple))
        files = {d.file for d in reached if not isinstance(d, tuple)}
        self.files = [f for f in crates.in_order() if f in files]
        self.here = {f: [d for d in f.definitions if d in reached] for f in self.files}
        self.others = {f: [d for d in f.definitions if d not in reached] for f in self.files}

    def lines(self, files):
        return sum(d.lines for f in files for d in self.here[f])

    def bare(self, files):
        """The lines without the signatures."""
        return sum(d.lines - d.signature for f in files for d in self.here[f])


def names(definitions):
    return " ".join(d.name for d in definitions)


def table(believed):
    """The list for README."""
    rows = [BEGIN, "| Definitions | Say | Lines |", "|---|---|---|"]
    rows += [f"| `{f}` | {f.title()} | {believed.lines([f])} |" for f in believed.files]
    rows.append(f"| all | {believed.bare(believed.files)} lines without the type signatures | {believed.lines(believed.files)} |")
    return rows + [END]


def listed(text):
    """The list in README, line by line."""
    found = re.search(re.escape(BEGIN) + r".*?" + re.escape(END), text, re.S)
    if not found:
        raise Unknown(f"README has no list between `{BEGIN}` and `{END}`")
    return found[0].splitlines()


def faults(believed):
    have, want = listed(README.read_text()), table(believed)
    of = lambda rows: {m[1] for m in (re.match(r"\| `([^`]*)`", r) for r in rows) if m}
    for file in sorted(of(want) - of(have)):
        yield f"README: {file} is reached and not listed"
    for file in sorted(of(have) - of(want)):
        yield f"README: {file} is listed and not reached"
    if of(have) == of(want) and have != want:
        yield "README: the list is not the one of today: tests/believed.py --write"
    for f in believed.files:
        here, others = believed.here[f], believed.others[f]
        if f.folder == "proofs":
            yield f"{f}: stands in proofs/ and is reached: {names(here)}"
        elif others and len(others) < len(here):
            yield f"{f}: is reached, but not {names(others)}"
        elif others:
            yield f"{f}: is not reached, but for {names(here)}"


def show(believed):
    for f in believed.files:
        print(f"{f}: {believed.lines([f])} lines, {believed.bare([f])} without signatures")
        print("    " + names(believed.here[f]))
    print("types of src/: " + " ".join(believed.types))
    print(f"{believed.lines(believed.files)} lines to believe, {believed.bare(believed.files)} without signatures, in {len(believed.files)} files")


def main(arguments):
    believed = Believed()
    if arguments == ["--write"]:
        text = README.read_text()
        README.write_text(text.replace("\n".join(listed(text)), "\n".join(table(believed))))
    elif arguments == ["--check"]:
        bad = list(faults(believed))
        print("\n".join(bad), end="\n" if bad else "")
        return 1 if bad else 0
    elif arguments:
        print(__doc__)
        return 2
    else:
        show(believed)
    return 0


if __name__ == "__main__":
    try:
        sys.exit(main(sys.argv[1:]))
    except Unknown as fault:
        print(f"believed: {fault}")
        sys.exit(1)
