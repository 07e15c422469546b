#!/usr/bin/env python3
"""Each must-fail edit is refused because a fact no longer holds, and not because a name is missing; and docs/CLAIMS.md names edits that exist.

    tests/edits.py [NAME..]             runs `rt must-fail` and reads what it prints; with names, of these crates alone
    tests/edits.py --said FILE          reads what `rt ci` printed, which has a line for each edit
    tests/edits.py --claims             only docs/CLAIMS.md

Prints each edit with the function and the goal of the first error. An edit that is refused only because a proof file names what it took away made the
proof unfit for the code, and says nothing of the contract; so does one that gave a goal another name, under which no proof was found, unless values are
found that make it false. One that never reached the prover is no program; and a limit of the prover is no fact.

In docs/CLAIMS.md an edit is a name with an underscore, in backticks, behind the word "edit" or "edits" in the same cell and sentence. The crates
in parentheses right behind it have to have it, or else any crate. Prints each that does not exist.
"""
import re
import subprocess
import sys

from pathlib import Path

ROOT = Path(__file__).resolve().parent.parent
SAID = re.compile(r"^rt: must-fail (\w+)/([\w.-]+)\.edit: (.*)$", re.M)
REFUSED = "refused, as it must be"
# Of a proof file, and of a function; the text may be cut off.
ERROR = re.compile(r"(?:\./)?proofs/(?:(\S+)/)?\w+\.antt:\d+:\d+: error: (?:`([^`]*)`: )?(.*)")
NOTE = re.compile(r"note: (src/\S+?\.rt):(\d+):\d+: (it is not proved .*)")
# The goal of a note, and what is said of it: that values make it false, or only that no proof was found.
GOAL = re.compile(r"\(`([^`]*)`?\)?(.*)")
FALSE = "; the facts known there allow values at which"
MISSING = re.compile(r"that can be named from here|is not in scope|has no field|has no `|is no library|was not admitted")

NAMED = re.compile(r"\bedits? ([^|;.\n]*)")
NAME = re.compile(r"`(\w*_\w*)`(?: \(([\w, ]+)\))?")


def function_at(crate, file, line):
    """The function at a line of a source file: the one that begins there, behind its attributes, or else the last one before. An edit moves no line."""
    texts, at = (ROOT / "crates" / crate / file).read_text().splitlines(), int(line) - 1
    while at < len(texts) and texts[at].startswith(("#", "//")):
        at += 1
    for text in reversed(texts[:at + 1]):
        found = re.search(r"\bfn (\w+)", text)
        if found:
            return found[1]
    return "?"


def found_in(crate, text):
    """The function, the goal and the text of an error; None where it is no error of a proof that is there, nor a goal that values make false."""
    error, note = ERROR.match(text), NOTE.match(text)
    if error:
        return error.groups()
    goal = note and GOAL.search(note[3])
    # (rt cuts the line off)
    if not goal or not goal[2].startswith(FALSE[:6]) or not FALSE.startswith(goal[2][:len(FALSE)]):
        return None
    return function_at(crate, note[1], note[2]), goal[1], note[3]


def judged(edit, said):
    """The line of an edit, and whether it is refused for a fact."""
    crate, label = edit.parts[-3], edit.stem
    lines = said.get((crate, label), [])
    if len(lines) != 1 or not lines[0].startswith(REFUSED):
        return f"{crate}/{label}: NOT REFUSED by the prover" + (f": {lines[0]}" if lines else ": nothing was said of it"), False
    why = lines[0].removeprefix(REFUSED)
    if why.startswith(" (only because a proof file names"):
        return f"{crate}/{label}: A NAME IS MISSING: {why}", False
    if why.startswith(" ("):
        return f"{crate}/{label}: NO FACT: {why}", False
    found = found_in(crate, why.removeprefix(": "))
    if not found:
        return f"{crate}/{label}: NO FACT: no error of a proof comes first, and no goal that values make false: {why}", False
    function, goal, text = found
    if MISSING.search(text):
        return f"{crate}/{label}: A NAME IS MISSING: {function}, {goal}: {text}", False
    return f"{crate}/{label}: {function}, {goal}", True


def spoken(text):
    """What was said of each edit."""
    said = {}
    for crate, label, line in SAID.findall(text):
        said.setdefault((crate, label), []).append(line)
    return said


def claimed(edits):
    """How many edits docs/CLAIMS.md names, and a line for each that does not exist."""
    there = {(edit.parts[-3], edit.stem) for edit in edits}
    named = [found.groups() for cell in NAMED.findall((ROOT / "docs/CLAIMS.md").read_text()) for found in NAME.finditer(cell)]
    lines = []
    for label, crates in named:
        lacking = [c for c in crates.split(", ") if (c, label) not in there] if crates else []
        if lacking or all(label != other for _, other in there):
            lines.append(f"docs/CLAIMS.md names the edit {label}, which does not exist" + (f" in {', '.join(lacking)}" if lacking else ""))
    return len(named), lines


def main(arguments):
    edits = sorted((ROOT / "crates").glob("*/must-fail/*.edit"))
    of_file = arguments[:1] == ["--said"] and len(arguments) == 2
    names = [] if of_file or arguments == ["--claims"] else arguments
    good = True
    if not names:
        named, absent = claimed(edits)
        print("\n".join([*absent, f"docs/CLAIMS.md names edits {named} times, {len(absent)} of them do not exist"]))
        good = named > 0 and not absent
    if arguments == ["--claims"]:
        return 0 if good else 1
    if of_file:
        text = Path(arguments[1]).read_text(errors="replace")
    else:
        text = subprocess.run(["rt", "must-fail", *names], stdout=subprocess.PIPE, text=True, errors="replace", cwd=ROOT).stdout
    said = spoken(text)
    lines = [judged(e, said) for e in edits if not names or e.parts[-3] in names]
    for line, _ in lines:
        print(line)
    return 0 if good and lines and all(refused for _, refused in lines) else 1


if __name__ == "__main__":
    sys.exit(main(sys.argv[1:]))
