#!/usr/bin/env python3
"""Damaged shows through the program: each small show cut at every whole word, and with one bit changed.

What docs/HELP-CARD.md says of cuts: in the logic it is REFUSED 2 AT the number of words that are left; inside a lemma REFUSED 5 AT P, and the last word of
the logic stands P words before the file's end; between two lemmas the shorter list is judged. With the independent code's program `lines` as an argument,
every line is compared with what that one prints. Prints how many cuts and changes gave which answer, and fails where one is not as said."""
import collections
import pathlib
import subprocess
import sys

ROOT = pathlib.Path(__file__).resolve().parent.parent
PROGRAM = ROOT / "target/bin/operator"
SHOWS = ["fade", "house", "bump", "blackout", "incident_mended"]
END = bytes([0, 0, 0, 0xF0])


def lines(program, show):
    return subprocess.run([program], input=show, capture_output=True, check=True).stdout.decode()


def answer(said):
    words = said.split()
    return " ".join(words[:2]) if words[0] in ("REFUSED", "ODD", "TOO") else words[0]


def as_the_card_says(said, cut):
    words = said.split()
    if words[0] != "REFUSED":
        return words[0] in ("SAFE", "FORBID", "RUNOFF")
    number, place = words[1], int(words[3])
    if number == "2":
        return place == len(cut) // 4
    return number == "5" and cut[len(cut) - 4 * place - 4:][:4] == END


def cuts(whole):
    return [whole[:size] for size in range(0, len(whole), 4)]


def changes(whole):
    """One bit of each byte, another one from byte to byte."""
    return [whole[:at] + bytes([whole[at] ^ 1 << at % 7]) + whole[at + 1:] for at in range(len(whole))]


def tried(name, other):
    whole = (ROOT / f"shows/{name}.words").read_bytes()
    faults = []
    for kind, shows in (("cuts", cuts(whole)), ("changes", changes(whole))):
        seen = collections.Counter()
        for at, show in enumerate(shows):
            said = lines(PROGRAM, show)
            seen[answer(said)] += 1
            if kind == "cuts" and not as_the_card_says(said, show):
                faults.append(f"{name}, cut {at}: not as the card says: {said!r}")
            if other and lines(other, show) != said:
                faults.append(f"{name}, {kind} {at}: {said!r}, the independent code says {lines(other, show)!r}")
        print(f"{name}: {len(shows)} {kind}:", ", ".join(f"{n} {word}" for word, n in sorted(seen.items())))
    return faults


OTHER = sys.argv[1] if len(sys.argv) > 1 else None
FAULTS = [fault for name in SHOWS for fault in tried(name, OTHER)]
print("\n".join(FAULTS) if FAULTS else "every cut as the help card says" + (", every line as the independent code's" if OTHER else ""))
sys.exit(1 if FAULTS else 0)
