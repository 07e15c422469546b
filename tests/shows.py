#!/usr/bin/env python3
"""The stored shows are what they are said to be.

    python3 tests/shows.py COMPANION    prints what differs, and ends with 1 where anything does

COMPANION is ./bulanevior or another copy of the program. Each shows/NAME.text compiles to shows/NAME.words, byte for byte; the comments of the text say how
NAME.expected is worked out by hand. A show without a text of its own, a _kept one, goes from words to text and back. The damaged files are parts of one show.
"""

import pathlib
import subprocess
import sys

SHOWS = pathlib.Path(__file__).resolve().parent.parent / "shows"

# Damaged files, of the mended incident: its logic has 14 words (VAR, INIT and two rows, PRED, ACTION, a guard row, SET and a row, END),
# its two lemmas four words each. How many bytes are left, and the line.
DAMAGED = {
    "cut_byte": (87, "ODD BYTES"),          # the last byte is lost: 87 is no multiple of 4
    "cut_lemma": (84, "REFUSED 5 AT 7"),    # the last word is lost: the second lemma's last multiplier, word 7 of the lemmas
    "cut_logic": (40, "REFUSED 2 AT 10"),   # all behind the guard row is lost, END too: the ACTION's SET is missing behind 10 words of logic
    "empty": (0, "REFUSED 2 AT 0"),         # nothing is left: the first VAR is missing
}

# Step i of counter's path carries to where the last 1 of i stands, and to the fader from 7 on (shows/counter.text).
COUNTER_PATH = "PATH" + "".join(" %d" % min(7, (i & -i).bit_length() - 1) for i in range(1, 512))


def stored(name, kind):
    return (SHOWS / (name + "." + kind)).read_bytes()


def made(companion, command, source):
    """What a command of the companion makes of the bytes of a show; None where it has not done its job."""
    done = subprocess.run([companion, command, "-"], input=source, stdout=subprocess.PIPE)
    return done.stdout if done.returncode == 0 else None


def there_and_back(companion, words):
    text = made(companion, "text", words)
    return text and made(companion, "words", text)


def differences(companion):
    texts = {path.stem for path in SHOWS.glob("*.text")}
    words = {path.stem for path in SHOWS.glob("*.words")}
    for name in sorted(texts | words):
        if name in DAMAGED:
            left, line = DAMAGED[name]
            if stored(name, "words") != stored("incident_mended", "words")[:left] or stored(name, "expected").decode() != line + "\n":
                yield "%s: not %d bytes of incident_mended.words, or another line" % (name, left)
            continue
        if (name in texts) == name.endswith("_kept"):
            yield "%s: a text, or none, where it should be the other way" % name
        elif name in texts and made(companion, "words", stored(name, "text")) != stored(name, "words"):
            yield "%s.text: other words than %s.words" % (name, name)
        if there_and_back(companion, stored(name, "words")) != stored(name, "words"):
            yield "%s.words: other words by way of text" % name
    if not DAMAGED.keys() <= words or len(stored("incident_mended", "words")) != 4 * (14 + 8):
        yield "the damaged files: not all there, or not parts of 22 words"
    if stored("counter", "expected").decode().splitlines()[1:] != [COUNTER_PATH]:
        yield "counter.expected: another path"


def main(arguments):
    if len(arguments) != 1 or arguments[0].startswith("-"):
        print("usage: shows.py COMPANION", file=sys.stderr)
        return 2
    found = list(differences(arguments[0]))
    print("".join("shows: %s\n" % line for line in found), end="")
    return 1 if found else 0


if __name__ == "__main__":
    sys.exit(main(sys.argv[1:]))
