#!/usr/bin/env python3
"""Test vectors for the calls Check, Action part, Step and the rack's step of show logic.

Every expected answer is written by hand from the sentences of the scope document; nothing here reads a program.

    python3 vectors.py OUTDIR    writes OUTDIR/stdin and OUTDIR/stdout
    python3 vectors.py --list    prints name, call and expected answer, one vector per line

stdin is a run of little-endian 32-bit words: per vector the call (0 Check, 1 Action part, 2 Step, 3 the rack's step), k (0 for Check), n, n words;
for the two steps then m and m state values in two's complement.
stdout has one line per vector:
    COUNTS v s p a f    variables, start rows, predicates, actions, forbidden combinations
    REFUSED r AT p      the refusal's number and the word index returned with it
    PART w w w          the words of the part in decimal; only PART when the part is empty
A step's line is MOVED, NOT ENABLED with the first guard row that fails and its value, RUNS OFF v (of Step alone) or REFUSED r AT p, then LEFT and each state value at exit in decimal.
"""

import os
import pathlib
import re
import struct
import sys

# ---------------------------------------------------------------------------------------------------------------------
# Words: "the kind in bits 31 to 28, the payload in bits 27 to 0. Signed fields are two's complement."
# The helpers refuse only what does not fit the field; a value that fits but is not allowed is what many vectors are about.


def field(value, width):
    assert 0 <= value < 1 << width
    return value


def signed(value, width):
    assert -(1 << (width - 1)) <= value < 1 << (width - 1)
    return value & ((1 << width) - 1)


def WORD(kind, payload):
    return field(kind, 4) << 28 | field(payload, 28)


def VAR(lo, hi):
    return WORD(1, signed(lo, 14) << 14 | signed(hi, 14))


def ROW(c):
    return WORD(2, signed(c, 28))


def TERM(v, c):
    return WORD(3, field(v, 4) << 24 | signed(c, 16))


def INIT(n):
    return WORD(4, n)


def PRED(n):
    return WORD(5, n)


def ACTION(g, s):
    return WORD(6, field(g, 4) << 4 | field(s, 4))


def SET(v):
    return WORD(7, v)


def SETS(false_set, true_set):
    return WORD(8, sum(1 << (14 + field_pred(p)) for p in false_set) | sum(1 << field_pred(p) for p in true_set))


def field_pred(p):
    assert 0 <= p < 14
    return p


def END():
    return WORD(15, 0)


def with_bit(word, bit):
    """The word with one more bit set, which it did not have."""
    assert word >> bit & 1 == 0
    return word | 1 << bit


# ---------------------------------------------------------------------------------------------------------------------
# The list of vectors

VECTORS = []     # (group, name, call, k, words, state, answer); only Step has a state
GROUP = [""]


def group(title):
    GROUP[0] = title


def check(name, words, answer):
    VECTORS.append((GROUP[0], name, 0, 0, list(words), None, answer))


def part(name, words, k, answer):
    VECTORS.append((GROUP[0], name, 1, k, list(words), None, answer))


def step(name, words, k, state, answer):
    VECTORS.append((GROUP[0], name, 2, k, list(words), list(state), answer))


def rack(name, words, k, state, answer):
    VECTORS.append((GROUP[0], name, 3, k, list(words), list(state), answer))


def PART(*words):
    """The answer of Action part, from its words as the vector writes them down."""
    return "".join(["PART"] + [" %d" % w for w in words])


def refused(number, index):
    return "REFUSED %d AT %d" % (number, index)


# ---------------------------------------------------------------------------------------------------------------------
group("worked shows")

# Fade's words, as the document prints them.
FADE = [
    0x100003E8, 0x40000000, 0x50000000,
    0x60000011, 0x2FFFFFFB, 0x30000001, 0x70000000, 0x2FFFFFFB, 0x30000001,
    0x60000011, 0x200003E3, 0x3000FFFF, 0x70000000, 0x20000005, 0x30000001,
    0xF0000000,
]
# The helpers are right about the layout if they make the same words.
assert FADE == [
    VAR(0, 1000), INIT(0), PRED(0),
    ACTION(1, 1), ROW(-5), TERM(0, 1), SET(0), ROW(-5), TERM(0, 1),
    ACTION(1, 1), ROW(995), TERM(0, -1), SET(0), ROW(5), TERM(0, 1),
    END(),
]
# Sets of literals that the document prints for House.
assert SETS([], [0, 1]) == 0x80000003
assert SETS([0, 1], []) == 0x8000C000
assert SETS([0], [1]) == 0x80004002
assert SETS([1], [0]) == 0x80008001

# House, from its description. "Both 0 at the start" is two start rows, 0 - level and 0 - house at least 0.
HOUSE = [
    VAR(0, 1000), VAR(0, 1),                                # 0
    INIT(2), ROW(0), TERM(0, -1), ROW(0), TERM(1, -1),      # 2
    PRED(2), ROW(-1), TERM(0, 1), ROW(-1), TERM(1, 1),      # 7   level at least 1, house at least 1
    ACTION(1, 1), ROW(0), TERM(0, -1), SET(1), ROW(1),      # 12  if level is 0, house 1
    ACTION(1, 1), ROW(0), TERM(1, -1), SET(0), ROW(500),    # 17  if house is 0, level 500
    ACTION(0, 1), SET(0), ROW(0),                           # 22  level 0
    ACTION(0, 1), SET(1), ROW(0),                           # 25  house 0
    SETS([], [0, 1]),                                       # 28
    END(),                                                  # 29
]

# The worked table of the proofs has the same words.
SHOWS = (pathlib.Path(__file__).parent.parent / "crates/worked/specs/Shows.antt").read_text()
for name, words in (("fade", FADE), ("house", HOUSE)):
    text = re.search(rf"^{name} =\n((?:    .*\n)*)", SHOWS, re.M).group(1)
    assert words == [int(word, 16) for word in re.findall(r"0x[0-9A-F]{8}", text)], name

check("Fade", FADE, "COUNTS 1 0 0 2 0")
check("House", HOUSE, "COUNTS 2 2 2 4 1")
check("(f) empty program", [], "REFUSED 2 AT 0")
# Five different counts, so that each stands in its own place of the answer.
check("counts 3 1 4 2 5", [VAR(0, 9)] * 3 + [INIT(1), ROW(0), PRED(4)] + [ROW(0)] * 4 + [ACTION(0, 0)] * 2
      + [SETS([], [])] * 5 + [END()], "COUNTS 3 1 4 2 5")

# Short programs that hold one word or a few under test.


def var_program(*variables):
    """The VARs and nothing else: the first stands at 0."""
    return list(variables) + [INIT(0), PRED(0), END()]


def start_program(*row):
    """One variable and one start row: its ROW stands at 2, its first TERM at 3."""
    return [VAR(0, 9), INIT(1)] + list(row) + [PRED(0), END()]


def pred_program(*row):
    """One variable and one predicate: its ROW stands at 3, its first TERM at 4."""
    return [VAR(0, 9), INIT(0), PRED(1)] + list(row) + [END()]


def guard_program(*row):
    """One variable and one action with one guard row: its ROW stands at 4, its first TERM at 5."""
    return [VAR(0, 9), INIT(0), PRED(0), ACTION(1, 0)] + list(row) + [END()]


def set_program(*row):
    """One variable and one action that sets it: SET at 4, ROW at 5, first TERM at 6."""
    return [VAR(0, 9), INIT(0), PRED(0), ACTION(0, 1), SET(0)] + list(row) + [END()]


def action_program(*words):
    """One variable, no start row, no predicate; the words given stand from 3 on."""
    return [VAR(0, 9), INIT(0), PRED(0)] + list(words) + [END()]


# ---------------------------------------------------------------------------------------------------------------------
# "VAR: low end bits 27..14, high end 13..0, both signed"; "low above high" is 4 at the VAR.
group("VAR ends")

check("VAR -8192..8191", var_program(VAR(-8192, 8191)), "COUNTS 1 0 0 0 0")
check("VAR -8192..-8192", var_program(VAR(-8192, -8192)), "COUNTS 1 0 0 0 0")
check("VAR 8191..8191", var_program(VAR(8191, 8191)), "COUNTS 1 0 0 0 0")
check("VAR -1..0", var_program(VAR(-1, 0)), "COUNTS 1 0 0 0 0")
check("VAR -1..-1, all payload bits ones", var_program(0x1FFFFFFF), "COUNTS 1 0 0 0 0")
check("(g) VAR 5..5", var_program(VAR(5, 5)), "COUNTS 1 0 0 0 0")
check("(g) VAR 6..5", var_program(VAR(6, 5)), "REFUSED 4 AT 0")
check("VAR 1..0", var_program(VAR(1, 0)), "REFUSED 4 AT 0")
check("VAR 0..-1", var_program(VAR(0, -1)), "REFUSED 4 AT 0")
check("VAR -8191..-8192", var_program(VAR(-8191, -8192)), "REFUSED 4 AT 0")
check("VAR 8191..8190", var_program(VAR(8191, 8190)), "REFUSED 4 AT 0")
check("VAR 8191..-8192", var_program(VAR(8191, -8192)), "REFUSED 4 AT 0")
check("third VAR 1..0", var_program(VAR(0, 9), VAR(0, 0), VAR(1, 0), VAR(0, 9)), "REFUSED 4 AT 2")
check("eighth VAR 1..0", var_program(*[VAR(0, 9)] * 7 + [VAR(1, 0)]), "REFUSED 4 AT 7")

# ---------------------------------------------------------------------------------------------------------------------
# "ROW: constant, signed, -1,000,000 to 1,000,000"; the field is the whole payload, so a value past the ends is 4.
group("ROW constant")

check("ROW 1000000", start_program(ROW(1000000)), "COUNTS 1 1 0 0 0")
check("ROW 1000001", start_program(ROW(1000001)), "REFUSED 4 AT 2")
check("ROW -1000000", start_program(ROW(-1000000)), "COUNTS 1 1 0 0 0")
check("ROW -1000001", start_program(ROW(-1000001)), "REFUSED 4 AT 2")
check("ROW -1", start_program(ROW(-1)), "COUNTS 1 1 0 0 0")
check("ROW 134217727, the highest of 28 bits", start_program(ROW(134217727)), "REFUSED 4 AT 2")
check("ROW -134217728, the lowest of 28 bits", start_program(ROW(-134217728)), "REFUSED 4 AT 2")
check("ROW 16777216, low bits all zero", start_program(ROW(16777216)), "REFUSED 4 AT 2")
# The limits are the same wherever a row stands.
check("ROW 1000000 in all four places", [
    VAR(0, 9), INIT(1), ROW(1000000), PRED(1), ROW(1000000), ACTION(1, 1), ROW(1000000), SET(0), ROW(1000000), END(),
], "COUNTS 1 1 1 1 0")
check("ROW 1000001 in a predicate", pred_program(ROW(1000001)), "REFUSED 4 AT 3")
check("ROW -1000001 in a guard", guard_program(ROW(-1000001)), "REFUSED 4 AT 4")
check("ROW 1000001 in an assignment", set_program(ROW(1000001)), "REFUSED 4 AT 5")

# ---------------------------------------------------------------------------------------------------------------------
# "TERM: coefficient 15..0 signed, -1,000 to 1,000, not 0"
group("TERM coefficient")

check("(h) coefficient 1000", start_program(ROW(0), TERM(0, 1000)), "COUNTS 1 1 0 0 0")
check("(h) coefficient 1001", start_program(ROW(0), TERM(0, 1001)), "REFUSED 4 AT 3")
check("coefficient -1000", start_program(ROW(0), TERM(0, -1000)), "COUNTS 1 1 0 0 0")
check("coefficient -1001", start_program(ROW(0), TERM(0, -1001)), "REFUSED 4 AT 3")
check("coefficient 1", start_program(ROW(0), TERM(0, 1)), "COUNTS 1 1 0 0 0")
check("coefficient -1", start_program(ROW(0), TERM(0, -1)), "COUNTS 1 1 0 0 0")
check("coefficient 0", start_program(ROW(0), TERM(0, 0)), "REFUSED 4 AT 3")
check("coefficient 32767", start_program(ROW(0), TERM(0, 32767)), "REFUSED 4 AT 3")
check("coefficient -32768", start_program(ROW(0), TERM(0, -32768)), "REFUSED 4 AT 3")
check("coefficient 0 in a predicate", pred_program(ROW(0), TERM(0, 0)), "REFUSED 4 AT 4")
check("coefficient -1001 in a guard", guard_program(ROW(0), TERM(0, -1001)), "REFUSED 4 AT 5")
check("coefficient 1001 in an assignment", set_program(ROW(0), TERM(0, 1001)), "REFUSED 4 AT 6")

# ---------------------------------------------------------------------------------------------------------------------
# "variable not allowed or not rising" is 4; "a row is ROW and its TERMs, variables strictly rising".
group("TERM variable")

EIGHT = [VAR(0, 9)] * 8      # variables 0 to 7; what follows stands from 8 on
THREE = [VAR(0, 9)] * 3      # variables 0 to 2; what follows stands from 3 on

check("TERM 1 of one variable", start_program(ROW(0), TERM(1, 1)), "REFUSED 4 AT 3")
check("TERM 15 of one variable", start_program(ROW(0), TERM(15, 1)), "REFUSED 4 AT 3")
check("TERM 7 of eight", EIGHT + [INIT(1), ROW(0), TERM(7, 1), PRED(0), END()], "COUNTS 8 1 0 0 0")
check("TERM 8 of eight", EIGHT + [INIT(1), ROW(0), TERM(8, 1), PRED(0), END()], "REFUSED 4 AT 10")
check("TERM 15 of eight", EIGHT + [INIT(1), ROW(0), TERM(15, 1), PRED(0), END()], "REFUSED 4 AT 10")
check("TERM 2 of three", THREE + [INIT(1), ROW(0), TERM(2, 1), PRED(0), END()], "COUNTS 3 1 0 0 0")
check("TERM 3 of three", THREE + [INIT(1), ROW(0), TERM(3, 1), PRED(0), END()], "REFUSED 4 AT 5")
check("TERM 1 of one variable in a predicate", pred_program(ROW(0), TERM(1, 1)), "REFUSED 4 AT 4")
check("TERM 1 of one variable in a guard", guard_program(ROW(0), TERM(1, 1)), "REFUSED 4 AT 5")
check("TERM 1 of one variable in an assignment", set_program(ROW(0), TERM(1, 1)), "REFUSED 4 AT 6")

check("TERMs 0 0", THREE + [INIT(1), ROW(0), TERM(0, 1), TERM(0, 2), PRED(0), END()], "REFUSED 4 AT 6")
check("TERMs 1 0", THREE + [INIT(1), ROW(0), TERM(1, 1), TERM(0, 1), PRED(0), END()], "REFUSED 4 AT 6")
check("TERMs 0 2", THREE + [INIT(1), ROW(0), TERM(0, 1), TERM(2, 1), PRED(0), END()], "COUNTS 3 1 0 0 0")
check("TERMs 0 2 1", THREE + [INIT(1), ROW(0), TERM(0, 1), TERM(2, 1), TERM(1, 1), PRED(0), END()], "REFUSED 4 AT 7")
check("TERMs 0 1 1", THREE + [INIT(1), ROW(0), TERM(0, 1), TERM(1, 1), TERM(1, 1), PRED(0), END()], "REFUSED 4 AT 7")
# Each row rises for itself: in every place a new row may begin again at variable 0.
check("each row rises for itself", [
    VAR(0, 9), VAR(0, 9), INIT(2), ROW(0), TERM(1, 1), ROW(0), TERM(0, 1), PRED(2), ROW(0), TERM(1, 1), ROW(0), TERM(0, 1),
    ACTION(2, 2), ROW(0), TERM(1, 1), ROW(0), TERM(0, 1), SET(0), ROW(0), TERM(1, 1), SET(1), ROW(0), TERM(0, 1), END(),
], "COUNTS 2 2 2 1 0")
check("a guard's TERM 1 does not hold back SET 0", [
    VAR(0, 9), VAR(0, 9), INIT(0), PRED(0), ACTION(1, 1), ROW(0), TERM(1, 1), SET(0), ROW(0), TERM(0, 1), END(),
], "COUNTS 2 0 0 1 0")

EIGHT_TERMS = EIGHT + [INIT(1), ROW(0), TERM(0, 1), TERM(1, 1), TERM(2, 1), TERM(3, 1), TERM(4, 1), TERM(5, 1), TERM(6, 1),
                       TERM(7, 1)]       # what follows stands from 18 on
check("eight TERMs", EIGHT_TERMS + [PRED(0), END()], "COUNTS 8 1 0 0 0")
check("ninth TERM, variable 7 again", EIGHT_TERMS + [TERM(7, 1), PRED(0), END()], "REFUSED 4 AT 18")
check("ninth TERM, variable 8", EIGHT_TERMS + [TERM(8, 1), PRED(0), END()], "REFUSED 4 AT 18")
check("ninth TERM, variable 0", EIGHT_TERMS + [TERM(0, 1), PRED(0), END()], "REFUSED 4 AT 18")

# ---------------------------------------------------------------------------------------------------------------------
# "INIT and 0 to 8 rows; PRED and 0 to 14 rows": "a count field too high" is 3 at the count's own word. The field is the
# whole payload, so its high bits are part of the count. The lists below would be good if only low bits were read.
group("INIT and PRED counts")

check("INIT 8", [VAR(0, 9), INIT(8)] + [ROW(0)] * 8 + [PRED(0), END()], "COUNTS 1 8 0 0 0")
check("INIT 9 with nine rows", [VAR(0, 9), INIT(9)] + [ROW(0)] * 9 + [PRED(0), END()], "REFUSED 3 AT 1")
check("INIT 9 with no row", [VAR(0, 9), INIT(9), PRED(0), END()], "REFUSED 3 AT 1")
check("INIT 16", [VAR(0, 9), INIT(16), PRED(0), END()], "REFUSED 3 AT 1")
check("INIT 65536", [VAR(0, 9), INIT(65536), PRED(0), END()], "REFUSED 3 AT 1")
check("INIT 2^27", [VAR(0, 9), INIT(1 << 27), PRED(0), END()], "REFUSED 3 AT 1")
check("INIT 2^28 - 1", [VAR(0, 9), INIT(0xFFFFFFF), PRED(0), END()], "REFUSED 3 AT 1")
check("PRED 9, more than start rows may be", [VAR(0, 9), INIT(0), PRED(9)] + [ROW(0)] * 9 + [END()], "COUNTS 1 0 9 0 0")
check("PRED 14", [VAR(0, 9), INIT(0), PRED(14)] + [ROW(0)] * 14 + [END()], "COUNTS 1 0 14 0 0")
check("PRED 15 with fifteen rows", [VAR(0, 9), INIT(0), PRED(15)] + [ROW(0)] * 15 + [END()], "REFUSED 3 AT 2")
check("PRED 15 with no row", [VAR(0, 9), INIT(0), PRED(15), END()], "REFUSED 3 AT 2")
check("PRED 16", [VAR(0, 9), INIT(0), PRED(16), END()], "REFUSED 3 AT 2")
check("PRED 2^27", [VAR(0, 9), INIT(0), PRED(1 << 27), END()], "REFUSED 3 AT 2")
check("PRED 2^28 - 1", [VAR(0, 9), INIT(0), PRED(0xFFFFFFF), END()], "REFUSED 3 AT 2")

# ---------------------------------------------------------------------------------------------------------------------
# "ACTION: guard rows 7..4, assignments 3..0, each 0 to 8"
group("ACTION counts")

EIGHT_SETS = [SET(0), ROW(0), SET(1), ROW(0), SET(2), ROW(0), SET(3), ROW(0), SET(4), ROW(0), SET(5), ROW(0), SET(6), ROW(0),
              SET(7), ROW(0)]
check("8 guard rows", action_program(ACTION(8, 0), *[ROW(0)] * 8), "COUNTS 1 0 0 1 0")
check("9 guard rows", action_program(ACTION(9, 0), *[ROW(0)] * 9), "REFUSED 3 AT 3")
check("15 guard rows", action_program(ACTION(15, 0), *[ROW(0)] * 15), "REFUSED 3 AT 3")
check("8 assignments", EIGHT + [INIT(0), PRED(0), ACTION(0, 8)] + EIGHT_SETS + [END()], "COUNTS 8 0 0 1 0")
check("8 guard rows and 8 assignments", EIGHT + [INIT(0), PRED(0), ACTION(8, 8)] + [ROW(0)] * 8 + EIGHT_SETS + [END()],
      "COUNTS 8 0 0 1 0")
check("9 assignments", EIGHT + [INIT(0), PRED(0), ACTION(0, 9)] + EIGHT_SETS + [END()], "REFUSED 3 AT 10")
check("15 assignments", EIGHT + [INIT(0), PRED(0), ACTION(0, 15)] + EIGHT_SETS + [END()], "REFUSED 3 AT 10")
check("9 guard rows in the second action", action_program(ACTION(1, 0), ROW(0), ACTION(9, 0), ROW(0)), "REFUSED 3 AT 5")
check("a ninth guard row after 8", action_program(ACTION(8, 0), *[ROW(0)] * 9), "REFUSED 2 AT 12")
# The count is judged at its own word against 8 only, not against the variables: the ACTION is good, the second SET is not.
check("2 assignments of one variable, SET 0 and SET 1", action_program(ACTION(0, 2), SET(0), ROW(0), SET(1), ROW(0)),
      "REFUSED 4 AT 6")
check("2 assignments of one variable, SET 0 twice", action_program(ACTION(0, 2), SET(0), ROW(0), SET(0), ROW(0)),
      "REFUSED 4 AT 6")
check("2 assignments of one variable, one given", action_program(ACTION(0, 2), SET(0), ROW(0)), "REFUSED 2 AT 6")
check("8 assignments of one variable, SET 0 and SET 1", action_program(ACTION(0, 8), SET(0), ROW(0), SET(1), ROW(0)),
      "REFUSED 4 AT 6")

# ---------------------------------------------------------------------------------------------------------------------
# "SET: variable"; the field is the whole payload. "SET variables strictly rise."
group("SET variable")

check("SET 1 of one variable", action_program(ACTION(0, 1), SET(1), ROW(0)), "REFUSED 4 AT 4")
check("SET 7 of eight", EIGHT + [INIT(0), PRED(0), ACTION(0, 1), SET(7), ROW(0), END()], "COUNTS 8 0 0 1 0")
check("SET 8 of eight", EIGHT + [INIT(0), PRED(0), ACTION(0, 1), SET(8), ROW(0), END()], "REFUSED 4 AT 11")
check("SET 16", action_program(ACTION(0, 1), SET(16), ROW(0)), "REFUSED 4 AT 4")
check("SET 256", action_program(ACTION(0, 1), SET(256), ROW(0)), "REFUSED 4 AT 4")
check("SET 2^24, where TERM has its variable", action_program(ACTION(0, 1), SET(1 << 24), ROW(0)), "REFUSED 4 AT 4")
check("SET 2^27", action_program(ACTION(0, 1), SET(1 << 27), ROW(0)), "REFUSED 4 AT 4")
check("SET 2^28 - 1", action_program(ACTION(0, 1), SET(0xFFFFFFF), ROW(0)), "REFUSED 4 AT 4")
check("SETs 0 and 2", THREE + [INIT(0), PRED(0), ACTION(0, 2), SET(0), ROW(0), SET(2), ROW(0), END()], "COUNTS 3 0 0 1 0")
check("SETs 1 and 1", THREE + [INIT(0), PRED(0), ACTION(0, 2), SET(1), ROW(0), SET(1), ROW(0), END()], "REFUSED 4 AT 8")
check("SETs 2 and 1", THREE + [INIT(0), PRED(0), ACTION(0, 2), SET(2), ROW(0), SET(1), ROW(0), END()], "REFUSED 4 AT 8")
check("SETs 0, 2 and 1", THREE + [INIT(0), PRED(0), ACTION(0, 3), SET(0), ROW(0), SET(2), ROW(0), SET(1), ROW(0), END()],
      "REFUSED 4 AT 10")
check("each action's SETs rise for themselves", THREE + [INIT(0), PRED(0), ACTION(0, 1), SET(2), ROW(0), ACTION(0, 1), SET(0),
      ROW(0), END()], "COUNTS 3 0 0 2 0")

# ---------------------------------------------------------------------------------------------------------------------
# "SETS: known-false predicates 27..14, known-true 13..0"; "predicate unknown or in both sets" is 4. No bit is unnamed.
group("SETS predicates")

NO_PRED = [VAR(0, 9), INIT(0), PRED(0)]                               # SETS stands at 3
ONE_PRED = [VAR(0, 9), INIT(0), PRED(1), ROW(0)]                      # SETS stands at 4
FOURTEEN = [VAR(0, 9), INIT(0), PRED(14)] + [ROW(0)] * 14             # SETS stands at 17
ALL = range(14)

check("no predicate: the empty combination", NO_PRED + [SETS([], []), END()], "COUNTS 1 0 0 0 1")
check("no predicate: 0 false", NO_PRED + [SETS([0], []), END()], "REFUSED 4 AT 3")
check("no predicate: 0 true", NO_PRED + [SETS([], [0]), END()], "REFUSED 4 AT 3")
check("no predicate: 13 false, the top bit", NO_PRED + [SETS([13], []), END()], "REFUSED 4 AT 3")
check("no predicate: 13 true", NO_PRED + [SETS([], [13]), END()], "REFUSED 4 AT 3")
check("no predicate: 0 in both", NO_PRED + [SETS([0], [0]), END()], "REFUSED 4 AT 3")

check("one predicate: 0 false", ONE_PRED + [SETS([0], []), END()], "COUNTS 1 0 1 0 1")
check("one predicate: 0 true", ONE_PRED + [SETS([], [0]), END()], "COUNTS 1 0 1 0 1")
check("one predicate: 0 in both", ONE_PRED + [SETS([0], [0]), END()], "REFUSED 4 AT 4")
check("one predicate: 1 false", ONE_PRED + [SETS([1], []), END()], "REFUSED 4 AT 4")
check("one predicate: 1 true", ONE_PRED + [SETS([], [1]), END()], "REFUSED 4 AT 4")
check("one predicate: 0 true, 1 false", ONE_PRED + [SETS([1], [0]), END()], "REFUSED 4 AT 4")
check("equal combinations", ONE_PRED + [SETS([], [0]), SETS([], [0]), SETS([], []), SETS([], []), END()], "COUNTS 1 0 1 0 4")
check("second combination: 1 true", ONE_PRED + [SETS([], [0]), SETS([], [1]), END()], "REFUSED 4 AT 5")

check("14 predicates: 13 false", FOURTEEN + [SETS([13], []), END()], "COUNTS 1 0 14 0 1")
check("14 predicates: 13 true", FOURTEEN + [SETS([], [13]), END()], "COUNTS 1 0 14 0 1")
check("14 predicates: all false", FOURTEEN + [SETS(ALL, []), END()], "COUNTS 1 0 14 0 1")
check("14 predicates: all true", FOURTEEN + [SETS([], ALL), END()], "COUNTS 1 0 14 0 1")
check("14 predicates: even false, odd true", FOURTEEN + [SETS(ALL[0::2], ALL[1::2]), END()], "COUNTS 1 0 14 0 1")
check("14 predicates: 0 in both", FOURTEEN + [SETS([0], [0]), END()], "REFUSED 4 AT 17")
check("14 predicates: 13 in both", FOURTEEN + [SETS([13], [13]), END()], "REFUSED 4 AT 17")
check("14 predicates: 7 in both among others", FOURTEEN + [SETS([0, 7], [1, 7]), END()], "REFUSED 4 AT 17")
check("14 predicates: all in both", FOURTEEN + [SETS(ALL, ALL), END()], "REFUSED 4 AT 17")
check("13 predicates: 13 false", [VAR(0, 9), INIT(0), PRED(13)] + [ROW(0)] * 13 + [SETS([13], []), END()], "REFUSED 4 AT 16")
check("13 predicates: 13 true", [VAR(0, 9), INIT(0), PRED(13)] + [ROW(0)] * 13 + [SETS([], [13]), END()], "REFUSED 4 AT 16")

# ---------------------------------------------------------------------------------------------------------------------
# "A program is 1 to 8 VAR; ... 0 to 16 actions; 0 to 8 SETS"; "ninth VAR or forbidden combination, 17th ACTION" is 3.
group("how many of each")

EMPTY = SETS([], [])
SIXTEEN = [VAR(0, 9), INIT(0), PRED(0)] + [ACTION(0, 0)] * 16         # what follows stands from 19 on

check("no VAR", [INIT(0), PRED(0), END()], "REFUSED 2 AT 0")
check("8 VAR", EIGHT + [INIT(0), PRED(0), END()], "COUNTS 8 0 0 0 0")
check("9 VAR", EIGHT + [VAR(0, 9), INIT(0), PRED(0), END()], "REFUSED 3 AT 8")
check("9 VAR and nothing after", EIGHT + [VAR(0, 9)], "REFUSED 3 AT 8")
check("16 actions", SIXTEEN + [END()], "COUNTS 1 0 0 16 0")
check("17 actions", SIXTEEN + [ACTION(0, 0), END()], "REFUSED 3 AT 19")
check("17 actions with a guard row each", [VAR(0, 9), INIT(0), PRED(0)] + [ACTION(1, 0), ROW(0)] * 17 + [END()],
      "REFUSED 3 AT 35")
check("8 combinations", NO_PRED + [EMPTY] * 8 + [END()], "COUNTS 1 0 0 0 8")
check("9 combinations", NO_PRED + [EMPTY] * 9 + [END()], "REFUSED 3 AT 11")
check("16 actions and 9 combinations", SIXTEEN + [EMPTY] * 9 + [END()], "REFUSED 3 AT 27")
check("every count at its limit", EIGHT + [INIT(8)] + [ROW(0)] * 8 + [PRED(14)] + [ROW(0)] * 14 + [ACTION(0, 0)] * 16
      + [EMPTY] * 8 + [END()], "COUNTS 8 8 14 16 8")

# The longest program there is: every row has eight TERMs, every action eight guard rows and eight assignments.
FULL_ROW = [ROW(-1000000), TERM(0, 1000), TERM(1, -1000), TERM(2, 1), TERM(3, -1), TERM(4, 1000), TERM(5, -1000), TERM(6, 1),
            TERM(7, -1)]
FULL_ACTION = ([ACTION(8, 8)] + FULL_ROW * 8 + [SET(0)] + FULL_ROW + [SET(1)] + FULL_ROW + [SET(2)] + FULL_ROW + [SET(3)]
               + FULL_ROW + [SET(4)] + FULL_ROW + [SET(5)] + FULL_ROW + [SET(6)] + FULL_ROW + [SET(7)] + FULL_ROW)
LONGEST = ([VAR(-8192, 8191)] * 8 + [INIT(8)] + FULL_ROW * 8 + [PRED(14)] + FULL_ROW * 14 + FULL_ACTION * 16
           + [SETS(ALL, [])] * 8 + [END()])
assert len(LONGEST) == 8 + (1 + 8 * 9) + (1 + 14 * 9) + 16 * (1 + 8 * 9 + 8 * 10) + 8 + 1 == 2665
check("the longest program", LONGEST, "COUNTS 8 8 14 16 8")

# ---------------------------------------------------------------------------------------------------------------------
# "At one word 2, 3, 4 in that order." Each word here has two faults or more.
group("order at one word")

# unnamed bit (2) before one too many (3), count too high (3) and before not allowed or not rising (4)
check("17th ACTION with bit 8", SIXTEEN + [with_bit(ACTION(0, 0), 8), END()], "REFUSED 2 AT 19")
check("17th ACTION with bit 27", SIXTEEN + [with_bit(ACTION(0, 0), 27), END()], "REFUSED 2 AT 19")
check("17th ACTION with 9 guard rows and bit 8", SIXTEEN + [with_bit(ACTION(9, 0), 8), END()], "REFUSED 2 AT 19")
check("9 guard rows and bit 8", action_program(with_bit(ACTION(9, 0), 8)), "REFUSED 2 AT 3")
check("15 assignments and bit 27", action_program(with_bit(ACTION(15, 15), 27)), "REFUSED 2 AT 3")
check("TERM not rising and bit 16", THREE + [INIT(1), ROW(0), TERM(1, 1), with_bit(TERM(0, 1), 16), PRED(0), END()],
      "REFUSED 2 AT 6")
check("TERM with coefficient 0 and bit 23", start_program(ROW(0), with_bit(TERM(0, 0), 23)), "REFUSED 2 AT 3")
check("TERM with coefficient 1001 and bit 20", start_program(ROW(0), with_bit(TERM(0, 1001), 20)), "REFUSED 2 AT 3")
check("TERM of an unknown variable and bit 16", start_program(ROW(0), with_bit(TERM(15, 1), 16)), "REFUSED 2 AT 3")
check("ninth TERM and bit 16", EIGHT_TERMS + [with_bit(TERM(7, 1), 16), PRED(0), END()], "REFUSED 2 AT 18")

# wrong kind (2) before one too many (3) and count too high (3)
check("17th ACTION after SETS", SIXTEEN + [EMPTY, ACTION(0, 0), END()], "REFUSED 2 AT 20")
check("17th ACTION where a guard row is due", [VAR(0, 9), INIT(0), PRED(0)] + [ACTION(0, 0)] * 15 + [ACTION(1, 0), ACTION(0, 0),
      END()], "REFUSED 2 AT 19")
check("17th ACTION after END", SIXTEEN + [END(), ACTION(0, 0)], "REFUSED 2 AT 20")
check("ninth SETS after END", NO_PRED + [EMPTY] * 8 + [END(), EMPTY], "REFUSED 2 AT 12")
check("ninth VAR after INIT, low above high", EIGHT + [INIT(0), VAR(1, 0), PRED(0), END()], "REFUSED 2 AT 9")
check("9 guard rows after SETS", NO_PRED + [EMPTY, ACTION(9, 0), END()], "REFUSED 2 AT 4")
check("INIT 9 as first word", [INIT(9), PRED(0), END()], "REFUSED 2 AT 0")
check("INIT 9 where PRED is due", [VAR(0, 9), INIT(0), INIT(9), END()], "REFUSED 2 AT 2")
check("PRED 15 where INIT is due", [VAR(0, 9), PRED(15), END()], "REFUSED 2 AT 1")
check("PRED 15 where a start row is due", [VAR(0, 9), INIT(1), PRED(15), END()], "REFUSED 2 AT 2")

# wrong kind (2) before not allowed (4)
check("VAR 1..0 where a start row is due", [VAR(0, 9), INIT(1), VAR(1, 0), PRED(0), END()], "REFUSED 2 AT 2")
check("ROW 1000001 where PRED is due", [VAR(0, 9), INIT(0), ROW(1000001), PRED(0), END()], "REFUSED 2 AT 2")
check("TERM 15 with coefficient 0 where ROW is due", [VAR(0, 9), INIT(1), TERM(15, 0), PRED(0), END()], "REFUSED 2 AT 2")
check("SET 16 where a guard row is due", action_program(ACTION(1, 1), SET(16), ROW(0)), "REFUSED 2 AT 4")
check("SETS of an unknown predicate where SET is due", action_program(ACTION(0, 1), SETS([0], [0])), "REFUSED 2 AT 4")
check("SETS of an unknown predicate where PRED is due", [VAR(0, 9), INIT(0), SETS([], [0]), PRED(0), END()], "REFUSED 2 AT 2")

# one too many (3) before not allowed (4)
check("ninth VAR, low above high", EIGHT + [VAR(1, 0), INIT(0), PRED(0), END()], "REFUSED 3 AT 8")
check("ninth SETS, predicate unknown", NO_PRED + [EMPTY] * 8 + [SETS([], [0]), END()], "REFUSED 3 AT 11")
check("ninth SETS, predicate in both", ONE_PRED + [EMPTY] * 8 + [SETS([0], [0]), END()], "REFUSED 3 AT 12")
# both are 3
check("17th ACTION with 9 guard rows", SIXTEEN + [ACTION(9, 0), END()], "REFUSED 3 AT 19")

# ---------------------------------------------------------------------------------------------------------------------
# "Bits named by no field are zero": TERM 23..16, ACTION 27..8 and END 27..0 are named by none.
group("unnamed bits")

check("TERM bit 16", start_program(ROW(0), with_bit(TERM(0, 1), 16)), "REFUSED 2 AT 3")
check("TERM bit 17", start_program(ROW(0), with_bit(TERM(0, 1), 17)), "REFUSED 2 AT 3")
check("TERM bit 18", start_program(ROW(0), with_bit(TERM(0, 1), 18)), "REFUSED 2 AT 3")
check("TERM bit 19", start_program(ROW(0), with_bit(TERM(0, 1), 19)), "REFUSED 2 AT 3")
check("TERM bit 20", start_program(ROW(0), with_bit(TERM(0, 1), 20)), "REFUSED 2 AT 3")
check("TERM bit 21", start_program(ROW(0), with_bit(TERM(0, 1), 21)), "REFUSED 2 AT 3")
check("TERM bit 22", start_program(ROW(0), with_bit(TERM(0, 1), 22)), "REFUSED 2 AT 3")
check("TERM bit 23", start_program(ROW(0), with_bit(TERM(0, 1), 23)), "REFUSED 2 AT 3")
check("TERM -1 spread over bits 23..0", start_program(ROW(0), 0x30FFFFFF), "REFUSED 2 AT 3")
check("TERM bit 16 in a predicate", pred_program(ROW(0), with_bit(TERM(0, 1), 16)), "REFUSED 2 AT 4")
check("TERM bit 16 in a guard", guard_program(ROW(0), with_bit(TERM(0, 1), 16)), "REFUSED 2 AT 5")
check("TERM bit 16 in an assignment", set_program(ROW(0), with_bit(TERM(0, 1), 16)), "REFUSED 2 AT 6")
check("ACTION bit 8", action_program(with_bit(ACTION(0, 0), 8)), "REFUSED 2 AT 3")
check("ACTION bit 9", action_program(with_bit(ACTION(0, 0), 9)), "REFUSED 2 AT 3")
check("ACTION bit 14", action_program(with_bit(ACTION(0, 0), 14)), "REFUSED 2 AT 3")
check("ACTION bit 16", action_program(with_bit(ACTION(0, 0), 16)), "REFUSED 2 AT 3")
check("ACTION bit 24", action_program(with_bit(ACTION(0, 0), 24)), "REFUSED 2 AT 3")
check("ACTION bit 27", action_program(with_bit(ACTION(0, 0), 27)), "REFUSED 2 AT 3")
check("second ACTION bit 8", action_program(ACTION(1, 0), ROW(0), with_bit(ACTION(0, 0), 8)), "REFUSED 2 AT 5")
check("END bit 0", NO_PRED + [with_bit(END(), 0)], "REFUSED 2 AT 3")
check("END bit 8", NO_PRED + [with_bit(END(), 8)], "REFUSED 2 AT 3")
check("END bit 14", NO_PRED + [with_bit(END(), 14)], "REFUSED 2 AT 3")
check("END bit 27", NO_PRED + [with_bit(END(), 27)], "REFUSED 2 AT 3")
check("END all bits", NO_PRED + [0xFFFFFFFF], "REFUSED 2 AT 3")

# ---------------------------------------------------------------------------------------------------------------------
# "Program word missing, of the wrong kind, after END" is 2. One word of each of the sixteen kinds, harmless but for its
# kind, at eight places. What follows it makes a whole program of at least one kind that may stand there.
group("each kind at each place")

OF_KIND = [
    0x00000000, VAR(0, 9), ROW(1), TERM(0, 1), INIT(0), PRED(0), ACTION(0, 0), SET(0), SETS([], []),
    0x90030000, 0xA0000001, 0xB0001FFF, 0xCFFFFFFF, 0xD0000000, 0xE0000000, END(),
]
KIND_NAME = ["kind 0", "VAR", "ROW", "TERM", "INIT", "PRED", "ACTION", "SET", "SETS",
             "LEMMA", "MULT", "ORIGIN", "EDGE", "STEP", "kind 14", "END"]
assert [w >> 28 for w in OF_KIND] == list(range(16))


def each_kind(place, before, after, answers):
    """answers: the sixteen answers by kind, written out."""
    assert sorted(answers) == list(range(16))
    for kind in range(16):
        check("%s %s" % (KIND_NAME[kind], place), before + [OF_KIND[kind]] + after, answers[kind])


# A program begins with a VAR.
each_kind("as first word", [], [INIT(0), PRED(0), END()], {
    0: "REFUSED 2 AT 0", 1: "COUNTS 1 0 0 0 0", 2: "REFUSED 2 AT 0", 3: "REFUSED 2 AT 0",
    4: "REFUSED 2 AT 0", 5: "REFUSED 2 AT 0", 6: "REFUSED 2 AT 0", 7: "REFUSED 2 AT 0",
    8: "REFUSED 2 AT 0", 9: "REFUSED 2 AT 0", 10: "REFUSED 2 AT 0", 11: "REFUSED 2 AT 0",
    12: "REFUSED 2 AT 0", 13: "REFUSED 2 AT 0", 14: "REFUSED 2 AT 0", 15: "REFUSED 2 AT 0",
})
# After a VAR: VAR or INIT. With a VAR, the PRED that follows stands where VAR or INIT is due.
each_kind("after the VARs", [VAR(0, 9)], [PRED(0), END()], {
    0: "REFUSED 2 AT 1", 1: "REFUSED 2 AT 2", 2: "REFUSED 2 AT 1", 3: "REFUSED 2 AT 1",
    4: "COUNTS 1 0 0 0 0", 5: "REFUSED 2 AT 1", 6: "REFUSED 2 AT 1", 7: "REFUSED 2 AT 1",
    8: "REFUSED 2 AT 1", 9: "REFUSED 2 AT 1", 10: "REFUSED 2 AT 1", 11: "REFUSED 2 AT 1",
    12: "REFUSED 2 AT 1", 13: "REFUSED 2 AT 1", 14: "REFUSED 2 AT 1", 15: "REFUSED 2 AT 1",
})
# After INIT 1: ROW only.
each_kind("where ROW is due", [VAR(0, 9), INIT(1)], [PRED(0), END()], {
    0: "REFUSED 2 AT 2", 1: "REFUSED 2 AT 2", 2: "COUNTS 1 1 0 0 0", 3: "REFUSED 2 AT 2",
    4: "REFUSED 2 AT 2", 5: "REFUSED 2 AT 2", 6: "REFUSED 2 AT 2", 7: "REFUSED 2 AT 2",
    8: "REFUSED 2 AT 2", 9: "REFUSED 2 AT 2", 10: "REFUSED 2 AT 2", 11: "REFUSED 2 AT 2",
    12: "REFUSED 2 AT 2", 13: "REFUSED 2 AT 2", 14: "REFUSED 2 AT 2", 15: "REFUSED 2 AT 2",
})
# After the last predicate's ROW: TERM, ACTION, SETS or END; a ROW is one too many. With END, the next END stands after END.
each_kind("after the last row", [VAR(0, 9), INIT(0), PRED(1), ROW(0)], [END()], {
    0: "REFUSED 2 AT 4", 1: "REFUSED 2 AT 4", 2: "REFUSED 2 AT 4", 3: "COUNTS 1 0 1 0 0",
    4: "REFUSED 2 AT 4", 5: "REFUSED 2 AT 4", 6: "COUNTS 1 0 1 1 0", 7: "REFUSED 2 AT 4",
    8: "COUNTS 1 0 1 0 1", 9: "REFUSED 2 AT 4", 10: "REFUSED 2 AT 4", 11: "REFUSED 2 AT 4",
    12: "REFUSED 2 AT 4", 13: "REFUSED 2 AT 4", 14: "REFUSED 2 AT 4", 15: "REFUSED 2 AT 5",
})
# After ACTION with no guard row and one assignment: SET only.
each_kind("where SET is due", [VAR(0, 9), INIT(0), PRED(0), ACTION(0, 1)], [ROW(0), END()], {
    0: "REFUSED 2 AT 4", 1: "REFUSED 2 AT 4", 2: "REFUSED 2 AT 4", 3: "REFUSED 2 AT 4",
    4: "REFUSED 2 AT 4", 5: "REFUSED 2 AT 4", 6: "REFUSED 2 AT 4", 7: "COUNTS 1 0 0 1 0",
    8: "REFUSED 2 AT 4", 9: "REFUSED 2 AT 4", 10: "REFUSED 2 AT 4", 11: "REFUSED 2 AT 4",
    12: "REFUSED 2 AT 4", 13: "REFUSED 2 AT 4", 14: "REFUSED 2 AT 4", 15: "REFUSED 2 AT 4",
})
# After a whole action without rows: ACTION, SETS or END. A TERM has no row to belong to.
each_kind("after the actions", [VAR(0, 9), INIT(0), PRED(0), ACTION(0, 0)], [END()], {
    0: "REFUSED 2 AT 4", 1: "REFUSED 2 AT 4", 2: "REFUSED 2 AT 4", 3: "REFUSED 2 AT 4",
    4: "REFUSED 2 AT 4", 5: "REFUSED 2 AT 4", 6: "COUNTS 1 0 0 2 0", 7: "REFUSED 2 AT 4",
    8: "COUNTS 1 0 0 1 1", 9: "REFUSED 2 AT 4", 10: "REFUSED 2 AT 4", 11: "REFUSED 2 AT 4",
    12: "REFUSED 2 AT 4", 13: "REFUSED 2 AT 4", 14: "REFUSED 2 AT 4", 15: "REFUSED 2 AT 5",
})
# After SETS: SETS or END; an ACTION no more.
each_kind("after SETS", [VAR(0, 9), INIT(0), PRED(0), SETS([], [])], [END()], {
    0: "REFUSED 2 AT 4", 1: "REFUSED 2 AT 4", 2: "REFUSED 2 AT 4", 3: "REFUSED 2 AT 4",
    4: "REFUSED 2 AT 4", 5: "REFUSED 2 AT 4", 6: "REFUSED 2 AT 4", 7: "REFUSED 2 AT 4",
    8: "COUNTS 1 0 0 0 2", 9: "REFUSED 2 AT 4", 10: "REFUSED 2 AT 4", 11: "REFUSED 2 AT 4",
    12: "REFUSED 2 AT 4", 13: "REFUSED 2 AT 4", 14: "REFUSED 2 AT 4", 15: "REFUSED 2 AT 5",
})
# After END: nothing.
each_kind("after END", [VAR(0, 9), INIT(0), PRED(0), END()], [], {
    0: "REFUSED 2 AT 4", 1: "REFUSED 2 AT 4", 2: "REFUSED 2 AT 4", 3: "REFUSED 2 AT 4",
    4: "REFUSED 2 AT 4", 5: "REFUSED 2 AT 4", 6: "REFUSED 2 AT 4", 7: "REFUSED 2 AT 4",
    8: "REFUSED 2 AT 4", 9: "REFUSED 2 AT 4", 10: "REFUSED 2 AT 4", 11: "REFUSED 2 AT 4",
    12: "REFUSED 2 AT 4", 13: "REFUSED 2 AT 4", 14: "REFUSED 2 AT 4", 15: "REFUSED 2 AT 4",
})

# A few more places, with the kinds that one could take for good there.
check("TERM after INIT 0", [VAR(0, 9), INIT(0), TERM(0, 1), PRED(0), END()], "REFUSED 2 AT 2")
check("ACTION after INIT 0", [VAR(0, 9), INIT(0), ACTION(0, 0), END()], "REFUSED 2 AT 2")
check("END after INIT 0", [VAR(0, 9), INIT(0), END()], "REFUSED 2 AT 2")
check("PRED where the second start row is due", [VAR(0, 9), INIT(2), ROW(0), TERM(0, 1), PRED(0), END()], "REFUSED 2 AT 4")
check("a start row too many", [VAR(0, 9), INIT(1), ROW(0), TERM(0, 1), ROW(0), PRED(0), END()], "REFUSED 2 AT 4")
check("INIT after a start row", [VAR(0, 9), INIT(1), ROW(0), INIT(0), PRED(0), END()], "REFUSED 2 AT 3")
check("END where a predicate's ROW is due", [VAR(0, 9), INIT(0), PRED(1), END()], "REFUSED 2 AT 3")
check("ACTION where a predicate's ROW is due", [VAR(0, 9), INIT(0), PRED(2), ROW(0), ACTION(0, 0), END()], "REFUSED 2 AT 4")
check("SET where a guard row is due", action_program(ACTION(2, 1), ROW(0), SET(0), ROW(0)), "REFUSED 2 AT 5")
check("a guard row too many", action_program(ACTION(1, 1), ROW(0), ROW(0), SET(0), ROW(0)), "REFUSED 2 AT 5")
check("SET after SET", action_program(ACTION(0, 1), SET(0), SET(0), ROW(0)), "REFUSED 2 AT 5")
check("TERM after SET", action_program(ACTION(0, 1), SET(0), TERM(0, 1)), "REFUSED 2 AT 5")
check("END after SET", action_program(ACTION(0, 1), SET(0)), "REFUSED 2 AT 5")
check("a second row after SET", action_program(ACTION(0, 1), SET(0), ROW(0), TERM(0, 1), ROW(0)), "REFUSED 2 AT 7")
check("a SET too many", [VAR(0, 9), VAR(0, 9), INIT(0), PRED(0), ACTION(0, 1), SET(0), ROW(0), SET(1), ROW(0), END()],
      "REFUSED 2 AT 7")
check("SETS before PRED", [VAR(0, 9), INIT(0), SETS([], []), PRED(0), END()], "REFUSED 2 AT 2")

# ---------------------------------------------------------------------------------------------------------------------
# "Word index (list length if missing)". Every list below is the beginning of one good program. No word in it is bad, since
# each one stood well in the whole program and is judged by what comes before it. A program ends with END, and END is the
# last word here, so every shorter list lacks at least the next word that a program needs: 2 at the list's length.
group("lists that break off")

RICH = [
    VAR(0, 9), VAR(-5, 5),                                     # 0
    INIT(2), ROW(0), TERM(0, 1), ROW(-1),                      # 2
    PRED(1), ROW(3), TERM(0, -2), TERM(1, 4),                  # 6
    ACTION(1, 2), ROW(0), TERM(1, 1),                          # 10
    SET(0), ROW(1), TERM(0, 1), SET(1), ROW(2),                # 13
    ACTION(0, 0),                                              # 18
    SETS([0], []), SETS([], [0]),                              # 19
    END(),                                                     # 21
]
check("cut at 0: the first VAR is missing", RICH[:0], refused(2, 0))
check("cut at 1: INIT is missing", RICH[:1], refused(2, 1))
check("cut at 2: INIT is missing", RICH[:2], refused(2, 2))
check("cut at 3: the first start row is missing", RICH[:3], refused(2, 3))
check("cut at 4: the row is complete, the second is missing", RICH[:4], refused(2, 4))
check("cut at 5: the second start row is missing", RICH[:5], refused(2, 5))
check("cut at 6: PRED is missing", RICH[:6], refused(2, 6))
check("cut at 7: the predicate's ROW is missing", RICH[:7], refused(2, 7))
check("cut at 8: the row is complete, END is missing", RICH[:8], refused(2, 8))
check("cut at 9: the row is complete, END is missing", RICH[:9], refused(2, 9))
check("cut at 10: END is missing", RICH[:10], refused(2, 10))
check("cut at 11: the guard row is missing", RICH[:11], refused(2, 11))
check("cut at 12: the row is complete, SET is missing", RICH[:12], refused(2, 12))
check("cut at 13: SET is missing", RICH[:13], refused(2, 13))
check("cut at 14: the assignment's ROW is missing", RICH[:14], refused(2, 14))
check("cut at 15: the row is complete, the second SET is missing", RICH[:15], refused(2, 15))
check("cut at 16: the second SET is missing", RICH[:16], refused(2, 16))
check("cut at 17: the assignment's ROW is missing", RICH[:17], refused(2, 17))
check("cut at 18: the row and the action are complete, END is missing", RICH[:18], refused(2, 18))
check("cut at 19: the action is complete, END is missing", RICH[:19], refused(2, 19))
check("cut at 20: END is missing", RICH[:20], refused(2, 20))
check("cut at 21: END is missing", RICH[:21], refused(2, 21))
check("not cut", RICH, "COUNTS 2 2 1 2 2")
# At a limit the next word of that kind would be 3, but a missing one is 2.
check("8 VAR and no more", EIGHT, "REFUSED 2 AT 8")
check("8 TERMs and no more", EIGHT_TERMS, "REFUSED 2 AT 18")
check("16 actions and no more", SIXTEEN, "REFUSED 2 AT 19")
check("8 combinations and no more", NO_PRED + [EMPTY] * 8, "REFUSED 2 AT 11")

# ---------------------------------------------------------------------------------------------------------------------
# "END; nothing after it." END with a payload is 2 at the END, whatever comes after.
group("END and after")

check("a second program after END", NO_PRED + [END()] + NO_PRED + [END()], "REFUSED 2 AT 4")
check("Fade and its first lemma", FADE + [0x90030000, 0x80000000, 0xA0000001, 0xA0000001], "REFUSED 2 AT 16")
check("Fade and a zero word", FADE + [0], "REFUSED 2 AT 16")
check("END with a payload, then END", NO_PRED + [with_bit(END(), 0), END()], "REFUSED 2 AT 3")
check("END with a payload, then a zero word", NO_PRED + [with_bit(END(), 27), 0], "REFUSED 2 AT 3")
check("END with a payload, then a ninth SETS and END", NO_PRED + [EMPTY] * 8 + [with_bit(END(), 3), EMPTY, END()],
      "REFUSED 2 AT 11")
check("END, then END with a payload", NO_PRED + [END(), with_bit(END(), 0)], "REFUSED 2 AT 4")
check("END with a payload as first word", [with_bit(END(), 0)], "REFUSED 2 AT 0")
check("END with a payload where ROW is due", [VAR(0, 9), INIT(1), with_bit(END(), 0), PRED(0), END()], "REFUSED 2 AT 2")

# ---------------------------------------------------------------------------------------------------------------------
# "The first bad word decides", also before a number that stands higher in the order, and before a list that breaks off.
group("the first bad word")

check("4 at 0 before 3 at 1", [VAR(1, 0), INIT(9), PRED(0), END()], "REFUSED 4 AT 0")
check("4 at 0 before 2 at 1", [VAR(1, 0), 0], "REFUSED 4 AT 0")
check("4 at 0 before a list that breaks off", [VAR(1, 0)], "REFUSED 4 AT 0")
check("4 at 3 before 3 at 8", [VAR(0, 9)] * 3 + [VAR(1, 0)] + [VAR(0, 9)] * 5 + [INIT(0), PRED(0), END()], "REFUSED 4 AT 3")
check("3 at 8 before 4 at 9", EIGHT + [VAR(0, 9), VAR(1, 0), INIT(0), PRED(0), END()], "REFUSED 3 AT 8")
check("3 at 1 before 2 at 2", [VAR(0, 9), INIT(9), 0], "REFUSED 3 AT 1")
check("3 at 1 before a list that breaks off", [VAR(0, 9), INIT(9)], "REFUSED 3 AT 1")
check("3 at 2 before 2 at 3", [VAR(0, 9), INIT(0), PRED(15), 0xE0000000], "REFUSED 3 AT 2")
check("4 at the ROW before 2 at its TERM", start_program(ROW(1000001), with_bit(TERM(0, 1), 16)), "REFUSED 4 AT 2")
check("4 at the TERM before a list that breaks off", [VAR(0, 9), INIT(1), ROW(0), TERM(0, 0)], "REFUSED 4 AT 3")
check("2 at 2 before 3 at 3", [VAR(0, 9), INIT(0), 0, PRED(15), END()], "REFUSED 2 AT 2")
check("2 at 3 before 4 at 4", action_program(with_bit(ACTION(0, 1), 8), SET(1), ROW(0)), "REFUSED 2 AT 3")
check("3 at 3 before 4 at 4", action_program(ACTION(0, 9), SET(1), ROW(0)), "REFUSED 3 AT 3")
check("4 at the SET before 4 at its ROW", action_program(ACTION(0, 1), SET(1), ROW(1000001)), "REFUSED 4 AT 4")
check("4 at a SETS before 3 at the ninth", NO_PRED + [EMPTY] * 7 + [SETS([], [0]), EMPTY, END()], "REFUSED 4 AT 10")
check("4 at a SETS before a word after END", NO_PRED + [SETS([0], []), END(), END()], "REFUSED 4 AT 3")
check("4 in an action before 2 at END", set_program(ROW(0), TERM(0, 1001))[:-1] + [with_bit(END(), 0)], "REFUSED 4 AT 6")

# ---------------------------------------------------------------------------------------------------------------------
# "The part runs from its ACTION word up to, but without, the next ACTION, SETS or END."
group("part: the words of an action")

part("Fade 0", FADE, 0, PART(0x60000011, 0x2FFFFFFB, 0x30000001, 0x70000000, 0x2FFFFFFB, 0x30000001))
part("Fade 1", FADE, 1, PART(0x60000011, 0x200003E3, 0x3000FFFF, 0x70000000, 0x20000005, 0x30000001))
part("House 0", HOUSE, 0, PART(0x60000011, 0x20000000, 0x3000FFFF, 0x70000001, 0x20000001))
part("House 1", HOUSE, 1, PART(0x60000011, 0x20000000, 0x3100FFFF, 0x70000000, 0x200001F4))
part("House 2", HOUSE, 2, PART(0x60000001, 0x70000000, 0x20000000))
part("House 3, SETS follows", HOUSE, 3, PART(0x60000001, 0x70000001, 0x20000000))
part("cut program 0", RICH, 0,
     PART(0x60000012, 0x20000000, 0x31000001, 0x70000000, 0x20000001, 0x30000001, 0x70000001, 0x20000002))
part("cut program 1", RICH, 1, PART(0x60000000))

# Sixteen actions, each told apart by the constant of its one guard row.
TOLD_APART = [
    VAR(0, 9), INIT(0), PRED(0),
    ACTION(1, 0), ROW(0), ACTION(1, 0), ROW(1), ACTION(1, 0), ROW(2), ACTION(1, 0), ROW(3),
    ACTION(1, 0), ROW(4), ACTION(1, 0), ROW(5), ACTION(1, 0), ROW(6), ACTION(1, 0), ROW(7),
    ACTION(1, 0), ROW(8), ACTION(1, 0), ROW(9), ACTION(1, 0), ROW(10), ACTION(1, 0), ROW(11),
    ACTION(1, 0), ROW(12), ACTION(1, 0), ROW(13), ACTION(1, 0), ROW(14), ACTION(1, 0), ROW(15),
    END(),
]
check("sixteen told apart", TOLD_APART, "COUNTS 1 0 0 16 0")
part("sixteen 0", TOLD_APART, 0, PART(0x60000010, 0x20000000))
part("sixteen 1", TOLD_APART, 1, PART(0x60000010, 0x20000001))
part("sixteen 2", TOLD_APART, 2, PART(0x60000010, 0x20000002))
part("sixteen 3", TOLD_APART, 3, PART(0x60000010, 0x20000003))
part("sixteen 4", TOLD_APART, 4, PART(0x60000010, 0x20000004))
part("sixteen 5", TOLD_APART, 5, PART(0x60000010, 0x20000005))
part("sixteen 6", TOLD_APART, 6, PART(0x60000010, 0x20000006))
part("sixteen 7", TOLD_APART, 7, PART(0x60000010, 0x20000007))
part("sixteen 8", TOLD_APART, 8, PART(0x60000010, 0x20000008))
part("sixteen 9", TOLD_APART, 9, PART(0x60000010, 0x20000009))
part("sixteen 10", TOLD_APART, 10, PART(0x60000010, 0x2000000A))
part("sixteen 11", TOLD_APART, 11, PART(0x60000010, 0x2000000B))
part("sixteen 12", TOLD_APART, 12, PART(0x60000010, 0x2000000C))
part("sixteen 13", TOLD_APART, 13, PART(0x60000010, 0x2000000D))
part("sixteen 14", TOLD_APART, 14, PART(0x60000010, 0x2000000E))
part("sixteen 15, END follows", TOLD_APART, 15, PART(0x60000010, 0x2000000F))

# An action with no guard row and no assignment is its ACTION word alone.
part("bare action, END follows", action_program(ACTION(0, 0)), 0, PART(0x60000000))
part("bare action, SETS follows", action_program(ACTION(0, 0), EMPTY), 0, PART(0x60000000))
part("bare action, ACTION follows", action_program(ACTION(0, 0), ACTION(1, 0), ROW(7)), 0, PART(0x60000000))
part("action after a bare one", action_program(ACTION(0, 0), ACTION(1, 0), ROW(7)), 1, PART(0x60000010, 0x20000007))
# Start rows and predicates before the first action do not belong to it.
part("rows before the first action", [VAR(0, 9), INIT(1), ROW(1), TERM(0, 1), PRED(1), ROW(2), TERM(0, 2), ACTION(1, 0), ROW(3),
     TERM(0, 3), END()], 0, PART(0x60000010, 0x20000003, 0x30000003))
# Eight guard rows and eight assignments, SETS after it.
part("the most guard rows and assignments", EIGHT + [
    INIT(0), PRED(0), ACTION(8, 8), ROW(1), ROW(2), ROW(3), ROW(4), ROW(5), ROW(6), ROW(7), ROW(8), SET(0), ROW(-1), SET(1), ROW(-2),
    SET(2), ROW(-3), SET(3), ROW(-4), SET(4), ROW(-5), SET(5), ROW(-6), SET(6), ROW(-7), SET(7), ROW(-8), TERM(7, -1000), EMPTY, END(),
], 0, PART(
    0x60000088, 0x20000001, 0x20000002, 0x20000003, 0x20000004, 0x20000005, 0x20000006, 0x20000007, 0x20000008,
    0x70000000, 0x2FFFFFFF, 0x70000001, 0x2FFFFFFE, 0x70000002, 0x2FFFFFFD, 0x70000003, 0x2FFFFFFC,
    0x70000004, 0x2FFFFFFB, 0x70000005, 0x2FFFFFFA, 0x70000006, 0x2FFFFFF9, 0x70000007, 0x2FFFFFF8, 0x3700FC18))

# ---------------------------------------------------------------------------------------------------------------------
# "No such action" is 8, and "every refusal (2 to 4, then 8) here gives an empty part".
group("part: no such action")

part("Fade 2", FADE, 2, "PART")
part("Fade 3", FADE, 3, "PART")
part("Fade 16", FADE, 16, "PART")
part("Fade 256", FADE, 256, "PART")
part("Fade 65536", FADE, 65536, "PART")
part("Fade 2^31", FADE, 1 << 31, "PART")
part("Fade 2^32 - 1", FADE, 0xFFFFFFFF, "PART")
part("House 4, where SETS stands", HOUSE, 4, "PART")
part("House 5", HOUSE, 5, "PART")
part("House 2^32 - 1", HOUSE, 0xFFFFFFFF, "PART")
part("sixteen 16", TOLD_APART, 16, "PART")
part("sixteen 17", TOLD_APART, 17, "PART")
part("sixteen 2^32 - 1", TOLD_APART, 0xFFFFFFFF, "PART")
part("no action, END follows", NO_PRED + [END()], 0, "PART")
part("no action, SETS follows", NO_PRED + [EMPTY, END()], 0, "PART")
part("no action, SETS follows, 1", NO_PRED + [EMPTY, END()], 1, "PART")
part("no action, SETS follows, 2^32 - 1", NO_PRED + [EMPTY, END()], 0xFFFFFFFF, "PART")

# ---------------------------------------------------------------------------------------------------------------------
# A refused program has no part, wherever its bad word stands: the whole program is read first.
group("part: refused programs")

part("empty list", [], 0, "PART")
part("empty list, 2^32 - 1", [], 0xFFFFFFFF, "PART")
part("2: Fade without its END, 0", FADE[:-1], 0, "PART")
part("2: Fade without its END, 1", FADE[:-1], 1, "PART")
part("2: Fade cut inside action 1, 0", FADE[:10], 0, "PART")
part("2: Fade with a word after END", FADE + [0], 0, "PART")
part("2: END with a payload", FADE[:-1] + [with_bit(END(), 27)], 1, "PART")
part("2: kind 9 after the actions", FADE[:-1] + [0x90030000, END()], 0, "PART")
part("2: unnamed bit in action 1, 0", action_program(ACTION(0, 0), with_bit(ACTION(0, 0), 8)), 0, "PART")
part("2: a guard row too many in action 0, 0", action_program(ACTION(1, 0), ROW(0), ROW(0)), 0, "PART")
part("2: ACTION after SETS, 0", NO_PRED + [EMPTY, ACTION(0, 0), END()], 0, "PART")
part("3: ninth VAR", EIGHT + [VAR(0, 9), INIT(0), PRED(0), ACTION(0, 0), END()], 0, "PART")
part("3: INIT 9", [VAR(0, 9), INIT(9)] + [ROW(0)] * 9 + [PRED(0), ACTION(0, 0), END()], 0, "PART")
part("3: 17 actions, 0", SIXTEEN + [ACTION(0, 0), END()], 0, "PART")
part("3: 17 actions, 16", SIXTEEN + [ACTION(0, 0), END()], 16, "PART")
part("3: 9 guard rows in action 1, 0", action_program(ACTION(0, 0), ACTION(9, 0), *[ROW(0)] * 9), 0, "PART")
part("3: ninth SETS", action_program(ACTION(0, 0), *[EMPTY] * 9), 0, "PART")
part("4: low above high", [VAR(1, 0), INIT(0), PRED(0), ACTION(0, 0), END()], 0, "PART")
part("4: coefficient 1001 in action 0, 0", guard_program(ROW(0), TERM(0, 1001)), 0, "PART")
part("4: SET of an unknown variable in action 1, 0", action_program(ACTION(0, 0), ACTION(0, 1), SET(1), ROW(0)), 0, "PART")
part("4: unknown predicate after the actions, 0", action_program(ACTION(0, 0), SETS([], [0])), 0, "PART")
part("4: unknown predicate and no such action", action_program(ACTION(0, 0), SETS([], [0])), 1, "PART")

# ---------------------------------------------------------------------------------------------------------------------
# "An action is enabled when all its guard rows hold"; only moved writes.
group("step: Fade")

step("Fade 0 at 0", FADE, 0, [0], "NOT ENABLED 0 -5 LEFT 0")
step("Fade 0 at 4", FADE, 0, [4], "NOT ENABLED 0 -1 LEFT 4")
step("Fade 0 at 5", FADE, 0, [5], "MOVED LEFT 0")
step("Fade 0 at 995", FADE, 0, [995], "MOVED LEFT 990")
step("Fade 0 at 996", FADE, 0, [996], "MOVED LEFT 991")
step("Fade 0 at 1000", FADE, 0, [1000], "MOVED LEFT 995")
step("Fade 1 at 0", FADE, 1, [0], "MOVED LEFT 5")
step("Fade 1 at 4", FADE, 1, [4], "MOVED LEFT 9")
step("Fade 1 at 5", FADE, 1, [5], "MOVED LEFT 10")
step("Fade 1 at 995", FADE, 1, [995], "MOVED LEFT 1000")
step("Fade 1 at 996", FADE, 1, [996], "NOT ENABLED 0 -1 LEFT 996")
step("Fade 1 at 1000", FADE, 1, [1000], "NOT ENABLED 0 -5 LEFT 1000")

# ---------------------------------------------------------------------------------------------------------------------
# Level and house. Step asks neither the start rows nor the forbidden combinations: a state only has to lie in its ranges.
group("step: House")

step("House 0 at 0 0", HOUSE, 0, [0, 0], "MOVED LEFT 0 1")
step("House 1 at 0 0", HOUSE, 1, [0, 0], "MOVED LEFT 500 0")
step("House 2 at 0 0", HOUSE, 2, [0, 0], "MOVED LEFT 0 0")
step("House 3 at 0 0", HOUSE, 3, [0, 0], "MOVED LEFT 0 0")
step("House 1 at 0 1", HOUSE, 1, [0, 1], "NOT ENABLED 0 -1 LEFT 0 1")
step("House 3 at 0 1", HOUSE, 3, [0, 1], "MOVED LEFT 0 0")
step("House 0 at 500 0", HOUSE, 0, [500, 0], "NOT ENABLED 0 -500 LEFT 500 0")
step("House 0 at 1000 1, forbidden", HOUSE, 0, [1000, 1], "NOT ENABLED 0 -1000 LEFT 1000 1")
step("House 1 at 1000 1, forbidden", HOUSE, 1, [1000, 1], "NOT ENABLED 0 -1 LEFT 1000 1")
step("House 2 at 1000 1, forbidden", HOUSE, 2, [1000, 1], "MOVED LEFT 0 1")
step("House 3 at 1000 1, forbidden", HOUSE, 3, [1000, 1], "MOVED LEFT 1000 0")

# ---------------------------------------------------------------------------------------------------------------------
# "Its assignments use the old values and happen at once; other variables keep theirs."
group("step: eight variables at once")

# Eight variables -100..100. Action 0: each is the sum of the seven others. 1: each is the next one, the last is the first.
# 2: each is the one before, the first is the last. 3: variables 2 and 5 change places.
AT_ONCE = [VAR(-100, 100)] * 8 + [INIT(0), PRED(0)] + [
    ACTION(0, 8),
    SET(0), ROW(0), TERM(1, 1), TERM(2, 1), TERM(3, 1), TERM(4, 1), TERM(5, 1), TERM(6, 1), TERM(7, 1),
    SET(1), ROW(0), TERM(0, 1), TERM(2, 1), TERM(3, 1), TERM(4, 1), TERM(5, 1), TERM(6, 1), TERM(7, 1),
    SET(2), ROW(0), TERM(0, 1), TERM(1, 1), TERM(3, 1), TERM(4, 1), TERM(5, 1), TERM(6, 1), TERM(7, 1),
    SET(3), ROW(0), TERM(0, 1), TERM(1, 1), TERM(2, 1), TERM(4, 1), TERM(5, 1), TERM(6, 1), TERM(7, 1),
    SET(4), ROW(0), TERM(0, 1), TERM(1, 1), TERM(2, 1), TERM(3, 1), TERM(5, 1), TERM(6, 1), TERM(7, 1),
    SET(5), ROW(0), TERM(0, 1), TERM(1, 1), TERM(2, 1), TERM(3, 1), TERM(4, 1), TERM(6, 1), TERM(7, 1),
    SET(6), ROW(0), TERM(0, 1), TERM(1, 1), TERM(2, 1), TERM(3, 1), TERM(4, 1), TERM(5, 1), TERM(7, 1),
    SET(7), ROW(0), TERM(0, 1), TERM(1, 1), TERM(2, 1), TERM(3, 1), TERM(4, 1), TERM(5, 1), TERM(6, 1),
    ACTION(0, 8),
    SET(0), ROW(0), TERM(1, 1), SET(1), ROW(0), TERM(2, 1), SET(2), ROW(0), TERM(3, 1), SET(3), ROW(0), TERM(4, 1),
    SET(4), ROW(0), TERM(5, 1), SET(5), ROW(0), TERM(6, 1), SET(6), ROW(0), TERM(7, 1), SET(7), ROW(0), TERM(0, 1),
    ACTION(0, 8),
    SET(0), ROW(0), TERM(7, 1), SET(1), ROW(0), TERM(0, 1), SET(2), ROW(0), TERM(1, 1), SET(3), ROW(0), TERM(2, 1),
    SET(4), ROW(0), TERM(3, 1), SET(5), ROW(0), TERM(4, 1), SET(6), ROW(0), TERM(5, 1), SET(7), ROW(0), TERM(6, 1),
    ACTION(0, 2), SET(2), ROW(0), TERM(5, 1), SET(5), ROW(0), TERM(2, 1),
    END(),
]
step("the sum of the others, all in all 36", AT_ONCE, 0, [1, 2, 3, 4, 5, 6, 7, 8], "MOVED LEFT 35 34 33 32 31 30 29 28")
step("the sum of the others, all in all 0", AT_ONCE, 0, [1, -1, 2, -2, 3, -3, 4, -4], "MOVED LEFT -1 1 -2 2 -3 3 -4 4")
step("the sum of the others, all in all 110: six on the high end", AT_ONCE, 0, [10, 10, 10, 10, 10, 10, 20, 30],
     "MOVED LEFT 100 100 100 100 100 100 90 80")
step("the sum of the others, all in all 111: 0 to 5 run off", AT_ONCE, 0, [10, 10, 10, 10, 10, 10, 20, 31],
     "RUNS OFF 0 LEFT 10 10 10 10 10 10 20 31")
step("the sum of the others, only the last runs off", AT_ONCE, 0, [-15, -15, -15, -15, -15, -15, -15, 0],
     "RUNS OFF 7 LEFT -15 -15 -15 -15 -15 -15 -15 0")
step("the sum of the others, 3 and 5 run off", AT_ONCE, 0, [20, 20, 20, -10, 20, -10, 20, 20],
     "RUNS OFF 3 LEFT 20 20 20 -10 20 -10 20 20")
step("each takes the next one's value", AT_ONCE, 1, [1, 2, 3, 4, 5, 6, 7, 8], "MOVED LEFT 2 3 4 5 6 7 8 1")
step("each takes the value of the one before", AT_ONCE, 2, [1, 2, 3, 4, 5, 6, 7, 8], "MOVED LEFT 8 1 2 3 4 5 6 7")
step("2 and 5 change places, the others keep theirs", AT_ONCE, 3, [1, 2, 3, 4, 5, 6, 7, 8], "MOVED LEFT 1 2 6 4 5 3 7 8")

# ---------------------------------------------------------------------------------------------------------------------
# "With no guard it always is" enabled; "all its guard rows hold".
group("step: guards")

step("no guard row, no assignment", action_program(ACTION(0, 0)), 0, [7], "MOVED LEFT 7")
step("sixteen 15 is there", TOLD_APART, 15, [9], "MOVED LEFT 9")

# x and y, 0..9. If x is at least 3 and y at most 5, x is y.
BOTH = [
    VAR(0, 9), VAR(0, 9), INIT(0), PRED(0), ACTION(2, 1), ROW(-3), TERM(0, 1), ROW(5), TERM(1, -1), SET(0), ROW(0), TERM(1, 1), END(),
]
step("both guard rows hold", BOTH, 0, [3, 5], "MOVED LEFT 5 5")
step("only the second guard row holds", BOTH, 0, [2, 5], "NOT ENABLED 0 -1 LEFT 2 5")
step("only the first guard row holds", BOTH, 0, [3, 6], "NOT ENABLED 1 -1 LEFT 3 6")
step("not enabled before runs off", action_program(ACTION(1, 1), ROW(-1), SET(0), ROW(10)), 0, [7], "NOT ENABLED 0 -1 LEFT 7")
# 512 times 64 is 32,768. The values are whole numbers of any size.
step("a guard's value past 16 bits", [VAR(0, 1000), INIT(0), PRED(0), ACTION(1, 0), ROW(0), TERM(0, 512), END()], 0, [64],
     "MOVED LEFT 64")
# 8 times -1,000 times -8,192 is 65,536,000, and one less is at least 0.
step("the largest value of a guard", [VAR(-8192, 8191)] * 8 + [
    INIT(0), PRED(0), ACTION(1, 0), ROW(-1), TERM(0, -1000), TERM(1, -1000), TERM(2, -1000), TERM(3, -1000), TERM(4, -1000),
    TERM(5, -1000), TERM(6, -1000), TERM(7, -1000), END(),
], 0, [-8192, -8192, -8192, -8192, -8192, -8192, -8192, -8192],
     "MOVED LEFT -8192 -8192 -8192 -8192 -8192 -8192 -8192 -8192")

# ---------------------------------------------------------------------------------------------------------------------
# "If an exact new value is off its range the action runs off"; "runs off with the lowest such variable; only moved writes".
group("step: runs off")

# x and y, -3..3. Action 0: x - 1. 1: x + 1. 2: x + 1 and y + 1. 3: x - 1 and y + 1.
NARROW = [
    VAR(-3, 3), VAR(-3, 3), INIT(0), PRED(0),
    ACTION(0, 1), SET(0), ROW(-1), TERM(0, 1),
    ACTION(0, 1), SET(0), ROW(1), TERM(0, 1),
    ACTION(0, 2), SET(0), ROW(1), TERM(0, 1), SET(1), ROW(1), TERM(1, 1),
    ACTION(0, 2), SET(0), ROW(-1), TERM(0, 1), SET(1), ROW(1), TERM(1, 1),
    END(),
]
step("down to the low end", NARROW, 0, [-2, 0], "MOVED LEFT -3 0")
step("past the low end", NARROW, 0, [-3, 0], "RUNS OFF 0 LEFT -3 0")
step("up to the high end", NARROW, 1, [2, 1], "MOVED LEFT 3 1")
step("past the high end", NARROW, 1, [3, 1], "RUNS OFF 0 LEFT 3 1")
step("both past the high end", NARROW, 2, [3, 3], "RUNS OFF 0 LEFT 3 3")
step("the first moves, the second runs off", NARROW, 2, [2, 3], "RUNS OFF 1 LEFT 2 3")
step("the first low, the second high", NARROW, 3, [-3, 3], "RUNS OFF 0 LEFT -3 3")
step("incident: takes 10 off level 5 with no guard", [VAR(0, 1000), INIT(0), PRED(0), ACTION(0, 1), SET(0), ROW(-10), TERM(0, 1),
     END()], 0, [5], "RUNS OFF 0 LEFT 5")
# 512 times 128 is 65,536, whose low 16 bits are 0.
step("a new value past 16 bits", [VAR(0, 1000), INIT(0), PRED(0), ACTION(0, 1), SET(0), ROW(0), TERM(0, 512), END()], 0, [128],
     "RUNS OFF 0 LEFT 128")

# ---------------------------------------------------------------------------------------------------------------------
# "Step: 2 to 4, 8, 9, 10", and each leaves the state.
group("step: refusals")

step("2 before 8 and 9", FADE[:-1], 9, [], "REFUSED 2 AT 15 LEFT")
step("2 after END, all else good", FADE + [0], 0, [5], "REFUSED 2 AT 16 LEFT 5")
step("3 before 8 and 10", [VAR(0, 9), INIT(9), PRED(0), ACTION(0, 0), END()], 5, [-1], "REFUSED 3 AT 1 LEFT -1")
step("4 before 8 and 9", [VAR(1, 0), INIT(0), PRED(0), ACTION(0, 0), END()], 7, [], "REFUSED 4 AT 0 LEFT")
step("4 in a later action before 10", action_program(ACTION(0, 0), ACTION(0, 1), SET(1), ROW(0)), 0, [10],
     "REFUSED 4 AT 5 LEFT 10")
step("8: Fade 2", FADE, 2, [5], "REFUSED 8 AT 2 LEFT 5")
step("8: Fade 2^32 - 1", FADE, 0xFFFFFFFF, [5], "REFUSED 8 AT 4294967295 LEFT 5")
step("8: no action", NO_PRED + [END()], 0, [5], "REFUSED 8 AT 0 LEFT 5")
step("8 before 9", FADE, 2, [], "REFUSED 8 AT 2 LEFT")
step("8 before 10", FADE, 65536, [-1], "REFUSED 8 AT 65536 LEFT -1")
step("9: empty state", FADE, 0, [], "REFUSED 9 AT 0 LEFT")
step("9: one value too few", HOUSE, 2, [1], "REFUSED 9 AT 1 LEFT 1")
step("9: one value too many", HOUSE, 2, [1, 0, 0], "REFUSED 9 AT 3 LEFT 1 0 0")
step("9 before 10", FADE, 0, [-1, 1001], "REFUSED 9 AT 2 LEFT -1 1001")
step("10: Fade 0 at -1", FADE, 0, [-1], "REFUSED 10 AT 0 LEFT -1")
step("10: Fade 1 at 1001, where its guard fails", FADE, 1, [1001], "REFUSED 10 AT 0 LEFT 1001")
step("10: Fade 1 at -2147483648", FADE, 1, [-2147483648], "REFUSED 10 AT 0 LEFT -2147483648")
step("10: Fade 0 at 2147483647", FADE, 0, [2147483647], "REFUSED 10 AT 0 LEFT 2147483647")
step("10: House, the second high", HOUSE, 3, [0, 2], "REFUSED 10 AT 1 LEFT 0 2")
step("10: House, the second low", HOUSE, 3, [1000, -1], "REFUSED 10 AT 1 LEFT 1000 -1")
step("10: House, both", HOUSE, 3, [1001, -1], "REFUSED 10 AT 0 LEFT 1001 -1")


# ---------------------------------------------------------------------------------------------------------------------
# Request 4: "Our racks hold each variable in sixteen bits and let sums and products wrap, constants being cut to sixteen bits as well, reading the
# result as two's complement. Guards are worked out exactly." "It answers moved or not enabled only, and writes the wrapped values even where the exact
# step runs off."
group("the rack's step: the incident, and as Step where that does not run off")

INCIDENT = [VAR(0, 1000), INIT(0), PRED(0), ACTION(0, 1), SET(0), ROW(-10), TERM(0, 1), END()]
rack("incident: 5 take 10", INCIDENT, 0, [5], "MOVED LEFT -5")
rack("incident: the value that it wrote", INCIDENT, 0, [-5], "REFUSED 10 AT 0 LEFT -5")
rack("incident: 10 take 10", INCIDENT, 0, [10], "MOVED LEFT 0")
rack("Fade 0 at 4", FADE, 0, [4], "NOT ENABLED 0 -1 LEFT 4")
rack("Fade 0 at 5", FADE, 0, [5], "MOVED LEFT 0")
rack("Fade 1 at 995", FADE, 1, [995], "MOVED LEFT 1000")
rack("Fade 1 at 996", FADE, 1, [996], "NOT ENABLED 0 -1 LEFT 996")
rack("House 0 at 0 0", HOUSE, 0, [0, 0], "MOVED LEFT 0 1")
rack("House 1 at 1000 1, forbidden", HOUSE, 1, [1000, 1], "NOT ENABLED 0 -1 LEFT 1000 1")
rack("no guard row, no assignment", action_program(ACTION(0, 0)), 0, [7], "MOVED LEFT 7")
rack("not enabled where the exact step would run off", action_program(ACTION(1, 1), ROW(-1), SET(0), ROW(10)), 0, [7], "NOT ENABLED 0 -1 LEFT 7")
rack("past the low end", NARROW, 0, [-3, 0], "MOVED LEFT -4 0")
rack("past the high end", NARROW, 1, [3, 1], "MOVED LEFT 4 1")
rack("the first on its range, the second past it: both are written", NARROW, 2, [2, 3], "MOVED LEFT 3 4")
rack("the first low, the second high", NARROW, 3, [-3, 3], "MOVED LEFT -4 4")
rack("the sum of the others, 0 to 5 past the high end", AT_ONCE, 0, [10, 10, 10, 10, 10, 10, 20, 31],
     "MOVED LEFT 101 101 101 101 101 101 91 80")
rack("each takes the next one's value", AT_ONCE, 1, [1, -2, 3, -4, 5, -6, 7, -8], "MOVED LEFT -2 3 -4 5 -6 7 -8 1")
rack("2 and 5 change places, the others keep theirs", AT_ONCE, 3, [-1, 2, -3, 4, -5, 6, -7, 8], "MOVED LEFT -1 2 6 4 -5 -3 -7 8")

# ---------------------------------------------------------------------------------------------------------------------
# Multiples of 65,536: 65,536, 8,192,000 (125 times), 983,040 (15 times). From 32,768 on, a number of sixteen bits stands for itself less 65,536.
group("the rack's step: sixteen bits")


def to_new(constant, *terms):
    """Eight variables -8192..8191; action 0 gives variable 0 this row."""
    return [VAR(-8192, 8191)] * 8 + [INIT(0), PRED(0), ACTION(0, 1), SET(0), ROW(constant)] + [TERM(v, c) for v, c in terms] + [END()]


def stored(name, constant, terms, state, value):
    """The value that variable 0 gets; the others keep theirs."""
    state = state + [0] * (8 - len(state))
    rack(name, to_new(constant, *terms), 0, state, "MOVED LEFT" + "".join(" %d" % x for x in [value] + state[1:]))


for constant, value in [(32767, 32767), (32768, -32768), (65535, -1), (65536, 0), (65541, 5), (98303, 32767), (98304, -32768),
                        (-32768, -32768), (-32769, 32767), (-65536, 0), (-65537, -1), (1000000, 16960), (-1000000, -16960)]:
    stored("constant %d" % constant, constant, [], [3], value)
stored("1,000 times 32 is 32,000", 0, [(0, 1000)], [32], 32000)
stored("1,000 times 33 is 33,000", 0, [(0, 1000)], [33], -32536)
stored("1,000 times 66 is 66,000", 0, [(0, 1000)], [66], 464)
stored("1,000 times 8,191 is 8,191,000", 0, [(0, 1000)], [8191], -1000)
stored("1,000 times -8,192 is -8,192,000", 0, [(0, 1000)], [-8192], 0)
stored("-1,000 times 8,191 is -8,191,000", 0, [(0, -1000)], [8191], 1000)
stored("-1 times -8,192 is 8,192", 0, [(0, -1)], [-8192], 8192)
stored("4 and 5 times 8,191 is 73,719", 0, [(0, 4), (1, 5)], [8191, 8191], 8183)
stored("8 times 8,191 and 7 is 65,535", 7, [(1, 8)], [5, 8191], -1)
stored("8 times 8,191 and 8 is 65,536", 8, [(1, 8)], [5, 8191], 0)
stored("products that wrap, and a sum that does not: -1,000 and 1,000", 0, [(0, 1000), (1, -1000)], [8191, 8191], 0)
stored("the largest sum: eight times 8,191,000 and 1,000,000 is 66,528,000", 1000000, [(v, 1000) for v in range(8)], [8191] * 8, 8960)
stored("the smallest: eight times -8,192,000 and -1,000,000", -1000000, [(v, 1000) for v in range(8)], [-8192] * 8, -16960)
stored("eight variables, told apart: 1 + 20 + 300 + 4,000 - 5 - 60 - 700 - 9", 0, [(0, 1), (1, 10), (2, 100), (3, 1000), (4, -1), (5, -10), (6, -100), (7, -1)],
       [1, 2, 3, 4, 5, 6, 7, 9], 3547)
# 512 times 64 is 32,768, which sixteen bits would read as -32,768; -65,536 is 0 in sixteen bits.
rack("a guard's value past 16 bits", [VAR(0, 1000), INIT(0), PRED(0), ACTION(1, 0), ROW(0), TERM(0, 512), END()], 0, [64], "MOVED LEFT 64")
rack("a guard's constant is not cut", [VAR(0, 1000), INIT(0), PRED(0), ACTION(1, 0), ROW(-65536), END()], 0, [64], "NOT ENABLED 0 -65536 LEFT 64")

# ---------------------------------------------------------------------------------------------------------------------
# "Answers: as for step, in the same order."
group("the rack's step: refusals")

rack("2 before 8 and 9", FADE[:-1], 9, [], "REFUSED 2 AT 15 LEFT")
rack("3 before 8 and 10", [VAR(0, 9), INIT(9), PRED(0), ACTION(0, 0), END()], 5, [-1], "REFUSED 3 AT 1 LEFT -1")
rack("4 before 8 and 9", [VAR(1, 0), INIT(0), PRED(0), ACTION(0, 0), END()], 7, [], "REFUSED 4 AT 0 LEFT")
rack("8: Fade 2", FADE, 2, [5], "REFUSED 8 AT 2 LEFT 5")
rack("8 before 9", FADE, 2, [], "REFUSED 8 AT 2 LEFT")
rack("9: one value too many", HOUSE, 2, [1, 0, 0], "REFUSED 9 AT 3 LEFT 1 0 0")
rack("9 before 10", FADE, 0, [-1, 1001], "REFUSED 9 AT 2 LEFT -1 1001")
rack("10: Fade 1 at 1001, where its guard fails", FADE, 1, [1001], "REFUSED 10 AT 0 LEFT 1001")
rack("10: 65,541, whose low 16 bits are 5", FADE, 0, [65541], "REFUSED 10 AT 0 LEFT 65541")
rack("10: House, both", HOUSE, 3, [1001, -1], "REFUSED 10 AT 0 LEFT 1001 -1")

# ---------------------------------------------------------------------------------------------------------------------
# Request 5: "The answer "not enabled", of step and of the rack's step, now carries the number of the first guard row that fails and its value, which
# is below 0." Rows count from 0 within the action's guards.
group("how near it was, of both steps")

# x and y, 0..100. If x is at least 10, twice y at least 7, 5 at least 0, and x and y together at most 50, x is 0.
FOUR_ROWS = [VAR(0, 100), VAR(0, 100), INIT(0), PRED(0), ACTION(0, 1), SET(0), ROW(1),
             ACTION(4, 1), ROW(-10), TERM(0, 1), ROW(-7), TERM(1, 2), ROW(5), ROW(50), TERM(0, -1), TERM(1, -1), SET(0), ROW(0), END()]
# Eight rows, the most: seven are x, the last is x - 8.
EIGHT_ROWS = [VAR(-9, 9), INIT(0), PRED(0), ACTION(8, 0)] + [ROW(0), TERM(0, 1)] * 7 + [ROW(-8), TERM(0, 1), END()]
# The incident with the guard that it lacked: 10 off the level, if it is at least 10.
GUARDED = [VAR(0, 1000), INIT(0), PRED(0), ACTION(1, 1), ROW(-10), TERM(0, 1), SET(0), ROW(-10), TERM(0, 1), END()]
# -1,000,000 and eight times 1,000 times -8,192, which is -65,536,000; 65,536,000 is 1,000 times 65,536, so sixteen bits would keep -1,000,000 alone.
LEAST = [VAR(-8192, 8191)] * 8 + [INIT(0), PRED(0), ACTION(1, 0), ROW(-1000000)] + [TERM(v, 1000) for v in range(8)] + [END()]
for call in (step, rack):
    call("rows worth 0, 1, 5 and 36", FOUR_ROWS, 1, [10, 4], "MOVED LEFT 0 4")
    call("row 0 alone, by 1", FOUR_ROWS, 1, [9, 4], "NOT ENABLED 0 -1 LEFT 9 4")
    call("row 0 by 10, row 1 by 7", FOUR_ROWS, 1, [0, 0], "NOT ENABLED 0 -10 LEFT 0 0")
    call("row 1 alone, by 1", FOUR_ROWS, 1, [10, 3], "NOT ENABLED 1 -1 LEFT 10 3")
    call("row 1 by 7, row 3 by 50", FOUR_ROWS, 1, [100, 0], "NOT ENABLED 1 -7 LEFT 100 0")
    call("row 3 alone, by 1", FOUR_ROWS, 1, [10, 41], "NOT ENABLED 3 -1 LEFT 10 41")
    call("row 3 alone, by 150", FOUR_ROWS, 1, [100, 100], "NOT ENABLED 3 -150 LEFT 100 100")
    call("row 0 by 1, row 3 by 59", FOUR_ROWS, 1, [9, 100], "NOT ENABLED 0 -1 LEFT 9 100")
    call("the last of eight rows, by 1", EIGHT_ROWS, 0, [7], "NOT ENABLED 7 -1 LEFT 7")
    call("the last of eight rows, the others worth 0", EIGHT_ROWS, 0, [0], "NOT ENABLED 7 -8 LEFT 0")
    call("all of eight rows", EIGHT_ROWS, 0, [-9], "NOT ENABLED 0 -9 LEFT -9")
    call("none of eight rows", EIGHT_ROWS, 0, [8], "MOVED LEFT 8")
    call("the incident, guarded", GUARDED, 0, [5], "NOT ENABLED 0 -5 LEFT 5")
    call("the least value of a guard", LEAST, 0, [-8192] * 8, "NOT ENABLED 0 -66536000 LEFT" + " -8192" * 8)


# ---------------------------------------------------------------------------------------------------------------------
# Writing the files

STDIN_LIMIT = 60000


def stdin_bytes():
    words = []
    for _, _, call, k, program, state, _ in VECTORS:
        words += [call, k, len(program)] + program
        if state is not None:
            words += [len(state)] + [signed(value, 32) for value in state]
    return struct.pack("<%dI" % len(words), *words)


def stdout_text():
    return "".join(answer + "\n" for _, _, _, _, _, _, answer in VECTORS)


def slips():
    """Slips of the pen: names that stand twice and answers of no known form."""
    names = [(call, name) for _, name, call, _, _, _, _ in VECTORS]
    assert len(names) == len(set(names)), [n for n in names if names.count(n) > 1]
    form = [re.compile(r"COUNTS( \d+){5}|REFUSED [234] AT \d+"), re.compile(r"PART( \d+)*"),
            re.compile(r"(MOVED|NOT ENABLED \d+ -\d+|RUNS OFF \d|REFUSED ([23489]|10) AT \d+) LEFT( -?\d+)*"),
            re.compile(r"(MOVED|NOT ENABLED \d+ -\d+|REFUSED ([23489]|10) AT \d+) LEFT( -?\d+)*")]
    for _, name, call, _, _, _, answer in VECTORS:
        assert form[call].fullmatch(answer), name
    assert len(stdin_bytes()) < STDIN_LIMIT


def main(arguments):
    slips()
    if arguments == ["--list"]:
        for title, name, call, k, _, _, answer in VECTORS:
            print("%s: %s | %s | %s" % (title, name, ["check", "part %d" % k, "step %d" % k, "rack %d" % k][call], answer))
        return 0
    if len(arguments) != 1 or arguments[0].startswith("-"):
        print("usage: vectors.py OUTDIR | vectors.py --list", file=sys.stderr)
        return 2
    os.makedirs(arguments[0], exist_ok=True)
    with open(os.path.join(arguments[0], "stdin"), "wb") as out:
        out.write(stdin_bytes())
    with open(os.path.join(arguments[0], "stdout"), "w", encoding="ascii", newline="\n") as out:
        out.write(stdout_text())
    return 0


if __name__ == "__main__":
    sys.exit(main(sys.argv[1:]))
