#!/usr/bin/env python3
"""Writes shows with graphs of many shapes, for tests/drawing.py: `tests/graphs.py FOLDER COUNT`, the same ones each time.

No start row and no guard can hold, so every lemma whose last number is 1 is accepted and the lemmas alone make the graph. Each predicate is touched by
every action: after it, it holds, fails, is as another was before, or the opposite, or is unknown."""
import random
import sys
from pathlib import Path

NEVER = 0x2FFFFFFF  # a row worth -1
START = 255


def lemma(source, goal, index=0, fails=0, holds=0):
    """One whose numbers are 0, but for the last row's, the source's own, which is never met."""
    rows = (goal > 0) + bin(fails | holds).count("1")
    return [0x90000000 | source << 20 | goal << 16 | index, 0x80000000 | fails << 14 | holds] + [0xA0000000] * rows + [0xA0000001]


def after(dice, source, index, predicates):
    """What an action says of a predicate."""
    other = 1 << dice.randrange(predicates)
    same = [lemma(source, 1, index, 0, other), lemma(source, 2, index, other, 0)]
    opposite = [lemma(source, 2, index, 0, other), lemma(source, 1, index, other, 0)]
    kept = [lemma(source, 1, index, 0, 1 << index), lemma(source, 2, index, 1 << index, 0)]
    return dice.choice([kept, kept, kept, same, opposite, [lemma(source, 1, index)], [lemma(source, 2, index)], []])


def words(dice):
    predicates, actions = dice.randint(1, 6), dice.randint(1, 6)
    logic = [0x10000000, 0x40000001, NEVER, 0x50000000 | predicates] + [0x20000000, 0x30000001] * predicates
    logic += [0x60000011, NEVER, 0x70000000, 0x20000000] * actions
    literals = dice.sample(range(predicates), dice.randint(1, predicates))
    if dice.random() < 0.6:
        logic.append(0x80000000 | sum(1 << p + 14 * dice.randrange(2) for p in literals))
    lemmas = [lemma(START, dice.randint(1, 2), p) for p in range(predicates) if dice.random() < 0.9]
    for action in range(actions):
        lemmas += [lemma(action, 3), lemma(action, 4)] + sum((after(dice, action, p, predicates) for p in range(predicates)), [])
        if dice.random() < 0.5:
            lemmas.append(lemma(action, 0, 0, 0, 1 << dice.randrange(predicates)))
    return logic + [0xF0000000] + sum(lemmas, [])


def main(folder, count):
    for number in range(int(count)):
        show = b"".join(word.to_bytes(4, "little") for word in words(random.Random(number)))
        (Path(folder) / f"made-{number}").write_bytes(show)


if __name__ == "__main__":
    if len(sys.argv) != 3:
        sys.exit("usage: tests/graphs.py FOLDER COUNT")
    main(*sys.argv[1:])
