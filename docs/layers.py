#!/usr/bin/env python3
"""Draws docs/layers.svg: the crates of crates.txt in the layers of README's table, each above the crates that it uses.

    docs/layers.py [FILE]    writes the picture to FILE, or to standard output

A line goes down from a crate to each crate that it uses and does not already use by way of another; lines to the same crate join.
Between its ends a line passes each row in a gap of its own, so that it never runs behind a box. tests/layers.py reads that back.
"""
import re
import sys
from fractions import Fraction
from pathlib import Path

ROOT = Path(__file__).resolve().parent.parent
WIDTH, HEIGHT, GAP, LANE = 92, 26, 26, 30      # a box; the gap below a row; what a line has of a row that it passes
LABEL, MARGIN, PAD = 150, 16, 9                # the column of the layers' names, the picture's edge, a band's edge
BANDS = ("#f3f6fb", "#e9eef7")
SWEEPS, PULLS = 24, 200


def listed(text):
    """Each crate and the crates that it uses, of those listed."""
    lines = [line.split("#")[0].split(":") for line in text.splitlines() if ":" in line.split("#")[0]]
    names = [name.split()[0] for name, _ in lines]
    return {name.split()[0]: [crate for crate in used.split() if crate in names] for name, used in lines}


def direct(uses):
    """The crates that each crate uses, without those that one of them stands on."""
    below = {}

    def stands_on(name):
        if name not in below:
            below[name] = set(uses[name]).union(*map(stands_on, uses[name]))
        return below[name]
    return {name: [c for c in used if not any(c in stands_on(other) for other in used)] for name, used in uses.items()}


def layers(readme, uses):
    """The layers of README's table, from the bottom up, each with its crates."""
    table = readme.split("\n## Layers\n")[1].split("\n## ")[0]
    cells = [line.split("|")[1:3] for line in table.splitlines() if "`" in line and line.startswith("|")]
    found = {name.strip(): [c for c in re.findall(r"`(\w+)`", crates) if c in uses] for name, crates in cells}
    if sorted(c for crates in found.values() for c in crates) != sorted(uses):
        sys.exit("layers: README's table of layers has not each crate of crates.txt once")
    return found


def kind(name):
    """How a crate is marked: a program, a crate with functions, or definitions and proofs alone."""
    source = ROOT / "crates" / name / "src"
    if (source / "main.rt").exists():
        return "program"
    return "code" if re.search(r"^\s*(pub )?(extern \"C\" )?fn ", (source / "lib.rt").read_text(), re.M) else "bare"


def rows(uses, found):
    """Each crate's row, from the bottom: layer upon layer, in a layer above those that it uses there."""
    row, base = {}, 0
    for crates in found.values():
        def depth(name):
            return 1 + max((depth(c) for c in uses[name] if c in crates), default=-1)
        row.update({name: base + depth(name) for name in crates})
        base = 1 + max(row[name] for name in crates)
    return row


def lanes(lines, row):
    """The rows as lists of boxes and lanes; a lane is the line to a crate on its way through a row. And what is joined to what below."""
    table = [[] for _ in range(1 + max(row.values()))]
    joined = {}
    for name, used in lines.items():
        table[row[name]].append(name)
        for crate in used:
            upper = name
            for level in range(row[name] - 1, row[crate], -1):
                lane = (crate, level)
                if lane not in table[level]:
                    table[level].append(lane)
                joined.setdefault(upper, {})[lane] = None
                upper = lane
            joined.setdefault(upper, {})[crate] = None
    return table, {upper: list(lower) for upper, lower in joined.items()}


def around(joined):
    """What each item is joined to above, and below."""
    above = {}
    for upper, lower in joined.items():
        for item in lower:
            above.setdefault(item, []).append(upper)
    return above, joined


def crossings(upper, lower, joined):
    """How many pairs of lines between two neighbouring rows cross."""
    place = {item: i for i, item in enumerate(lower)}
    ends = [(i, place[under]) for i, item in enumerate(upper) for under in joined.get(item, [])]
    return sum((a - c) * (b - d) < 0 for i, (a, b) in enumerate(ends) for c, d in ends[:i])


def all_crossings(table, joined):
    return sum(crossings(upper, lower, joined) for lower, upper in zip(table, table[1:]))


def exchanged(table, joined):
    """Neighbours change places where that leaves fewer crossings."""
    moved = True
    while moved:
        moved = False
        for level, row in enumerate(table):
            near = table[max(level - 1, 0):level + 2]
            for i in range(len(row) - 1):
                before = all_crossings(near, joined)
                row[i], row[i + 1] = row[i + 1], row[i]
                if all_crossings(near, joined) < before:
                    moved = True
                else:
                    row[i], row[i + 1] = row[i + 1], row[i]
    return all_crossings(table, joined)


def ordered(table, joined):
    """The rows in the order with the fewest crossings that sweeps up and down come by."""
    above, under = around(joined)
    best, kept = exchanged(table, joined), [list(row) for row in table]
    for sweep in range(SWEEPS):
        side, levels = (above, range(len(table) - 1, -1, -1)) if sweep % 2 else (under, range(len(table)))
        for level in levels:
            place = {item: Fraction(2 * i + 1, len(row)) for row in table for i, item in enumerate(row)}
            middle = lambda item: sum(place[o] for o in side.get(item, [item])) / len(side.get(item, [item]))
            table[level].sort(key=middle)
        count = exchanged(table, joined)
        if count < best:
            best, kept = count, [list(row) for row in table]
    return kept


def half(item):
    return WIDTH / 2 + 4 if isinstance(item, str) else LANE / 2


def grid(x):
    """The nearest 64th: sums of these are exact, so that every machine draws the same picture."""
    return round(x * 64) / 64


def settled(row, wished):
    """Places for a row's items, in order and apart, as near to those wished for as can be: neighbours that collide share a block."""
    offset, blocks = 0, []
    for i, item in enumerate(row):
        offset += half(row[i - 1]) + half(item) if i else 0
        blocks.append([wished[item] - offset, 1, [(item, offset)]])
        while len(blocks) > 1 and blocks[-2][0] > blocks[-1][0]:
            sum_, many, items = blocks.pop()
            last = blocks[-1]
            blocks[-1] = [(last[0] * last[1] + sum_ * many) / (last[1] + many), last[1] + many, last[2] + items]
    return {item: grid(place + shift) for place, _, items in blocks for item, shift in items}


def chains(table, joined):
    """The items that had best stand above each other, as lists from above: a line in its lanes, and what is joined to nothing else there."""
    above, under = around(joined)
    follows = {}
    for upper, lower in joined.items():
        for item in lower:
            lanes_both = not isinstance(upper, str) and not isinstance(item, str)
            if lanes_both or len(lower) == len(above[item]) == 1:
                follows[upper] = item
    found, later = [], set(follows.values())
    for item in (item for row in reversed(table) for item in row if item not in later):
        found.append([item])
        while found[-1][-1] in follows:
            found[-1].append(follows[found[-1][-1]])
    return found


def spread(table, joined):
    """Where each item stands across: a chain's items in one line, near to what the chain is joined to."""
    above, under = around(joined)
    found, place = chains(table, joined), {}
    for row in table:
        place.update(settled(row, {item: 0 for item in row}))
    for _ in range(PULLS):
        wished = {}
        for chain in found:
            near = [o for item in chain for o in above.get(item, []) + under.get(item, []) if o not in chain]
            middle = sum(place[item] for item in chain) / len(chain)
            wish = (middle + sum(place[o] for o in near)) / (1 + len(near))
            wished.update({item: (wish + middle) / 2 for item in chain})
        for row in table:
            place.update(settled(row, wished))
    for _ in range(4):
        straighten(table, found, place)
    left = min(x - half(item) for item, x in place.items())
    return {item: round(x - left) for item, x in place.items()}


def straighten(table, found, place):
    """Each chain in as few straight pieces as its neighbours leave room for."""
    free = {}
    for chain in found:
        for row in table:
            for left, item, right in zip([None, *row], row, [*row[1:], None]):
                low = place[left] + half(left) + half(item) if left else float("-inf")
                high = place[right] - half(right) - half(item) if right else float("inf")
                free[item] = (low, high)
        while chain:
            (low, high), many = free[chain[0]], 1
            while many < len(chain) and max(low, free[chain[many]][0]) <= min(high, free[chain[many]][1]):
                low, high, many = max(low, free[chain[many]][0]), min(high, free[chain[many]][1]), many + 1
            middle = sum(place[item] for item in chain[:many]) / many
            place.update({item: grid(min(max(middle, low), high)) for item in chain[:many]})
            chain = chain[many:]


class Picture:
    """Everything with its place: boxes, lines and bands."""

    def __init__(self, uses, found):
        self.lines, self.found, self.row = direct(uses), found, rows(uses, found)
        table, joined = lanes(self.lines, self.row)
        self.across = spread(ordered(table, joined), joined)
        self.wide = MARGIN + LABEL + round(max(x + half(item) for item, x in self.across.items())) + 2 * MARGIN
        self.top, y = {}, MARGIN
        self.bands = {}
        for name, crates in reversed(found.items()):
            levels = sorted({self.row[c] for c in crates}, reverse=True)
            start, y = y, y + PAD
            for level in levels:
                self.top[level], y = y, y + HEIGHT + GAP
            y += PAD - GAP
            self.bands[name] = (start, y)
            y += 2 * PAD - GAP // 4
        self.legend = y + 4
        self.high = self.legend + HEIGHT + 44 + MARGIN

    def x(self, item):
        return MARGIN + LABEL + MARGIN + self.across[item]

    def route(self, name, crate):
        """The line from a crate to one that it uses: down through its lanes."""
        x, y = self.x(name), self.top[self.row[name]] + HEIGHT
        path = [f"M{x},{y}"]
        for level in range(self.row[name] - 1, self.row[crate] - 1, -1):
            item = crate if level == self.row[crate] else (crate, level)
            to, top = self.x(item), self.top[level]
            path.append(f"V{top}" if to == x else f"C{x},{(y + top) // 2} {to},{(y + top) // 2} {to},{top}")
            x, y = to, top
            if item != crate:
                y += HEIGHT
                path.append(f"V{y}")
        return " ".join(path)


LEGEND = ("Lines go down to the crates that a crate uses, but for those that it uses", "by way of another. Lines to the same crate join.")
STYLE = """<style>
text { font: 13px sans-serif; fill: #223 }
.layer { font-weight: bold; fill: #446 }
.line { fill: none; stroke: #7a86a0; stroke-width: 1.3 }
.crate { fill: #fff; stroke: #446; stroke-width: 1.2 }
.bare { stroke-dasharray: 4 3 }
.program { stroke-width: 3 }
.test { fill: #e4f2df }
</style>"""


def box(x, y, name, marks, tag=True):
    """A crate's box with its name, x being its middle; one of the legend is no crate."""
    data = f' data-crate="{name}"' if tag else ""
    yield f'<rect class="crate {marks}"{data} x="{x - WIDTH // 2}" y="{y}" width="{WIDTH}" height="{HEIGHT}" rx="4"/>'
    yield f'<text x="{x}" y="{y + 18}" text-anchor="middle">{name}</text>'


def legend(picture):
    y, marks = picture.legend, (("code", "with code"), ("bare", "no code"), ("program", "program"), ("code test", "test"))
    for i, (mark, name) in enumerate(marks):
        yield from box(MARGIN + WIDTH // 2 + i * (WIDTH + 12), y, name, mark, tag=False)
    for i, line in enumerate(LEGEND):
        yield f'<text class="legend" x="{MARGIN}" y="{y + HEIGHT + 22 + 18 * i}">{line}</text>'


def drawn(picture):
    wide, high = picture.wide, picture.high
    yield f'<svg xmlns="http://www.w3.org/2000/svg" width="{wide}" height="{high}" viewBox="0 0 {wide} {high}">'
    yield STYLE
    yield f'<rect class="paper" width="{wide}" height="{high}" fill="white"/>'
    for i, (name, (top, end)) in enumerate(picture.bands.items()):
        size = f'x="{MARGIN}" y="{top}" width="{wide - 2 * MARGIN}" height="{end - top}"'
        yield f'<rect class="band" data-layer="{name}" {size} rx="6" fill="{BANDS[i % 2]}"/>'
        yield f'<text class="layer" x="{MARGIN + 10}" y="{top + 20}">{name}</text>'
    for name, used in picture.lines.items():
        for crate in used:
            yield f'<path class="line" data-from="{name}" data-to="{crate}" d="{picture.route(name, crate)}"/>'
    for name, crates in picture.found.items():
        for crate in crates:
            marks = kind(crate) + (" test" if name == "tests" else "")
            yield from box(picture.x(crate), picture.top[picture.row[crate]], crate, marks)
    yield from legend(picture)
    yield "</svg>"


def main(arguments):
    uses = listed((ROOT / "crates.txt").read_text())
    picture = Picture(uses, layers((ROOT / "README.md").read_text(), uses))
    text = "\n".join(drawn(picture)) + "\n"
    if arguments:
        Path(arguments[0]).write_text(text)
    else:
        sys.stdout.write(text)


if __name__ == "__main__":
    main(sys.argv[1:])
