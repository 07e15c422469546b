#!/usr/bin/env python3
"""Reads docs/layers.svg back: its boxes are the crates, in the bands of README's layers and marked as their sources are; its lines are the uses of
crates.txt, none left out and none too many; no line comes near a box that is not one of its ends; nothing overlaps, and all text is inside.

    tests/layers.py [FILE]    the picture in FILE, or docs/layers.svg

It then spoils the picture in each of these ways and looks whether it finds the fault.
"""
import re
import sys
import xml.etree.ElementTree as tree
from pathlib import Path

ROOT = Path(__file__).resolve().parent.parent
CLEAR = 5                # how far a line stays away from a box
ACROSS = 0.62            # how wide a letter is at most on the average, in parts of its height
SIZE = 13


def tag(element):
    return element.tag.rpartition("}")[2]


class Box:
    def __init__(self, element):
        self.name, self.marks = element.get("data-crate"), set(element.get("class").split()) - {"crate"}
        self.x, self.y, wide, high = (float(element.get(key)) for key in ("x", "y", "width", "height"))
        self.right, self.end = self.x + wide, self.y + high

    def inside(self, other):
        return other.x <= self.x and self.right <= other.right and other.y <= self.y and self.end <= other.end

    def meets(self, x, y, right, end, clear):
        return self.x - clear < right and x < self.right + clear and self.y - clear < end and y < self.end + clear


def curve(a, b, c, d):
    """Points along a curve with the four points of a path's C."""
    for t in (i / 40 for i in range(1, 41)):
        weights = ((1 - t) ** 3, 3 * t * (1 - t) ** 2, 3 * t * t * (1 - t), t ** 3)
        yield tuple(sum(w * p[i] for w, p in zip(weights, (a, b, c, d))) for i in (0, 1))


class Line:
    """A line in short pieces, each as the rectangle that holds it."""

    def __init__(self, element):
        self.user, self.used = element.get("data-from"), element.get("data-to")
        self.pieces, here = [], None
        for letter, numbers in re.findall(r"([A-Z])([^A-Z]*)", element.get("d")):
            values = [float(n) for n in re.split(r"[ ,]+", numbers.strip())]
            points = [(here[0], values[0])] if letter == "V" else list(zip(values[::2], values[1::2]))
            if letter not in "MCV":
                raise ValueError(f"a path has {letter}")
            if letter == "M":
                self.start = here = points[0]
                continue
            for point in curve(here, *points) if letter == "C" else points:
                (x, right), (y, end) = sorted((here[0], point[0])), sorted((here[1], point[1]))
                self.pieces.append((x, y, right, end))
                here = point
        self.stop = here


class Drawn:
    def __init__(self, text):
        self.root = tree.fromstring(text)
        elements = list(self.root)
        self.boxes = {e.get("data-crate"): Box(e) for e in elements if e.get("data-crate")}
        self.many = sum(bool(e.get("data-crate")) for e in elements)
        self.bands = {e.get("data-layer"): Box(e) for e in elements if e.get("data-layer")}
        self.lines = [Line(e) for e in elements if tag(e) == "path"]
        self.texts = [(e, before) for before, e in zip(elements, elements[1:]) if tag(e) == "text"]
        self.paper = next(cornered(e) for e in elements if e.get("class") == "paper")


def cornered(element):
    """The box of a rectangle that begins at the picture's corner."""
    for key in ("x", "y"):
        element.set(key, element.get(key, "0"))
    return Box(element)


def listed():
    """The uses of crates.txt, of the crates that it lists."""
    lines = [line.partition("#")[0].partition(":") for line in (ROOT / "crates.txt").read_text().splitlines()]
    names = {name.split()[0] for name, colon, _ in lines if colon}
    return {name.split()[0]: names & set(used.split()) for name, colon, used in lines if colon}


def closed(uses):
    """All that each crate stands on."""
    below = {name: set(used) for name, used in uses.items()}
    while True:
        more = {name: used.union(*(below.get(c, set()) for c in used)) for name, used in below.items()}
        if more == below:
            return below
        below = more


def line_faults(drawn):
    uses, lines = closed(listed()), [(line.user, line.used) for line in drawn.lines]
    of = lambda some: closed({name: {b for a, b in some if a == name} for name in uses})
    yield from (f"a line from {a} to {b}, which is no use" for a, b in lines if b not in uses.get(a, ()))
    yield from (f"two lines from {a} to {b}" for a, b in set(lines) if lines.count((a, b)) > 1)
    shown = of(lines)
    yield from (f"{a} uses {b}, and no lines say so" for a in uses for b in sorted(uses[a] - shown.get(a, set())))
    for one in lines:
        if of([line for line in lines if line != one]) == shown:
            yield f"the line from {one[0]} to {one[1]} says what others say"


def path_faults(drawn):
    for line in drawn.lines:
        user, used = drawn.boxes.get(line.user), drawn.boxes.get(line.used)
        if not user or not used:
            continue
        if not (user.x < line.start[0] < user.right and line.start[1] == user.end):
            yield f"the line from {line.user} to {line.used} does not begin below {line.user}"
        if not (used.x < line.stop[0] < used.right and line.stop[1] == used.y):
            yield f"the line from {line.user} to {line.used} does not end above {line.used}"
        for box in drawn.boxes.values():
            clear = 0 if box in (user, used) else CLEAR
            if any(box.meets(*piece, clear) for piece in line.pieces):
                yield f"the line from {line.user} to {line.used} runs behind or beside {box.name}"
        for other in drawn.lines:
            if other.used != line.used and along(line, other):
                yield f"the lines from {line.user} to {line.used} and from {other.user} to {other.used} run on each other"


def along(line, other):
    """Whether two lines have upright pieces on each other."""
    upright = lambda some: [p for p in some.pieces if p[0] == p[2] and p[3] - p[1] > 2 * CLEAR]
    return any(abs(p[0] - q[0]) < CLEAR and p[1] < q[3] and q[1] < p[3] for p in upright(line) for q in upright(other))


def marks_due(name, layer):
    source = ROOT / "crates" / name / "src"
    main = source / "main.rt"
    code = any(re.match(r'\s*(pub )?(extern "C" )?fn \w', line) for path in source.glob("*.rt") for line in path.read_text().splitlines())
    return {"program" if main.exists() else "code" if code else "bare"} | ({"test"} if layer == "tests" else set())


def box_faults(drawn):
    boxes = list(drawn.boxes.values())
    if set(drawn.boxes) != set(listed()) or drawn.many != len(boxes):
        yield "the boxes are not the crates of crates.txt, each once"
    for i, box in enumerate(boxes):
        yield from (f"{box.name} and {other.name} overlap" for other in boxes[:i] if box.meets(other.x, other.y, other.right, other.end, 0))
    table = (ROOT / "README.md").read_text().partition("\n## Layers\n")[2].partition("\n## ")[0]
    for row in table.splitlines():
        layer, crates = row.split("|")[1:3] if row.count("|") == 3 else ("", "")
        for box in (drawn.boxes[name] for name in re.findall(r"`(\w+)`", crates) if name in drawn.boxes):
            band = drawn.bands.get(layer.strip())
            if not band or not box.inside(band):
                yield f"{box.name} is not in the band of {layer.strip()}"
            if box.marks != marks_due(box.name, layer.strip()):
                yield f"{box.name} is marked {box.marks}, and due is {marks_due(box.name, layer.strip())}"


def text_faults(drawn):
    for text, before in drawn.texts:
        wide, x, y = ACROSS * SIZE * len(text.text), float(text.get("x")), float(text.get("y"))
        left = x - wide / 2 if text.get("text-anchor") == "middle" else x
        holder = Box(before) if tag(before) == "rect" else drawn.paper
        if not (holder.x <= left and left + wide <= holder.right and holder.y + SIZE - 3 <= y <= holder.end - 3):
            yield f"'{text.text}' is not inside its box"
        if text.get("class") == "layer":
            end = x + 1.1 * wide
            yield from (f"'{text.text}' and {b.name} overlap" for b in drawn.boxes.values() if b.meets(x, y - SIZE, end, y + 3, 0))
            pieces = [piece for line in drawn.lines for piece in line.pieces]
            yield from (f"a line runs behind '{text.text}'" for p in pieces if p[0] < end and y - SIZE < p[3] and p[1] < y + 3)


def faults(text):
    drawn = Drawn(text)
    return [*line_faults(drawn), *path_faults(drawn), *box_faults(drawn), *text_faults(drawn)]


def spoiled(text):
    """The picture with one fault each, and what that is."""
    lines = re.findall(r'<path [^>]*/>\n', text)
    boxes = re.findall(r'<rect class="crate[^>]*data-crate[^>]*/>\n', text)
    yield "a line left out", text.replace(lines[7], "")
    yield "a line too many", text.replace(lines[7], lines[7] + lines[7].replace('data-from="', 'data-from="judge" x="'))
    longest = max(lines, key=len)
    line = Line(tree.fromstring(longest))
    start, stop = (f"{x},{y}" for x, y in (line.start, line.stop))
    yield "a line that runs straight", text.replace(longest, re.sub(r' d=".*"', f' d="M{start} C{start} {stop} {stop}"', longest))
    yield "a box on another", text.replace(boxes[3], re.sub(r' x="\S+" y="\S+"', re.search(r' x="\S+" y="\S+"', boxes[4])[0], boxes[3]))
    yield "a box left out", text.replace(boxes[3], "")
    yield "a mark too many", text.replace('class="crate code"', 'class="crate bare"', 1)
    yield "a mark left out", text.replace(" test", "", 1) if ' test"' in text else text
    yield "a name too long", re.sub(r">integers<", ">integers and their laws<", text)
    yield "a band too short", re.sub(r'(data-layer="graph"[^>]*height=)"\d+"', r'\1"90"', text)


if __name__ == "__main__":
    picture = Path(sys.argv[1] if len(sys.argv) > 1 else ROOT / "docs" / "layers.svg").read_text()
    bad = faults(picture)
    bad += [f"{what} is not found" for what, text in spoiled(picture) if not bad and (text == picture or not faults(text))]
    print("\n".join(bad), end="\n" if bad else "")
    sys.exit(1 if bad else 0)
