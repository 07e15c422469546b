#!/usr/bin/env python3
"""Holds the drawings of `bulanevior draw` to facts from elsewhere: `tests/drawing.py COMPANION FACTS SHOW..`.

FACTS is an independent program that reads a show on standard input and prints its graph: `node K ring D` and the literals, `+P` or `-P` each;
`edge K ACTION M`; with a finding `path K ACTION M` for each step and `finding K`; or `empty`; or why the show is refused. The same lines are read
off each drawing, from what is drawn: a node's ring from the circle that its box is on, an arrow's nodes from the boxes that it begins and ends at,
its actions from the label that it runs through, path and finding from the colours that the legend gives. Then the drawing is measured. Prints a
line of counts, or what differs and status 1."""
import math, re, subprocess, sys
import xml.etree.ElementTree as ElementTree

LABELLED = 50  # up to so many nodes arrows have labels
FEW = 12  # up to so many nodes no arrow runs through a box
CELL = 100  # boxes are looked up by cells of this size
ALLOWED = {"svg", "g", "rect", "circle", "path", "text", "title"}
NAME = "{http://www.w3.org/2000/svg}"


class Wrong(Exception):
    pass


def want(condition, text):
    if not condition:
        raise Wrong(text)


# ---- what is drawn


class Box:
    def __init__(self, x, y, wide, high, round=0.0):
        self.low, self.high, self.round = (x, y), (x + wide, y + high), round
        self.middle, self.half = (x + wide / 2, y + high / 2), (wide / 2, high / 2)

    def outside(self, at):
        """How far a point is outside; below 0 inside."""
        x, y = (abs(at[k] - self.middle[k]) - self.half[k] + self.round for k in (0, 1))
        return math.hypot(max(x, 0), max(y, 0)) + min(max(x, y), 0) - self.round

    def covers(self, other):
        return all(self.low[k] < other.high[k] - 0.05 and other.low[k] < self.high[k] - 0.05 for k in (0, 1))

    def cells(self):
        """The cells that it lies in or just beside."""
        across, down = (range(int((self.low[k] - 1) // CELL), int((self.high[k] + 1) // CELL) + 1) for k in (0, 1))
        return [(x, y) for x in across for y in down]

    def within(self, other):
        return all(self.low[k] >= other.low[k] - 0.05 and self.high[k] <= other.high[k] + 0.05 for k in (0, 1))


def floats(element, *names):
    return [float(element.get(name, 0)) for name in names]


def box(rect):
    return Box(*floats(rect, "x", "y", "width", "height", "rx"))


def text_box(text, anchor):
    x, y, size, wide = floats(text, "x", "y", "font-size", "textLength")
    want(abs(wide - 0.6 * size * len(text.text)) < 0.06, f"the width of {text.text!r}")
    return Box(x - (wide / 2 if anchor == "middle" else 0), y - 0.8 * size, wide, size)


def points(path):
    numbers = [float(n) for n in re.findall(r"-?[0-9.]+", path.get("d"))]
    return list(zip(numbers[::2], numbers[1::2]))


class Arrow:
    """A line, a cubic curve, with a head: a triangle, whose tip is its corner that is furthest from the line's end."""

    def __init__(self, group, colour, wide, few):
        self.title, self.colour, self.wide = group.findtext(NAME + "title"), colour, wide
        line, head = group.findall(NAME + "path")
        want(re.fullmatch("M[-0-9. ]*C[-0-9. ]*", line.get("d")) and head.get("fill") == colour, f"{self.title}: no arrow")
        a, b, c, d = points(line)
        corners = points(head)
        self.tip = max(corners, key=lambda corner: math.dist(corner, d))
        self.curve = []
        self.is_loop = math.dist(a, self.tip) < 20
        steps = max(20, int((math.dist(a, b) + math.dist(b, c) + math.dist(c, d)) / (2 if few else 10)))
        for k in range(steps + 1):
            t, u = k / steps, 1 - k / steps
            self.curve.append(tuple(u**3 * a[i] + 3 * u * u * t * b[i] + 3 * u * t * t * c[i] + t**3 * d[i] for i in (0, 1)))
        self.all = self.curve + corners

    def distance(self, at):
        return min(math.dist(at, point) for point in self.curve)


class Drawing:
    def __init__(self, text):
        self.root = ElementTree.fromstring(text)
        for element in self.root.iter():
            want(element.tag.removeprefix(NAME) in ALLOWED, f"an element {element.tag}")
            for name, value in element.items():
                want("href" not in name and "url(" not in value, f"a reference: {name}={value}")
                want(not re.search(r"\d\.\d\d", value), f"more than one decimal: {name}={value}")
        self.view = Box(*map(float, self.root.get("viewBox").split()))
        self.texts = {name: [text for group in self.groups(name) for text in group.findall(NAME + "text")] for name in ("caption", "legend")}
        self.caption = " ".join(text.text for text in self.texts["caption"])
        self.rings = sorted(floats(circle, "cx", "cy", "r") for circle in self.root.iter(NAME + "circle"))
        self.nodes = [(group, box(group.find(NAME + "rect"))) for group in self.groups("node")]
        self.near = {}
        for group, frame in self.nodes:
            for place in frame.cells():
                self.near.setdefault(place, []).append((group, frame))
        self.arrows = [
            Arrow(group, layer.get("stroke"), float(layer.get("stroke-width")), len(self.nodes) <= LABELLED)
            for layer in self.groups("edges")
            for group in layer.findall(NAME + "g")
        ]
        self.labels = [(group, box(group.find(NAME + "rect"))) for group in self.groups("label")]
        self.marks = self.legend_marks()

    def groups(self, name):
        return self.root.iterfind(f".//{NAME}g[@class='{name}']")

    def legend_marks(self):
        """The colours that the legend gives, by the text behind each."""
        marks, colour = {}, None
        for element in (child for group in self.groups("legend") for child in group):
            if element.tag == NAME + "text":
                marks[element.text], colour = colour, None
            else:
                colour = element.get("stroke") or element.get("fill")
        return marks


# ---- the lines that it shows


def ring_of(drawing, number, frame):
    middle = drawing.nodes[0][1].middle
    off = math.dist(frame.middle, middle)
    on = [k + 1 for k, (x, y, radius) in enumerate(drawing.rings) if abs(off - radius) < 0.3 and math.dist((x, y), middle) < 0.1]
    if off < 0.1:
        return 0
    want(len(on) == 1, f"node {number} is on the rings {on}")
    return on[0]


def node_lines(drawing):
    lines = []
    for group, frame in drawing.nodes:
        number, *rows = (text.text for text in group.findall(NAME + "text"))
        ring = ring_of(drawing, number, frame)
        literals = [re.fullmatch("(¬?)p([0-9]+)", literal).groups() for row in rows for literal in row.split(" ")]
        lines.append(f"node {number} ring {ring}" + "".join(f" {'-' if fails else '+'}{p}" for fails, p in literals))
        said = ", ".join(f"predicate {p} {'fails' if fails else 'holds'}" for fails, p in literals) or "nothing is known"
        want(group.findtext(NAME + "title") == f"node {number}, ring {ring}: {said}", f"the title of node {number}")
        for text in group.findall(NAME + "text"):
            want(text_box(text, "middle").within(frame), f"node {number}: a text leaves the box")
    return lines


def numbers(text):
    """The numbers of `0, 2, 4-7`."""
    ends = [part.split("-") for part in text.split(", ")]
    return [n for first, *last in ends for n in range(int(first), int((last or [first])[0]) + 1)]


def owners(drawing, frame, title):
    """The arrows that a label may belong to: those that run through its middle; else the loops that touch its border. With more nodes two arrows
    may run through its middle, and the title decides."""
    few = len(drawing.nodes) <= FEW
    arrows = [arrow for arrow in drawing.arrows if few or arrow.title == title]
    through = [arrow for arrow in arrows if not arrow.is_loop and arrow.distance(frame.middle) < 1.5]
    return through or [arrow for arrow in arrows if arrow.is_loop and any(frame.outside(at) < 4 for at in arrow.curve)]


def end_node(drawing, at, title):
    near = drawing.near.get((at[0] // CELL, at[1] // CELL), [])
    on = [group.findtext(NAME + "text") for group, frame in near if abs(frame.outside(at)) < 0.3]
    want(len(on) == 1, f"{title}: an end is at the nodes {on}")
    return int(on[0])


def edges(drawing):
    """For each arrow the nodes that it begins and ends at, and its actions."""
    labels = {}
    for group, frame in drawing.labels:
        text = " ".join(text.text for text in group.findall(NAME + "text"))
        at = owners(drawing, frame, group.findtext(NAME + "title"))
        want(len(at) == 1, f"the label {text} is at {len(at)} arrows: {[arrow.title for arrow in at]}")
        want(at[0] not in labels, f"{at[0].title}: two labels")
        labels[at[0]] = numbers(text)
        for text in group.findall(NAME + "text"):
            want(text_box(text, "middle").within(frame), f"{at[0].title}: a text leaves its label")
    found = {}
    for arrow in drawing.arrows:
        pair = end_node(drawing, arrow.curve[0], arrow.title), end_node(drawing, arrow.tip, arrow.title)
        want(pair not in found, f"two arrows for {pair}")
        said = [int(n) for n in re.split(", ", re.fullmatch("node .* to node .*: actions? (.*)", arrow.title).group(1))]
        found[pair] = labels.get(arrow, said if len(drawing.nodes) > LABELLED else [])
        some = f"action{'s' if len(said) > 1 else ''} {', '.join(map(str, found[pair]))}"
        want(arrow.title == f"node {pair[0]} to node {pair[1]}: {some}", f"{arrow.title}: but drawn is {pair}, {found[pair]}")
    return found


def path_lines(drawing, found):
    """The path's steps, by the marked arrows and the actions of the caption, and the finding's node."""
    colour, mark = drawing.marks.get("the path to the finding's node"), drawing.marks.get("the finding's node")
    rects = {int(group.findtext(NAME + "text")): group.find(NAME + "rect") for group, _ in drawing.nodes}
    marked = {pair: arrow for pair, arrow in zip(found, drawing.arrows) if arrow.colour == colour}
    nodes = {number for number, rect in rects.items() if colour and rect.get("stroke") == colour}
    finding = [number for number, rect in rects.items() if mark and rect.get("fill") == mark]
    if not drawing.caption.startswith("safe: "):
        want(len(finding) == 1, f"{len(finding)} nodes are marked as the finding's")
    lines, at, used = [], 0, set()
    actions = re.sub(".*; actions:| none|safe: .*", "", drawing.caption).split()
    for action in map(int, actions):
        step = [pair for pair in marked if pair[0] == at and action in found[pair]]
        want(len(step) == 1, f"{len(step)} marked arrows for action {action} from node {at}")
        lines.append(f"path {at} {action} {step[0][1]}")
        used.add(step[0])
        at = step[0][1]
    want(used == set(marked), f"marked, and not on the path: {set(marked) - used}")
    want(nodes == {pair[0] for pair in used} - set(finding), f"the marked nodes are {nodes}")
    plain = [arrow.wide for arrow in drawing.arrows if arrow.colour != colour]
    want(all(arrow.wide > wide for arrow in marked.values() for wide in plain), "the path is not wider than other arrows")
    borders = {number: float(rect.get("stroke-width")) for number, rect in rects.items()}
    want(all(borders[finding[0]] > borders[n] for n in borders if n != finding[0]) if finding else True, "the finding is not marked most")
    return lines + [f"finding {number}" for number in finding]


def shown(drawing):
    if not drawing.nodes:
        want(not drawing.arrows and "nodes 0" in drawing.caption, "neither nodes nor a caption that says so")
        return ["empty"]
    found = edges(drawing)
    steps = sorted((k, action, m) for (k, m), actions in found.items() for action in actions)
    return node_lines(drawing) + [f"edge {k} {action} {m}" for k, action, m in steps] + path_lines(drawing, found)


# ---- measuring


def overlaps(boxes):
    """A pair of boxes that overlap, if there is one."""
    boxes = sorted(boxes, key=lambda named: named[1].low[0])
    for k, (name, frame) in enumerate(boxes):
        for other, there in boxes[k + 1 :]:
            if there.low[0] >= frame.high[0]:
                break
            if frame.covers(there):
                return name, other
    return None


def through(drawing):
    """The arrows that run through a box that they neither begin nor end at."""
    for arrow in drawing.arrows:
        low, high = ([pick(at[k] for at in arrow.all) for k in (0, 1)] for pick in (min, max))
        around = Box(*low, high[0] - low[0], high[1] - low[1])
        for group, frame in drawing.nodes:
            ends = any(abs(frame.outside(at)) < 0.3 for at in (arrow.curve[0], arrow.tip))
            if not ends and around.covers(frame) and any(frame.outside(at) < 0 for at in arrow.all):
                yield f"{arrow.title} runs through node {group.findtext(NAME + 'text')}"


def measure(drawing, counts):
    titled = [(group.findtext(NAME + "title"), frame) for group, frame in drawing.nodes + drawing.labels]
    texts = [(text.text, text_box(text, "start")) for some in drawing.texts.values() for text in some]
    both = overlaps(titled + texts)
    want(not both, f"overlap: {both}")
    want(bool(drawing.labels) == (0 < len(drawing.nodes) <= LABELLED and bool(drawing.arrows)), f"{len(drawing.labels)} labels")
    if len(drawing.nodes) <= LABELLED:
        lost = list(through(drawing))
        want(not lost or len(drawing.nodes) > FEW, "; ".join(lost))
        counts["through"] += len(lost)
    for name, frame in titled + texts:
        want(frame.within(drawing.view), f"{name} leaves the picture")
    for x, y, radius in drawing.rings:
        want(Box(x - radius, y - radius, 2 * radius, 2 * radius).within(drawing.view), f"ring {radius} leaves the picture")
    for arrow in drawing.arrows:
        want(all(drawing.view.outside(at) <= 0 for at in arrow.all), f"{arrow.title} leaves the picture")


# ---- shows


def run(command, show=None):
    with open(show or "/dev/null", "rb") as file:
        done = subprocess.run(command, stdin=file, capture_output=True)
    return done.returncode, done.stdout.decode(), done.stderr.decode()


def differing(expected, drawn):
    missing, more = sorted(set(expected) - set(drawn)), sorted(set(drawn) - set(expected))
    return f"not drawn: {missing[:9]}; drawn: {more[:9]}; {len(expected)} lines, {len(drawn)} drawn"


def compare(companion, facts, show, counts):
    expected = run([facts], show)[1].splitlines()
    want(expected, "no facts")
    status, text, said = run([companion, "draw", show])
    want((status, text, said) == run([companion, "draw"], show), "another drawing on standard input")
    if not re.match("node|empty", expected[0]):
        said = re.sub(r"^refused: .* \((.*)\)$", r"refused \1", said.rstrip("\n"))
        want((status, text, [said]) == (3, "", expected), f"status {status}, {said!r}, {len(text)} characters")
        counts["refused"] += 1
        return
    want(status == expected[-1].startswith("finding ") and not said, f"status {status}, {said!r}")
    drawing = Drawing(text)
    drawn = shown(drawing)
    want(drawn == expected, differing(expected, drawn))
    sentence = run([companion, "findings", show])[1].splitlines()[0]
    want(drawing.caption.startswith(sentence), f"the caption is {drawing.caption!r}")
    measure(drawing, counts)
    for name, some in (("drawings", [1]), ("nodes", drawing.nodes), ("arrows", drawing.arrows), ("labels", drawing.labels)):
        counts[name] += len(some)


def main(companion, facts, *shows):
    counts = dict.fromkeys(("drawings", "nodes", "arrows", "labels", "refused", "through"), 0)
    failed = 0
    for show in shows:
        try:
            compare(companion, facts, show, counts)
        except Wrong as wrong:
            print(f"{show}: {wrong}")
            failed += 1
        except (ElementTree.ParseError, AttributeError, IndexError, TypeError, ValueError) as wrong:
            print(f"{show}: not to be read: {wrong!r}")
            failed += 1
    drawn = ", ".join(f"{counts[name]:,} {name}" for name in ("drawings", "nodes", "arrows", "labels", "refused"))
    print(f"{drawn}; {counts['through']} times an arrow runs through a box, in drawings of {FEW + 1} to {LABELLED} nodes")
    return 1 if failed else 0


if __name__ == "__main__":
    if len(sys.argv) < 4:
        sys.exit("usage: tests/drawing.py COMPANION FACTS SHOW..")
    sys.exit(main(*sys.argv[1:]))
