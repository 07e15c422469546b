#!/usr/bin/env python3
"""Request 3, what a contract cannot say, since contracts speak of values and not of looks: a row's words are taken from the list once.

Reads the MIR of the crates `reader` and `feed`, which is what is proved and compiled: `rt ci`, or `rt lib` in a crate's folder, leaves it in the library
that it builds. `row_at` makes the part that begins at its place, hands it to `read_row` and looks at no word. `read_row` has one loop. It takes words from
its part in one place there, at an index that begins with 0, is raised by one and set nowhere else; each word goes into what `feed::row_step` is fed, and
nowhere else. `read_rows` hands its list to `row_at`, in one place, and looks at no word. No function of `feed`, where the steps are, has a list at all.
A local of MIR is a number; 1 is the first parameter, the list.
"""
import json
import sys

from definitions import ROOT


def number(value, width=64):
    return {"Int": {"width": width, "value": value}}


def copy(local, *steps):
    return {"Copy": {"local": local, "steps": list(steps)}}


POINTER, WHOLE = copy(1, {"Field": 0}), copy(1)


def functions():
    """Each function of the two crates, by its name."""
    made = {}
    for crate in ("feed", "reader"):
        path = ROOT / f"crates/{crate}/out/rlib/{crate}.rlib/toolchain/mir.json"
        if not path.exists():
            sys.exit(f"there is no {path.relative_to(ROOT)}: `rt ci` leaves it there, or `rt lib` in crates/{crate}")
        made.update(json.loads(path.read_text()))
    return made


def parts(node):
    """The node and all that it is made of."""
    yield node
    for inner in node.values() if isinstance(node, dict) else node if isinstance(node, list) else ():
        yield from parts(inner)


def times(body, wanted):
    return sum(part == wanted for part in parts(body))


def named(body, kind):
    """What stands under a word such as Assign, in order."""
    return [part[kind] for part in parts(body) if isinstance(part, dict) and kind in part]


def read_from(body, local):
    """The places that are read and begin with a local."""
    return [place for kind in ("Copy", "Move") for place in named(body, kind) if place["local"] == local]


def looks(body):
    """The reads by way of a pointer."""
    return [place for kind in ("Copy", "Move") for place in named(body, kind) if any("Deref" in step for step in place["steps"])]


def set_to(body, local):
    """What is assigned to a local, and the calls that give it."""
    assigned = [value for place, value in named(body, "Assign") if place["local"] == local]
    return assigned + [call for call in named(body, "Call") if call[-1]["local"] == local]


def called(call):
    """The function's name; none for a pointer or a closure."""
    return call[0]["Fn"][0] if "Fn" in call[0] else None


def calls(body):
    return [called(call) for call in named(body, "Call")]


def has_list(function):
    return any(part[0].startswith("&") and "[]" in part[0] for part in named(function["locals"], "Struct"))


def feeding(body):
    """The faults of the row reader."""
    loops = [at for at, word in enumerate(body) if word == "Loop"]
    if len(loops) != 1 or times(body[:loops[0]], POINTER):
        return ["reader::read_row has not one loop, or looks before it"]
    taken = [(place["local"], value["Opd"]["Copy"]["local"]) for place, value in named(body, "Assign")
             if value.get("Opd", {}).get("Copy", {}).get("steps") == [{"Deref": {"Int": 32}}]]
    indices = [value["Op2"][1]["Copy"]["local"] for _, value in named(body, "Assign")
               if "Op2" in value and value["Op2"][0] == {"Mul": "Unsigned"} and value["Op2"][2] == number(4) and "Copy" in value["Op2"][1]]
    if times(body, POINTER) != 1 or len(looks(body)) != 1 or len(taken) != 1 or len(indices) != 1:
        return ["reader::read_row does not take words from its list in one place"]
    if times(body, WHOLE):
        return ["reader::read_row hands its list on"]
    word, index = taken[0][0], indices[0]
    raised = {"Op2": [{"Add": "Unsigned"}, copy(index), number(1)]}
    if set_to(body, index) != [{"Opd": number(0)}, raised]:
        return ["the index in reader::read_row's list does not begin with 0 and rise by one"]
    seen = [place["local"] for place, value in named(body, "Assign") if value == {"Aggregate": [number(1, 8), copy(word)]}]
    fed = [call for call in named(body, "Call") if called(call) == "feed::row_step" and seen and call[1][-1] == copy(seen[0])]
    if len(seen) != 1 or len(fed) != 1 or len(read_from(body, word)) != 1 or len(read_from(body, seen[0])) != 1:
        return ["a word of reader::read_row's list goes elsewhere than to feed::row_step"]
    return []


def faults(made):
    if not {"feed::row_step", "reader::read_row", "reader::row_at", "reader::read_rows"} <= set(made):
        return ["a function is missing"]
    found = [f"{name} sees a list" for name in made if name.startswith("feed::") and has_list(made[name])]
    at, rows = made["reader::row_at"]["body"], made["reader::read_rows"]["body"]
    if not has_list(made["reader::row_at"]):
        found.append("reader::row_at has no list, or the MIR spells it in another way")
    if calls(at) != ["reader::read_row"] or times(at, WHOLE) or looks(at) or times(at, POINTER) != 1:
        found.append("reader::row_at does more than hand a part to reader::read_row")
    if calls(rows).count("reader::row_at") != 1 or times(rows, WHOLE) != 1 or times(rows, POINTER) or looks(rows):
        found.append("reader::read_rows does more with its list than hand it to reader::row_at, in one place")
    return found + feeding(made["reader::read_row"]["body"])


if __name__ == "__main__":
    found = faults(functions())
    print("\n".join(found) or "a row's words are taken from the list in one place, each once")
    sys.exit(bool(found))
