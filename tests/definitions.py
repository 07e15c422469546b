"""The definitions of the crates, name by name: what stands in specs/ and proofs/, and the types that src/ declares.

It reads as much of antt and Rattle as the crates use, and stops at a name that it cannot resolve, so that nothing is passed over.
"""
import re
from pathlib import Path

ROOT = Path(__file__).resolve().parent.parent
# The kit's: what its paths begin with, and the libraries behind `Rattle.`.
LIBRARIES = ("mathlib", "Prim", "lib", "mir", "native", "borrow")
OF_THE_KIT = ("core", "io", "libc", "os", "std", "std_alloc", "std_collections", "std_heap", "std_io")
MODIFIERS = {"abbrev", "unfoldable", "opaque", "pub"}
LANGUAGE = {
    "→", "×", "=", ":", "λ", ".", "record", "do", "let", "in", "←", "_", "Type", "Unit", "⊥", "∷", "[]", ";", ",", "(", ")", "{", "}",
    "where", "[", "]",
}
# Stands in a definition whose clauses are beyond the scripts, as proofs may be: an error where it is reached.
UNREAD = "a clause that the scripts cannot read"
TOKEN = re.compile(r'"[^"]*"|\[\]|[(){}\[\];,λ]|[^\s(){}\[\];,λ"]+')


class Unknown(Exception):
    """Something that the scripts cannot read."""


def tokens(text):
    return TOKEN.findall(text)


class Definition:
    """A definition, a data type or a record: its lines, those of its signature, and what it names."""

    def __init__(self, file, name, kind):
        self.file, self.name, self.kind = file, name, kind
        self.public = False
        self.lines = 0
        self.signature = 0
        self.types = set()
        self.body = set()

    def __repr__(self):
        return f"{self.file}:{self.name}"


class File:
    """A file of specs/ or proofs/."""

    def __init__(self, path):
        self.path, self.folder = path, path.parts[-2]
        self.head = []
        self.used = {}
        self.own = {}
        self.parts = {}
        self.definitions = []

    def __repr__(self):
        return str(self.path.relative_to(ROOT))

    def title(self):
        """The first sentence of the file."""
        lines = [line.removeprefix("--").strip() for line in self.head]
        return re.split(r"(?<![ .])\.(?: |$)", " ".join(lines[:lines.index("")] if "" in lines else lines))[0]


def without_comment(line):
    return re.sub(r'(^|\s)--( .*|-*)?$', "", line).rstrip()


def used_names(line):
    """`use PATH.{a, b as c}`, or with groups in the group, `use PATH.{M.{a}, N.{b}}`: each path, and each name here with its name there."""
    found = re.match(r"\s*(?:ghost |pub )?use ([^{]*)\.\{(.*)\};?\s*$", line)
    if not found:
        raise Unknown(f"a use that cannot be read: {line}")
    path, names = found[1].strip(), {}
    for one in re.findall(r"(?:[^,{]|\{[^{}]*\})+", found[2]):
        if "{" in one:
            yield from used_names(f"use {path}.{one.strip()}")
            continue
        there, _, here = one.strip().partition(" as ")
        names[here.strip() or there] = there
    if names:
        yield path, names


def types_used(text):
    """What a source file takes from other crates by `use CRATE::NAME;` or `use CRATE::{NAME, NAME};`: each name and its crate."""
    return {name: crate for crate, names in re.findall(r"^use (\w+)::(\w+|\{[^}]*\});", text, re.M) for name in re.findall(r"\w+", names)}


def mixfix(table, name):
    """Every part of a name such as `◌++◌` stands for it."""
    if "◌" in name:
        for part in name.split("◌"):
            if part:
                table.setdefault(part, name)


def head(name):
    """What a projection such as `p.ranges` or `words.now` begins with."""
    return name.split(".")[0]


class Walk:
    """The names of a text that stand for no variable bound there."""

    def __init__(self, bound):
        self.scopes = [set(bound)]
        self.found = []

    def add(self, text):
        self.run(text if isinstance(text, list) else tokens(text))
        return self

    def bind(self, name):
        self.scopes[-1].add(name)

    def run(self, ts):
        groups = []
        i, n = 0, len(ts)
        while i < n:
            t = ts[i]
            before = ts[i - 1] if i else ""
            after = ts[i + 1] if i + 1 < n else ""
            if t in "({":
                names = []
                j = i + 1
                while j < n and ts[j] not in LANGUAGE and not ts[j].startswith("."):
                    names.append(ts[j])
                    j += 1
                is_binder = bool(names) and j < n and ts[j] == ":"
                groups.append((names if is_binder else [], before == "record" and t == "{"))
                self.scopes.append(set())
                i = j + 1 if is_binder else i + 1
                continue
            if t in ")}":
                self.scopes.pop()
                for name in groups.pop()[0]:
                    self.bind(name)
            elif t == "λ":
                i += 1
                while not ts[i].endswith("."):
                    if ts[i] in "({":
                        closed = i + ts[i:].index(")" if ts[i] == "(" else "}")
                        self.run(ts[i:closed + 1])
                        i = closed
                    else:
                        self.bind(ts[i])
                    i += 1
                self.bind(ts[i].rstrip("."))
            elif t == "let" or after == "←":
                self.bind(after if t == "let" else t)
                i += 1
            elif groups and groups[-1][1] and before in "{;" and after == "=":
                pass
            elif t in LANGUAGE or t.startswith(".") or t.startswith('"') or re.fullmatch(r"[0-9][0-9A-Fa-fx_]*", t):
                pass
            elif not any(t in s or head(t) in s for s in self.scopes):
                self.found.append(t)
            i += 1


def chunks(lines):
    """The lines of code: number, indentation and text."""
    out = []
    for number, line in enumerate(lines, 1):
        code = without_comment(line)
        if not code.strip():
            continue
        indent = len(code) - len(code.lstrip())
        out.append((number, indent, code))
    return out


class Crates:
    def __init__(self):
        self.files = {}
        self.declared = {}
        for path in sorted((ROOT / "crates").glob("*/src/*.rt")):
            self.read_types(path)
        for folder in ("specs", "proofs"):
            for path in sorted((ROOT / "crates").glob(f"*/{folder}/*.antt")):
                if path.name != "Lib.antt":
                    self.files[(path.parts[-3], folder, path.stem)] = File(path)

    # ---- the types of src/
    def read_types(self, path):
        crate = path.parts[-3]
        text = re.sub(r"//.*", "", path.read_text())
        uses = types_used(text)
        for kind, name, tail in re.findall(r"\b(struct|enum) (\w+)(?:<'a>)?\s*((?:\{[^}]*\})|(?:\([^)]*\);))", text):
            inside = " ".join(re.findall(r"\(([^)]*)\)", tail)) if kind == "enum" else tail
            named = {(uses.get(t, crate), t) for t in re.findall(r"\b[A-Z]\w*", inside)}
            self.declared[(crate, name)] = named

    # ---- the files of specs/ and proofs/
    def file(self, key):
        if key not in self.files:
            raise Unknown(f"no file {key}")
        f = self.files[key]
        if not f.definitions and not f.used:
            self.read_file(f)
        return f

    def in_order(self):
        """The files that have been read, from the bottom up as crates.txt has the crates, each crate's as its Lib.antt has them."""
        crates = re.findall(r"^(\w+)[^:\n]*:", (ROOT / "crates.txt").read_text(), re.M)

        def place(key):
            lib = self.files[key].path.with_name("Lib.antt").read_text()
            return crates.index(key[0]), key[1] == "proofs", re.findall(r"mod (\w+)", lib).index(key[2])

        return [self.files[key] for key in sorted(self.files, key=place) if self.files[key].definitions]

    def use(self, table, parts, line):
        for path, names in used_names(line):
            found = re.fullmatch(r"Rattle\.(\w+)\.(specs|proofs)\.(.*)", path)
            if found and found[1] in OF_THE_KIT:
                found = None
            elif not found and head(path) not in LIBRARIES:
                raise Unknown(f"a path that cannot be read: {line}")
            for here, there in names.items():
                table[here] = self.meant(*found.groups(), there) if found else None
                mixfix(parts, here)

    def meant(self, crate, folder, rest, name):
        """What a name of a file stands for."""
        if rest.startswith("declared."):
            return "declared", crate, rest.split(".")[1]
        return "file", (crate, folder, rest), name

    def read_file(self, f):
        lines = f.path.read_text().splitlines()
        for line in lines:
            if not line.startswith("--"):
                break
            f.head.append(line)
        got = chunks(lines)
        self.read_block(f, got, 0, len(got), 0, [])

    def read_block(self, f, got, i, end, indent, section):
        while i < end:
            code = got[i][2]
            j = i + 1
            while j < end and got[j][1] > indent:
                j += 1
            block = got[i:j]
            words = code.split()
            plain = [w for w in words if w not in MODIFIERS]
            if words[0] == "use" or words[:2] == ["pub", "use"]:
                self.use(f.used, f.parts, " ".join(b[2] for b in block))
            elif words[0].startswith("infix") or words[0] == "unfolding":
                pass
            elif words[0] == "module":
                if j > i + 1:
                    self.read_block(f, got, i + 1, j, got[i + 1][1], section + [code])
            elif plain[0] in ("data", "record"):
                self.read_type(f, block, plain[0], section)
            else:
                self.read_clause(f, block, section)
            i = j

    def bound(self, section):
        """A walk that knows the parameters of the sections around."""
        walk = Walk(())
        for line in section:
            walk.add(tokens(line)[2:])
        return walk

    def read_type(self, f, block, kind, section):
        line = tokens(block[0][2])
        fields = 1
        while "where" not in line:
            line += tokens(block[fields][2])
            fields += 1
        at = line.index(kind) + 1
        d = self.define(f, line[at], kind, block, "pub" in line[:at])
        walk = self.bound(section).add(line[at + 1:])
        for _, _, line in block[fields:]:
            ts = [t for t in tokens(line) if t != "pub"]
            if ":" in ts and all(t not in LANGUAGE for t in ts[:ts.index(":")]) and ts[0] not in ("→", "×"):
                names = ts[:ts.index(":")]
                inner = Walk(walk.scopes[0])
                inner.add(ts[ts.index(":") + 1:])
                d.body |= set(inner.found)
                for name in names:
                    if kind == "data":
                        f.own[name] = d
                        mixfix(f.parts, name)
                    else:
                        walk.bind(name)
            else:
                inner.add(ts)
                d.body |= set(inner.found)
        d.body |= set(walk.found)

    def define(self, f, name, kind, block, public):
        d = Definition(f, name, kind)
        d.public, d.lines = public, len(block)
        f.own[name] = d
        mixfix(f.parts, name)
        f.definitions.append(d)
        return d

    def read_clause(self, f, block, section):
        ts = tokens("\n".join(b[2] for b in block))
        marks = [t for t in ts if t in MODIFIERS]
        ts = [t for i, t in enumerate(ts) if not (t in MODIFIERS and i < 3)]
        name = ts[0]
        if len(ts) > 1 and ts[1] == ":":
            d = self.define(f, name, "definition", block, "pub" in marks)
            d.signature = len(block)
            d.types = set(self.bound(section).add(ts[2:]).found)
            return
        d = f.own.get(name)
        if d is None or d.kind != "definition":
            raise Unknown(f"{f}:{block[0][0]}: a clause of what?")
        d.lines += len(block)
        try:
            self.read_body(f, d, ts, section)
        except IndexError:
            d.body.add(UNREAD)

    def read_body(self, f, d, ts, section):
        at, depth = 1, 0
        while ts[at] != "=" or depth:
            depth += (ts[at] in "({") - (ts[at] in ")}")
            at += 1
        walk = self.bound(section)
        for t in ts[1:at]:
            if self.is_constructor(f, t):
                d.body.add(t)
            elif t not in LANGUAGE:
                walk.bind(t)
        d.body |= set(walk.add(ts[at + 1:]).found)

    def is_constructor(self, f, name):
        name = f.parts.get(name, name) if name not in f.own and name not in f.used else name
        if name in f.own:
            return f.own[name].kind == "data"
        if name in f.used:
            what = f.used[name]
            if what is None:
                return False
            if what[0] == "declared":
                return True
            d = self.lookup(what[1], what[2])
            return isinstance(d, Definition) and d.kind == "data"
        return head(name) != name and self.is_constructor(f, head(name))

    # ---- names
    def lookup(self, key, name):
        """What a name of a file stands for there; a file may pass on (`pub use`) what it took from another."""
        f = self.file(key)
        if name in f.own:
            return f.own[name]
        what = f.used.get(name)
        if what is None or what[0] == "declared":
            if name not in f.used:
                raise Unknown(f"{'/'.join(key)} has no {name}")
            return what
        return self.lookup(what[1], what[2])

    def resolve(self, f_used, f_own, f_parts, name, where):
        """The definition or type that a name stands for; None for the libraries' names."""
        for one in (name, f_parts.get(name), head(name)):
            if one in f_own:
                return f_own[one]
            if one in f_used:
                what = f_used[one]
                if what is None:
                    return None
                if what[0] == "declared":
                    return what
                return self.lookup(what[1], what[2])
        raise Unknown(f"{where}: `{name}` cannot be resolved")

    def named_by(self, d, with_body=True):
        """What a definition names."""
        f = d.file
        names = d.types | d.body if with_body else d.types
        return {r for r in (self.resolve(f.used, f.own, f.parts, n, d) for n in sorted(names)) if r is not None}

    # ---- contracts
    def contracts(self, crate, functions):
        """What the `ensures` of functions name; with no list, of every exported one. A `requires` there is a fault."""
        path = ROOT / "crates" / crate / "src/lib.rt"
        text = path.read_text()
        # Clauses have the variants of `Option` and `Result` without an import.
        used, parts, found, left = dict.fromkeys(("Ok", "Err", "Some", "None")), {}, set(), set(functions or ())
        for line in text.splitlines():
            if line.startswith("ghost use"):
                self.use(used, parts, line)
        for at in re.finditer(r"^\s*pub (extern \"C\" )?fn (\w+)", text, re.M):
            name = at[2]
            if functions and name not in functions or not functions and not at[1]:
                continue
            left.discard(name)
            header = text[at.start():re.compile(r"^\s*\{\n", re.M).search(text, at.end()).start()]
            header = re.sub(r"//.*", "", header)
            if "requires" in header:
                raise Unknown(f"{crate}::{name} has a `requires`")
            clauses = re.split(r"\n\s*ensures\b[^{]*", header)
            if len(clauses) < 2:
                raise Unknown(f"{crate}::{name} ensures nothing")
            walk = Walk(re.findall(r"(\w+)\s*:", clauses[0]) + ["self", "result"])
            for clause in clauses[1:]:
                inner = Walk(walk.scopes[0])
                inner.add(clause)
                found |= {r for r in (self.resolve(used, {}, parts, n, f"{crate}::{name}") for n in inner.found) if r is not None}
            uses = types_used(text)
            for t in set(re.findall(r"\b[A-Z]\w*", clauses[0])) - {"C", "Self", "Option", "Result"}:
                found.add(("declared", uses.get(t, crate), t))
        if left:
            raise Unknown(f"{crate} has no public {', '.join(sorted(left))}")
        return found

    def reached(self, roots):
        seen, stack = set(), list(roots)
        while stack:
            d = stack.pop()
            if d in seen:
                continue
            seen.add(d)
            if isinstance(d, tuple):
                stack += [("declared", *t) for t in self.declared[d[1:]] if t in self.declared]
            else:
                stack += self.named_by(d)
        return seen
