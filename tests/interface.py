#!/usr/bin/env python3
"""The embedding interface says the same in its three texts: crates/exports/src/lib.rt, include/bulanevior.h and wrapper/src/raw.rs.

Compared are every record's fields and every function's parameters (names, types, order) and result, and every constant BNV_..; a Rattle slice is
a pointer and a length. The header and raw.rs have the same constants; lib.rt has the answers, the code below it kinds, refusals and limits, and
words/specs/Limits the other limits. The man page has the header's functions, to the letter but for spaces, and the header of
sentences a case for every answer and every refusal. The header's macros that take a field out of a word are the bits that the contracts of `words` name. The version
stands in all the files of VERSIONS, and as a number in the three texts. Prints each difference.

The form is looked at too. In the header nothing stands but records, functions, constants and what SHELL names, a constant that is an
expression is in parentheses, and numbers have a `u`, but for those of SIGNED. In the other two every record is `repr(C)`, every constant is a u32, in
raw.rs an i32 where it is one of SIGNED, and nothing stands that STRAYS names; in lib.rt every function is `no_mangle`.

Then all this is tried: each two neighbouring fields and each two neighbouring parameters exchanged, each result and each constant changed, in
each text in turn, each field and each version changed, and each change of FORMS at each of its places, has to be a difference.
"""
import re
import sys

from functools import lru_cache
from itertools import accumulate, zip_longest
from pathlib import Path

ROOT = Path(__file__).resolve().parent.parent
RATTLE, HEADER, RUST = TEXTS = "crates/exports/src/lib.rt", "include/bulanevior.h", "wrapper/src/raw.rs"
# Where the version stands, beside the header, and how.
LOCKED = r'^name = "(?:bulanevior|companion)"\nversion = "([^"]*)"'
VERSIONS = {
    "CHANGELOG.md": r"\A# Changes\n[^#]*^## (\S+)",
    **{f"{crate}/Cargo.toml": r'^version = "([^"]*)"' for crate in ("wrapper", "companion")},
    **{f"{crate}/Cargo.lock": LOCKED for crate in ("wrapper", "companion", "compare", "bench")},
}
WORDS = "crates/words/src/lib.rt"
MANUAL, SENTENCES = "docs/man/bulanevior.3", "include/bulanevior_text.h"
# Constants that stand in the code below: a pattern for the end of the name and the number, and the name in the header.
BELOW = {
    WORDS: [
        (r"const (\w+): Kind = Kind\((\d+)\);", "BNV_{}"),
        (r"Refusal::(\w+)(?:\(_\))? => (\d+),", "BNV_REFUSED_{}"),
        (r"const (NODES|ACTIONS): usize = (\d+);", "BNV_MOST_{}"),
        (r"const (START): u32 = (\d+);", "BNV_{}"),
    ],
    "crates/records/src/lib.rt": [(r"const (HEADER): usize = (\d+);", "BNV_{}_WORDS")],
    "crates/verdict/src/lib.rt": [(r"const (PATH)_ROOM: usize = (\d+);", "BNV_{}_WORDS")],
    "crates/show/src/lib.rt": [(r"const (BYTES|WORDS): usize = (\d+);", "BNV_SHOW_{}")],
}
# The limits that the code has no names for: the definition, and its names in the header.
LIMITS = "crates/words/specs/Limits.antt"
LIMITED = {
    "most_variables": ["BNV_MOST_VARIABLES"],
    "most_rows": ["BNV_MOST_START_ROWS", "BNV_MOST_GUARD_ROWS", "BNV_MOST_ASSIGNMENTS"],
    "most_predicates": ["BNV_MOST_PREDICATES"],
    "most_forbidden": ["BNV_MOST_FORBIDDEN"],
    "least_constant": ["BNV_LEAST_CONSTANT"],
    "most_constant": ["BNV_MOST_CONSTANT"],
    "least_coefficient": ["BNV_LEAST_COEFFICIENT"],
    "most_coefficient": ["BNV_MOST_COEFFICIENT"],
    "most_multiplier": ["BNV_MOST_MULTIPLIER"],
    "most_lemmas": ["BNV_MOST_LEMMAS"],
}
# The functions of `words` whose contract says which bits of a word they give, and the macro that gives them.
FIELDS = {
    "low_end": "BNV_VAR_LOW",
    "high_end": "BNV_VAR_HIGH",
    "constant": "BNV_ROW_CONSTANT",
    "variable": "BNV_TERM_VARIABLE",
    "coefficient": "BNV_TERM_COEFFICIENT",
    "guards": "BNV_ACTION_GUARD_ROWS",
    "assignments": "BNV_ACTION_ASSIGNMENTS",
    "source": "BNV_LEMMA_SOURCE",
    "goal": "BNV_LEMMA_GOAL",
    "index": "BNV_LEMMA_INDEX",
}
# The header makes two out of others, two are the ends of a field, the goals have no names in the code, and the last is no number.
GOALS = {f"BNV_GOAL_{goal}" for goal in ("NEVER", "HOLDS", "FAILS", "LOW", "HIGH")}
NOT_BELOW = {"BNV_GRAPH_WORDS", "BNV_MOST_FINDINGS", "BNV_LOWEST", "BNV_HIGHEST", "BNV_VERSION"} | GOALS
SIGNED = {f"BNV_{which}_{what}" for which in ("LEAST", "MOST") for what in ("CONSTANT", "COEFFICIENT")} | {"BNV_LOWEST", "BNV_HIGHEST"}
# What stands in the header around records, functions and constants, which are "..".
SHELL = """\
#ifndef BULANEVIOR_H
#define BULANEVIOR_H
#include <stddef.h>
#include <stdint.h>
#ifdef __cplusplus
extern "C" {
static_assert(sizeof(size_t) == 8, "64-bit numbers only");
#else
_Static_assert(sizeof(size_t) == 8, "64-bit numbers only");
#endif
..
#define BNV_KIND(word) ((uint32_t)(word) >> 28)
#define BNV_PAYLOAD(word) ((uint32_t)(word) & 0x0FFFFFFFu)
#define BNV_WORD(kind, payload) ((uint32_t)(kind) << 28 | BNV_PAYLOAD(payload))
..
#define BNV_MAKE_VAR(low, high) BNV_WORD(BNV_VAR, ((uint32_t)(low) & 16383u) << 14 | ((uint32_t)(high) & 16383u))
#define BNV_MAKE_ROW(constant) BNV_WORD(BNV_ROW, constant)
#define BNV_MAKE_TERM(variable, coefficient) BNV_WORD(BNV_TERM, ((uint32_t)(variable) & 15u) << 24 | ((uint32_t)(coefficient) & 65535u))
#define BNV_MAKE_INIT(rows) BNV_WORD(BNV_INIT, rows)
#define BNV_MAKE_PRED(predicates) BNV_WORD(BNV_PRED, predicates)
#define BNV_MAKE_ACTION(guard_rows, assignments) BNV_WORD(BNV_ACTION, ((uint32_t)(guard_rows) & 15u) << 4 | ((uint32_t)(assignments) & 15u))
#define BNV_MAKE_SET(variable) BNV_WORD(BNV_SET, variable)
#define BNV_MAKE_SETS(hold, fail) BNV_WORD(BNV_SETS, ((uint32_t)(fail) & 16383u) << 14 | ((uint32_t)(hold) & 16383u))
#define BNV_MAKE_LEMMA(source, goal, index) \\
BNV_WORD(BNV_LEMMA, ((uint32_t)(source) & 255u) << 20 | ((uint32_t)(goal) & 15u) << 16 | ((uint32_t)(index) & 255u))
#define BNV_MAKE_MULT(multiplier) BNV_WORD(BNV_MULT, multiplier)
#define BNV_MAKE_END() BNV_WORD(BNV_END, 0)
#define BNV_VAR_LOW(word) ((int32_t)(((uint32_t)(word) >> 14 & 16383u) ^ 8192u) - 8192)
#define BNV_VAR_HIGH(word) ((int32_t)(((uint32_t)(word) & 16383u) ^ 8192u) - 8192)
#define BNV_ROW_CONSTANT(word) ((int32_t)(BNV_PAYLOAD(word) ^ 134217728u) - 134217728)
#define BNV_TERM_VARIABLE(word) ((uint32_t)(word) >> 24 & 15u)
#define BNV_TERM_COEFFICIENT(word) ((int32_t)(((uint32_t)(word) & 65535u) ^ 32768u) - 32768)
#define BNV_ACTION_GUARD_ROWS(word) ((uint32_t)(word) >> 4 & 15u)
#define BNV_ACTION_ASSIGNMENTS(word) ((uint32_t)(word) & 15u)
#define BNV_SETS_HOLD(word) ((uint32_t)(word) & 16383u)
#define BNV_SETS_FAIL(word) ((uint32_t)(word) >> 14 & 16383u)
#define BNV_LEMMA_SOURCE(word) ((uint32_t)(word) >> 20 & 255u)
#define BNV_LEMMA_GOAL(word) ((uint32_t)(word) >> 16 & 15u)
#define BNV_LEMMA_INDEX(word) ((uint32_t)(word) & 255u)
#define BNV_RECORD(actions, node) ((size_t)(node) * (BNV_HEADER_WORDS + (size_t)(actions)))
#define BNV_ORIGIN_NONE(word) (BNV_PAYLOAD(word) == 8191u)
#define BNV_ORIGIN_PARENT(word) ((uint32_t)(word) >> 4 & 511u)
#define BNV_ORIGIN_ACTION(word) ((uint32_t)(word) & 15u)
#define BNV_EDGE_NONE(word) (BNV_PAYLOAD(word) == 268435455u)
#define BNV_FINDING_NODE(word) ((uint32_t)(word) >> 19 & 511u)
#define BNV_FINDING_RUN_OFF(word) ((uint32_t)(word) >> 18 & 1u)
#define BNV_FINDING_ACTION(word) ((uint32_t)(word) >> 14 & 15u)
#define BNV_FINDING_PLACE(word) ((uint32_t)(word) >> 11 & 7u)
#define BNV_FINDING_HIGH(word) ((uint32_t)(word) & 1u)
..
#ifdef __cplusplus
}
#endif
#endif""".split("\n")
# What may not stand in the other texts: attributes but these, another ABI than C, comments that the reader does not know, and a `Default`.
DERIVED = r"(?:(?:Clone|Copy|Debug|PartialEq|Eq)(?:, )?)+"
STRAYS = {
    RATTLE: r'#(?!\[repr\(C\)\]|\[derive\(Clone, Copy\)\]|\[unsafe\(no_mangle\)\]|!\[tactic\(auto\)\]).*|\bextern\b(?! "C" fn bnv_).*|/\*.*',
    RUST: r'#(?!\[repr\(C\)\]|\[derive\(%s\)\]).*|\bextern\b(?! "C" \{).*|/\*.*|\bDefault\b.*' % DERIVED,
}
# Changes of form: the text, what stands there, and what stands there afterwards.
FORMS = [
    (HEADER, "typedef struct {", "#pragma pack(1)\ntypedef struct {"),
    (HEADER, "typedef struct {", "#define refusal value\ntypedef struct {"),
    (HEADER, "typedef struct {", "# define refusal value\ntypedef struct {"),
    (HEADER, "typedef struct {", "typedef struct __attribute__((packed)) {"),
    (HEADER, "#define BNV_SAFE 4u", "#define BNV_SAFE 4u\n#undef BNV_SAFE"),
    (HEADER, "#define BNV_SAFE 4u", "#define BNV_SAFE 4u\n#define BNV_SAFE 4u"),
    (HEADER, "#define BNV_SAFE 4u", "#define BNV_SAFE 4u /*\n*/ - 1u"),
    (HEADER, "#define BNV_SAFE 4u", "#define BNV_SAFE 3u + 1u"),
    (HEADER, "#define BNV_SAFE 4u", "#define BNV_SAFE (3u) + (1u)"),
    (HEADER, "#define BNV_SAFE 4u", "#ifdef __cplusplus\n#define BNV_SAFE 4u\n#endif"),
    (HEADER, "(word) >> 28", "(word) >> 27"),
    (HEADER, "BNV_LOWEST (-8192)", "BNV_LOWEST (-8192u)"),
    (HEADER, "BNV_MOST_LEMMAS 512u", "BNV_MOST_LEMMAS 512"),
    (HEADER, "(void)", "()"),
    (RUST, ": i32 =", ": u32 ="),
    (RUST, "#[repr(C)]", "#[repr(packed)]"),
    (RUST, "#[repr(C)]", "#[repr(C)]\n#[repr(packed)]"),
    (RUST, "#[repr(C)]", "#[repr(C, packed)]"),
    (RUST, "derive(Clone", "derive(Default, Clone"),
    (RUST, 'extern "C"', 'extern "Rust"'),
    (RUST, "    fn bnv_", '    #[link_name = "bnv_other"]\n    fn bnv_'),
    (RUST, ": u32 =", ": u64 ="),
    (RATTLE, ": u32 =", ": u64 ="),
    (RATTLE, "#[repr(C)]", ""),
    (RATTLE, "#[unsafe(no_mangle)]", ""),
    (RATTLE, "derive(Clone", "derive(Default, Clone"),
    (RATTLE, 'extern "C"', 'extern "Rust"'),
]
C_TYPES = {"uint8_t": "u8", "uint32_t": "u32", "int32_t": "i32", "size_t": "usize"}


class Unread(Exception):
    pass


class Item:
    """A field or a parameter: its place in the text, and what it is there, name and type; a slice is two."""

    def __init__(self, name, begin, text, read):
        lead = len(text) - len(text.lstrip())
        self.begin, self.end = begin + lead, begin + len(text.rstrip())
        self.parts = read(name, " ".join(text.split()))


def read_rust(name, text):
    """`pub field: type`, `parameter: type`."""
    found = re.fullmatch(r"(?:pub )?(\w+): (.+)", text)
    if not found:
        raise Unread(f"{name}: {text}")
    item, kind = found.groups()
    part = re.fullmatch(r"&(mut )?\[(\w+)\]", kind)
    if part:
        return [(item, f"*{'mut' if part[1] else 'const'} {part[2]}"), (f"{item}_length", "usize")]
    return [(item, kind)]


def read_c(name, text):
    """`type name`, `type *name`, `const type *name`."""
    found = re.fullmatch(r"(const )?(\w+) (\*?)(\w+)", text)
    if not found:
        raise Unread(f"{name}: {text}")
    const, kind, star, item = found.groups()
    kind = C_TYPES.get(kind, kind)
    return [(item, f"*{'const' if const else 'mut'} {kind}" if star else kind)]


def enclosed(text):
    """Is the whole text in one pair of parentheses?"""
    depths = list(accumulate({"(": 1, ")": -1}.get(c, 0) for c in text))
    return depths[-1] == 0 and all(depth > 0 for depth in depths[:-1])


@lru_cache(maxsize=8)
class Text:
    """What one text says. Comments are blanked, so that places stay as they are."""

    def __init__(self, name, source):
        self.name, self.source = name, source
        c = name == HEADER
        comment = r"/\*.*?\*/" if c else r"//[^\n]*"
        self.plain = re.sub(comment, lambda m: re.sub(r"\S", " ", m[0]), source, flags=re.S)
        self.read, self.stop = (read_c, ";") if c else (read_rust, ",")
        self.records, self.functions, self.results, self.constants, self.spans, self.prototypes = {}, {}, {}, {}, [], []
        if c:
            self.take_records(r"typedef struct \{(?P<items>[^}]*)\} (?P<name>\w+);", r"\btypedef\b")
            self.take_functions(r"\b(?P<result>\w+) (?P<name>bnv_\w+)\((?P<items>[^)]*)\);", r"\bbnv_\w+")
            self.take_constants(r"^#define (BNV_\w+)[ \t]+(.*\S)", r"#define BNV_\w+\s")
            self.compare_shell()
        else:
            for found in re.finditer(STRAYS[name], self.plain):
                raise Unread(f"`{found[0]}` may not stand here")
            self.take_records(r"#\[repr\(C\)\]\s*(?:#\[[^\]]*\]\s*)?pub struct (?P<name>\w+) \{(?P<items>[^}]*)\}", r"\bstruct\b")
            before = r'#\[unsafe\(no_mangle\)\]\s*pub extern "C" ' if name == RATTLE else r"^    "
            self.take_functions(before + r"fn (?P<name>bnv_\w+)\((?P<items>[^)]*)\)\s*->\s*(?P<result>\w+)", r"fn bnv_\w+")
            self.take_constants(r"\bpub const (BNV_\w+): (?:u32|i32) = ([^;]+);", r"\bconst BNV_")

    def compare_shell(self):
        """Around what was read stands SHELL."""
        rest = self.plain
        for begin, end in sorted(self.spans, reverse=True):
            rest = rest[:begin] + "\n..\n" + rest[end:]
        lines = [" ".join(line.split()) for line in rest.split("\n") if line.strip()]
        lines = [line for before, line in zip([""] + lines, lines) if not before == line == ".."]
        for there, wanted in zip_longest(lines, SHELL, fillvalue="the end"):
            if there != wanted:
                raise Unread(f"`{there}` stands where `{wanted}` is expected")

    def counted(self, what, found, anchor):
        """Nothing was passed over, and nothing is there twice."""
        there = len(re.findall(anchor, self.plain))
        if there != len(found):
            raise Unread(f"{there} {what} are there, {len(found)} were read")

    def items(self, name, found, stop):
        begin = found.start("items")
        if self.read is read_c and not found["items"]:
            raise Unread(f"{name}: no parameters, and no void")
        for text in found["items"].split(stop) if found["items"] != "void" else []:
            if text.strip():
                yield Item(name, begin, text, self.read)
            begin += len(text) + 1

    def take_records(self, pattern, anchor):
        for found in re.finditer(pattern, self.plain):
            self.records[found["name"]] = list(self.items(found["name"], found, self.stop))
            self.spans.append(found.span())
        self.counted("records", self.records, anchor)

    def take_functions(self, pattern, anchor):
        for found in re.finditer(pattern, self.plain, re.M):
            self.functions[found["name"]] = list(self.items(found["name"], found, ","))
            self.results[found["name"]] = C_TYPES.get(found["result"], found["result"]), found.span("result")
            self.spans.append(found.span())
            self.prototypes.append("".join(found[0].split()))
        self.counted("functions", self.functions, anchor)

    def take_constants(self, pattern, anchor):
        for found in re.finditer(pattern, self.plain, re.M):
            self.compare_sign(found[1], found[0], found[2])
            self.constants[found[1]] = self.value(found[1], found[2]), found.span(2)
            self.spans.append(found.span())
        self.counted("constants", self.constants, anchor)

    def compare_sign(self, name, line, text):
        """Is it signed exactly where it is one of SIGNED: in the header without `u` behind its numbers, in Rust an i32?"""
        if text.startswith('"'):
            return
        signs = {not number.endswith("u") for number in re.findall(r"\b\d\w*", text)} if self.name == HEADER else {": i32 =" in line}
        if signs - {name in SIGNED}:
            raise Unread(f"{name}: {text} is {'un' if name in SIGNED else ''}signed")

    def value(self, name, text):
        """A number, or arithmetic on numbers and earlier constants; a version as it is written."""
        if text.startswith('"'):
            return text
        text = re.sub(r"BNV_\w+", lambda m: str(self.constants[m[0]][0]) if m[0] in self.constants else m[0], text)
        text = re.sub(r"\b(\d[\d_]*)u?\b", lambda m: m[1].replace("_", ""), text)
        if not re.fullmatch(r"[\d+*() -]+", text):
            raise Unread(f"{name}: {text}")
        if self.name == HEADER and not (text.isdigit() or enclosed(text)):
            raise Unread(f"{name}: {text} is not in parentheses")
        return eval(text)

    def changes(self):
        """The text with two neighbours exchanged, or one thing changed."""
        s = self.source
        for lists in self.records, self.functions:
            for items in lists.values():
                for a, b in zip(items, items[1:]):
                    yield s[:a.begin] + s[b.begin:b.end] + s[a.end:b.begin] + s[a.begin:a.end] + s[b.end:]
        for _, (begin, end) in self.results.values():
            yield s[:begin] + "Other" + s[end:]
        for name, (value, (begin, end)) in self.constants.items():
            one = "1u" if self.name == HEADER and name not in SIGNED else "1"
            yield s[:begin] + ('"other"' if isinstance(value, str) else f"({s[begin:end]} + {one})") + s[end:]


def lists_differ(what, parts, texts, lists):
    """Names that a text lacks, and the first place where lists of a name differ."""
    first = texts[0]
    for name in dict.fromkeys(n for t in texts for n in lists(t)):
        lacking = [t.name for t in texts if name not in lists(t)]
        if lacking:
            yield f"{what} {name}: not in {', '.join(lacking)}"
            continue
        flat = {t.name: [p for item in lists(t)[name] for p in item.parts] for t in texts}
        for other in texts[1:]:
            a, b = flat[first.name], flat[other.name]
            for place in range(max(len(a), len(b))):
                x, y = (": ".join(l[place]) if place < len(l) else "nothing" for l in (a, b))
                if x != y:
                    yield f"{what} {name}: {parts} {place} is `{x}` in {first.name} and `{y}` in {other.name}"
                    break


def below(sources):
    """Each constant of the code below: its text, its name in the header, its number and where that stands."""
    for file, patterns in BELOW.items():
        for pattern, name in patterns:
            for found in re.finditer(pattern, sources[file]):
                yield file, name.format(found[1].upper()), int(found[2]), found.span(2)
    for limit, names in LIMITED.items():
        found = re.search(rf"^{limit} = (?:pos |(negsuc) )?(\d+)$", sources[LIMITS], re.M)
        for name in names:
            yield LIMITS, name, -int(found[2]) - 1 if found[1] else int(found[2]), found.span(2)


def fields(sources):
    """Each field of FIELDS: its macro, whether it is signed, its highest and its lowest bit, and where these stand."""
    for function, macro in FIELDS.items():
        found = re.search(rf"pub fn {function}\(w: u32\) -> \w+\s+ensures {{ \(?result ≡ (signed \d+ \(?)?(?:bits (\d+) (\d+) w|payload w)", sources[WORDS])
        if not found:
            sys.exit(f"{WORDS}: {function} has no contract that names bits")
        yield macro, bool(found[1]), int(found[2] or 27), int(found[3] or 0), found.span(2)


def fields_differ(sources, header):
    """A field's macro takes its bits out, and reads a signed one in two's complement; the ends of a range are those of its field."""
    macros = dict(re.findall(r"^#define (BNV_\w+)\(word\) (.*)$", header.plain, re.M))
    for macro, signed, high, low, _ in fields(sources):
        half = 1 << (high - low)
        bits = f"(uint32_t)(word) >> {low} & {2 * half - 1}u" if low else f"(uint32_t)(word) & {2 * half - 1}u"
        bits = "BNV_PAYLOAD(word)" if (high, low) == (27, 0) else f"({bits})"
        wanted = f"((int32_t)({bits} ^ {half}u) - {half})" if signed else bits
        if macros.get(macro) != wanted:
            yield f"{macro}: `{macros.get(macro)}` stands where the contract wants `{wanted}`"
        ends = header.constants["BNV_LOWEST"][0], header.constants["BNV_HIGHEST"][0]
        if macro.startswith("BNV_VAR_") and ends != (-half, half - 1):
            yield f"{macro}: its ends are {-half} and {half - 1}, and not {ends}"


def constants_differ(sources, texts):
    names = dict.fromkeys(n for t in texts for n in t.constants)
    said_of = {name: {t.name: t.constants[name][0] for t in texts if name in t.constants} for name in names}
    for file, name, number, _ in below(sources):
        said_of.setdefault(name, {})[file] = number
    for name, said in said_of.items():
        if name == "BNV_VERSION":
            continue
        for text in HEADER, RUST:
            if text not in said:
                yield f"constant {name}: not in {text}"
        if name not in NOT_BELOW and set(said) <= {HEADER, RUST}:
            yield f"constant {name}: not in the code"
        if len(set(said.values())) > 1:
            yield f"constant {name}: " + ", ".join(f"{value} in {text}" for text, value in said.items())


def manual_differs(sources, header):
    """The functions on the man page, without its marks for fonts, are the header's."""
    synopsis = sources[MANUAL].split("\n.fi\n")[0]
    shown = re.findall(r"[^;]+;", re.sub(r'[\s"]', "", "".join(re.findall(r"^\.BI (.*)", synopsis, re.M))))
    if sorted(shown) != sorted(header.prototypes):
        yield f"{MANUAL}: other functions than the header: {sorted(set(shown) ^ set(header.prototypes))}"


def sentences_lack(sources, exported, header):
    """The answers, which lib.rt has, and the refusals that no sentence is for."""
    answers = [name for name in exported.constants if name != "BNV_VERSION_NUMBER"]
    refusals = [name for name in header.constants if name.startswith("BNV_REFUSED_")]
    for name in answers + refusals:
        if f"    case {name}:\n" not in sources[SENTENCES]:
            yield f"{SENTENCES}: no case {name}"


def versions(sources):
    """Each version beside the header's: its file, and where it stands."""
    for file, pattern in VERSIONS.items():
        for found in re.finditer(pattern, sources[file], re.M):
            yield file, found[1], found.span(1)


def versions_differ(sources, header):
    said = [(file, version) for file, version, _ in versions(sources)]
    said.append((HEADER, header.constants.get("BNV_VERSION", ("",))[0].strip('"')))
    if len({version for _, version in said}) > 1:
        yield "version: " + ", ".join(f"{version} in {file}" for file, version in said)
    if {file for file, _ in said} != {HEADER, *VERSIONS}:
        yield "version: it does not stand in every file"
    parts = re.fullmatch(r"(\d+)\.(\d+)\.(\d+)", said[-1][1])
    number = header.constants.get("BNV_VERSION_NUMBER", (None,))[0]
    if not parts or number != int(parts[1]) * 1000000 + int(parts[2]) * 1000 + int(parts[3]):
        yield f"version: {said[-1][1]} is not the number {number}"


def differences(sources):
    texts = []
    for name in TEXTS:
        try:
            texts.append(Text(name, sources[name]))
        except Unread as fault:
            yield f"{name}: {fault}"
    if len(texts) < len(TEXTS):
        return
    yield from lists_differ("record", "field", texts, lambda t: t.records)
    yield from lists_differ("function", "parameter", texts, lambda t: t.functions)
    for name in set.intersection(*(set(t.results) for t in texts)):
        said = {t.name: t.results[name][0] for t in texts}
        if len(set(said.values())) > 1:
            yield f"function {name}: its result is " + ", ".join(f"{value} in {text}" for text, value in said.items())
    yield from constants_differ(sources, texts)
    yield from fields_differ(sources, texts[1])
    yield from manual_differs(sources, texts[1])
    yield from sentences_lack(sources, *texts[:2])
    yield from versions_differ(sources, texts[1])


def changes(sources):
    """Every change that has to be noticed: the text that it is in, and the changed text."""
    for name in TEXTS:
        for changed in Text(name, sources[name]).changes():
            yield name, changed
    for name, _, number, (begin, end) in below(sources):
        yield name, sources[name][:begin] + str(abs(number) + 1) + sources[name][end:]
    for _, _, high, _, (begin, end) in fields(sources):
        if begin >= 0:
            yield WORDS, sources[WORDS][:begin] + str(high + 1) + sources[WORDS][end:]
    for found in re.finditer(r"    case BNV_\w+:\n", sources[SENTENCES]):
        yield SENTENCES, sources[SENTENCES][:found.start()] + sources[SENTENCES][found.end():]
    for found in re.finditer(r"\b(?:u?int\d+_t|size_t|Bnv\w+) ", sources[MANUAL]):
        yield MANUAL, sources[MANUAL][:found.start()] + "long " + sources[MANUAL][found.end():]
    for name, _, (begin, end) in versions(sources):
        yield name, sources[name][:begin] + "0.0.0" + sources[name][end:]
    for name, old, new in FORMS:
        places = [found.start() for found in re.finditer(re.escape(old), Text(name, sources[name]).plain)]
        if not places:
            sys.exit(f"{name}: `{old}` is not there, so its change cannot be tried")
        for begin in places:
            yield name, sources[name][:begin] + new + sources[name][begin + len(old):]


def unnoticed(sources):
    """How many changes are noticed, and a line for each that is not."""
    noticed, lines = 0, []
    for name, changed in changes(sources):
        if any(True for _ in differences({**sources, name: changed})):
            noticed += 1
        else:
            line = next(i for i, (a, b) in enumerate(zip(changed.split("\n"), sources[name].split("\n")), 1) if a != b)
            lines.append(f"{name}:{line}: a change here is not noticed")
    return noticed, lines


def main():
    sources = {name: (ROOT / name).read_text() for name in (*TEXTS, *BELOW, LIMITS, MANUAL, SENTENCES, *VERSIONS)}
    bad = list(differences(sources))
    if not bad:
        noticed, bad = unnoticed(sources)
        header = Text(HEADER, sources[HEADER])
        fields, parameters = (sum(len(items) for items in lists.values()) for lists in (header.records, header.functions))
        print(f"interface: {len(header.records)} records with {fields} fields, {len(header.functions)} functions with {parameters} parameters, "
              f"{len(header.constants)} constants; {noticed} exchanges and changes noticed")
    print("\n".join(bad), end="\n" if bad else "")
    return 1 if bad else 0


if __name__ == "__main__":
    sys.exit(main())
