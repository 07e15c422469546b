#!/usr/bin/env python3
"""Finds the places of src/ that an older form of the language left, by the points of docs/DESIGN-PASS.md.

    tools/places.py              how many places each point has
    tools/places.py 3            the places of point 3

It goes by text. A row is a place to look at, not a verdict.
"""
import re
import sys
from collections import defaultdict
from pathlib import Path

ROOT = Path(__file__).resolve().parent.parent
SENTINEL = re.compile(r'//.*(if there is none|if none is|, or n\b|or \d+\.$|or the number of|where all hold, the number|0 where|the number past)')
COUNT = r'(?:n|np|count|used|guards|starts|preds|vars|forbidden|actions|nodes|known)'


def sources():
    for path in sorted(ROOT.glob('crates/*/src/**/*.rt')):
        yield path, path.read_text().split('\n')


def items(lines):
    """Each function: the number of its first line, its head up to the body, its body."""
    i = 0
    while i < len(lines):
        if re.match(r'\s*(pub )?(extern "C" )?(const )?fn \w', lines[i].replace('pub extern', 'pub extern')):
            indent = re.match(r'\s*', lines[i])[0]
            j = i
            while j < len(lines) and not lines[j].endswith('{') or lines[j].strip().startswith(('requires', 'ensures')) and not lines[j].endswith('{'):
                j += 1
            k = j
            while k < len(lines) and lines[k] != indent + '}':
                k += 1
            yield i + 1, lines[i:j + 1], lines[j + 1:k]
            i = k
        i += 1


def name_of(head):
    return re.search(r'fn (\w+)', head[0])[1]


def flat(head):
    text = ' '.join(l.strip() for l in head)
    return re.split(r'\brequires\b|\bensures\b', text)[0], text


def results(path, lines):
    """1: enums that hold a refusal or a lack beside a value, records with where reading goes on or a status, a number in place of a lack."""
    for i, l in enumerate(lines, 1):
        m = re.match(r'(?:pub )?enum (\w+)', l)
        if m:
            body = '\n'.join(lines[i:lines.index('}', i)])
            if re.search(r'^\s*(Refused|Failed|Off|Nothing|None|Full|Broken|End|WordsShort)\b', body, re.M):
                yield i, f'enum {m[1]}'
        if re.match(r'\s*pub (next: Next|status: Status|said: Said),', l):
            yield i, l.strip()
        if re.match(r'pub struct Kind\(pub u32\)', l) or re.search(r'pub const [A-Z]+: Kind = Kind', l):
            yield i, l.strip()
        if SENTINEL.search(l):
            yield i, l.strip()


def loops(path, lines):
    """3: loops that count by hand."""
    for i, l in enumerate(lines, 1):
        if re.match(r'\s*(while\b(?! let)|loop\b)', l) or re.search(r'= loop \{', l):
            yield i, l.strip()


def conversions(path, lines):
    """4: functions that only convert, compare or fill in zeros."""
    for i, head, body in items(lines):
        code = [l.strip() for l in body if l.strip() and not l.strip().startswith('//')]
        if len(code) == 1 and re.fullmatch(r'\w+(\[\w+\])? as \w+', code[0]):
            yield i, f'fn {name_of(head)}: {code[0]}'
        elif len(code) == 1 and re.fullmatch(r'if \w+ \{ 1 \} else \{ 0 \}', code[0]):
            yield i, f'fn {name_of(head)}: {code[0]}'
        elif re.search(r'fn \w+_of\(\w+: \w+\) -> \w+', head[0]) and code and code[0].startswith('match'):
            yield i, f'fn {name_of(head)}: by match'
        elif name_of(head) == 'is':
            yield i, 'fn is'
    for i, l in enumerate(lines, 1):
        if re.search(r'coef: \[0i?6?4?; 8\],?$', l) or re.search(r'let (blank|zero|none|unshaped) = \w+ \{', l):
            yield i, l.strip()


def slices(path, lines):
    """6: a list with a count beside it, or two lists that go together."""
    for i, head, body in items(lines):
        params = flat(head)[0]
        for m in re.finditer(r'(\w+): (?:&(?:mut )?\[[^\]]*\]|\[[^\]]*\]), (?:\w+: [^,]*, )?(' + COUNT + r'): usize', params):
            yield i, f'fn {name_of(head)}: {m[1]}, {m[2]}'
        if re.search(r'premises: &(mut )?\[u32\], keys: &(mut )?\[u32\]', params):
            yield i, f'fn {name_of(head)}: premises, keys'
    for i, l in enumerate(lines, 1):
        if re.match(r'\s*pub \w+: \[\w+; \d+\],', l) and (re.search(r': usize,', lines[i - 2]) or re.search(r': usize,', lines[i])):
            yield i, l.strip()


def switches(path, lines):
    """7: a number or a flag that says which step to run."""
    for i, l in enumerate(lines, 1):
        if re.search(r'match (v\.)?call\b|if racked\b|if call ==', l):
            yield i, l.strip()


def forms():
    """2: functions whose bodies are one but for names and numbers."""
    seen = defaultdict(list)
    for path, lines in sources():
        for i, head, body in items(lines):
            code = ' '.join(l.strip() for l in body if not l.strip().startswith('//'))
            shape, order = [], {}
            for t in re.findall(r'[A-Za-z_]\w*|0x[0-9a-fA-F_]+|\d+|\S', code):
                shape.append(order.setdefault(t, len(order)) if re.match(r'[A-Za-z_]', t) else '#' if t[0].isdigit() else t)
            if len(shape) > 8:
                seen[tuple(shape)].append((path, i, name_of(head)))
    for group in seen.values():
        if len(group) > 1:
            for path, i, name in group:
                yield path, i, f'fn {name}: like ' + ', '.join(n for p, j, n in group if (p, j) != (path, i))


def facts():
    """5: a part of a requires that stands in three functions or more, and three parameters that follow one another in three or more."""
    parts, runs = defaultdict(list), defaultdict(list)
    for path, lines in sources():
        for i, head, body in items(lines):
            params, text = flat(head)
            for clause in re.findall(r'requires(?: \w+)? \{ (.*?) \}(?= requires| ensures| \{|$)', text):
                for part in re.split(r' × ', clause):
                    parts[part.strip('() ')].append((path, i, name_of(head)))
            names = re.findall(r'(\w+): ', params)
            for k in range(len(names) - 2):
                runs[tuple(names[k:k + 3])].append((path, i, name_of(head)))
    for part, group in parts.items():
        if len(group) > 2:
            yield group[0][0], group[0][1], f'{part}: in {len(group)} functions'
    for run, group in runs.items():
        if len(group) > 2:
            yield group[0][0], group[0][1], f'{", ".join(run)}: in {len(group)} functions'


def proofs():
    """8: files of answers and lines of proof, by crate."""
    for crate in sorted(ROOT.glob('crates/*')):
        files = [f for f in crate.glob('proofs/**/*.antt')]
        if files:
            lines = sum(len(f.read_text().split('\n')) - 1 for f in files)
            yield crate, 0, f'{len(files)} files, {lines} lines'


def of_each(find):
    def places():
        for path, lines in sources():
            for i, text in find(path, lines):
                yield path, i, text
    return places


POINTS = {1: of_each(results), 2: forms, 3: of_each(loops), 4: of_each(conversions), 5: facts, 6: of_each(slices), 7: of_each(switches), 8: proofs}


def main():
    if len(sys.argv) > 1:
        for path, i, text in POINTS[int(sys.argv[1])]():
            print(f'{path.relative_to(ROOT)}:{i}: {text}')
        return
    for point, places in POINTS.items():
        found = list(places())
        if point == 8:
            files, lines = (sum(int(n) for n in c) for c in zip(*(re.findall(r'\d+', t) for _, _, t in found)))
            print(f'point 8: {files} files, {lines} lines of proof')
        else:
            print(f'point {point}: {len(found)}')


main()
