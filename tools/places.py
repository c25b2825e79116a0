#!/usr/bin/env python3
# Lists the places in crates/*/src that a point of docs/DESIGN-PASS.md counts, a line each: FILE:LINE and what stands there.
#   python3 tools/places.py enums | loops | twins | params | facts | by-hand | proofs
import glob
import re
import sys
from collections import defaultdict

WIDTHS = re.compile(r'\b(u8|u16|u32|u64|usize)\b')


def files():
    return sorted(glob.glob('crates/*/src/**/*.rt', recursive=True))


def functions():
    """Of each function: file, line, name, parameters, clauses, body."""
    for path in files():
        text = re.sub(r'//[^\n]*', '', open(path, encoding='utf-8').read())
        for found in re.finditer(r'^( *)(?:pub(?:\(crate\))? )?(?:extern "C" )?fn (\w+)', text, re.M):
            at, depth = text.find('(', found.end()), 0
            opened = at + 1
            while at < opened or depth > 0:
                depth += {'(': 1, ')': -1}.get(text[at], 0)
                at += 1
            end = text.find(f'\n{found[1]}}}', at)
            begins = re.search(rf'^{found[1]}\{{$|(?<=\S) \{{$|;$', text[at - 1:end], re.M)
            if begins is None or begins[0] == ';':
                continue  # a trait's method
            begin = at - 1 + begins.start()
            line = text.count('\n', 0, found.start()) + 1
            yield path, line, found[2], text[opened:at - 1], text[at:begin], text[begin:end + 2 + len(found[1])]


def named(parameters):
    return [p.split(':')[0].strip() for p in parameters.split(',') if ':' in p]


def alike(parameters, body, one_name):
    """The body without what may differ in twins: widths, numbers, constants, texts, the names of its own."""
    seen = {}
    text = WIDTHS.sub('T', body)
    text = re.sub(r'b?"[^"]*"|b?\'[^\']*\'', 'S', text)
    text = re.sub(r'\b(?:[a-z_]+::)*[A-Z][A-Z_0-9]+\b', 'N', text)
    text = re.sub(r'\b(?:0x[0-9A-Fa-f_]+|[0-9][0-9_]*)\b', 'N', text)
    words = re.findall(r'\w+|[^\w\s]', text)
    own = set(named(parameters)) | set(re.findall(r'\blet (?:mut )?(\w+)', body))
    return tuple(seen.setdefault(w, f'v{len(seen)}') if w in own else one_name.get(w, w) for w in words)


def twins():
    one_name = {}  # twins that call twins are twins
    while True:
        groups = defaultdict(list)
        for path, line, name, parameters, _, body in functions():
            shape = alike(parameters, body, one_name)
            if len(shape) >= 12:
                groups[shape].append((path, line, name))
        groups = [group for group in groups.values() if len(group) > 1]
        more = {name: group[0][2] for group in groups for _, _, name in group}
        if more == one_name:
            break
        one_name = more
    for group in groups:
        yield from (f'{path}:{line} {name}  ({len(group)} alike)' for path, line, name in group)


def params():
    for path, line, name, parameters, _, _ in functions():
        if len(named(parameters)) >= 6:
            yield f'{path}:{line} {name} ({len(named(parameters))})'


def facts():
    groups = defaultdict(list)
    for path, line, name, _, clauses, _ in functions():
        for clause in re.findall(r'requires (?:\w+ )?\{(.*?)\}\s*(?=requires|ensures|$)', clauses, re.S):
            groups[' '.join(clause.split())].append(f'{path}:{line} {name}')
    for fact, places in sorted(groups.items()):
        if len(places) >= 3:
            yield from (f'{place}  {fact}' for place in places)


def lines(pattern):
    for path in files():
        for number, line in enumerate(open(path, encoding='utf-8'), 1):
            if re.search(pattern, line):
                yield f'{path}:{number} {line.strip()}'


def proofs():
    for path in sorted(glob.glob('crates/*/proofs/*/*.antt')):
        text = open(path, encoding='utf-8').read()
        yield f'{path} {text.count("search rules")} times `search rules`'


POINTS = {
    'enums': lambda: lines(r'^(pub )?enum '),
    'loops': lambda: lines(r'^\s*(while|loop)\b|= loop\b'),
    'twins': twins,
    'params': params,
    'facts': facts,
    'by-hand': lambda: lines(r'^(pub )?fn (compare|same|equal|is_equal|precedes|ordered|least|most|copy|put_bytes|put_run|small|is_digit|is_word|'
                             r'number|detail|\w+_detail|differ|hold|stain|fill)\w*\b'),
    'proofs': proofs,
}

if len(sys.argv) != 2 or sys.argv[1] not in POINTS:
    sys.exit('usage: python3 tools/places.py ' + ' | '.join(POINTS))
for place in POINTS[sys.argv[1]]():
    print(place)
