#!/usr/bin/env python3
"""Lists the places of docs/DESIGN-PASS.md's points 1 to 7 in the source: `python3 tools/places.py [POINT..]`, and their counts with no point.

It goes by text, and so finds candidates: the page says of each whether it was changed or why it is kept."""
import collections
import difflib
import glob
import itertools
import re
import sys

FILES = sorted(glob.glob('crates/*/src/**/*.rt', recursive=True))
TEXT = {path: open(path).read() for path in FILES}
FN = re.compile(r'(?m)^( *)(?:#\[.*\]\n *)?(?:pub(?:\(crate\))? )?(?:extern "C" )?fn (\w+)(.*?)^\1\}', re.S)


def name_of(path):
    return path.split('/')[1] + '/' + path.split('/src/')[1]


def functions():
    """Of each function: where, its name, its signature with the clauses, its body."""
    for path in FILES:
        for found in FN.finditer(TEXT[path]):
            head, _, body = found.group(3).partition('\n' + found.group(1) + '{\n')
            if not body:
                head, _, body = found.group(3).partition(' {\n')
            yield path, found.group(2), head, body


def lines(pattern, but=None):
    for path in FILES:
        for number, line in enumerate(TEXT[path].splitlines(), 1):
            if re.search(pattern, line) and not (but and re.search(but, line)):
                yield f'{name_of(path)}:{number}: {line.strip()}'


def enums():
    """Enums of two or three variants, one or more of which hold a value; flags beside values; codes of kinds and refusals; numbers for none."""
    for path in FILES:
        for found in re.finditer(r'(?m)^ *(?:pub(?:\(crate\))? )?enum (\w+) \{\n(.*?)^\}', TEXT[path], re.S):
            variants = [v.strip() for v in found.group(2).splitlines() if re.match(r' +\w+(\(.*\))?,$', v)]
            if len(variants) <= 3 and (any('(' in v for v in variants) or {v.rstrip(',') for v in variants} == {'Outside', 'Inside'}):
                yield f'{name_of(path)}: enum {found.group(1)}: {" ".join(variants)}'
    yield from lines(r'^(pub )?const [A-Z_]+: u64 = 1?[0-9];', r'MOST_|LEAST_|ONE_FRAME|RESTART')
    yield from lines(r'^ +(pub )?whole: bool')
    yield from lines(r'Refused\((\d+|number|code|u64)\)|refused_by\(\d+\)|^ +return (1|9|22);$|^ +number: \d+,')
    yield from lines(r'//.*\b0 where|//.*, 0 before')
    yield from lines(r'(size|number) [!=]= 0 \{|^ +return Ok\(0\);')


def twins():
    """Pairs of functions, and of structs, that are nearly the same once names of values, numbers and types are blanked."""
    def blank(text):
        text = re.sub(r'[0-9][0-9_a-fx.]*', '0', text)
        return re.sub(r'\b[a-z_][a-z_0-9]*\b(?!!)', lambda w: w.group(0) if w.group(0) in ('while', 'if', 'else', 'for', 'return', 'match', 'let', 'mut', 'loop') else 'x', text)
    made = [(path, name, re.findall(r'\w+|[^\w\s]', blank(body))) for path, name, head, body in functions() if body.count('\n') >= 4]
    for (p, f, a), (q, g, b) in itertools.combinations(made, 2):
        if 0.75 < len(a) / len(b) < 1.34 and difflib.SequenceMatcher(None, a, b, autojunk=False).quick_ratio() > 0.93:
            ratio = difflib.SequenceMatcher(None, a, b, autojunk=False).ratio()
            if ratio > 0.93:
                yield f'{name_of(p)} {f} ~ {name_of(q)} {g} ({ratio:.2f})'
    shapes = collections.defaultdict(list)
    for path in FILES:
        for found in re.finditer(r'(?m)^ *(?:pub(?:\(crate\))? )?struct (\w+)[^\n]*\{\n(.*?)^\}', TEXT[path], re.S):
            fields = re.findall(r'(\w+): ([^\n]+),', found.group(2))
            names = ('e0..', 'on') if fields[0][0] == 'e0' else tuple(sorted(name for name, _ in fields))
            shapes[names].append(f'{name_of(path)} {found.group(1)}')
    for names, structs in sorted(shapes.items()):
        for one, other in itertools.combinations(structs, 2):
            yield f'struct {one} ~ struct {other}: {", ".join(names)}'


def loops():
    """Loops by `while` and `loop`."""
    yield from lines(r"^ *('\w+: )?(while|loop) |= loop \{")


def by_hand():
    """Functions that do what a derive, a conversion or a method of std does: by their names."""
    names = 'copy least lesser size one_if same begins is_nan is_finite clamp at_least at_most zero_for_nan two three four put_word read write number number_of width_of pitch is_set wrapping_add wrapping_mul word period idle new'
    for path, name, head, body in functions():
        if name in names.split():
            yield f'{name_of(path)} {name}'


def together():
    """Four or more parameters that three or more functions of a crate take together; facts that stand in the `requires` of three or more functions of a crate."""
    groups, facts = collections.defaultdict(set), collections.defaultdict(set)
    for path, name, head, body in functions():
        crate = path.split('/')[1]
        signature = head.split(')\n')[0].split(') ->')[0]
        params = re.findall(r'(\w+): ', signature.split('requires')[0])
        for count in range(4, 7):
            for group in itertools.combinations(sorted(set(params)), count):
                groups[crate, group].add(name)
        for clause in re.findall(r'requires(?: \w+)? \{ (.*) \}', head):
            for fact in clause.split(' × '):
                facts[crate, fact.strip('() ')].add(name)
    largest = {}
    for (crate, group), names in groups.items():
        if len(names) >= 3:
            key = (crate, frozenset(names))
            if len(group) > len(largest.get(key, ())):
                largest[key] = group
    for (crate, names), group in sorted(largest.items(), key=lambda item: (item[0][0], item[1])):
        if not any(c == crate and names <= other and len(o) >= len(group) and o != group for (c, other), o in largest.items()):
            yield f'{crate}: {", ".join(group)}: {len(names)} functions'
    for (crate, fact), names in sorted(facts.items()):
        if len(names) >= 3:
            yield f'{crate}: fact {fact}: {len(names)} functions'


def buffers():
    """Fixed arrays of which a part is in use."""
    yield from lines(r'let mut \w+ = \[\w+(\.\d)?; \d+\];|\w+: \[(f64|u8|u64); \d+\],')


def switches():
    """Choices of a call by a flag or a number."""
    yield from lines(r'\b(cut|whole|first|idle|rising|odd): bool|kind [=>]=? |turn == |% (3|4|7)\b')


POINTS = {1: enums, 2: twins, 3: loops, 4: by_hand, 5: together, 6: buffers, 7: switches}

if __name__ == '__main__':
    asked = [int(point) for point in sys.argv[1:]]
    for point, find in POINTS.items():
        found = list(find())
        if not asked:
            print(f'{point}: {len(found)}')
        elif point in asked:
            print('\n'.join(found))
