#!/usr/bin/env python3
"""Lists the places of the crates' src/ that have an older form where today's Rattle has a newer one, by the numbers of
docs/DESIGN-PASS.md. A place that is listed may still have its reason: this only finds, the page says what becomes of each.

    tools/count_forms.py [POINT..] [--top FOLDER]     each place on a line, and the number of places of each point behind them
"""
import collections
import glob
import itertools
import re
import sys


def sources(top):
    for path in sorted(glob.glob(f'{top}/crates/*/src/**/*.rt', recursive=True)):
        with open(path, encoding='utf-8') as file:
            yield path[len(top) + len('/crates/'):].replace('/src/', '/'), file.read()


FUNCTION = re.compile(r'^( *)(?:#\[[^\n]*\]\n\s*)*(?:pub(?:\([a-z]+\))? )?(?:extern "C" )?fn (\w+)[^\n(]*\(', re.M)


class Fn:
    """A function: its name, parameters as (name, type), the conjuncts of its `requires`, and its body."""

    def __init__(self, path, text, match):
        self.path, self.name = path, match.group(2)
        self.line = text.count('\n', 0, match.start(2)) + 1
        end = closing(text, match.end() - 1)
        pairs = [p.split(':', 1) for p in split(text[match.end():end - 1], ',') if ':' in p]
        self.params = [(a.replace('mut ', '').strip(), ' '.join(b.split())) for a, b in pairs]
        opens = re.compile(r'\n%s\{\n' % match.group(1)).search(text, end - 1)
        one = re.compile(r' \{\n').search(text, end - 1)
        head = min((m for m in (opens, one) if m), key=lambda m: m.start())
        self.contract = text[end:head.start()]
        start = text.index('{', head.start())
        self.body = text[start:closing(text, start)]

    def facts(self):
        for clause in re.findall(r'requires(?: \w+)? \{ (.*) \}', self.contract):
            for fact in split(clause, '×'):
                fact = fact.strip()
                while fact.startswith('(') and closing(fact, 0) == len(fact):
                    fact = fact[1:-1].strip()
                yield fact

    def place(self):
        return f'{self.path}:{self.line} {self.name}'


def closing(text, start):
    depth = 0
    for i in range(start, len(text)):
        depth += text[i] in '([{'
        depth -= text[i] in ')]}'
        if depth == 0:
            return i + 1
    return len(text)


def split(text, mark):
    depth, last, parts = 0, 0, []
    for i, c in enumerate(text):
        depth += c in '([{<'
        depth -= c in ')]}' or (c == '>' and text[i - 1] != '-')
        if c == mark and depth == 0:
            parts.append(text[last:i])
            last = i + 1
    return parts + [text[last:]]


def functions(top):
    return [Fn(path, text, m) for path, text in sources(top) for m in FUNCTION.finditer(text)]


def grep(top, pattern):
    for path, text in sources(top):
        for number, line in enumerate(text.split('\n'), 1):
            if re.search(pattern, line) and not line.lstrip().startswith('//'):
                yield f'{path}:{number} {line.strip()}'


# 1: enums that carry a value in one variant and a failure or nothing in the others, and constants that stand for a kind or for none
def answers(top):
    for path, text in sources(top):
        for m in re.finditer(r'^(?:pub )?enum (\w+) \{\n(.*?)^\}', text, re.M | re.S):
            variants = re.findall(r'^    (\w+)(?:\(([^)]*)\))?', m.group(2), re.M)
            lost = [v for v, _ in variants if re.match(
                r'(Refused|NotOpened|NotRead|NoBoard|NoText|NoRun|None|Off|Wrong|Waits|Stays|Failed|End|Over|Broken|Leftover|Accepted|Done)$', v)]
            if lost and len(variants) <= 4:
                yield f'{path}:{text.count(chr(10), 0, m.start()) + 1} enum {m.group(1)}: {", ".join(v for v, _ in variants)}'
    yield from grep(top, r'const (NONE|READ|STAYS|NO_BOARD|KEPT): (u8|u32) = ')
    yield from grep(top, r'(stage|number|marks): (usize|u64|u8),$')


# 2: functions whose bodies are the same but for types, numbers and constants, or but for some names
def twins(top):
    shapes = collections.defaultdict(list)
    for f in functions(top):
        body = re.sub(r'//[^\n]*', '', f.body)
        if body.count('\n') < 3:
            continue
        shape = re.sub(r'\b(?:0x)?\d+(?:u\d+|usize)?\b|\b[A-Z][A-Z_0-9]+\b|\bu(?:8|16|32|64|size)\b|b?"[^"]*"', '#', body)
        names = {}
        shape = re.sub(r'[a-zA-Z_]\w*', lambda m: m.group() if m.group() in KEYWORDS else names.setdefault(m.group(), f'v{len(names)}'), shape)
        shapes[' '.join(shape.split())].append(f)
    for group in shapes.values():
        if len(group) > 1:
            yield ' ~ '.join(f.place() for f in group)


KEYWORDS = {'let', 'mut', 'while', 'if', 'else', 'match', 'return', 'for', 'in', 'as', 'true', 'false', 'len', 'Refusal', 'usize'}


# 3: loops that count an index by hand
def loops(top):
    yield from grep(top, r'\bwhile\b')


# 4: conversions, comparisons and printing by hand
def conversions(top):
    yield from grep(top, r'fn (of|of_range|from|number|number_of|code|code_at|wide|narrow|digit|digit_of|digit_in|same|lower|higher|least|farther|either_of|both_hold|constant|letter|letters_of|outcome)\b.*->')
    yield from grep(top, r'fn (of|of_range|number|number_of|code|code_at|wide|narrow|digit|digit_of|digit_in|lower|higher|least|farther|constant)\($')


# 5: facts that stand in the contracts of three functions or more, and parameters that three functions or more take, never one without
# the others
def facts(top):
    count = collections.defaultdict(list)
    for f in functions(top):
        for fact in set(f.facts()):
            count[fact].append(f)
    for fact, fs in sorted(count.items(), key=lambda x: -len(x[1])):
        if len(fs) >= 3:
            yield f'{len(fs)} contracts: {fact}'
    takes = collections.defaultdict(set)
    for f in functions(top):
        for a, b in f.params:
            takes[f'{a}: {b}'].add(f.place())
    never_alone = collections.defaultdict(list)
    for a, b in itertools.permutations([p for p in takes if len(takes[p]) >= 3], 2):
        if takes[a] <= takes[b]:
            never_alone[a].append(b)
    together = {frozenset([a, *bs]) for a, bs in never_alone.items()}
    for group in sorted(together, key=sorted):
        if not any(group < other for other in together):
            yield 'always together: ' + ', '.join(sorted(group))


# 6: a buffer with a length or a place beside it, and buffers that are written together: each such group once for a crate
def buffers(top):
    groups = collections.Counter()
    for f in functions(top):
        slices = [a for a, b in f.params if re.match(r'&mut \[', b)]
        places = [a for a, b in f.params if b == 'usize' and a in ('at', 'w', 'end', 'used', 'n', 'top')]
        crate = f.path.split('/')[0]
        if len(slices) > 1:
            groups[f'{crate}: {", ".join(slices)} together'] += 1
        elif slices and places:
            groups[f'{crate}: {slices[0]} with {", ".join(places)}'] += 1
    for group, count in sorted(groups.items()):
        yield f'{group} ({count} functions)'


# 7: a number or a flag that says which step to run
def switches(top):
    for f in functions(top):
        for a, b in f.params:
            if b == 'bool' or (a in ('stage', 'call') and b in ('u32', 'usize', 'u8')):
                yield f'{f.place()}: {a}: {b}'


POINTS = {'1': answers, '2': twins, '3': loops, '4': conversions, '5': facts, '6': buffers, '7': switches}


def main():
    words = sys.argv[1:]
    top = '.'
    if '--top' in words:
        i = words.index('--top')
        top = words[i + 1]
        del words[i:i + 2]
    for point in words or sorted(POINTS):
        places = list(POINTS[point](top))
        for place in places:
            print(f'{point}: {place}')
        print(f'{point}: {len(places)} places')


main()
