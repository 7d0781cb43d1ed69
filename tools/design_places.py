#!/usr/bin/env python3
"""The places of docs/DESIGN-PASS.md: what in src/ is written in an older form, counted by its text.

    tools/design_places.py            the counts, a line for each point
    tools/design_places.py POINT      the places of a point, as file:line: text (POINT as 1a, 3, 5b ..)

A place is where to look; whether it is changed or kept, and why, the page says.
"""
import collections, pathlib, re, sys

ROOT = pathlib.Path(__file__).resolve().parent.parent


def lines(folder, ending):
    """Each line that is no comment, with its file and number."""
    for path in sorted(ROOT.glob(f'crates/*/{folder}/**/*{ending}')):
        for number, line in enumerate(path.read_text().split('\n'), 1):
            if not line.lstrip().startswith(('//', '--', 'ghost use', 'use ')):
                yield path.relative_to(ROOT), number, line


SOURCE = list(lines('src', '.rt'))


def matching(pattern, source=None, but=None):
    found = re.compile(pattern)
    left_out = re.compile(but) if but else None
    return [(f, n, l.strip()) for f, n, l in (source or SOURCE)
            if found.search(l) and not (left_out and left_out.search(l))]


def comments(pattern):
    found = re.compile(pattern)
    return [(path.relative_to(ROOT), n, l.strip())
            for path in sorted(ROOT.glob('crates/*/src/**/*.rt'))
            for n, l in enumerate(path.read_text().split('\n'), 1)
            if l.lstrip().startswith('//') and found.search(l)]


def clauses():
    """Each `requires` and `ensures` without its name, blanks folded."""
    for path in sorted(ROOT.glob('crates/*/src/**/*.rt')):
        text = path.read_text()
        for m in re.finditer(r'\b(requires|ensures)(?: \w+)? \{', text):
            depth, i = 1, m.end()
            while depth:
                depth += {'{': 1, '}': -1}.get(text[i], 0)
                i += 1
            fact = ' '.join(text[m.end():i - 1].split())
            yield path.relative_to(ROOT), text.count('\n', 0, m.start()) + 1, m.group(1), fact


def repeated_facts():
    """The `requires` whose fact stands in three or more contracts, word for word."""
    said = collections.defaultdict(list)
    for f, n, kind, fact in clauses():
        if kind == 'requires':
            said[fact].append((f, n, fact))
    return [place for places in said.values() if len(places) >= 3 for place in places]


def travelling():
    """Functions that take three or more parameters of one name and type that three or more functions take side by side."""
    heads = []
    for path in sorted(ROOT.glob('crates/*/src/**/*.rt')):
        text = path.read_text()
        for m in re.finditer(r'\bfn (\w+)(?:<[^>]*>)?\(([^)]*)\)', text):
            given = [' '.join(p.split()).replace("'a ", '') for p in m.group(2).split(',') if p.strip()]
            heads.append((path.relative_to(ROOT), text.count('\n', 0, m.start()) + 1, m.group(1), given))
    runs = collections.Counter(run for _, _, _, given in heads for run in {tuple(given[i:i + 3]) for i in range(len(given) - 2)})
    often = {run for run, times in runs.items() if times >= 3}
    return [(f, n, f'{name}: {", ".join(given)}') for f, n, name, given in heads
            if any(tuple(given[i:i + 3]) in often for i in range(len(given) - 2))]


WORDS = set('if else match while for in loop return let mut fn pub crate true false as impl struct enum const self Self break'.split())


def twins():
    """Functions of four lines or more in their body that are alike but for names, types and numbers; the archives' are left out."""
    alike = collections.defaultdict(list)
    for path in sorted(ROOT.glob('crates/*/src/**/*.rt')):
        if path.parts[-3].endswith('_c'):
            continue
        text = '\n'.join(l for l in path.read_text().split('\n') if not l.lstrip().startswith('//'))
        for m in re.finditer(r'^( *)(?:pub(?:\(crate\))? )?fn (\w+)', text, re.M):
            start = text.find('\n' + m.group(1) + '{', m.end())
            here = text[m.end():].split('\n', 1)[0]
            if here.endswith('{'):
                start = m.end() + len(here) - 1
            end = text.find('\n' + m.group(1) + '}', start)
            body = text[start:end]
            if body.count('\n') < 5:
                continue
            shape = re.sub(r"b?'.'|b?\"[^\"]*\"|\b\d\w*\b", '0', body)
            shape = re.sub(r'[A-Za-z_]\w*', lambda w: w.group() if w.group() in WORDS else 'x', shape)
            alike[' '.join(shape.split())].append((path.relative_to(ROOT), text.count('\n', 0, m.start()) + 1, m.group(2)))
    return [place for places in alike.values() if len(places) >= 2 for place in places]


WIDENING = r'\bas (u16|u32|u64|usize|i64)\b'
POINTS = {
    '1a': ('enums of our own', lambda: matching(r'^\s*(pub )?enum \w+')),
    '1b': ('flags among the fields of a struct', lambda: matching(r'^    (pub )?\w+: bool,$')),
    '1c': ('numbers for kinds and refusals among the fields', lambda: matching(r'^    (pub )?(number|refusal|which|kind|role): u(8|size),$')),
    '1d': ('constants that number kinds', lambda: matching(r'^(pub )?const (?!MOST|LAST|SPACE|RECORD|TEN_|OUTSIDE)[A-Z_0-9]+: (usize|u32|u8) =')),
    '1e': ('answers of which one number says none, by their comments', lambda: comments(r'(, or \d+\b|, 0 where|; 0 where|or OTHER|0 (of|at) a field that is none)')),
    '2': ('functions that are alike but for names, types and numbers', twins),
    '3a': ('loops under a test, most of them over an index by hand', lambda: matching(r'\bwhile ')),
    '3b': ('loops over a range of indices', lambda: matching(r'\bfor \w+ in [^{]*\.\.')),
    '4a': ('equality by a function of our own', lambda: matching(r'\bfn (same|equal|is_same)\w*')),
    '4b': ('conversion to a wider type by `as`', lambda: matching(WIDENING)),
    '4c': ('printing by bytes', lambda: matching(r'\bio::(write_all|print_decimal)\(')),
    '4d': ('tests of characters by numbers', lambda: matching(r"\b[a-z]\w* (<|<=|>|>=|-|==|!=) (32|4[3-8]|57|69|b'0'|b'9')\b")),
    '4e': ('a test that answers true or false by hand', lambda: matching(r'^\s*return (true|false);')),
    '5a': ('clauses whose fact stands in three or more contracts', repeated_facts),
    '5b': ('functions with three parameters that three or more functions share', travelling),
    '6': ('a length or a first place beside what it is of', lambda: matching(r'^    (pub )?(length|first|from|past): (usize|u32),$')),
    '7': ('parameters that say which step to run', lambda: matching(r'\b(what|which|kind|form|piece|part): (u8|u32|usize)\b')),
    '8a': ('answers that only search', lambda: matching(r'= search rules$', list(lines('proofs', 'Answers.antt')))),
    '8b': ('measures of loops', lambda: matching(r'^decreases-', list(lines('proofs', 'Invariants.antt')))),
}

if __name__ == '__main__':
    if len(sys.argv) > 1:
        for f, n, text in POINTS[sys.argv[1]][1]():
            print(f'{f}:{n}: {text}')
    else:
        for point, (what, places) in POINTS.items():
            print(f'{point:3} {len(places()):5}  {what}')
