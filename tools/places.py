#!/usr/bin/env python3
"""Counts, in src/, the places that docs/DESIGN-PASS.md speaks of: tools/places.py [COMMIT] [--list POINT].

Without a commit it reads the files as they stand. Each line of a point is a regular expression over one line of code, or a test of a
function's head; what they find is a list to be read, not a verdict."""
import re
import subprocess
import sys
from pathlib import Path

TOP = Path(__file__).resolve().parent.parent


def files(commit):
    if commit is None:
        for f in sorted(TOP.glob('crates/*/src/*.rt')):
            yield f.parent.parent.name, f.read_text()
        return
    names = subprocess.run(['git', 'ls-tree', '-r', '--name-only', commit, 'crates'], cwd=TOP, capture_output=True, text=True, check=True).stdout.split()
    for n in names:
        m = re.fullmatch(r'crates/([^/]+)/src/.*\.rt', n)
        if m:
            yield m.group(1), subprocess.run(['git', 'show', f'{commit}:{n}'], cwd=TOP, capture_output=True, text=True, check=True).stdout


LINES = {
    '1 own enums': r'^\s*(pub )?enum \w+',
    '1 a refusal\'s number, a flag or a state in a struct': r'^\s*(pub )?(refusal|state|phase|second|swap|same): ',
    '1 a refusal\'s number as the answer': r'\) -> u32\b',
    '1 if .. { true } else { false }': r'\{ (true \} else \{ false|false \} else \{ true) \}',
    '3 while': r'^\s*while ',
    '3 return false, return true': r'^\s*return (false|true);',
    '4 a field or a number of one width turned into the other': r'\bwide\(|\bwidened\(|to_stored\(',
    '7 a test of which phase or state': r'(phase|state) (==|!=|>|<) ',
}


def heads(text):
    """Each function with its parameters, as `name: type`."""
    for m in re.finditer(r'\bfn (\w+)(?:<[^>]*>)?\(', text):
        depth, at, params, start = 1, m.end(), [], m.end()
        while depth:
            c = text[at]
            depth += c in '([{<'
            depth -= c in ')]}>' and text[at - 1] != '-'
            if (c == ',' and depth == 1) or depth == 0:
                params.append(' '.join(text[start:at].split()))
                start = at + 1
            at += 1
        yield m.group(1), [p for p in params if p]


def seven(ps):
    names = [p.split(':')[0] for p in ps]
    return {'m0', 'm1', 'm2', 'n0', 'n1', 'n2', 'u'} <= set(names)


def with_length(ps):
    return any(re.search(r'\[u(8|16|64)(; \d+)?\]$', a) and re.match(r'\w+: usize$', b) for a, b in zip(ps, ps[1:]))


HEADS = {
    '5 the seven rows, one by one': seven,
    '5 Bounds and two series': lambda ps: 'f: Bounds' in ps and any(p.startswith('r:') for p in ps),
    '5 seven parameters or more': lambda ps: len(ps) >= 7,
    '6 a row or a slice, and a number of places beside it': with_length,
}


def main():
    args = sys.argv[1:]
    shown = None
    if '--list' in args:
        i = args.index('--list')
        shown = args[i + 1]
        del args[i:i + 2]
    found = {}
    for crate, text in files(args[0] if args else None):
        for what, expr in LINES.items():
            for line in text.split('\n'):
                if re.search(expr, line) and not line.strip().startswith('//'):
                    found.setdefault(what, []).append(f'{crate}: {line.strip()}')
        for name, params in heads(text):
            for what, test in HEADS.items():
                if test(params):
                    found.setdefault(what, []).append(f'{crate}::{name}')
    for what in sorted([*LINES, *HEADS]):
        places = found.get(what, [])
        print(f'{len(places):4}  {what}')
        if shown and what.startswith(shown):
            for p in places:
                print('        ' + p)


main()
