#!/usr/bin/env python3
"""Every public function that has a contract: what its doc says first, and the names of its clauses, crate by crate, as
docs/CLAIMS.md has them.

    tools/claims.py --write    writes docs/CLAIMS.md anew
    tools/claims.py            says whether docs/CLAIMS.md is what it would write; ends with 1 where it isn't"""
import pathlib
import re
import sys

TOP = pathlib.Path(__file__).resolve().parent.parent
PAGE = TOP / 'docs/CLAIMS.md'
HEAD = '''# What is proved, function by function

Each public function with a contract, with the first sentence of its documentation and the names of the clauses that
its callers may cite; a clause without a name is shown as `_`. Methods stand under their type. The page is written by
`tools/claims.py` from the sources, lowest crates first; crates of tests and small programs are left out. What the clauses
say stands at the function, and what their words mean in the crate's `specs/`.
'''


def crates():
    """The crates of crates.txt that are no tests and no small programs."""
    lines = (TOP / 'crates.txt').read_text().splitlines()
    names = [line.split(':')[0] for line in lines if ':' in line and not line.startswith('#')]
    return [name for name in names if not re.search(r'_(tests|bench|replay|example)$', name)]


def exported(crate):
    """The names that the crate's root gives on."""
    root = next(path for path in (TOP / 'crates' / crate / 'src').glob('*.rt') if path.stem in ('lib', 'main'))
    return set(re.findall(r'\w+', ' '.join(re.findall(r'pub use [\w:]*?(\{[^}]*\}|\w+);', root.read_text()))))


def first_sentence(lines, at):
    """The first sentence of the doc above a line, without its attributes."""
    doc = []
    while at > 0 and re.match(r'\s*(///|#\[)', lines[at - 1]):
        at -= 1
        if lines[at].lstrip().startswith('///'):
            doc.insert(0, lines[at].lstrip()[3:].strip())
    text = ' '.join(doc)
    found = re.match(r'(.*?[.;:])(?:\s|$)', text)
    return (found[1] if found else text).rstrip('.;:').replace('|', '\\|')


def contract(lines, at):
    """The names of the clauses of the function that begins at a line."""
    names = []
    for line in lines[at + 1:]:
        if re.match(r'\s*\{\}?\s*$', line) or re.match(r'\s*}', line):
            break
        found = re.match(r'\s+ensures\*? ?([\w]+)? ?\{', line)
        if found:
            names.append(found[1] or '_')
    return names


def rows(crate):
    """A row a public function of the crate."""
    found, public = [], exported(crate)
    for path in sorted((TOP / 'crates' / crate / 'src').rglob('*.rt')):
        lines = path.read_text().split('\n')
        owner = None
        for at, line in enumerate(lines):
            head = re.match(r'(?:impl|pub trait)(?:<.*?>)? (?:(\w+)(?:<.*?>)? for )?(\w+)', line)
            if head:
                owner = head[2] if head[1] is None else f'{head[2]} as {head[1]}'
            elif line.startswith('}'):
                owner = None
            named = re.match(r'(\s*)(pub )?(?:const )?fn (\w+)', line)
            if not named or '#[test]' in ''.join(lines[max(0, at - 3):at]):
                continue
            if not named[2] and not (owner and named[1]):
                continue
            names = contract(lines, at)
            name = owner.split(' as ')[0] if owner and named[1] else named[3]
            if names and name in public and (named[2] or ' as ' in owner):
                label = f'{owner}::{named[3]}' if owner and named[1] else named[3]
                clauses = ', '.join(f'`{name}`' for name in names)
                said = first_sentence(lines, at) or 'What the trait says of its method, for this type'
                found.append(f'| `{label}` | {said} | {clauses} |')
    return found


def page():
    """The whole page."""
    parts = [HEAD]
    for crate in crates():
        lines = rows(crate)
        if lines:
            parts.append('\n'.join([f'## `{crate}`', '', '| function | what it says | clauses |', '|---|---|---|', *lines]) + '\n')
    return '\n'.join(parts)


def main():
    text = page()
    if '--write' in sys.argv:
        PAGE.write_text(text)
        return 0
    same = PAGE.exists() and PAGE.read_text() == text
    print('docs/CLAIMS.md is ' + ('as the sources have it' if same else 'not as the sources have it: run tools/claims.py --write'))
    return 0 if same else 1


sys.exit(main())
