#!/usr/bin/env python3
"""Which crates each crate names: prints the lines of crates.txt that differ from what the sources name, and ends with 1
where there are any. With --write it writes crates.txt anew, lowest crates first, keeping its comment."""
import pathlib
import re
import sys

top = pathlib.Path(__file__).resolve().parent.parent
KIT = {'byteorder', 'hex', 'indexmap', 'itoa', 'sha2', 'sqlite_items', 'thiserror'}


def listed():
    """The crates of crates.txt with the crates that each stands on."""
    crates = {}
    for line in (top / 'crates.txt').read_text().splitlines():
        line = line.split('#')[0].strip()
        if line:
            name, _, rest = line.partition(':')
            crates[name.strip()] = rest.split()
    return crates


def named(crate, known):
    """The crates that a crate's sources, definitions and proofs name."""
    found = set()
    for path in (top / 'crates' / crate).rglob('*'):
        if path.suffix not in ('.rt', '.antt') or 'out' in path.parts:
            continue
        for line in path.read_text().splitlines():
            code = re.split(r'//|--', line)[0]
            found.update(re.findall(r'\bRattle\.(\w+)\.', code))
            found.update(re.findall(r'(?<![\w:.])(\w+)::', code))
    return sorted((found & known) - {crate})


def in_order(needs):
    """Each crate after those that it stands on."""
    done, rest = [], dict(needs)
    while rest:
        ready = [name for name, below in rest.items() if not any(b in rest for b in below)]
        if not ready:
            sys.exit('a circle: ' + ' '.join(rest))
        done += ready
        for name in ready:
            del rest[name]
    return done


def main():
    crates = listed()
    known = set(crates) | KIT
    needs = {crate: named(crate, known) for crate in crates}
    if '--write' in sys.argv:
        head = [line for line in (top / 'crates.txt').read_text().splitlines() if line.startswith('#')]
        lines = head + [f'{crate}: {" ".join(needs[crate])}'.rstrip() for crate in in_order(needs)]
        (top / 'crates.txt').write_text('\n'.join(lines) + '\n')
        return 0
    wrong = 0
    for crate, below in crates.items():
        for extra in sorted(set(below) - set(needs[crate])):
            print(f'{crate}: lists {extra}, which nothing names')
            wrong = 1
        for missing in sorted(set(needs[crate]) - set(below)):
            print(f'{crate}: names {missing}, which is not listed')
            wrong = 1
    return wrong


sys.exit(main())
