#!/usr/bin/env python3
"""What must be believed of FoxDec: from the contract of a function alone (`foxdec`, or --function NAME), the definitions
that its clauses rest on, each with its file, its lines and what it says in a line.

    tools/believed.py                    a table by file, and the number of lines
    tools/believed.py --clause valid     the same for some clauses alone (may be given more than once)
    tools/believed.py --each             a line a definition
    tools/believed.py --write            puts the table into docs/ARCHITECTURE.md, between its two marks

Lines are counted with the comment above a definition, without `use` lines and blank ones. Words of std are not listed. Of a
record with many fields, as the world of a theorem, only those fields count that some definition asks for. A definition whose
comment says that it is to be read by a law alone counts by that law."""
import argparse
import pathlib
import re
import sys

TOP = pathlib.Path(__file__).resolve().parent.parent
CRATES = TOP / 'crates'
WORD = re.compile(r"[A-Za-z_][\w'\-]*(?:\.[A-Za-z_][\w'\-]*)*")
START = re.compile(r'(abbrev|unfoldable|pub|data|record|infix|module)\b')
MARKS = '<!-- believed: begin -->', '<!-- believed: end -->'


class Module:
    """A file of definitions: what it imports, what each of its items is called, and where it stands."""

    def __init__(self, crate, name):
        self.crate, self.name = crate, name
        self.path = CRATES / crate / 'specs' / (name.replace('.', '/') + '.antt')
        self.lines = without_parameters(self.path.read_text().split('\n'))
        self.imports, self.aliases = imports_of(self.lines)
        self.parameters = set(re.findall(r'\((\w+) :', ' '.join(line for line in self.lines if line.startswith('module _'))))
        self.items = {}
        self.blocks = []
        self.read()

    def read(self):
        starts = [n for n, line in enumerate(self.lines) if START.match(line) and not line.startswith('pub use')]
        for at, start in enumerate(starts):
            end = starts[at + 1] if at + 1 < len(starts) else len(self.lines)
            while end > start + 1 and (not self.lines[end - 1].strip() or self.lines[end - 1].startswith('--')):
                end -= 1
            first = start
            while first > 0 and self.lines[first - 1].startswith('--') and not self.lines[first - 1].startswith('-- ----'):
                first -= 1
            block = Block(self, first, start, end)
            self.blocks.append(block)
            for name in block.names:
                self.items[name] = block


class Block:
    """One item of a file, or several that are defined together."""

    def __init__(self, module, first, start, end):
        self.module, self.first, self.start, self.end = module, first, start, end
        self.text = module.lines[start:end]
        self.names = []
        head = self.text[0]
        if 'mutual' in head.split():
            for line in self.text:
                found = re.match(r'  (?:pub )?(?:data |record )?([\w\-]+)', line)
                if found and ' :' in line and not re.match(r'   ', line):
                    self.names.append(found[1])
        else:
            found = re.search(r'(?:abbrev|unfoldable|data|record|pub)(?: pub)?(?: data| record)? ([\w\-◌=≡<>+*]+)', head)
            if found:
                self.names.append(found[1])
        if re.search(r'\bdata\b', head):
            self.names += [m[1] for line in self.text[1:] for m in [re.match(r' +(?:pub )?([\w\-]+) :', line)] if m]

    def size(self):
        return sum(1 for line in self.module.lines[self.first:self.end] if line.strip())

    def comment(self):
        return ' '.join(line.lstrip('- ') for line in self.module.lines[self.first:self.start])


class Declared:
    """A type of the code, with what contracts see of it."""

    def __init__(self, crate, module, name):
        self.crate, self.name = crate, name
        self.path = CRATES / crate / 'src' / (module.replace('.', '/') + '.rt')
        self.parts = []
        if not self.path.exists():
            return
        lines = self.path.read_text().split('\n')
        for n, line in enumerate(lines):
            is_type = re.match(r'pub(?:\(crate\))? (?:struct|enum|trait) ' + name + r'\b', line)
            if is_type or re.match(r'impl(?:<.*?>)? Model for ' + name + r'\b', line):
                end = n
                if not line.rstrip().endswith(';'):
                    while end + 1 < len(lines) and not lines[end].startswith('}'):
                        end += 1
                while n > 0 and re.match(r'(///|#\[)', lines[n - 1]):
                    n -= 1
                self.parts.append((n, end + 1))

    def size(self):
        return sum(end - first for first, end in self.parts)


def without_parameters(lines):
    """The lines of a file, those inside a module with parameters as though they stood outside."""
    begins = next((n for n, line in enumerate(lines) if line.startswith('module _')), len(lines))
    return lines[:begins] + [line[2:] if line.startswith('  ') else line for line in lines[begins:]]


def imports_of(lines):
    """The names that a file brings in, and the short names of modules."""
    names, aliases = {}, {}
    for line in lines:
        found = re.match(r'(?:ghost |pub )*use Rattle\.([\w]+)\.specs\.([\w.]+?)(?:\.\{(.*)\})?(?: as ([\w\-]+))?;?$', line.strip())
        if not found:
            continue
        crate, module, brought, alias = found.groups()
        if crate == 'std':
            continue
        if brought is None:
            aliases[alias or module.split('.')[-1]] = (crate, module)
        else:
            for word in brought.split(','):
                own, _, short = word.strip().partition(' as ')
                names[short or own] = (crate, module, own)
    return names, aliases


class Reading:
    """What is reached from some words."""

    def __init__(self):
        self.modules, self.found, self.types = {}, {}, {}
        # fields that some word asks for, and those of large records that none has asked for yet
        self.asked, self.unasked = set(), {}

    def module(self, crate, name):
        if (crate, name) not in self.modules:
            path = CRATES / crate / 'specs' / (name.replace('.', '/') + '.antt')
            self.modules[crate, name] = Module(crate, name) if path.exists() else None
        return self.modules[crate, name]

    def reach(self, crate, name, word):
        if name.startswith('declared.'):
            parts = name.split('.')[1:]
            if parts[-1] == 'TheVariants':
                parts = parts[:-1]
            kind = parts[-1]
            where = '.'.join(parts[:-1])
            if (crate, where, kind) not in self.types:
                self.types[crate, where, kind] = Declared(crate, where, kind)
            return
        module = self.module(crate, name)
        if module is None:
            return
        block = module.items.get(word)
        if block is None:
            if word in module.imports:
                self.reach(*module.imports[word])
            return
        key = (crate, name, block.start)
        if key not in self.found:
            self.found[key] = block
            law = re.search(r'to be read by `([\w\-]+)` alone', block.comment())
            if law:
                self.reach(crate, name, law[1])
                return
            self.words(self.but_fields(block), module.imports, module.aliases, module)

    def but_fields(self, block):
        """The lines of an item, but for the fields of a large record, which count only where some word asks for them."""
        fields = {n: found[1] for n, line in enumerate(block.text) for found in [re.match(r' +(\w+) = .*;$', line)] if found}
        if len(fields) < 8:
            return block.text
        for n, name in fields.items():
            self.unasked.setdefault(name, []).append((block.text[n].split('=', 1)[1], block.module))
        for name in self.asked & set(fields.values()):
            self.ask(name)
        return [line for n, line in enumerate(block.text) if n not in fields]

    def ask(self, name):
        """A definition asks its parameter for a field: what it stands for counts from now on."""
        self.asked.add(name)
        for text, module in self.unasked.pop(name, []):
            self.words([text], module.imports, module.aliases, module)

    def words(self, lines, imports, aliases, module=None):
        for line in lines:
            for word in WORD.findall(re.split(r'(?<!\S)--\s', line)[0]):
                head, _, rest = word.partition('.')
                if rest and module is not None and head in module.parameters:
                    self.ask(rest.split('.')[0])
                if head in imports:
                    self.reach(*imports[head])
                elif head in aliases and rest:
                    self.reach(*aliases[head], rest.split('.')[0])
                elif module is not None and head in module.items:
                    self.reach(module.crate, module.name, head)


    def traits(self, names):
        """The traits that bound a function's type parameters, with what the clauses of their methods rest on."""
        for path in sorted(CRATES.glob('*/src/*.rt')):
            lines = path.read_text().split('\n')
            for name in names:
                if any(re.match(r'pub trait ' + name + r'\b', line) for line in lines):
                    kind = Declared(path.parts[-3], path.stem, name)
                    self.types[kind.crate, path.stem, name] = kind
                    imports, aliases = imports_of(lines)
                    self.words([line for first, end in kind.parts for line in lines[first:end]], imports, aliases)


def contract_of(function):
    """The file and the clauses of a public function, by name, with the traits that bound its type parameters."""
    for path in sorted(CRATES.glob('*/src/*.rt')):
        lines = path.read_text().split('\n')
        for n, line in enumerate(lines):
            if re.match(r'pub fn ' + function + r'\b', line):
                end = n
                while lines[end] != '{' and lines[end] != '{}':
                    end += 1
                return path, clauses_of(lines[n + 1:end]), re.findall(r'\w+: (\w+)[,>]', line)
    sys.exit(f'believed: there is no public function {function}')


def clauses_of(lines):
    """The clauses of a contract, each with its lines."""
    clauses, name = {}, None
    for line in lines:
        found = re.match(r'\s+(?:requires|ensures)\*? ?(\w+)? ?\{', line)
        if found:
            name = found[1] or '_'
        if name:
            clauses.setdefault(name, []).append(line)
    return clauses


def table(reading):
    """A line a file, lowest crates first, in the order in which the file defines."""
    rows = []
    for crate in listed():
        files = {}
        for (owner, name, _), block in reading.found.items():
            if owner == crate:
                files.setdefault(name, []).append(block)
        for name, blocks in files.items():
            blocks.sort(key=lambda block: block.start)
            module = blocks[0].module
            subject = module.lines[0].lstrip('- ') if module.lines[0].startswith('--') else ''
            rows.append((str(module.path.relative_to(CRATES)), len(blocks), sum(b.size() for b in blocks), subject))
        types = {}
        for (owner, where, _), kind in reading.types.items():
            if owner == crate and kind.parts:
                types.setdefault(kind.path, []).append(kind)
        for path, kinds in sorted(types.items()):
            rows.append((str(path.relative_to(CRATES)), len(kinds), sum(k.size() for k in kinds), 'The types ' + ', '.join(sorted(k.name for k in kinds))))
    return rows


def listed():
    """The crates in the order of crates.txt, lowest first."""
    lines = (TOP / 'crates.txt').read_text().splitlines()
    return [line.split(':')[0] for line in lines if ':' in line and not line.startswith('#')]


def main():
    words = argparse.ArgumentParser(description=__doc__, formatter_class=argparse.RawDescriptionHelpFormatter)
    words.add_argument('--function', default='foxdec')
    words.add_argument('--clause', action='append')
    words.add_argument('--each', action='store_true')
    words.add_argument('--write', action='store_true')
    asked = words.parse_args()
    path, clauses, bounds = contract_of(asked.function)
    wrong = [name for name in asked.clause or [] if name not in clauses]
    if wrong:
        sys.exit(f'believed: {asked.function} has no clause {" ".join(wrong)}; it has {" ".join(clauses)}')
    reading = Reading()
    imports, aliases = imports_of(path.read_text().split('\n'))
    reading.words([line for name in asked.clause or clauses for line in clauses[name]], imports, aliases)
    reading.traits(bounds)
    if asked.each:
        for (crate, name, _), block in sorted(reading.found.items()):
            print(f'{block.module.path.relative_to(TOP)}:{block.start + 1}: {", ".join(block.names)} ({block.size()} lines): {block.comment()}')
        return
    rows = table(reading)
    total = f'{len(rows)} files, {sum(row[1] for row in rows)} definitions and types, {sum(row[2] for row in rows)} lines.'
    text = ['| file | definitions | lines | what |', '|---|---|---|---|'] + [f'| `{a}` | {b} | {c} | {d} |' for a, b, c, d in rows] + ['', total]
    if asked.write:
        page = TOP / 'docs/ARCHITECTURE.md'
        before, rest = page.read_text().split(MARKS[0])
        page.write_text(before + MARKS[0] + '\n' + '\n'.join(text) + '\n' + MARKS[1] + rest.split(MARKS[1])[1])
    else:
        print('\n'.join(text))


main()
