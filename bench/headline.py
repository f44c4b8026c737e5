#!/usr/bin/env python3
"""Counts the definitions on which clauses of the top call rest: how much one has to read to know what they say.

    bench/headline.py                     the table of docs/TRUST.md
    bench/headline.py --write             writes it there
    bench/headline.py --check             says whether it stands there
    bench/headline.py Isolated Serial     the same of definitions by name, each with its files and the lines of each

A definition counts with the definitions that it names, and these with theirs, through `specs/` of all crates and the types that
`src/` declares (with what contracts see of them: `impl Model`). Lines that are blank, comments or imports don't count. Words of
the kit's std library are counted apart, by name alone."""
import os
import re
import sys
from collections import defaultdict

ROOT = os.path.dirname(os.path.dirname(os.path.abspath(__file__)))
CRATES = os.path.join(ROOT, 'crates')
PAGE = os.path.join(ROOT, 'docs', 'TRUST.md')

# What the table has a row for: words, and the definitions that say it.
ROWS = [
    ('snapshot isolation', ['history_book Isolated']),
    ('serial order, by `reads strict`', ['cause_rules SerialIfStrict']),
    ('each of sixteen causes is shown', ['cause_rules Explained']),
    ('every line is answered', ['command_semantics Answers']),
    ('faults and times are those planned', ['command_semantics Planned']),
    ('the lines of a history, as text', ['history_text printed']),
    ('the script that bytes are', ['session_script script_of']),
    ('what a replay does, event by event', ['command_semantics replayed']),
    ('**the promise of `replay`**, with `replayed` as a mere name',
     ['omid_top Replays', 'omid_top IsReplay', 'history_text printed'], {'replayed', 'script_played'}),
    ('all of `replay`', ['omid_top Replays', 'omid_top IsReplay', 'history_text printed']),
    ('all of `run`', ['omid_top Runs', 'omid_top IsRun']),
    ('all of `run split`', ['omid_top RunsSplit', 'omid_top IsRunSplit']),
    ('**all of `audit`**', ['omid_top Audits', 'omid_top IsAudit']),
]

DEFINES = re.compile(r'(?:abbrev |unfoldable )?(?:pub )?(?:record )?([^\s:({]+)(?= *[:({]|$| )')
USES = re.compile(r'^(?:pub )?use Rattle\.([\w.]+?)\.(?:\{(.*)\}|(\w+))(?: as (\w+))?$')
WORD = re.compile(r"[\w'◌]+|[^\s\w(){}\[\];,.]+")


class File:
    """A file of `specs/`: its definitions with their lines, and where the names come from that it uses."""

    def __init__(self, path):
        self.path, self.lines, self.uses = path, defaultdict(list), {}
        self.modules, name = {}, None
        with open(path, encoding='utf-8') as file:
            text = file.read()
        for line in text.split('\n'):
            if not line.strip() or line.lstrip().startswith('--') or line.startswith(('module', 'pub mod', 'mod ')):
                continue
            use = USES.match(line)
            if use:
                self.import_from(*use.groups())
                continue
            if re.match(r'(abbrev|unfoldable|pub|record|ghost) ', line):
                name = DEFINES.match(line)[1]
            if name:
                self.lines[name].append(line)

    def import_from(self, module, names, one, other):
        if one and other:
            self.modules[other] = f'{module}.{one}'
        for name in (names or one or '').split(','):
            name, _, local = name.strip().partition(' as ')
            self.uses[local or name] = (module, name)

    def defined_by(self, word):
        """The name here that the word stands for: an infix one is declared with places for its sides."""
        return next((it for it in (word, f'◌{word}◌', f'◌{word}', f'{word}◌') if it in self.lines), None)


def all_files():
    found = {}
    for folder, _, names in os.walk(CRATES):
        for name in names:
            path = os.path.join(folder, name)
            part = os.path.relpath(path, CRATES).split('/')
            if name.endswith('.antt') and part[1] == 'specs':
                found['.'.join([part[0], 'specs', *part[2:]])[:-len('.antt')]] = File(path)
    return found


FILES = all_files()


def declared(module, name):
    """The lines by which `src/` declares a type, and those that say what contracts see of it."""
    crate, path = module.split('.specs.declared.')
    parts = path.split('.')
    wanted = next((it for it in reversed(parts) if it[:1].isupper() and it not in ('TheVariants', 'TheConstants')), name)
    for end in range(len(parts), -1, -1):
        for file in ('/'.join(parts[:end]) + '.rt', '/'.join(parts[:end] + ['lib.rt'])):
            source = os.path.join(CRATES, crate, 'src', file)
            if os.path.isfile(source):
                return (source, wanted), cut_type(source, wanted)
    return None, []


def cut_type(source, name):
    kept, depth, inside = [], 0, False
    head = re.compile(rf'pub (?:enum|struct|const) {name}\b|impl.*\bModel for {name}\b')
    with open(source, encoding='utf-8') as file:
        for line in file:
            if not inside and head.match(line.strip()):
                inside, depth = True, 0
            if inside:
                if line.strip() and not line.strip().startswith(('//', '#')):
                    kept.append(line.rstrip('\n'))
                depth += line.count('{') - line.count('}')
                inside = depth > 0
    return kept


def reached(roots, names=()):
    """The definitions that the roots rest on, as {(file, name): lines}, and the words of std among them; names stay closed."""
    seen, std, todo = {}, set(), list(roots)
    while todo:
        module, name = todo.pop()
        if module.startswith(('std.', 'json.', 'serde_json.', 'indexmap.', 'lru.')):
            std.add((module, name))
            continue
        if '.specs.declared.' in module:
            key, lines = declared(module, name)
            if key and key not in seen:
                seen[key] = lines
                todo += named_in_source(module, lines)
            continue
        file = FILES.get(module)
        local = file and file.defined_by(name)
        if not local:
            if file and name in file.uses:
                todo.append(file.uses[name])
            elif f'{module}.{name}' in FILES:
                pass
            continue
        if (file.path, local) in seen:
            continue
        seen[file.path, local] = file.lines[local][:1] if local in names else file.lines[local]
        todo += [] if local in names else named_in(module, file, local)
    return seen, std


def named_in(module, file, local):
    for word in set(WORD.findall('\n'.join(file.lines[local]))):
        if word != local and file.defined_by(word):
            yield module, word
        for form in (word, f'◌{word}◌'):
            if form in file.uses:
                yield file.uses[form]
            elif form in file.modules:
                yield file.modules[form], form


def named_in_source(module, lines):
    """The types of the same crate that a declared type's lines name, wherever `src/` declares them."""
    crate = module.split('.')[0]
    for word in set(re.findall(r'\b[A-Z]\w+', '\n'.join(lines))):
        for other in (crate, 'stamp_base', 'history_book', 'script_data'):
            for folder, _, names in os.walk(os.path.join(CRATES, other, 'src')):
                for name in names:
                    path = os.path.join(folder, name)
                    if name.endswith('.rt') and cut_type(path, word):
                        part = os.path.relpath(path, os.path.join(CRATES, other, 'src'))[:-3].replace('/', '.')
                        yield f'{other}.specs.declared.{part}', word


def root_of(text):
    crate, name = text.split()
    return next((module, name) for module, file in sorted(FILES.items()) if module.startswith(crate + '.') and name in file.lines)


def counted(roots, names=()):
    seen, std = reached(roots, names)
    files = defaultdict(int)
    for (path, _), lines in seen.items():
        files[os.path.relpath(path, ROOT)] += len(lines)
    return len(seen), sum(files.values()), files, std


def table():
    rows = ['| What is said | Definitions | Lines | Files | Words of std | Most lines stand in |', '|---|---|---|---|---|---|']
    for words, roots, *names in ROWS:
        count, lines, files, std = counted([root_of(it) for it in roots], *names)
        rows.append(f'| {words} | {count} | {lines} | {len(files)} | {len({name for _, name in std})} | {most(files)} |')
    whole = sum(len(lines) for file in FILES.values() for lines in file.lines.values())
    rows.append(f'| all files of `specs/` | {sum(len(file.lines) for file in FILES.values())} | {whole} | {len(FILES)} | | |')
    return '\n'.join(rows) + '\n'


def most(files):
    """The crates with the most of these lines."""
    crates = defaultdict(int)
    for path, lines in files.items():
        crates[path.split('/')[1]] += lines
    return ', '.join(f'`{name}` {lines}' for name, lines in sorted(crates.items(), key=lambda it: -it[1])[:2])


def with_table(text):
    return re.sub(r'(?<=<!-- bench/headline.py -->\n).*?(?=<!-- end -->)', lambda _: table(), text, flags=re.S)


def main():
    if sys.argv[1:] in (['--write'], ['--check']):
        with open(PAGE, encoding='utf-8') as file:
            text = file.read()
        if sys.argv[1] == '--check':
            return print('the table is as counted' if with_table(text) == text else 'the table is not as counted')
        with open(PAGE, 'w', encoding='utf-8') as file:
            file.write(with_table(text))
        return None
    if not sys.argv[1:]:
        return print(table(), end='')
    for name in sys.argv[1:]:
        roots = [(module, name) for module, file in FILES.items() if name in file.lines]
        if not roots:
            sys.exit(f'no definition has the name {name}')
        count, lines, files, std = counted(roots[:1])
        print(f'{name}: {count} definitions, {lines} lines in {len(files)} files')
        for path, part in sorted(files.items(), key=lambda it: -it[1]):
            print(f'  {part:5} {path}')
        print('  of std:', ' '.join(sorted({word for _, word in std})))
    return None


if __name__ == '__main__':
    main()
