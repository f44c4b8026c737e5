#!/usr/bin/env python3
"""Checks that README.md and docs/ name nothing of the code that is not there.

A name is a word in backticks that looks like one of the code: a path, a word with an underscore or a capital inside, `Type::call`,
`file.antt`. Each has to stand somewhere in the tree, a path as a file or folder.

docs/PROVED.md is read more strictly. Its bullets begin with the crates that they speak of, in bold, and every name below such a bullet
has to stand in one of these crates. A call with clauses in brackets, as `judge` (`always`, `judged`), is a function of theirs which has
an `ensures` by each of these names; a record with fields in brackets, as `Runs` (`read`, `ran`), is one of their `specs` with these.

It prints what it did not find, and ends with 1 if there is anything."""
import os
import re
import sys

ROOT = os.path.dirname(os.path.dirname(os.path.abspath(__file__)))
CRATES = os.path.join(ROOT, 'crates')
PROVED = 'docs/PROVED.md'
WORD = re.compile(r"[A-Za-z_][A-Za-z0-9_']*")
IN_TICKS = re.compile(r'`([^`\n]+)`')
# a function's head, the type or trait around it, and a named clause
HEADS = re.compile(r'\bfn (\w+)|^(?:pub )?(?:impl|trait)\b([^{\n]*)|\b(?:ensures|requires) (\w+) \{', re.M)
# a record's head, and one of its fields
FIELDS = re.compile(r'^(?:pub )?record (\w+)|^  (?:pub )?(\w+) :|^\S', re.M)
CALL = re.compile(r'`((?:\w+::)*\w+)`\s+\((`\w+`(?:,\s+`\w+`)*)\)')
# words of code that are no names of this tree: of the toolchain, of std and of other programs
OUTSIDE = {
    'LC_ALL', 'serde_json', 'indexmap', 'lru', 'memchr', 'itoa', 'crossbeam_queue', 'crossbeam_utils', 'atomic_table',
}


def read(path):
    with open(path, encoding='utf-8') as file:
        return file.read()


def files_of(folder):
    for where, folders, names in os.walk(folder):
        folders[:] = [name for name in folders if name not in ('out', '.git', '.rattle')]
        for name in names:
            yield os.path.join(where, name)


class Crate:
    """The words of a crate's files, and the named clauses of its functions."""

    def __init__(self, name):
        self.name = name
        self.words, self.calls, self.types = {name}, {}, {}
        for path in files_of(os.path.join(CRATES, name)):
            if path.endswith(('.rt', '.antt')):
                text = read(path)
                self.words.update(WORD.findall(text))
                self.words.add(os.path.splitext(os.path.basename(path))[0])
                if path.endswith('.rt'):
                    self.take_calls(text)
                else:
                    self.take_records(text)

    def take_calls(self, text):
        around, clauses = '', []
        for found in HEADS.finditer(text):
            call, outer, clause = found.groups()
            if call:
                clauses = []
                self.calls.setdefault(call, []).append(clauses)
                self.types.setdefault(f'{around}::{call}', []).append(clauses)
            elif clause:
                clauses.append(clause)
            else:
                outer = re.sub(r'^<[^>]*>', '', outer.split(' for ')[-1].strip())
                around = (WORD.findall(outer) or [''])[0]

    def take_records(self, text):
        fields = []
        for found in FIELDS.finditer(text):
            record, field = found.groups()
            if record:
                fields = []
                self.calls.setdefault(record, []).append(fields)
            elif field:
                fields.append(field)
            else:
                fields = []

    def clauses_of(self, call):
        """The lists of clauses of the functions by this name, `Type::call` or `call`, or of the fields of records."""
        return self.types.get(call, []) if '::' in call else self.calls.get(call, [])


class Tree:
    def __init__(self):
        self.crates = {name: Crate(name) for name in sorted(os.listdir(CRATES)) if os.path.isdir(os.path.join(CRATES, name))}
        self.words = set().union(OUTSIDE, *(crate.words for crate in self.crates.values()))
        self.files = {os.path.relpath(path, ROOT) for path in files_of(ROOT)}
        for path in self.files:
            self.words.update(WORD.findall(path))
            if path.startswith(('bench/', 'examples/', 'crates.txt', 'docs/SCRIPT')) and not path.endswith('.svg'):
                self.words.update(WORD.findall(read(os.path.join(ROOT, path))))

    def has_path(self, path, crates):
        path = path.rstrip('/')
        below = [f'crates/{name}/{path}' for name in crates] + [path, 'crates/' + path, 'docs/' + path]
        return any(file == way or file.startswith(way + '/') or file.startswith(way + '.') for file in self.files for way in below)

    def has_name(self, name, crates):
        words = set().union(*(self.crates[crate].words for crate in crates)) if crates else self.words
        return all(word in words or word in OUTSIDE or word in self.crates for word in WORD.findall(name))


def is_path(name):
    has_end = re.search(r'\.(antt|rt|py|md|txt|omid|awk)$', name)
    return bool(re.fullmatch(r'[\w.-]+(/[\w.-]+)*/?', name)) and bool('/' in name or has_end)


def is_name(name):
    return bool(re.fullmatch(r'(\w+::)*\w+', name)) and bool(re.search(r'_|::|[a-z][A-Z]|^[A-Z][a-z]+[A-Z]', name))


def prose(text):
    """The page without its blocks of commands and output."""
    return '\n'.join(line for line in text.split('\n') if not line.startswith('    ') or re.match(r'\s+[-*|`(\w]', line))


def missing_names(tree, text, crates):
    for name in IN_TICKS.findall(text):
        # (patterns, places in other folders, what a build leaves, and words that stand for a name)
        if '*' in name or '..' in name or '/tmp/' in name or '/out' in name or re.search(r'\b[A-Z]{4,}\b', name):
            continue
        if is_path(name):
            if not any(tree.has_path(way, crates) for way in (name, name.replace('NAME', ''))):
                # (a file of specs or proofs may be told by its last folders alone)
                if not any(('/' + file).endswith('/' + name) or f'/{name.rstrip("/")}/' in file for file in tree.files):
                    yield f'no file {name}'
        elif (is_name(name) or crates and WORD.fullmatch(name)) and not tree.has_name(name, crates):
            yield f'no name {name}' + (f' in {", ".join(crates)}' if crates else '')


def missing_clauses(tree, text, crates):
    for call, listed in CALL.findall(text):
        clauses = IN_TICKS.findall(listed)
        found = [lists for crate in crates for lists in tree.crates[crate].clauses_of(call)]
        if not found:
            yield f'no call {call} in {", ".join(crates)}'
        elif not any(set(clauses) <= set(lists) for lists in found):
            there = sorted(set().union(*found))
            yield f'{call}: no clause {", ".join(c for c in clauses if c not in there) or "set"} (it has {", ".join(there)})'


def bullets(text):
    """Each bullet of the first level, with the crates that it begins with."""
    for part in re.split(r'^(?=- |#)', text, flags=re.M):
        bold = re.match(r'- \*\*(.*?)\*\*', part, re.S)
        yield part, IN_TICKS.findall(bold[1]) if bold else []


def faults_of(tree, page):
    text = read(os.path.join(ROOT, page))
    if page != PROVED:
        return list(missing_names(tree, prose(text), []))
    faults, told = [], set()
    for part, crates in bullets(text):
        unknown = [name for name in crates if name not in tree.crates]
        told.update(crates)
        faults += [f'no crate {name}' for name in unknown]
        known = [name for name in crates if name not in unknown]
        faults += missing_names(tree, part, known and known + [name for name in IN_TICKS.findall(part) if name in tree.crates])
        faults += missing_clauses(tree, part, known) if known else []
    return faults + [f'nothing is said of {name}' for name in tree.crates if name not in told]


def main():
    tree = Tree()
    pages = sys.argv[1:] or ['README.md'] + [f'docs/{name}' for name in sorted(os.listdir(os.path.join(ROOT, 'docs')))]
    faults = [(page, fault) for page in pages for fault in dict.fromkeys(faults_of(tree, page))]
    for page, fault in faults:
        print(f'{page}: {fault}')
    print(f'{len(pages)} pages, {len(faults)} names that are not there')
    return 1 if faults else 0


if __name__ == '__main__':
    sys.exit(main())
