#!/usr/bin/env python3
"""Compares the contracts of two states of the repository: check_clauses.py OLD [NEW] [--rename A=B ..] [--list].

OLD and NEW are commits (NEW: the files as they lie here). A contract is a function's signature with its `requires` and `ensures`,
each a line of its own, and a definition of `specs/` is a line too. What NEW lacks and what it has besides is printed by crate and
function; where only names of crates, modules or types changed, `--rename` says how. Status 1 where a public contract is gone or is
another. A renamed word is read by its new name on both sides. `--list` prints the contracts of NEW instead, sorted: a list to keep.
"""
import os
import re
import subprocess
import sys
from collections import Counter

HEAD = re.compile(r'^([ \t]*)((?:pub(?:\([a-z]+\))? )?(?:const )?(?:unsafe )?fn (\w+))', re.M)
OWNER = re.compile(r'^(?:pub(?:\([a-z]+\))? )?(?:unsafe )?(?:trait|impl)\b[^\n{;]*', re.M)
CLAUSE = re.compile(r'\s*(requires|ensures|diverges|allocates|panics)\b\s*([\w]*)\s*')
OPEN, CLOSE = '([{', ')]}'


def files_at(commit):
    """The sources and definitions of a commit by path, or of the files here."""
    wanted = lambda name: name.startswith('crates/') and '/out/' not in name and (name.endswith('.rt') or '/specs/' in name and name.endswith('.antt'))
    if commit is None:
        found = {}
        for below, _, names in os.walk('crates'):
            for name in names:
                path = f'{below}/{name}'
                if wanted(path):
                    with open(path, encoding='utf-8') as it:
                        found[path] = it.read()
        return found
    names = [it for it in subprocess.check_output(['git', 'ls-tree', '-r', '--name-only', commit], text=True).split('\n') if wanted(it)]
    asked = ''.join(f'{commit}:{it}\n' for it in names).encode()
    told = subprocess.run(['git', 'cat-file', '--batch'], input=asked, stdout=subprocess.PIPE, check=True).stdout
    found, at = {}, 0
    for name in names:
        end = told.index(b'\n', at)
        size = int(told[at:end].split()[2])
        found[name] = told[end + 1 : end + 1 + size].decode()
        at = end + size + 2
    return found


def behind(text, at):
    """The place behind the bracket that closes the one at this place."""
    depth = 0
    for place in range(at, len(text)):
        if text[place] in OPEN:
            depth += 1
        elif text[place] in CLOSE:
            depth -= 1
            if depth == 0:
                return place + 1
    return len(text)


def flat(text):
    return re.sub(r',?\s*([)\]}])', r'\1', re.sub(r'([(\[{])\s+', r'\1', re.sub(r'\s+', ' ', text))).strip()


def contracts(text):
    """(owner, function, is it public, line of its contract) of a source."""
    code = re.sub(r'^\s*//.*$', '', text, flags=re.M)
    owners = [(it.start(), flat(it[0])) for it in OWNER.finditer(code)]
    for head in HEAD.finditer(code):
        owner = '' if not head[1] else next((name for start, name in reversed(owners) if start < head.start()), '')
        is_public = head[2].startswith('pub fn') or head[2].startswith('pub const') or ('trait' in owner or ' for ' in owner)
        at = behind(code, code.index('(', head.end() - 1))
        start = head.start(2)
        while at < len(code) and code[at] not in '{;' and not CLAUSE.match(code, at):
            at += 1
        yield owner, head[3], is_public, flat(code[start:at])
        while found := CLAUSE.match(code, at):
            brace = found.end()
            if brace >= len(code) or code[brace] != '{':
                break
            at = behind(code, brace)
            yield owner, head[3], is_public, flat(code[found.start() : at])


def lines_of(files, renames):
    told = Counter()
    for path, text in files.items():
        for old, new in renames:
            text = re.sub(rf"(?<![\w'-]){re.escape(old)}(?![\w'-])", new, text)
        if path.endswith('.antt'):
            for line in re.split(r'\n\s*\n', re.sub(r'^\s*(--.*|(?:pub )?(?:use|mod) .*)$', '', text, flags=re.M)):
                if line.strip():
                    told['definition', '', True, flat(line)] += 1
        else:
            for it in contracts(text):
                told[it] += 1
    return told


def main(words):
    renames = [tuple(words[n + 1].split('=')) for n, it in enumerate(words) if it == '--rename']
    plain = [it for n, it in enumerate(words) if not it.startswith('--') and (n == 0 or words[n - 1] != '--rename')]
    if '--list' in words:
        for owner, name, is_public, line in sorted(lines_of(files_at(plain[0] if plain else None), []), key=str):
            if is_public:
                print(owner, name, line, sep='\t')
        return 0
    if not plain:
        print(__doc__)
        return 2
    old = lines_of(files_at(plain[0]), renames)
    new = lines_of(files_at(plain[1] if len(plain) > 1 else None), renames)
    gone, more = old - new, new - old
    for sign, these in (('-', gone), ('+', more)):
        for (owner, name, is_public, line), count in sorted(these.items(), key=str):
            print(sign, 'public ' if is_public else 'private', owner, name + ':', line, f'({count} times)' if count > 1 else '')
    lost = sum(count for it, count in gone.items() if it[2])
    print(f'{sum(old.values())} lines of contracts and definitions before, {sum(new.values())} now; {lost} public ones gone or changed')
    return 1 if lost else 0


if __name__ == '__main__':
    sys.exit(main(sys.argv[1:]))
