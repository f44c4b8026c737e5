#!/usr/bin/env python3
"""Checks that README.md and docs/ show what is so: their commands, scripts, histories and links.

    bench/check_pages.py                  builds omid, omid_view, omid_check and bank, unproved (bench/keep.py), and checks all
    bench/check_pages.py --with FOLDER    the same with the programs that stand in the folder
    bench/check_pages.py --built          the same with those in crates/*/out, which a green gate leaves there
    bench/check_pages.py --links          the links alone: no program is needed
    a page's name behind these            that page alone

What is checked of a page, by the word behind the three backticks that open a block:

    console   a line `$ COMMAND` (it goes on in lines that begin with `> `), and below it all that it writes to standard output,
              up to the next `$`. A line `...` stands for any lines, and a last line `[status 7]` for a status that is not 0.
              Commands of a page run in its order, by bash, at the top of the repository, with the programs on the PATH. What
              threads write (`omid run`) is compared twenty times.
    omid      a script: `omid replay` carries it out.  `omid run`: on threads and over split stores comes what a replay gives
              but for notes, twenty times.  `omid free`: the same, in any order.  `omid stuck`: it would wait for ever on
              threads, and is replayed alone.
    history   `omid audit` reads each line as an item
    sh        is shown and not run

A link has to lead to a file, and to a heading of it where it names one. A page that is named in prose has to be a link. A
command that stands in a page and in no such block is a fault too: nobody would see that it is wrong.

Of examples/: each script is carried out; a picture is that of the script of its name, a history beside a script is its replay,
and an answer beside a trace is what an audit says of it."""
import os
import re
import shutil
import subprocess
import sys
import tempfile

ROOT = os.path.dirname(os.path.dirname(os.path.abspath(__file__)))
sys.path.insert(0, os.path.join(ROOT, 'bench'))
PROGRAMS = ('omid', 'omid_view', 'omid_check', 'bank')
# how often what threads write is tried
TRIES = 20
# a command that takes longer than this is stuck
SECONDS = 120
KINDS = {'console', 'omid', 'omid run', 'omid free', 'omid stuck', 'history', 'sh', 'text', 'json', 'sql', 'python', 'rust'}


def pages():
    docs = sorted(name for name in os.listdir(os.path.join(ROOT, 'docs')) if name.endswith('.md'))
    return ['README.md', *(f'docs/{name}' for name in docs)]


def read(path):
    with open(os.path.join(ROOT, path), encoding='utf-8') as file:
        return file.read()


# ---- what a page has

FENCED = re.compile(r'^```.*?^```$', re.S | re.M)
# what looks like a command where no block says so
COMMAND = re.compile(r' {4,}(?:\$ |\(cd crates/|(?:crates/\w+/out/)?omid(?:_view)? [a-z]|jq |awk |examples/\w+\.py )')


def blank(found):
    return '\n' * found[0].count('\n')


def blocks(text):
    """The fenced blocks of a page: the line where each begins, its kind, its lines."""
    found, kind = [], None
    for number, line in enumerate(text.split('\n'), 1):
        if line.startswith('```'):
            if kind is None:
                kind = line[3:].strip()
                found.append((number, kind, []))
            else:
                kind = None
        elif kind is not None:
            found[-1][2].append(line)
    return found


def without_blocks(text):
    """The page's prose: its blocks, and its indented examples, are blank lines."""
    text = FENCED.sub(blank, text)
    return re.sub(r'^(?: {4}|\t)(?! *[-*\d]).*$', '', text, flags=re.M)


def anchors(text):
    """The anchors of a page's headings, as a viewer of pages makes them."""
    heads = re.findall(r'^#+ +(.*)$', FENCED.sub('', text), flags=re.M)
    plain = (re.sub(r'\[([^\]]*)\]\([^)]*\)', r'\1', head) for head in heads)
    return {re.sub(r'[^\w\- ]', '', head.lower()).strip().replace(' ', '-') for head in plain}


class Command:
    """A command of a page, with what the page says that it writes."""

    def __init__(self, line, words):
        self.line, self.words, self.shown, self.status = line, words, [], 0


def commands(line, lines):
    found = []
    for at, text in enumerate(lines, line + 1):
        if text.startswith('$ '):
            found.append(Command(at, text[2:]))
        elif text.startswith('> ') and found and not found[-1].shown:
            found[-1].words += '\n' + text[2:]
        elif found and re.fullmatch(r'\[status \d+\]', text):
            found[-1].status = int(text[8:-1])
        elif found:
            found[-1].shown.append(text)
    return found


# ---- what is so

def run(words, path, given=None):
    try:
        done = subprocess.run(['bash', '-o', 'pipefail', '-c', words], cwd=ROOT, env={**os.environ, 'PATH': path}, input=given,
                              stdin=subprocess.DEVNULL if given is None else None, capture_output=True, text=True,
                              timeout=SECONDS)
    except subprocess.TimeoutExpired:
        return None, f'it had not ended after {SECONDS} seconds'
    trouble = '' if done.stdout else ''.join(f'(stderr) {it}\n' for it in done.stderr.splitlines()[-3:])
    return done.returncode, done.stdout + trouble


def fits(shown, printed):
    """The lines are those that are shown, where `...` stands for any."""
    if '...' not in shown:
        return shown == printed
    pattern = ''.join('(?:.*\n)*?' if line == '...' else re.escape(line) + '\n' for line in shown)
    return re.fullmatch(pattern, ''.join(line + '\n' for line in printed)) is not None


def fault_of_command(command, path):
    for _ in range(TRIES if re.search(r'\bomid run\b', command.words) else 1):
        status, printed = run(command.words, path)
        if status != command.status:
            return f'status {status} in place of {command.status}:\n{printed[-2000:]}'
        if not fits([line.rstrip() for line in command.shown], [line.rstrip() for line in printed.splitlines()]):
            return f'it prints:\n{printed[:3000]}'
    return None


def told(kind, printed):
    """The items but for notes, sorted where the script leaves their order open."""
    items = [line for line in printed.splitlines() if not line.startswith('note ')]
    return sorted(items) if kind == 'omid free' else items


def fault_of_script(kind, text, path):
    status, replayed = run('omid replay', path, text)
    if status != 0:
        return f'status {status}: {replayed}'
    for words in ('omid run', 'omid run split') if kind in ('omid run', 'omid free') else ():
        for _ in range(TRIES):
            status, printed = run(words, path, text)
            if status != 0 or told(kind, printed) != told(kind, replayed):
                return f'{words}: status {status}, and not what a replay gives:\n{printed[:2000]}'
    return None


def faults_of_blocks(page, path):
    """How many things were checked, and what is wrong: line and words."""
    count, wrong = 0, []
    for line, kind, lines in blocks(read(page)):
        text = ''.join(it + '\n' for it in lines)
        if kind not in KINDS:
            wrong.append((line, f'a block of no kind that is known: `{kind}`'))
        elif kind == 'console':
            for command in commands(line, lines):
                count += 1
                fault = fault_of_command(command, path)
                if fault:
                    wrong.append((command.line, f'$ {command.words}\n{fault}'))
        elif kind.startswith('omid'):
            count += 1
            fault = fault_of_script(kind, text, path)
            if fault:
                wrong.append((line, fault))
        elif kind == 'history':
            count += 1
            status, printed = run('omid audit', path, text)
            if status not in (0, 7):
                wrong.append((line, f'status {status}: {printed}'))
    return count, wrong


def faults_of_links(page):
    count, wrong = 0, []
    prose = without_blocks(read(page))
    # a link's words may go over the end of a line
    bare = re.sub(r'\[[^\]]*\]\([^)]*\)', blank, prose)
    for line, text in enumerate(prose.split('\n'), 1):
        for target in re.findall(r'\]\(([^)\s]+)\)', text):
            if re.match(r'\w+:', target):
                continue
            count += 1
            name, _, anchor = target.partition('#')
            path = os.path.normpath(os.path.join(os.path.dirname(page), name)) if name else page
            if not os.path.exists(os.path.join(ROOT, path)):
                wrong.append((line, f'a dead link: {target}'))
            elif anchor and path.endswith('.md') and anchor not in anchors(read(path)):
                wrong.append((line, f'no such heading: {target}'))
    for line, text in enumerate(FENCED.sub(blank, read(page)).split('\n'), 1):
        if COMMAND.match(text):
            wrong.append((line, f'a command in no block: {text.strip()}'))
    for line, text in enumerate(bare.split('\n'), 1):
        for name in re.findall(r'\b(?:docs/)?[A-Z]{4,}\.md\b', text):
            wrong.append((line, f'a page that is named and no link: {name}'))
    return count, wrong


def faults_of_examples(path):
    folder = os.path.join(ROOT, 'examples')
    commands = [(f'omid replay < examples/{name}', None) for name in sorted(os.listdir(folder)) if name.endswith('.omid')]
    for name in sorted(os.listdir(os.path.join(folder, 'pictures'))):
        script = f'examples/{name[:-4]}.omid'
        if name.endswith('.svg') and os.path.exists(os.path.join(ROOT, script)):
            commands.append((f'omid replay < {script} | omid_view picture', f'examples/pictures/{name}'))
    for name in sorted(os.listdir(folder)):
        base = f'examples/{name.rpartition(".")[0]}'
        if name.endswith('.history') and os.path.exists(os.path.join(ROOT, base + '.omid')):
            commands.append((f'omid replay < {base}.omid', f'examples/{name}'))
        if name.endswith('.answer') and os.path.exists(os.path.join(ROOT, base + '.json')):
            commands.append((f'omid audit < <(examples/trace.py {base}.json) || true', f'examples/{name}'))
    wrong = []
    for words, answer in commands:
        status, printed = run(words, path)
        if status != 0 or (answer and printed != read(answer)):
            wrong.append((0, f'{words}: status {status}' + (f', and not {answer}' if answer else '')))
    return len(commands), wrong


# ---- the programs

def path_of(how, folder):
    """A PATH with the programs: those in a folder, those of a green gate, or those that are built now."""
    if how == '--with':
        return os.path.abspath(folder)
    if how == '--built':
        return ':'.join(os.path.join(ROOT, 'crates', name, 'out') for name in PROGRAMS)
    import keep
    made = tempfile.mkdtemp(prefix='pages-')
    for name in PROGRAMS:
        print(f'{name} is built, unproved', file=sys.stderr, flush=True)
        if keep.keep(name, made) is None:
            sys.exit(f'check_pages.py: no program came of {name}')
    return made


def told_faults(page, wrong):
    for line, fault in sorted(wrong):
        print(f'{page}:{line}: {fault}', flush=True)
    return len(wrong)


def main():
    words = sys.argv[1:]
    how = words.pop(0) if words and words[0].startswith('-') else ''
    folder = words.pop(0) if how == '--with' and words else None
    known = how in ('', '--built', '--links') or (how == '--with' and folder)
    if not known or any(it not in pages() for it in words):
        sys.exit(__doc__)
    programs = '' if how == '--links' else path_of(how, folder)
    path = f'{programs}:{os.environ["PATH"]}'
    checked, links, faults = 0, 0, 0
    for page in words or pages():
        count, wrong = faults_of_links(page)
        links += count
        if programs:
            count, more = faults_of_blocks(page, path)
            checked, wrong = checked + count, wrong + more
        faults += told_faults(page, wrong)
    if programs and not words:
        count, wrong = faults_of_examples(path)
        checked += count
        faults += told_faults('examples', wrong)
    if not how:
        shutil.rmtree(programs)
    print(f'{checked} commands, scripts and histories, {links} links: {faults} faults')
    return 1 if faults else 0


if __name__ == '__main__':
    sys.exit(main())
