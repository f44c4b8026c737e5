#!/usr/bin/env python3
"""Measures README.md and docs/: their sizes, how long their sentences are, links that are dead, house words that stand alone.

    bench/measure_pages.py [PAGE ..]      a row for each page, and what is to be mended below
    bench/measure_pages.py --all [PAGE ..]      with each sentence of more than 30 words, and each cell of more than 300 characters

A house word is one of the project's own. It stands alone on a page where no paragraph that has it has the field's word for it
too (docs/GLOSSARY.md has both). Examples, names in backticks and the glossary itself don't count."""
import os
import re
import sys

sys.path.insert(0, os.path.dirname(os.path.abspath(__file__)))
from check_pages import faults_of_links, pages, read, without_blocks

# The goals: words a sentence on average and at most, characters a line of prose and a cell.
MEAN, MOST, WIDE, CELL = 20, 40, 132, 300
# A house word, and what of the field's words explains it.
HOUSE = [
    (r'\bweathers?\b', r'fault plan|fault injection|planned faults?|fault model'),
    (r'\bfates?\b', r'outcome|fault plan|planned fault|succeeds or fails|fails'),
    (r'\b(?:the|a|this|to a|which) water\b', r'low watermark|watermark'),
    (r'\ba front of\b', r'prefix'),
    (r'\bheals?\b', r'fills? (?:in )?the shadow|shadow cell'),
    (r'\bdraws? (?:a|the|its) (?:stamp|start|commit)', r'allocat'),
    (r'\breadings?\b', r'clock'),
    (r'\bstamps?\b', r'timestamp'),
    (r'\bjanitor\b', r'garbage collect|cleans? up|clean-up|sweeps?'),
    (r'\bbeacon\b', r'who is (?:the )?master|leader|took the last term|discovery'),
    (r'\bseats?\b', r'actor'),
    (r'\bturns?\b(?! (?:a|an|the|it|its|on|off|to|out|round|what|into|one))', r'event|step'),
    (r'\btickets?\b', r'request'),
    (r"(?<!field's )\bterms?\b", r'epoch|leader|master record|lease'),
    (r'\bceilings?\b', r'range|last timestamp|limit'),
    (r'\btorn\b', r'differ|do not settle|mismatch|replay'),
]


def sentences(text):
    """The sentences of a page's prose and of its cells, and the cells."""
    found, cells, paragraph = [], [], []

    def flush():
        if paragraph:
            found.extend(it for it in re.split(r'(?<=[.!?:])["”)]*\s+(?=[A-Z`\[“"*(])', ' '.join(paragraph)) if it.strip())
            paragraph.clear()

    for line in without_blocks(text).split('\n'):
        if re.match(r'\s*\|', line):
            flush()
            if not re.fullmatch(r'[\s|:-]+', line):
                for cell in re.split(r'(?<!\\)\|', line.strip().strip('|')):
                    cells.append(cell.strip())
                    found.extend(it for it in re.split(r'(?<=[.!?:])\s+(?=[A-Z`\[])', cell.strip()) if it.strip())
        elif not line.strip() or line.startswith(('#', '![')):
            flush()
        elif re.match(r'\s*(?:[-*>]|\d+\.)\s', line):
            if not line.startswith('>'):
                flush()
            paragraph.append(re.sub(r'^\s*(?:[-*>]|\d+\.)\s', '', line).strip())
        else:
            paragraph.append(line.strip())
    flush()
    return found, cells


def words_in(sentence):
    plain = re.sub(r'\]\([^)]*\)', ']', sentence)
    plain = re.sub(r'`[^`]*`', 'code', plain)
    return sum(1 for it in plain.split() if re.search(r'\w', it))


def alone(page):
    """The house words that no paragraph of the page explains."""
    if page.endswith('GLOSSARY.md'):
        return []
    parts = re.split(r'\n\s*\n', re.sub(r'`[^`\n]*`|\*', '', without_blocks(read(page))))
    found = []
    for house, field in HOUSE:
        uses = [part for part in parts if re.search(house, part, re.I)]
        if uses and not any(re.search(field, part, re.I) for part in uses):
            found.append(re.search(house, uses[0], re.I)[0])
    return found


def main():
    words = sys.argv[1:]
    everything = bool(words) and words[0] == '--all'
    named = words[everything:]
    if any(it not in pages() for it in named):
        sys.exit(__doc__)
    print(f'{"page":24} {"bytes":>7} {"lines":>5} {"mean":>5} {"most":>4} over{MOST} cells wide dead alone')
    total, notes = 0, []
    for page in named or pages():
        text = read(page)
        found, cells = sentences(text)
        lengths = [it for it in map(words_in, found) if it >= 4]
        wide = [line for line in without_blocks(text).split('\n') if len(line) > WIDE and not line.startswith('|')]
        long = [it for it in found if words_in(it) > (30 if everything else MOST)]
        large = [it for it in cells if len(it) > CELL]
        dead = faults_of_links(page)[1]
        by_themselves = alone(page)
        total += len(text.encode())
        mean = sum(lengths) / max(1, len(lengths))
        print(f'{page:24} {len(text.encode()):7} {text.count(chr(10)):5} {mean:5.1f} {max(lengths or [0]):4} '
              f'{sum(it > MOST for it in lengths):6} {len(large):5} {len(wide):4} {len(dead):4} {len(by_themselves):5}')
        notes += [f'{page}: {words_in(it)} words: {it[:160]}' for it in long]
        notes += [f'{page}: a line of {len(it)} characters: {it[:80]}' for it in wide]
        notes += [f'{page}:{line}: {fault}' for line, fault in dead]
        notes += [f'{page}: a house word with no word of the field: {it}' for it in by_themselves]
        if mean > MEAN:
            notes.append(f'{page}: {mean:.1f} words a sentence')
        if everything:
            notes += [f'{page}: a cell of {len(it)} characters: {it[:80]}' for it in large]
    print(f'{"all":24} {total:7}')
    print(*notes, sep='\n')
    return 0


if __name__ == '__main__':
    sys.exit(main())
