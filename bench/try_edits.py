#!/usr/bin/env python3
"""Tries the edits that the gate leaves out: those of crates/NAME/by-hand, which the prover must refuse as it must those of must-fail.

    bench/try_edits.py NAME ..    of these crates
    bench/try_edits.py --all      of all crates that have some, which takes long

They are put beside the gate's own in a copy of the tree, over which `rt ci NAME ..` runs: crates that a gate on this machine has passed
are not proved again. The status is 0 where each edit was refused. A crate's edits take a check of it from nothing and a check each."""
import os
import re
import shutil
import subprocess
import sys
import tempfile

ROOT = os.path.dirname(os.path.dirname(os.path.abspath(__file__)))


def edits_of(name):
    folder = f'{ROOT}/crates/{name}/by-hand'
    return sorted(os.listdir(folder)) if os.path.isdir(folder) else []


def copied(names, to):
    """A copy of what a check reads, with the edits of these crates alone."""
    left_out = shutil.ignore_patterns('out', 'must-fail', 'by-hand')
    shutil.copytree(f'{ROOT}/crates', f'{to}/crates', ignore=left_out)
    for file in ('crates.txt', 'HANDLES'):
        shutil.copy(f'{ROOT}/{file}', to)
    for name in names:
        for kind in ('must-fail', 'by-hand'):
            if os.path.isdir(f'{ROOT}/crates/{name}/{kind}'):
                shutil.copytree(f'{ROOT}/crates/{name}/{kind}', f'{to}/crates/{name}/must-fail', dirs_exist_ok=True)


def main(words):
    if not words or words[0] in ('-h', '--help'):
        print(__doc__, file=sys.stderr)
        return 2
    names = sorted(it for it in os.listdir(f'{ROOT}/crates') if edits_of(it)) if words == ['--all'] else words
    unknown = [it for it in names if not edits_of(it)]
    if unknown:
        print(f'no crate with edits in by-hand: {" ".join(unknown)}', file=sys.stderr)
        return 2
    with tempfile.TemporaryDirectory(prefix='omid-edits-') as copy:
        copied(names, copy)
        ran = subprocess.Popen(['rt', 'ci', *names], cwd=copy, stdout=subprocess.PIPE, stderr=subprocess.STDOUT, text=True, errors='replace')
        refused, wanted = 0, sum(len(edits_of(it)) for it in names)
        for line in ran.stdout:
            edit = re.match(r'(?:rt: )?must-fail (\w+)/(\S+): (.*)', line)
            if edit and edit[2] in edits_of(edit[1]):
                print(f'{edit[1]}/{edit[2]}: {edit[3]}', flush=True)
                refused += edit[3].startswith('refused')
        status = ran.wait()
    print(f'{refused} of {wanted} refused')
    return 0 if refused == wanted and not status else 1


if __name__ == '__main__':
    sys.exit(main(sys.argv[1:]))
