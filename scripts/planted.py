#!/usr/bin/env python3
"""Plants bugs one at a time and tells what refuses each.

Reads scripts/planted.txt: a bug is a line FILE: WHAT IT IS, then the text that stands in the file, each line after
`- `, then the text for it, each after `+ `. In a copy of the repository each bug is put in, `rt check` is run in the
bug's crate, and the file is put back. It prints a table row for each (docs/PLANTED.md is made so), and ends with
status 1 if a bug was not refused.

    scripts/planted.py [WORD ..]     only bugs whose first line has one of the words
"""
import os
import re
import shutil
import subprocess
import sys
import tempfile

HERE = os.path.dirname(os.path.dirname(os.path.abspath(__file__)))


def bugs():
    with open(os.path.join(HERE, 'scripts', 'planted.txt'), encoding='utf-8') as file:
        for part in file.read().split('\n\n'):
            lines = [line for line in part.split('\n') if line and not line.startswith('#')]
            if lines:
                path, what = lines[0].split(': ', 1)
                old = '\n'.join(line[2:] for line in lines[1:] if line.startswith('- '))
                new = '\n'.join(line[2:] for line in lines[1:] if line.startswith('+ '))
                yield path, what, old, new


def first_refusal(said):
    """The first place that the checker names: a fact that is not proved in the source, or an error."""
    for line in said.split('\n'):
        found = re.match(r'(?:note: )?(?:\./)?((?:src|proofs)/\S+?):(\d+):\d+: (error|it is not proved|`search` found no proof)', line)
        if found:
            return f'`{found[1]}:{found[2]}`'
    return said.strip().split('\n')[-1]


def try_bug(copy, path, old, new):
    """Whether the check refuses the bug, and where."""
    place = os.path.join(copy, path)
    with open(place, encoding='utf-8') as file:
        text = file.read()
    if text.count(old) != 1:
        return 'bad', f'the text stands {text.count(old)} times'
    with open(place, 'w', encoding='utf-8') as file:
        file.write(text.replace(old, new))
    crate = os.path.join(copy, *path.split('/')[:2])
    run = subprocess.run(['rt', 'check'], cwd=crate, capture_output=True, text=True, check=False)
    with open(place, 'w', encoding='utf-8') as file:
        file.write(text)
    if run.returncode == 0:
        return 'passes', ''
    return 'refused', first_refusal(run.stdout + run.stderr)


def main():
    words = sys.argv[1:] or ['']
    copy = tempfile.mkdtemp(prefix='planted-')
    missed = 0
    try:
        root = os.path.join(copy, 'repository')
        subprocess.run(['git', 'clone', '-q', HERE, root], check=True)
        # an edit of the same line could not be applied, and the check would fail for that
        for crate in os.listdir(os.path.join(root, 'crates')):
            shutil.rmtree(os.path.join(root, 'crates', crate, 'must-fail'), ignore_errors=True)
        for path, what, old, new in bugs():
            if not any(word in f'{path}: {what}' for word in words):
                continue
            verdict, where = try_bug(root, path, old, new)
            missed += verdict != 'refused'
            name = '/'.join(path.split('/')[1:])
            print(f'| `{name}` | {what} | {verdict} | {where} |', flush=True)
    finally:
        shutil.rmtree(copy)
    sys.exit(1 if missed else 0)


if __name__ == '__main__':
    main()
