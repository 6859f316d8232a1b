#!/usr/bin/env python3
"""Sees that each wrong body can be put in, before anything is proved.

Each `old:` text of crates/CRATE/must-fail/*.edit and of tests/wrong-bodies/CRATE/*.edit is to stand once in the file that
the edit names, as the pairs before it left that file. Prints each edit of which that is not so, and ends with status 1 if
there is one.
"""
import glob
import os
import sys

TOP = os.path.dirname(os.path.dirname(os.path.abspath(__file__)))


def fault(path, crate):
    """Why the edit of the crate in this folder cannot be applied, or nothing."""
    texts, name, old, pairs = {}, None, None, 0
    with open(path, encoding='utf-8') as edit:
        lines = edit.read().split('\n')
    for line in lines:
        if line.startswith('file: '):
            name = line[len('file: '):].strip()
            if not os.path.isfile(os.path.join(crate, name)):
                return 'there is no file ' + name
        elif line.startswith('old: '):
            old = line[len('old: '):]
        elif line.startswith('new:'):
            if not name or not old:
                return "no 'file:' or no 'old:' before a 'new:'"
            if name not in texts:
                with open(os.path.join(crate, name), encoding='utf-8') as source:
                    texts[name] = source.read()
            count = texts[name].count(old)
            if count != 1:
                return 'its text stands %d times in %s: %s' % (count, name, old)
            texts[name] = texts[name].replace(old, line[len('new:'):].removeprefix(' '))
            old, pairs = None, pairs + 1
    return None if pairs else 'it has no pair'


def main():
    bad = 0
    edits = [(path, os.path.dirname(os.path.dirname(path))) for path in glob.glob(os.path.join(TOP, 'crates', '*', 'must-fail', '*.edit'))]
    for path in glob.glob(os.path.join(TOP, 'tests', 'wrong-bodies', '*', '*.edit')):
        edits.append((path, os.path.join(TOP, 'crates', os.path.basename(os.path.dirname(path)))))
    for path, crate in sorted(edits):
        why = fault(path, crate)
        if why:
            bad += 1
            print('%s: %s' % (os.path.relpath(path, TOP), why))
    return 1 if bad else 0


if __name__ == '__main__':
    sys.exit(main())
