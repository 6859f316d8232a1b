#!/usr/bin/env python3
"""Tries the wrong bodies of wrong-bodies/, which the full check (.ci/run) does not try.

usage: tests/wrong_bodies.py [CRATE..]   (every crate that has some, if none is named)

The full check tries three to fifteen wrong bodies a crate, those of its folder must-fail/. The others stand here, in a folder for each
crate. They are put in place of those of must-fail/ in a copy of the repository, and `rt must-fail` tries them. Ends with
status 1 where a crate has one that is not refused.
"""
import os
import shutil
import subprocess
import sys
import tempfile

TESTS = os.path.dirname(os.path.abspath(__file__))
TOP = os.path.dirname(TESTS)
MORE = os.path.join(TESTS, 'wrong-bodies')


def main():
    there = sorted(os.listdir(MORE))
    names = sys.argv[1:] or there
    if not set(names) <= set(there):
        print(__doc__)
        return 2
    failed = []
    with tempfile.TemporaryDirectory() as copy:
        for part in ('crates', 'crates.txt', 'HANDLES'):
            place = os.path.join(TOP, part)
            if os.path.isdir(place):
                shutil.copytree(place, os.path.join(copy, part), symlinks=True)
            else:
                shutil.copy(place, copy)
        for name in names:
            folder = os.path.join(copy, 'crates', name, 'must-fail')
            shutil.rmtree(folder, ignore_errors=True)
            shutil.copytree(os.path.join(MORE, name), folder)
            if subprocess.run(['rt', 'must-fail', name], cwd=copy).returncode:
                failed.append(name)
    print('not all refused: ' + ' '.join(failed) if failed else 'all refused: ' + ' '.join(names))
    return 1 if failed else 0


if __name__ == '__main__':
    sys.exit(main())
