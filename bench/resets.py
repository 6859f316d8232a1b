#!/usr/bin/env python3
"""Times resets of a cache that fits, after searches of texts of 10 to 10000 bytes.

It makes a program of bench/resets.txt in a copy of the repository, and runs it by `rt try`, which interprets it. Prints for each length the least
times of the search and of the reset behind it, in nanoseconds. Ends with status 1 where the reset behind the longest search
takes more than ten times as long as the one behind the shortest, and more than a microsecond.
"""
import os
import shutil
import subprocess
import sys
import tempfile

TOP = os.path.dirname(os.path.dirname(os.path.abspath(__file__)))


def copy_to(folder):
    for name in ('crates.txt', 'HANDLES'):
        shutil.copy(os.path.join(TOP, name), folder)
    for crate in os.listdir(os.path.join(TOP, 'crates')):
        for part in ('src', 'specs', 'proofs'):
            place = os.path.join(TOP, 'crates', crate, part)
            if os.path.isdir(place):
                shutil.copytree(place, os.path.join(folder, 'crates', crate, part))
    crate = os.path.join(folder, 'crates', 'resets')
    os.makedirs(os.path.join(crate, 'src'))
    shutil.copy(os.path.join(TOP, 'bench', 'resets.txt'), os.path.join(crate, 'src', 'main.rt'))
    with open(os.path.join(folder, 'crates.txt'), 'a') as file:
        file.write('resets: rx_search rx_meta\n')
    return crate


def main():
    with tempfile.TemporaryDirectory() as folder:
        done = subprocess.run(['rt', 'try'], cwd=copy_to(folder), stdout=subprocess.PIPE, stderr=subprocess.STDOUT)
    rows = [line.split() for line in done.stdout.decode(errors='replace').splitlines()]
    rows = [[int(word) for word in row] for row in rows if len(row) == 3 and all(word.isdigit() for word in row)]
    if len(rows) != 4:
        sys.exit('no figures\n' + done.stdout.decode(errors='replace'))
    for length, search, reset in rows:
        print('%8d bytes: search %9d ns, reset %6d ns' % (length, search, reset))
    return 0 if rows[-1][2] <= max(10 * rows[0][2], 1000) else 1


if __name__ == '__main__':
    sys.exit(main())
