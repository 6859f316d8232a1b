#!/usr/bin/env python3
"""Times `find_iter` over short matches beside a bare loop of searches.

It makes a program of bench/iterators.txt in a copy of the repository, and builds it for measuring, without a proof
(bench/measuring.py). Prints for each pattern the matches, the least times of both in nanoseconds a match, and their ratio.
Ends with status 1 where an iterator takes more than 1.3 times as long as the bare loop.
"""
import os
import shutil
import subprocess
import sys
import tempfile

TOP = os.path.dirname(os.path.dirname(os.path.abspath(__file__)))
MOST = 1.3


def texts(program):
    """The program's texts, each with the module that it is: one file, or a folder of one for each module."""
    place = os.path.join(TOP, 'bench', program)
    if not os.path.isdir(place):
        return [(place + '.txt', 'main')]
    return [(os.path.join(place, name), name.removesuffix('.txt')) for name in os.listdir(place)]


def copy_to(folder, program, below):
    """Copies the repository's crates, and makes a crate of the program's texts, which stands on these."""
    for name in ('crates.txt', 'HANDLES'):
        shutil.copy(os.path.join(TOP, name), folder)
    for crate in os.listdir(os.path.join(TOP, 'crates')):
        for part in ('src', 'specs', 'proofs'):
            place = os.path.join(TOP, 'crates', crate, part)
            if os.path.isdir(place):
                shutil.copytree(place, os.path.join(folder, 'crates', crate, part))
    crate = os.path.join(folder, 'crates', program)
    os.makedirs(os.path.join(crate, 'src'))
    for text, module in texts(program):
        shutil.copy(text, os.path.join(crate, 'src', module + '.rt'))
    with open(os.path.join(folder, 'crates.txt'), 'a') as file:
        file.write('%s: %s\n' % (program, below))


def build(folder, program, below):
    """Builds the program for measuring in a copy of the repository, and gives its path."""
    copy_to(folder, program, below)
    built = os.path.join(folder, program)
    measuring = os.path.join(TOP, 'bench', 'measuring.py')
    subprocess.run([sys.executable, measuring, folder, program, built], check=True)
    return built


def rows_of(program, below):
    """The words of each line that a measuring build of the program prints."""
    with tempfile.TemporaryDirectory() as folder:
        done = subprocess.run([build(folder, program, below)], input=b't\n', stdout=subprocess.PIPE)
    rows = [line.split() for line in done.stdout.decode().splitlines()]
    if done.returncode or not rows:
        sys.exit('no figures: status %d' % done.returncode)
    return rows


def main():
    rows = [(name, int(count), int(bare), int(iterator)) for name, count, bare, iterator in rows_of('iterators', 'rx_search rx_meta')]
    for name, count, bare, iterator in rows:
        print('%-10s %7d matches: bare %6.1f ns, find_iter %6.1f ns, ratio %.2f'
              % (name, count, bare / count, iterator / count, iterator / bare))
    return 0 if all(iterator <= MOST * bare for _, _, bare, iterator in rows) else 1


if __name__ == '__main__':
    sys.exit(main())
