#!/usr/bin/env python3
"""Times the call `scan` by four workers beside one, on the inputs of bench/workers.py, without reading, lines and writing.

It makes a program of bench/scans.txt as bench/iterators.py does of its own, built for measuring, without a proof; a built one
may be named in place of it. It wants four processors that have nothing else to do. The scans take turns, seven times each, and
the least time of each counts; all find as many matches. Ends with status 1 where four workers are less than 2.5 times as fast as
one on lines of 80 bytes, slower than one on a single line (by more than 5 percent), or less than 1.5 times as fast on short lines.
"""
import os
import subprocess
import sys
import tempfile

from iterators import build
from workers import inputs

CRATES = 'rx_search rx_meta rx_scan'


def figures(program, pattern, text):
    """The matches, and the least nanoseconds by 1, 2 and 4 workers."""
    given = (pattern + '\n\n' + text).encode()
    done = subprocess.run([program], input=given, stdout=subprocess.PIPE, check=True)
    return [int(word) for word in done.stdout.split()]


def main():
    is_fast = True
    print('| input | pattern | matches | ms by 1, 2 and 4 | 1 / 2 | 1 / 4 | wanted |\n|---|---|---|---|---|---|---|')
    with tempfile.TemporaryDirectory() as folder:
        program = os.path.abspath(sys.argv[1]) if len(sys.argv) > 1 else build(folder, 'scans', CRATES)
        for name, pattern, text, wanted in inputs():
            matches, one, two, four = figures(program, pattern, text)
            is_fast = is_fast and one >= wanted * four
            print('| %s | `%s` | %d | %.1f, %.1f, %.1f | %.2f | %.2f | %.2f |'
                  % (name, pattern, matches, one / 1e6, two / 1e6, four / 1e6, one / two, one / four, wanted), flush=True)
    return 0 if is_fast else 1


if __name__ == '__main__':
    sys.exit(main())
