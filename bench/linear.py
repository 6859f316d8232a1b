#!/usr/bin/env python3
"""Times the built rxscan on texts and on texts twice as long, and prints the ratios.

usage: bench/linear.py [RXSCAN]   (a built program in place of ours, which `cd crates/rxscan && rt run` builds)

- `ab ab ..` with the patterns `a*` and `b`, 1 MiB and 2 MiB;
- `Holmes Holmes ..` with `Holmes[0-9]`, 4 MiB and 8 MiB: the prefilter has a candidate every seven bytes, and none is a
  match; and with `Holmes.*[0-9]`, where each candidate could lead to the end of the text.

Each size is run three times, and the least time counts. A ratio near 2 says that the work grows with the length of the input.
"""
import os
import subprocess
import sys
import time

TOP = os.path.dirname(os.path.dirname(os.path.abspath(__file__)))
PROGRAM = os.path.join(TOP, 'crates', 'rxscan', 'out', 'rxscan')
JOBS = [(b'a*\nb', b'ab ', 1), (b'Holmes[0-9]', b'Holmes ', 4), (b'Holmes.*[0-9]', b'Holmes ', 4)]


def least_time(program, patterns, word, size):
    """The least time of three runs, in seconds, and the length of the output."""
    text = patterns + b'\n\n' + (word * (size // len(word) + 1))[:size] + b'\n'
    times, length = [], 0
    for _ in range(3):
        began = time.monotonic()
        done = subprocess.run([program, 'scan'], input=text, stdout=subprocess.PIPE, check=True)
        times.append(time.monotonic() - began)
        length = len(done.stdout)
    return min(times), length


def main():
    program = os.path.abspath(sys.argv[1]) if len(sys.argv) > 1 else PROGRAM
    if not os.path.exists(program):
        sys.exit('no program at ' + program)
    for patterns, word, mib in JOBS:
        print(patterns.decode().replace('\n', ' and '))
        times = []
        for size in (mib, 2 * mib):
            taken, length = least_time(program, patterns, word, size << 20)
            times.append(taken)
            print('%d MiB: %.3f s, %d bytes out' % (size, taken, length))
        print('ratio: %.2f' % (times[1] / times[0]))


if __name__ == '__main__':
    main()
