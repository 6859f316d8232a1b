#!/usr/bin/env python3
"""Times scans by four workers beside scans by one, by the clock, and prints ratios. It wants four processors that have nothing else to do.

usage: bench/workers.py [RXSCAN [PEER]]   (built programs in place of ours, which `cd crates/rxscan && rt run` builds; PEER prints the same
rows as `rxscan scan`, with as many threads as PEER_THREADS says, and is left out if none is named)

16 MiB in lines of some 80 bytes, one line of 16 MiB, and a million lines of ten bytes. The scans take turns, seven times each, and the
least time of each counts; all print the same bytes. Ends with status 1 where four workers are less than 2.5 times as fast as one on
lines of 80 bytes, slower than one on a single line (by more than 5 percent), or less than 1.5 times as fast on short lines.
"""
import os
import random
import subprocess
import sys
import tempfile
import time

from compare import PROGRAM, contents, letters, words

TURNS = 7
SEED = 20261130
SIZE = (1 << 24) - 64
LINES = 1_000_000
NUMBERS = [1, 2, 4]

# Where one worker's time over that of four is to be at least this.
LONG, SINGLE, SHORT = 2.5, 1 / 1.05, 1.5


def in_lines(rng, size, choose):
    """Words in lines of 80 bytes or a word more."""
    out, total = [], 0
    while total < size:
        line = words(rng, 80, choose)
        out.append(line)
        total += len(line) + 1
    return '\n'.join(out)[:size]


def inputs():
    """A name, a pattern, a text, and how much faster four workers are to be than one."""
    rng = random.Random(SEED)
    ing = lambda r: letters(r, 1, 6) + ('ing' if r.random() < 0.2 else '')
    pair = lambda r: letters(r, 2, 6) + '=' + str(r.randint(0, 9999))
    yield 'lines of 80 bytes', '[a-z]+ing', in_lines(rng, SIZE, ing), LONG
    yield 'lines of 80 bytes', '([a-z]+)=([0-9]+)', in_lines(rng, SIZE, pair), LONG
    yield 'one line', '[a-z]+ing', words(rng, SIZE, ing), SINGLE
    short = '\n'.join(letters(rng, 10, 10) for _ in range(LINES))
    yield 'a million lines', '[a-z]+ing', short, SHORT
    yield 'a million lines', 'z$', short, SHORT


def clock(command, given, told, threads):
    """How long the command takes by the clock, in seconds."""
    with open(given, 'rb') as stdin, open(told, 'wb') as stdout:
        began = time.monotonic()
        subprocess.run(command, stdin=stdin, stdout=stdout, check=True, env=dict(os.environ, PEER_THREADS=str(threads)))
        return time.monotonic() - began


def least_times(folder, jobs, given):
    """The least time of each job, whose output is the same."""
    told = [os.path.join(folder, 'told%d' % number) for number in range(len(jobs))]
    turns = [[clock(command, given, path, threads) for (command, threads), path in zip(jobs, told)] for _ in range(TURNS)]
    if len({contents(path) for path in told}) > 1:
        sys.exit('the output is not the same')
    return [min(times) for times in zip(*turns)]


def main():
    program = os.path.abspath(sys.argv[1]) if len(sys.argv) > 1 else PROGRAM
    if not os.path.exists(program):
        sys.exit('no program at ' + program)
    jobs = [([program, 'scan', str(number)], number) for number in NUMBERS]
    jobs += [([os.path.abspath(path), 'scan'], threads) for path in sys.argv[2:3] for threads in (1, 4)]
    is_fast = True
    print('| input | pattern | s by 1, 2 and 4 | 1 / 2 | 1 / 4 | wanted | 1 / peer by 1 | 4 / peer by 4 |\n|---|---|---|---|---|---|---|---|')
    with tempfile.TemporaryDirectory() as folder:
        given = os.path.join(folder, 'given')
        for name, pattern, text, wanted in inputs():
            with open(given, 'w') as file:
                file.write(pattern + '\n\n' + text)
            one, two, four, *others = least_times(folder, jobs, given)
            is_fast = is_fast and one >= wanted * four
            beside = ['%.2f' % (own / other) for own, other in zip((one, four), others)] or ['-', '-']
            print('| %s | `%s` | %.3f, %.3f, %.3f | %.2f | %.2f | %.2f | %s |'
                  % (name, pattern, one, two, four, one / two, one / four, wanted, ' | '.join(beside)), flush=True)
    return 0 if is_fast else 1


if __name__ == '__main__':
    sys.exit(main())
