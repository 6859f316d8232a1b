#!/usr/bin/env python3
"""Times scans of texts that make an attempt from candidate to candidate give up, and prints how the time grows with the length.

usage: bench/guards.py [RXSCAN]   (a built program in place of ours, which `cd crates/rxscan && rt run` builds)

Each text is one line of 4, 8 and 16 MiB, on which each guard in turn answers. The guards: where a search backwards would read under the
candidate before it (`below`), where it came to the start of the span and found a later start (`at the start`), and where a candidate lies
before the place at which a search forwards stopped (`candidate`). The texts named `in each line` make each of their lines do so. Where
candidates are 64 bytes apart, or there is one, no patience is lost: so it is the guard that makes the time linear. In those named `dense` a
search that loses patience may end the attempt before. Of three turns the least processor time counts. Beside it stands the time of the core
alone (`off:p`), whose rows have to be the same. Ends with status 1 where the time grows by more than 2.5 while the text grows by 2.
"""
import os
import sys
import tempfile

from compare import PROGRAM, contents, run_time

TURNS = 3
SIZES = [4, 8, 16]
LIMIT = 1 << 24
MOST = 2.5

# A guard, a pattern, what the text begins with, what it goes on with, and what it ends with.
JOBS = [
    ('below, from the suffix', r'[0-9][a-z]*xyz', '', 'a' * 61 + 'xyz', ''),
    ('below, from within', r'[0-9][a-z]*(?:ing|ong)', '', 'a' * 61 + 'ing', ''),
    ('at the start, from the suffix', r'(?:[a-b]d)+c', 'd', 'ad', 'c'),
    ('at the start, from within', r'(?:[a-b]d)+c[x-z]', 'd', 'ad', 'cx'),
    ('candidate', r'[a-z]+@[a-z@]+[0-9]', '', 'a' * 63 + '@', ''),
    ('below, and a match', r'\w+\s+Holmes', '', ' ' * 58 + 'Holmes', ''),
    ('below, in each line', r'[0-9][a-z]*xyz', '', ('a' * 61 + 'xyz') * 16 + '\n', ''),
    ('below, dense', r'[0-9][a-z]*xyz', '', 'xyz', ''),
    ('candidate, dense', r'[a-z]+@[a-z@]+[0-9]', '', 'a@', ''),
    ('below, dense in each line', r'[0-9][a-z]*xyz', '', 'xyz' * 341 + '\n', ''),
]


def text_of(first, piece, last, size):
    """The text, of so many bytes but for a few."""
    count = (size - len(first) - len(last)) // len(piece)
    return first + piece * count + last


def least_times(program, folder, pattern, text):
    """The least times of a scan and of one by the core alone."""
    given, told, alone = [os.path.join(folder, name) for name in ('given', 'told', 'alone')]
    with open(given, 'w') as file:
        file.write(pattern + '\n\n' + text)
    turns = [(run_time([program, 'scan', '1'], given, told), run_time([program, 'scan', '1', 'off:p'], given, alone)) for _ in range(TURNS)]
    if contents(told) != contents(alone):
        sys.exit('%s: the rows are others by the core alone' % pattern)
    return [min(times) for times in zip(*turns)]


def main():
    program = os.path.abspath(sys.argv[1]) if len(sys.argv) > 1 else PROGRAM
    if not os.path.exists(program):
        sys.exit('no program at ' + program)
    is_linear = True
    print('| guard | pattern | s for %d, %d and %d MiB | growth | / core alone |\n|---|---|---|---|---|' % tuple(SIZES))
    with tempfile.TemporaryDirectory() as folder:
        for name, pattern, first, piece, last in JOBS:
            room = [min(size << 20, LIMIT - len(pattern) - 2) for size in SIZES]
            times = [least_times(program, folder, pattern, text_of(first, piece, last, size)) for size in room]
            growth = [after[0] / before[0] for before, after in zip(times, times[1:])]
            is_linear = is_linear and max(growth) <= MOST
            print('| %s | `%s` | %s | %s | %.2f |' % (name, pattern.replace('|', '\\|'), ', '.join('%.2f' % time[0] for time in times),
                                                 ', '.join('%.2f' % each for each in growth), times[-1][0] / times[-1][1]), flush=True)
    return 0 if is_linear else 1


if __name__ == '__main__':
    sys.exit(main())
