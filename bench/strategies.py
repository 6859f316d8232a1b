#!/usr/bin/env python3
"""Times searches for literals beside their prefilter alone, and a search of a line for a match at its end.

It makes a program of bench/strategies.txt as bench/iterators.py does of its own, built for measuring, without a proof. Prints for
each pattern of literals the matches, the least times of both in nanoseconds a match, and their ratio; and for a line of 1 and of 16
megabytes the least time of a search for `\\w+Holmes$`. Ends with status 1 where a search takes more than 1.1 times as long as the
prefilter, or that of the longer line more than four times as long as that of the shorter one.
"""
import sys

from iterators import rows_of

MOST = 1.1
GROWTH = 4


def main():
    rows = rows_of('strategies', 'rx_search rx_meta rx_prefilter')
    literals = [(name, int(count), int(alone), int(search)) for name, count, alone, search in rows if name != 'line']
    lines = [(int(megabytes), int(length), int(time)) for name, megabytes, length, time in rows if name == 'line']
    for name, count, alone, search in literals:
        print('%-8s %6d matches: prefilter %7.1f ns, search %7.1f ns, ratio %.2f'
              % (name, count, alone / count, search / count, search / alone))
    for megabytes, length, time in lines:
        print('one line of %2d MB, a match of %d bytes at its end: %d ns' % (megabytes, length, time))
    is_fast = all(search <= MOST * alone for _, _, alone, search in literals)
    return 0 if is_fast and lines[-1][2] <= GROWTH * lines[0][2] else 1


if __name__ == '__main__':
    sys.exit(main())
