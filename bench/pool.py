#!/usr/bin/env python3
"""Times searches of 20 bytes that take a cache from their regex's pool beside searches with a cache in hand.

It makes a program of bench/pool.txt in a copy of the repository, and builds it for measuring, without a proof
(bench/measuring.py). Prints for a regex with full DFAs, with lazy ones alone and with none the least times of a search in
nanoseconds: with a cache in hand, by the pool, and by the pool from two and four threads at once; and of an iterator over a line
of ten bytes, of which there are a million. Ends with status 1 where the pool takes more than twice the time, but for lazy DFAs,
or where a thread finds fewer or more matches than searches with a cache in hand.
"""
import sys

from iterators import rows_of

SEARCHES = 100_000
LINES = 1_000_000
MOST = 2.0


def main():
    times = {}
    for name, what, time in rows_of('pool', 'rx_search rx_meta'):
        times.setdefault(name, {})[what] = int(time)
    for name, row in times.items():
        hand, pool = row['in_hand'] / SEARCHES, row['1'] / SEARCHES
        print('%-5s in hand %6.1f ns, by the pool %6.1f ns, ratio %.2f; from 2 threads %6.1f ns, from 4 %6.1f ns; a line %6.1f ns'
              % (name, hand, pool, pool / hand, row['2'] / SEARCHES, row['4'] / SEARCHES, row['lines'] / LINES))
    return 0 if all(row['1'] <= MOST * row['in_hand'] for name, row in times.items() if name != 'lazy') else 1


if __name__ == '__main__':
    sys.exit(main())
