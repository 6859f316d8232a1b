#!/usr/bin/env python3
"""Times the one-pass DFA, and prints tables.

usage: bench/onepass.py [KIB [RX_BENCH]]   (the size of each text, 20 KiB if left out, so that a round ends before a busy machine
takes the processor away; a built rx_bench in place of ours)

- The first table is of the groups of matches whose spans are known: the least times in which the one-pass DFA and the backtracker
  tell them, of nine rounds in turns, in each of three runs.
- The second one is of building: the cells of a table, and nanoseconds for each. Where the time is linear in the cells, lines of one
  form are alike.
"""
import os
import random
import subprocess
import sys
import tempfile

from compare import letters, words
from programs import rx_bench

TURNS = 3
SEED = 20261130


def digits(rng, low, high):
    return ''.join(rng.choice('0123456789') for _ in range(rng.randint(low, high)))


def texts(size):
    """Patterns with groups, each with its name and a text."""
    rng = random.Random(SEED)
    pair = lambda r: letters(r, 1, 9) + '=' + digits(r, 1, 6)
    date = lambda r: '%s-%s-%s' % (digits(r, 4, 4), digits(r, 2, 2), digits(r, 2, 2))
    call = lambda r: letters(r, 2, 8) + '(' + (letters(r, 1, 8) if r.random() < 0.5 else '') + ')'
    return [
        ('key=value', '([a-z]+)=([0-9]+)', words(rng, size, pair)),
        ('dates', '([0-9]{4})-([0-9]{2})-([0-9]{2})', words(rng, size, date)),
        ('calls', r'([a-z]+)\(([a-z]+)?\)', words(rng, size, call)),
        ('words of Unicode', r'\b(\w)(\w*)\b', words(rng, size, lambda r: letters(r, 2, 9))),
    ]


def rows(command, given):
    """What a program prints, line by line, each as its words."""
    done = subprocess.run(command, stdin=given, stdout=subprocess.PIPE, check=True)
    return [line.split() for line in done.stdout.decode().splitlines()]


def groups_row(program, name, pattern, path):
    """A line of the first table."""
    told = []
    for _ in range(TURNS):
        with open(path, 'rb') as given:
            told += rows([program, 'groups', pattern], given)
    matches, size = int(told[0][1]), int(told[0][3])
    before, after = (min(int(row[k]) for row in told) for k in (5, 7))
    print('| %s | `%s` | %d | %.1f | %.1f | %.2f |' % (name, pattern, matches, before / size, after / size, before / after), flush=True)


def table_row(program, pattern):
    """A line of the second table."""
    told = []
    for _ in range(TURNS):
        told += rows([program, 'table', pattern], subprocess.DEVNULL)
    cells, time = int(told[0][1]), min(int(row[3]) for row in told)
    shown = pattern if len(pattern) < 40 else pattern[:36] + '..'
    print('| `%s` | %d | %.2f | %.1f |' % (shown.replace('|', '\\|'), cells, time / 1e6, time / cells), flush=True)


def table_rows(program):
    """The second table: more rows of one width, and then wider ones."""
    print('| pattern | cells | milliseconds | ns a cell |')
    print('|---' * 4 + '|')
    for form, most in (('a{%d}', 4096), ('(?:[a-z]=[0-9];){%d}', 2048), (r'\w{%d}', 8)):
        for count in (most // 8, most // 4, most // 2, most):
            table_row(program, form % count)
    for count in (10, 20, 40):
        table_row(program, '(?:%s){50}' % '|'.join(chr(0x41 + k) for k in range(count) if chr(0x41 + k) not in '[\\]^'))


def main():
    size = int(sys.argv[1] if len(sys.argv) > 1 else 20) << 10
    program = rx_bench(sys.argv[2:3])
    print('| text | pattern | matches | backtracker, ns a byte | one-pass, ns a byte | backtracker / one-pass |')
    print('|---' * 6 + '|')
    with tempfile.TemporaryDirectory() as folder:
        path = os.path.join(folder, 'text')
        for name, pattern, text in texts(size):
            with open(path, 'w') as file:
                file.write(text)
            groups_row(program, name, pattern, path)
    print()
    table_rows(program)


if __name__ == '__main__':
    main()
