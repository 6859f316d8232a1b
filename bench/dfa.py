#!/usr/bin/env python3
"""Times the DFAs: their searches beside the same loop in Rust and other tools, and how the full one is built, and prints tables.

usage: bench/dfa.py [MIB [RX_BENCH [OTHER..]]]   (the size of the text, 16 MiB if left out; a built rx_bench in place of ours;
programs that read what `rxscan scan` reads and print the same rows)

It builds `bench/dfa.rs` by `rustc -O`. The programs search a text of words, nine times a run, in turns, and the least time of
three runs counts. A ratio below 1 says that the first one is the faster one.

- The first table is of a needle that does not stand in the text: the full DFA beside the loop in Rust, and a lazy DFA that has
  made its states beside the full one.
- The second one is of building: the bytes of the table, and nanoseconds for each.
- The third one is of all matches in a text of lines: the searches of two lazy DFAs, by the clock, beside the processor's time of
  whole programs that also print the places of the matches: `grep -aobP`, and the others.
"""
import os
import random
import subprocess
import sys
import tempfile

from compare import TOP, contents, letters, run_time, words
from programs import existing, rx_bench

TURNS = 3
SEED = 20261128
NEEDLES = ['Holmes', 'QQQ', 'zebra crossing', 'the quick brown fox']
PATTERNS = [r'\w+', r'\b[a-z]{5}\b', r'\p{Lu}\w+', '(?i)holmes']


def build(folder):
    """The loop in Rust, built in the folder."""
    loop = os.path.join(folder, 'dfa')
    subprocess.run(['rustc', '-O', '-o', loop, os.path.join(TOP, 'bench', 'dfa.rs')], check=True)
    return loop


def lines_of(command, text):
    """What a program prints of a text, line by line, each as its words."""
    with open(text, 'rb') as given:
        told = subprocess.run(command, stdin=given, stdout=subprocess.PIPE, check=True).stdout.decode()
    return [line.split() for line in told.splitlines()]


def told_and_least(command, text, skipped):
    """What the searches told, and the least nanoseconds of one, without the first ones."""
    rows = [row for row in lines_of(command, text) if row[0] in ('end', 'matches')]
    return {row[1] for row in rows}, min(int(row[3]) for row in rows[skipped:])


def search_row(program, loop, needle, text):
    """A line of the first table."""
    jobs = [([program, 'dense', needle], 0), ([program, 'lazy', needle], 1), ([loop, needle], 0)]
    runs = [[told_and_least(command, text, skipped) for command, skipped in jobs] for _ in range(TURNS)]
    if len({frozenset(told) for run in runs for told, _ in run}) > 1:
        sys.exit('%s: the ends differ' % needle)
    full, lazy, rust = [min(run[job][1] for run in runs) for job in range(len(jobs))]
    size = os.path.getsize(text)
    print('| `%s` | %.2f | %.2f | %.2f | %.2f |' % (needle, full / size, full / rust, lazy / size, lazy / full), flush=True)


def build_row(program, name, pattern, text):
    """A line of the second table."""
    runs = [lines_of([program, 'dense', pattern], text)[0] for _ in range(TURNS)]
    size, time = int(runs[0][2]), min(int(run[4]) for run in runs)
    print('| %s | %d | %.2f | %.1f |' % (name, size, time / 1e6, time / size), flush=True)


def build_rows(program, rng, empty):
    """The second table."""
    print('| pattern | bytes of the table | milliseconds | ns a byte of the table |')
    print('|---' * 4 + '|')
    for count in (4, 6, 8, 10):
        build_row(program, '`[ab]*a[ab]{%d}`' % count, '[ab]*a[ab]{%d}' % count, empty)
    chosen = [letters(rng, 4, 10) for _ in range(2000)]
    for count in (250, 500, 1000, 2000):
        build_row(program, '%d words' % count, '|'.join(chosen[:count]), empty)


def name_or_word(rng):
    """A word, of which one in ten begins with a capital letter and one in a thousand is a name."""
    if rng.random() < 0.001:
        return rng.choice(['Holmes', 'HOLMES', 'holmes'])
    word = letters(rng, 1, 9)
    return word.capitalize() if rng.random() < 0.1 else word


def matches_row(program, others, pattern, text, folder):
    """A line of the third table."""
    given, told = os.path.join(folder, 'given'), os.path.join(folder, 'told')
    with open(given, 'wb') as file:
        file.write(pattern.encode() + b'\n\n' + contents(text))
    jobs = [(['grep', '-aobP', pattern, text], os.devnull)] + [([other, 'scan'], given) for other in others]
    counts, ours, theirs = set(), [], [[] for _ in jobs]
    for _ in range(TURNS):
        count, least = told_and_least([program, 'matches', pattern], text, 1)
        counts |= count
        ours.append(least / 1e9)
        for times, (command, stdin) in zip(theirs, jobs):
            times.append(run_time(command, stdin, told))
            counts.add(str(contents(told).count(b'\n')))
    if len(counts) > 1:
        sys.exit('%s: the numbers of matches differ: %s' % (pattern, counts))
    ratios = ' | '.join('%.2f' % (min(ours) / min(times)) for times in theirs)
    figure = '%.2f' % (min(ours) * 1e9 / os.path.getsize(text))
    print('| `%s` | %s | %s | %s |' % (pattern, counts.pop(), figure, ratios), flush=True)


def write(path, text):
    with open(path, 'w') as file:
        file.write(text)
    return path


def main():
    size = int(sys.argv[1] if len(sys.argv) > 1 else 16) << 20
    program = rx_bench(sys.argv[2:3])
    others = [existing(path) for path in sys.argv[3:]]
    rng = random.Random(SEED)
    with tempfile.TemporaryDirectory() as folder:
        loop = build(folder)
        empty = write(os.path.join(folder, 'empty'), '')
        text = write(os.path.join(folder, 'text'), words(rng, size, lambda r: letters(r, 1, 9)))
        print('| needle | full, ns a byte | full / loop in Rust | lazy, ns a byte | lazy / full |')
        print('|---' * 5 + '|')
        for needle in NEEDLES:
            search_row(program, loop, needle, text)
        print()
        build_rows(program, rng, empty)
        print()
        line = lambda r: words(r, 4096, name_or_word)
        lines = write(os.path.join(folder, 'lines'), words(rng, size, line, '\n'))
        tools = ['grep -aobP'] + [os.path.basename(other) for other in others]
        print('| pattern | matches | lazy, ns a byte | %s |' % ' | '.join('lazy / ' + tool for tool in tools))
        print('|---' * (3 + len(tools)) + '|')
        for pattern in PATTERNS:
            matches_row(program, others, pattern, lines, folder)


if __name__ == '__main__':
    main()
