#!/usr/bin/env python3
"""Times the built rxscan beside other tools that do the same job, and prints a table of ratios.

usage: bench/compare.py [MIB [RXSCAN [OTHER..]]]   (the size of each input, 2 MiB if left out; a built rxscan in place of
ours; programs that read the same input and print the same rows, as an rxscan of an earlier commit)

Build the program first: `cd crates/rxscan && rt run`. Each input is made from a fixed seed. `grep -aobE` prints the
places of the matches of one pattern; Python's `re` prints the places of the matches and their groups. The jobs of an
input take turns, each five times, and the least processor time of each counts. All print into a file, since `grep` stops
at the first match where it prints into the null device. A ratio is rxscan's time over the tool's: below 1, rxscan is the
faster one. The first column of ratios is beside `rxscan scan off:p`, which makes no prefilter. Its rows, and those of the
other programs, are compared with rxscan's. Where `grep` and Python mean something else by the pattern, or search for
ever, they are not run.
"""
import math
import os
import random
import subprocess
import sys
import tempfile

TOP = os.path.dirname(os.path.dirname(os.path.abspath(__file__)))
PROGRAM = os.path.join(TOP, 'crates', 'rxscan', 'out', 'rxscan')
RUNS = 5

PYTHON = r'''
import re, sys
pattern = re.compile(sys.argv[1].encode())
out = []
for line, hay in enumerate(open(sys.argv[2], 'rb').read().split(b'\n'), 1):
    for m in pattern.finditer(hay):
        groups = ''.join(' %d=%s' % (g, '%d..%d' % m.span(g) if m.span(g)[0] >= 0 else '-')
                         for g in range(1, pattern.groups + 1))
        out.append('%d:0:%d..%d%s\n' % (line, m.start(), m.end(), groups))
sys.stdout.write(''.join(out))
'''


def words(rng, size, choose, sep=' '):
    out, total = [], 0
    while total < size:
        word = choose(rng)
        out.append(word)
        total += len(word) + len(sep)
    return sep.join(out)[:size]


def letters(rng, low, high):
    return ''.join(rng.choice('abcdefghijklmnopqrstuvwxyz') for _ in range(rng.randint(low, high)))


def mixed(rng, alphabet, low, high):
    return ''.join(rng.choice(alphabet) for _ in range(rng.randint(low, high)))


def inputs(size):
    rng = random.Random(20261126)
    plain = words(rng, size, lambda r: letters(r, 1, 9))
    ing = words(rng, size, lambda r: letters(r, 1, 6) + ('ing' if r.random() < 0.2 else ''))
    names = words(rng, size, lambda r: r.choice(['Holmes', 'Watson']) if r.random() < 0.02 else letters(r, 2, 8))
    pairs = words(rng, size, lambda r: letters(r, 2, 6) + '=' + str(r.randint(0, 9999)))
    lines = words(rng, size, lambda r: letters(r, 1, 30), '\n')
    long_lines = words(rng, size, lambda r: letters(r, 1, 9) if r.random() > 0.00001 else '\n')
    other_words = words(rng, size // 2, lambda r: mixed(r, 'абвгдежзиклмнabcdefgh', 1, 9))
    two_letters = words(rng, size // 4, lambda r: mixed(r, 'ab', 5, 60))
    runs = words(rng, size // 4, lambda r: 'a' * r.randint(1, 40) + ('b' if r.random() < 0.1 else ''))
    return [
        ('literal', 'Holmes', names),
        ('alternation of words', 'Holmes|Watson|Moriarty|Adler', names),
        ('[a-z]+ing', '[a-z]+ing', ing),
        ('key=value with groups', '([a-z]+)=([0-9]+)', pairs),
        ('many short lines', 'b[a-m]*z', lines),
        ('few long lines', '[a-z]+ q[a-z]+', long_lines),
        ('no match', 'QQQ', plain),
        ('Unicode words', r'\w+', other_words),
        ('many states', '[ab]*a[ab]{10}', two_letters),
        ('runs of runs', '(?:a+a+)+b', runs),
    ]


# The inputs on which the outside tools mean something else, or search for ever.
ALONE = {'Unicode words', 'runs of runs'}


def run_time(command, stdin, stdout):
    """The processor time of the command, in seconds."""
    with open(stdin, 'rb') as given, open(stdout, 'wb') as told:
        child = subprocess.Popen(command, stdin=given, stdout=told, stderr=subprocess.DEVNULL)
        _, status, used = os.wait4(child.pid, 0)
    child.returncode = os.waitstatus_to_exitcode(status)
    return used.ru_utime + used.ru_stime


def least_times(jobs):
    """The least time of each job: a command, what it reads, and what it writes to."""
    runs = [[run_time(*job) for job in jobs] for _ in range(RUNS)]
    return [min(times) for times in zip(*runs)]


def contents(path):
    with open(path, 'rb') as file:
        return file.read()


def main():
    size = int(sys.argv[1] if len(sys.argv) > 1 else 2) << 20
    program = os.path.abspath(sys.argv[2]) if len(sys.argv) > 2 else PROGRAM
    if not os.path.exists(program):
        sys.exit('build the program first: cd crates/rxscan && rt run')
    others = [os.path.abspath(path) for path in sys.argv[3:]]
    tools = ['off:p', 'grep -aobE', 'Python re'] + [os.path.basename(path) for path in others]
    print('| input | pattern | ns a byte | %s |' % ' | '.join('rxscan / ' + tool for tool in tools))
    print('|---' * (3 + len(tools)) + '|')
    logs = [0.0] * (3 + len(others))
    with tempfile.TemporaryDirectory() as folder:
        for name, pattern, text in inputs(size):
            hay, given = os.path.join(folder, 'hay'), os.path.join(folder, 'given')
            open(hay, 'w').write(text)
            open(given, 'w').write(pattern + '\n\n' + text)
            told = [os.path.join(folder, 'told%d' % number) for number in range(4 + len(others))]
            jobs = [
                ([program, 'scan'], given, told[0]),
                ([program, 'scan', 'off:p'], given, told[1]),
                (['true'] if name in ALONE else ['grep', '-aobE', pattern, hay], os.devnull, told[2]),
                (['true'] if name in ALONE else [sys.executable, '-c', PYTHON, pattern, hay], os.devnull, told[3]),
            ]
            jobs += [([other, 'scan'], given, path) for other, path in zip(others, told[4:])]
            ours, *theirs = least_times(jobs)
            if any(contents(path) != contents(told[0]) for path in [told[1], *told[4:]]):
                sys.exit('%s: the programs print different rows' % name)
            cells = ['%.2f' % (ours / other) for other in theirs]
            logs = [log + math.log(ours / other) for log, other in zip(logs, theirs)]
            if name in ALONE:
                cells[1] = cells[2] = '-'
            ratios = ' | '.join(cells)
            figure = '%.2f' % (ours * 1e9 / len(text.encode()))
            print('| %s | `%s` | %s | %s |' % (name, pattern.replace('|', '\\|'), figure, ratios), flush=True)
    means = ['%.2f' % math.exp(log / len(inputs(1))) for log in logs]
    print('| geometric mean | | | %s |' % ' | '.join([means[0], '', ''] + means[3:]))


if __name__ == '__main__':
    main()
