#!/usr/bin/env python3
"""Times rxscan beside the program over the crate regex, on some twenty inputs, and prints tables.

usage: bench/run.py [MIB [RXSCAN PEER]]   (the size of each input, 2 MiB if left out; built programs in place of ours, which
is built by `rt run`, and of a copy of ../shared/tools/peer, which is built by cargo)

The inputs are those of `bench/compare.py` and others: flags, characters beyond ASCII, many patterns, groups, empty matches,
one long line, many short ones. The programs take turns, five times each, with one worker; the least processor time counts,
and their rows are compared byte for byte. Then come, for each input:

- growth: the time over that of the first half of the input, so 2 where time goes with the length;
- the greatest resident memory of rxscan, over the size of the input.

The second table is by the clock, with four workers each.
"""
import math
import multiprocessing
import os
import random
import shutil
import subprocess
import sys
import tempfile
import time

from compare import PROGRAM, contents, inputs, letters, mixed, words

TURNS = 5
SEED = 20261129
PEER = os.path.join('..', 'shared', 'tools', 'peer')
TEN_BYTES = 10


def further_inputs(size):
    rng = random.Random(SEED)
    plain = words(rng, size, lambda r: letters(r, 1, 9))
    cased = words(rng, size, lambda r: r.choice(['Holmes', 'HOLMES', 'holmes']) if r.random() < 0.01 else letters(r, 2, 8).title())
    greek = words(rng, size // 2, lambda r: mixed(r, 'αβγδεζηθ', 1, 9) if r.random() < 0.3 else letters(r, 1, 9))
    dates = words(rng, size, lambda r: '%04d-%02d-%02d' % (r.randint(1900, 2100), r.randint(1, 12), r.randint(1, 28))
                  if r.random() < 0.05 else letters(r, 1, 9))
    logs = words(rng, size, lambda r: '%d.%d.%d.%d - %s [%d] "GET /%s"' % (*[r.randint(0, 255) for _ in range(4)], letters(r, 3, 8),
                                                                         r.randint(0, 99999), letters(r, 2, 12)), '\n')
    short = words(rng, size, lambda r: letters(r, TEN_BYTES - 1, TEN_BYTES - 1), '\n')
    return [
        ('either case', '(?i)holmes', cased),
        ('words of five', r'\b[a-z]{5}\b', plain),
        ('Greek letters', r'\p{Greek}+', greek),
        ('capital and word', r'\p{Lu}\w+', cased),
        ('dates with groups', r'([0-9]{4})-([0-9]{2})-([0-9]{2})', dates),
        ('lines of a log', r'^([0-9.]+) - (\w+) \[([0-9]+)\]', logs),
        ('empty matches', 'x*', plain[: size // 4]),
        ('many patterns', '\n'.join(sorted({letters(rng, 4, 8) for _ in range(40)})), plain),
        ('at the end of a line', 'z$', short),
        ('a dot for the rest', 'q.*', short),
    ]


def programs(given, folder):
    """The two programs: those that are named, or ours and a peer that is built in the folder."""
    if len(given) == 2:
        return [os.path.abspath(path) for path in given]
    subprocess.run(['rt', 'run'], cwd=os.path.dirname(os.path.dirname(PROGRAM)), stdin=subprocess.DEVNULL, stdout=subprocess.DEVNULL)
    peer = os.path.join(folder, 'peer')
    shutil.copytree(PEER, peer)
    subprocess.run(['cargo', 'build', '--release', '--offline', '--quiet'], cwd=peer, check=True)
    return [PROGRAM, os.path.join(peer, 'target', 'release', 'peer')]


def run(command, given, told, workers):
    """The processor time, the time by the clock, and the greatest resident memory in bytes."""
    began = time.monotonic()
    with open(given, 'rb') as stdin, open(told, 'wb') as stdout:
        child = subprocess.Popen(command, stdin=stdin, stdout=stdout, env=dict(os.environ, PEER_THREADS=str(workers)))
        _, status, used = os.wait4(child.pid, 0)
    child.returncode = os.waitstatus_to_exitcode(status)
    return used.ru_utime + used.ru_stime, time.monotonic() - began, used.ru_maxrss * 1024


def write_input(folder, pattern, text):
    path = os.path.join(folder, 'given')
    with open(path, 'wb') as file:
        file.write((pattern + '\n\n' + text).encode())
    return path


def turns(runner, folder, commands, given, workers):
    """Of each command the least processor time, the least time by the clock and the greatest memory."""
    told = [os.path.join(folder, 'told%d' % number) for number in range(len(commands))]
    runs = [[runner.apply(run, (command, given, path, workers)) for command, path in zip(commands, told)] for _ in range(TURNS)]
    if len({contents(path) for path in told}) > 1:
        sys.exit('the programs print different rows')
    return [(min(r[0] for r in each), min(r[1] for r in each), max(r[2] for r in each)) for each in zip(*runs)]


def mean(ratios):
    return math.exp(sum(map(math.log, ratios)) / len(ratios))


def one_worker(runner, folder, ours, peer, jobs):
    print('| input | pattern | ns a byte | rxscan / regex | growth | memory / input |\n|---|---|---|---|---|---|')
    ratios = []
    for name, pattern, text in jobs:
        half = turns(runner, folder, [[ours, 'scan', '1']], write_input(folder, pattern, text[: len(text) // 2]), 1)[0]
        size = len(text.encode())
        own, other = turns(runner, folder, [[ours, 'scan', '1'], [peer, 'scan']], write_input(folder, pattern, text), 1)
        ratios.append(own[0] / other[0])
        shown = pattern if '\n' not in pattern else '%d words' % (pattern.count('\n') + 1)
        print('| %s | `%s` | %.2f | %.2f | %.2f | %.1f |' % (name, shown.replace('|', '\\|'), own[0] * 1e9 / size, ratios[-1],
                                                        own[0] / half[0], own[2] / size), flush=True)
    print('| geometric mean | | | %.2f | | |' % mean(ratios))


def four_workers(runner, folder, ours, peer, jobs):
    print('\n| input | one worker / four | rxscan / regex, four each |\n|---|---|---|')
    for name, pattern, text in jobs:
        given = write_input(folder, pattern, text)
        alone = turns(runner, folder, [[ours, 'scan', '1']], given, 1)[0]
        own, other = turns(runner, folder, [[ours, 'scan', '4'], [peer, 'scan']], given, 4)
        print('| %s | %.2f | %.2f |' % (name, alone[1] / own[1], own[1] / other[1]), flush=True)


def main():
    size = int(sys.argv[1] if len(sys.argv) > 1 else 2) << 20
    # A child's greatest memory is at least that of the process which starts it. So a fresh one, without the inputs, starts them.
    with multiprocessing.get_context('spawn').Pool(1) as runner, tempfile.TemporaryDirectory() as folder:
        jobs = inputs(size) + further_inputs(size)
        ours, peer = programs(sys.argv[2:4], folder)
        one_worker(runner, folder, ours, peer, jobs)
        four_workers(runner, folder, ours, peer, jobs)


if __name__ == '__main__':
    main()
