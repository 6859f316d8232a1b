#!/usr/bin/env python3
"""Times the engines on the inputs of compare.py, and prints a table of nanoseconds per byte.

usage: bench/engines.py [MIB [RXSCAN [RX_BENCH]]]   (the size of each input, 1 MiB if left out; a built rxscan to stand
beside; a built rx_bench in place of ours)

Each input is cut at spaces into lines of about 4 KiB, since the backtracker takes no long ones; no pattern here matches a
space, so no match is lost. `rx_bench` times the searches alone, with all slots: each engine without a prefilter, and with
one of the pattern's prefixes. An rxscan is timed as a whole process: it reads its input and writes its rows too. The runs
of an input take turns, and the least time of nine counts. The programs must agree on the number of matches.
"""
import os
import subprocess
import sys
import tempfile
import time

from compare import inputs
from programs import existing, rx_bench

ENGINES = ['pikevm', 'pikevm-prefilter', 'backtrack', 'backtrack-prefilter']
LINE = 4096
RUNS = 9


def cut(text):
    """The text with a newline in place of the first space of each 4 KiB of a line."""
    out, rest = [], text
    while len(rest) > LINE:
        at = rest.find(' ', LINE)
        if at < 0:
            break
        out.append(rest[:at])
        rest = rest[at + 1:]
    return '\n'.join(out + [rest])


def engine_run(program, engine, pattern, hay):
    """The matches that the engine finds in the file, and the nanoseconds of its searches."""
    with open(hay, 'rb') as given:
        done = subprocess.run([program, engine, pattern], stdin=given, stdout=subprocess.PIPE, check=True)
    words = done.stdout.split()
    return int(words[1]), int(words[5])


def rxscan_run(rxscan, given_file, rows_file):
    """The rows that this rxscan prints, and the nanoseconds of the whole process."""
    with open(given_file, 'rb') as given, open(rows_file, 'wb') as rows:
        begin = time.perf_counter_ns()
        subprocess.run([rxscan, 'scan'], stdin=given, stdout=rows, check=True)
        spent = time.perf_counter_ns() - begin
    with open(rows_file, 'rb') as rows:
        return rows.read().count(b'\n'), spent


def least_times(jobs):
    """The matches, on which all jobs agree, and the least time of each job."""
    counts, least = set(), [None] * len(jobs)
    for _ in range(RUNS):
        for i, job in enumerate(jobs):
            count, spent = job()
            counts.add(count)
            least[i] = spent if least[i] is None else min(least[i], spent)
    if len(counts) != 1:
        sys.exit('the programs count differently: %s' % sorted(counts))
    return counts.pop(), least


def main():
    program = rx_bench(sys.argv[3:])
    size = int(sys.argv[1] if len(sys.argv) > 1 else 1) << 20
    rxscan = existing(sys.argv[2]) if len(sys.argv) > 2 else None
    names = ENGINES + (['rxscan'] if rxscan else [])
    print('| input | pattern | matches | %s |' % ' | '.join(names))
    print('|---' * (3 + len(names)) + '|')
    with tempfile.TemporaryDirectory() as folder:
        hay, given, rows = (os.path.join(folder, name) for name in ('hay', 'given', 'rows'))
        for name, pattern, text in inputs(size):
            text = text if '\n' in text else cut(text)
            with open(hay, 'w') as file:
                file.write(text)
            with open(given, 'w') as file:
                file.write(pattern + '\n\n' + text)
            jobs = [lambda engine=engine: engine_run(program, engine, pattern, hay) for engine in ENGINES]
            if rxscan:
                jobs.append(lambda: rxscan_run(rxscan, given, rows))
            count, least = least_times(jobs)
            figures = ' | '.join('%.1f' % (spent / len(text)) for spent in least)
            print('| %s | `%s` | %d | %s |' % (name, pattern.replace('|', '\\|'), count, figures), flush=True)


if __name__ == '__main__':
    main()
