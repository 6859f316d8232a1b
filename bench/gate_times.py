#!/usr/bin/env python3
"""Where the full check's time goes, crate by crate.

    python3 bench/gate_times.py OUTFILE .ci/run

Runs the command, and looks twice a second at the provers that are running anywhere on the machine: nothing else is to run there.
OUTFILE gets a line for each crate and kind of work, with the processor minutes of its provers, the most memory of one in GB, and
the minutes after the start at which the first began and the last ended. The kinds are the crate's own proof, the proof of its
tests, and wrong bodies (with the proof that they begin with). What a prover takes in its last half second is not counted.
"""
import os
import re
import subprocess
import sys
import time

TICKS = os.sysconf('SC_CLK_TCK')
PAGE = os.sysconf('SC_PAGESIZE')


def look(found, start):
    """Notes what each prover that runs now has taken so far, by its number and the time at which it began."""
    for name in filter(str.isdigit, os.listdir('/proc')):
        try:
            with open('/proc/%s/cmdline' % name, errors='replace') as file:
                words = file.read().split('\0')
            if not words[0].endswith('/rattle') or '--crate-name' not in words:
                continue
            with open('/proc/%s/stat' % name) as file:
                fields = file.read().rsplit(')', 1)[1].split()
            place = os.readlink('/proc/%s/cwd' % name)
        except OSError:
            continue  # it has ended
        crate = words[words.index('--crate-name') + 1]
        kind = 'wrong bodies' if re.search(r'/(rt-edits?-|tmp)', place) or '--incremental' in words and 'rt-edit' in ' '.join(words) else 'tests' if '--test' in words else 'proof'
        now = time.time() - start
        before = found.get((name, fields[19]))
        found[name, fields[19]] = (crate, kind, sum(map(int, fields[11:13])) / TICKS, max(int(fields[21]) * PAGE, before[3] if before else 0),
                                   before[4] if before else now, now)


def main():
    found, start = {}, time.time()
    run = subprocess.Popen(sys.argv[2:])
    while run.poll() is None:
        look(found, start)
        time.sleep(0.5)
    minutes = (time.time() - start) / 60
    sums = {}
    for crate, kind, seconds, memory, first, last in found.values():
        old = sums.get((crate, kind), (0, 0, first, last))
        sums[crate, kind] = (old[0] + seconds, max(old[1], memory), min(old[2], first), max(old[3], last))
    with open(sys.argv[1], 'w') as file:
        for (crate, kind), (seconds, memory, first, last) in sorted(sums.items(), key=lambda it: it[1][2]):
            file.write('%-18s %-12s %6.1f min %4.1f GB, from %5.1f to %5.1f\n' % (crate, kind, seconds / 60, memory / 1e9, first / 60, last / 60))
        file.write('%.1f minutes, %.1f minutes of a processor\n' % (minutes, sum(it[0] for it in sums.values()) / 60))
    return run.returncode


if __name__ == '__main__':
    sys.exit(main())
