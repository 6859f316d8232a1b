#!/usr/bin/env python3
"""Runs the stored run of rxscan once for each of its allocations, and lets that one fail.

Each run must give the stored rows with status 0, or status 8 with nothing written. The number rises until no allocation
is left to fail: until so many runs one after the other give the rows. It prints the range of the numbers that gave
status 8, and ends with status 1 at any other answer. Each run builds the program anew, which takes half a minute.
"""
import os
import re
import subprocess
import sys

TOP = os.path.dirname(os.path.dirname(os.path.abspath(__file__)))
CRATE = os.path.join(TOP, 'crates', 'rxscan')
RUNS_AFTER_THE_LAST = 4
ENDED = re.compile(rb'^checked: ended status=([0-9]+)$', re.MULTILINE)


def stored(name):
    with open(os.path.join(CRATE, name), 'rb') as file:
        return file.read()


def run_failing(number):
    """The status and the output of the stored run in which the allocation of this number fails, counted from 1."""
    words = stored('args').decode().split('\n')[:-1]
    command = ['rt', 'try', '--fail-alloc', str(number), '--', *words]
    done = subprocess.run(command, cwd=CRATE, input=stored('stdin'), stdout=subprocess.PIPE, stderr=subprocess.PIPE)
    ended = ENDED.findall(done.stdout + done.stderr)
    if len(ended) != 1:
        sys.exit('number %d: no answer\n%s' % (number, (done.stdout + done.stderr).decode(errors='replace')))
    return int(ended[0]), done.stdout


def main():
    failed, number, whole = [], 0, 0
    while whole < RUNS_AFTER_THE_LAST:
        number += 1
        status, output = run_failing(number)
        print('number %d: status %d' % (number, status), flush=True)
        if (status, output) == (0, stored('stdout')):
            whole += 1
        elif (status, output) == (8, b''):
            failed.append(number)
            whole = 0
        else:
            sys.exit('number %d: status %d with %r' % (number, status, output))
    print('status 8 at %d numbers, the last of them %d; the rows at all others up to %d' % (len(failed), failed[-1], number))


if __name__ == '__main__':
    main()
