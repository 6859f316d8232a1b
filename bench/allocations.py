#!/usr/bin/env python3
"""Counts the allocations of a reset of a cache, of a clone of a prefilter and of a regex, of a row, and of what an iterator gives.

It makes a program of bench/allocations.txt in a copy of the repository, builds it for measuring, without a proof
(bench/measuring.py), and runs each job with two numbers of times, beneath a library that counts the calls of the system's
allocator. Ends with status 1 where a reset of a cache that fits, a clone of a prefilter, a row without groups, a match of an
iterator, one that is counted or a gap takes memory, or a row with groups or the captures of a match take it more than once.
"""
import os
import subprocess
import sys
import tempfile

from iterators import build

COUNTER = r"""
#include <stddef.h>
#include <stdio.h>
#include <sys/syscall.h>
#include <unistd.h>
extern void *__libc_malloc(size_t);
extern void *__libc_realloc(void *, size_t);
static unsigned long calls;
void *malloc(size_t size) { calls++; return __libc_malloc(size); }
void *realloc(void *old, size_t size) { calls++; return __libc_realloc(old, size); }
static void tell(void) { dprintf(2, "%lu\n", calls); }
__attribute__((destructor)) static void at_exit(void) { tell(); }
void _exit(int status) { tell(); for (;;) syscall(SYS_exit_group, status); }
"""

# Jobs, each with how often it is done, and what is done so much more often.
JOBS = [('s', 0, 9, 'nine resets for the same regex'), ('l', 1, 9, 'eight resets more for a larger regex'),
        ('c', 1, 9, 'eight clones more of a prefilter'), ('w', 5, 8, 'three rows more without groups'),
        ('g', 5, 8, 'three rows more with a group'), ('i', 5, 8, 'three matches more of an iterator'),
        ('p', 5, 8, 'three gaps more'), ('k', 5, 8, 'the captures of three matches more'),
        ('n', 5, 8, 'three matches more that are counted'), ('r', 1, 9, 'eight clones more of a regex')]

# Those of which each time may take memory once. A clone of a regex has a pool of its own, which takes what it takes.
ONCE = ('g', 'k')
OWN = ('r',)


def allocations(program, counter, job, times):
    done = subprocess.run([program], input=b'%s%d' % (job.encode(), times), stderr=subprocess.PIPE,
                          env=dict(os.environ, LD_PRELOAD=counter))
    if done.returncode:
        sys.exit('%s%d: status %d' % (job, times, done.returncode))
    # (a program that had threads may end without what is to be done at its exit)
    return int(done.stderr.split()[-1])


def main():
    is_well = True
    with tempfile.TemporaryDirectory() as folder:
        source, counter = os.path.join(folder, 'counter.c'), os.path.join(folder, 'counter.so')
        with open(source, 'w') as file:
            file.write(COUNTER)
        subprocess.run(['gcc', '-shared', '-fPIC', '-O1', '-o', counter, source], check=True)
        program = build(folder, 'allocations', 'rx_search rx_meta rx_scan')
        for job, few, many, name in JOBS:
            more = allocations(program, counter, job, many) - allocations(program, counter, job, few)
            print('%s: %d' % (name, more))
            is_well = is_well and (job in OWN or more <= (many - few if job in ONCE else 0))
    return 0 if is_well else 1


if __name__ == '__main__':
    sys.exit(main())
