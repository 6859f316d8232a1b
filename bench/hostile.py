#!/usr/bin/env python3
"""Runs the built rxscan on patterns that are made to cost much, and prints the time and the greatest resident memory of each.

usage: bench/hostile.py [PROGRAM [MIB..]]   (the program that `cd crates/rxscan && rt run` builds; 8 and 16)

Each pattern is one line of so many MiB, over no haystack: accepted, or refused in the program's own words. Two are of one
size alone, and run once: 300000 digits under `(?i)`, about as many as are accepted, and 200000 groups with names. The last
input is as many patterns of one character. The time is that of the processor, so that other work on the machine counts
little, and the clock's stands beside it. The memory told is never less than the greatest that this script itself has had.
A line whose time or memory is above the limit ends with `ABOVE`, and so does a pattern whose time from 8 to 16 MiB grows by
more than 2.5. The last line tells which are above; the status is 1 if any is.
"""
import os
import subprocess
import sys
import time

TOP = os.path.dirname(os.path.dirname(os.path.abspath(__file__)))
PROGRAM = os.path.join(TOP, 'crates', 'rxscan', 'out', 'rxscan')
MIB = 1 << 20
SECONDS, BYTES, RATIO = 20.0, 2 << 30, 2.5


def repeated(unit, head=b'', tail=b''):
    """What makes a pattern of about so many bytes, of one unit over and over."""
    return lambda size: head + unit * ((size - len(head) - len(tail)) // len(unit)) + tail


# What makes a pattern of a size. Those of one size alone come first, while this script itself is small.
ALONE = ('300000 digits', '(?<gN>)')
PATTERNS = [
    ('300000 digits', lambda size: b'(?i)' + b'0123456789' * 30000),
    ('(?<gN>)', lambda size: b''.join(b'(?<g%d>)' % n for n in range(200000))),
    ('(?i) and digits', repeated(b'0123456789', b'(?i)')),
    (r'[\w\w..]', repeated(rb'\w', b'[', b']')),
    (r'[\pL\pN..]', repeated(rb'\pL\pN', b'[', b']')),
    (r'(?-u)[\w\w..]', repeated(rb'\w', b'(?-u)[', b']')),
    (r'(?-u)\w', repeated(rb'\w', b'(?-u)')),
    (r'\w', repeated(rb'\w')),
    (r'\x41', repeated(rb'\x41')),
    ('|', repeated(b'|')),
    ('(?:)', repeated(b'(?:)')),
    ('a*', repeated(b'a*')),
    (r'\pL', repeated(rb'\pL')),
    ('.', repeated(b'.')),
    ('[ab]', repeated(b'[ab]')),
    ('(a)', repeated(b'(a)')),
    ('lines of a', repeated(b'a\n', b'', b'a')),
]


def run(program, text):
    """The time and the processor's time in seconds, the greatest resident memory in bytes, the status, and the first words."""
    began = time.monotonic()
    child = subprocess.Popen([program, 'scan'], stdin=subprocess.PIPE, stdout=subprocess.PIPE, stderr=subprocess.STDOUT)
    try:
        child.stdin.write(text)
        child.stdin.close()
    except BrokenPipeError:
        pass
    said = child.stdout.read()
    _, status, used = os.wait4(child.pid, 0)
    child.returncode = os.waitstatus_to_exitcode(status)
    words = said[:60].decode(errors='replace').strip()
    return time.monotonic() - began, used.ru_utime + used.ru_stime, used.ru_maxrss * 1024, child.returncode, words


def measured(program, name, size, pattern):
    """Prints the line of a pattern, which two newlines end; gives the processor's time, and whether a limit is passed."""
    passed, seconds, memory, status, said = run(program, pattern + b'\n\n')
    bad = seconds > SECONDS or memory > BYTES
    print('%-16s %7s %8.2f s (%.2f by the clock) %6d MiB  status %d  %s%s'
          % (name, size, seconds, passed, memory // MIB, status, said, '  ABOVE' if bad else ''), flush=True)
    return seconds, bad


def grown(name, times):
    """Prints the growth from 8 to 16 MiB, where both were measured, and tells whether it is above the limit."""
    if 8 not in times or 16 not in times:
        return False
    ratio = times[16] / times[8]
    # Short times say little.
    bad = ratio > RATIO and times[16] > 1
    print('%-16s 16 MiB to 8 MiB: %.2f%s' % (name, ratio, '  ABOVE' if bad else ''), flush=True)
    return bad


def measured_alone(program, name, make):
    """Measures a pattern of one size; tells what is above the limits."""
    pattern = make(None)
    _, bad = measured(program, name, '%d KiB' % (len(pattern) >> 10), pattern)
    return [name] * bad


def measured_sizes(program, name, sizes, make):
    """Measures the pattern at each size, and its growth; tells what is above the limits."""
    above, times = [], {}
    for size in sizes:
        # The longest input is 16 MiB.
        times[size], bad = measured(program, name, '%d MiB' % size, make(size * MIB - 2))
        above += ['%s at %d MiB' % (name, size)] * bad
    return above + ['%s by its growth' % name] * grown(name, times)


def main():
    program = sys.argv[1] if len(sys.argv) > 1 else PROGRAM
    sizes = [int(word) for word in sys.argv[2:]] or [8, 16]
    if not os.path.exists(program):
        sys.exit('no program at ' + program)
    above = []
    for name, make in PATTERNS:
        above += measured_alone(program, name, make) if name in ALONE else measured_sizes(program, name, sizes, make)
    print('above %d s, %d MiB or a growth by %.1f: %s' % (SECONDS, BYTES // MIB, RATIO, ', '.join(above) or 'none'))
    sys.exit(1 if above else 0)


if __name__ == '__main__':
    main()
