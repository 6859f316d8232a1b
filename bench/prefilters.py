#!/usr/bin/env python3
"""Times the prefilters beside the kit's own searches, the same loops in Rust, and `grep -F`, and prints tables of ratios.

usage: bench/prefilters.py [MIB [RX_BENCH]]   (the size of the text, 16 MiB if left out; a built rx_bench in place of ours)

It builds `bench/loops.rs` by `rustc -O`. `rx_bench needles LIST` searches its input for needles, by a prefilter and by the
kit's search in turns, each nine times. A ratio is that of the least times, or of the least of three runs where two programs
take turns. Below 1, the prefilter is the faster one. Kinds that have no search of the kit's stand beside its `memchr3` for
three bytes that the text has not.
"""
import os
import random
import subprocess
import sys
import tempfile
import time

from compare import TOP, letters, words
from programs import rx_bench

TURNS = 3
NAMES = 'Holmes,Watson,Moriarty,Adler,Lestrade,Hudson,Mycroft,Gregson'
MORE = [a + b for a in 'ABCDEFGHIJ' for b in ('', 'ckermann', 'dams', 'elwyn', 'ond', 'rown', 'ughes')]


def build(folder):
    """The loops in Rust, built in the folder."""
    loops = os.path.join(folder, 'loops')
    subprocess.run(['rustc', '-O', '-o', loops, os.path.join(TOP, 'bench', 'loops.rs')], check=True)
    return loops


def text_with(size, share, chosen):
    """Words of which this share are the chosen ones."""
    rng = random.Random(20261128)
    return words(rng, size, lambda r: r.choice(chosen) if r.random() < share else letters(r, 1, 9))


def prefilter_run(program, needles, text):
    """The kind, the needles found, and the least nanoseconds of the prefilter and of the kit's search."""
    with open(text, 'rb') as given:
        done = subprocess.run([program, 'needles', needles], stdin=given, stdout=subprocess.PIPE, check=True)
    first, *rounds = done.stdout.decode().splitlines()
    rows = [[int(word) for word in line.split() if word.isdigit()] for line in rounds]
    return first.split()[0], int(first.split()[-1]), rows[0][0], min(row[1] for row in rows), min(row[3] for row in rows)


def loop_run(loops, needles, text):
    """The needles that the loop in Rust finds, and its least nanoseconds."""
    with open(text, 'rb') as given:
        done = subprocess.run([loops, needles], stdin=given, stdout=subprocess.PIPE, check=True)
    rows = [line.split() for line in done.stdout.decode().splitlines()]
    return int(rows[0][1]), min(int(row[3]) for row in rows)


def grep_run(needles, text):
    """The nanoseconds of the whole process of grep, which stops where it finds one."""
    begin = time.perf_counter_ns()
    subprocess.run(['grep', '-qF', '\n'.join(needles.split(',')), text], env={'LC_ALL': 'C'}, check=False)
    return time.perf_counter_ns() - begin


def row(programs, name, needles, text, outside):
    """A line of the table: the prefilter beside the kit's search, the loop in Rust and grep, as far as they are wanted."""
    program, loops = programs
    ours, kit, loop, grep = [], [], [], []
    for _ in range(TURNS):
        kind, _, found, time_of_ours, time_of_kit = prefilter_run(program, needles, text)
        ours.append(time_of_ours)
        kit.append(time_of_kit)
        if outside == 'loop':
            found_by_loop, time_of_loop = loop_run(loops, needles, text)
            if found_by_loop != found:
                sys.exit('%s: %d found, and %d by the loop in Rust' % (needles, found, found_by_loop))
            loop.append(time_of_loop)
        if outside == 'grep':
            grep.append(grep_run(needles, text))
    least = min(ours)
    figures = ['%.2f' % (least / min(others)) if others else '-' for others in (kit, loop, grep)]
    print('| %s | %s | %d | %.2f | %s |' % (kind, name, found, least / os.path.getsize(text), ' | '.join(figures)), flush=True)


def main():
    size = int(sys.argv[1] if len(sys.argv) > 1 else 16) << 20
    program = rx_bench(sys.argv[2:])
    with tempfile.TemporaryDirectory() as folder:
        programs = program, build(folder)
        plain, few, many = (os.path.join(folder, name) for name in ('plain', 'few', 'many'))
        chosen = NAMES.split(',') + list('WXYZ') + MORE[:7]
        for path, share in ((plain, 0), (few, 0.001), (many, 0.2)):
            with open(path, 'w') as file:
                file.write(text_with(size, share, chosen))
        print('| kind | needles | found | ns a byte | kit | loop in Rust | grep -F |')
        print('|---' * 7 + '|')
        for where, path in (('none', plain), ('few', few), ('many', many)):
            row(programs, where, 'Z', path, None)
            row(programs, where, 'Y,Z', path, None)
            row(programs, where, 'X,Y,Z', path, None)
            row(programs, where, 'Holmes', path, None)
            row(programs, where, NAMES, path, 'grep' if path == plain else None)
            row(programs, where + ', one first byte', 'Holmes,Hudson,House', path, 'grep' if path == plain else None)
            row(programs, where, 'W,X,Y,Z', path, 'loop')
            row(programs, where + ', 70 needles', ','.join(MORE), path, 'loop')
        row(programs, 'letters', 'e', plain, None)
        row(programs, 'letters', 'e,t', plain, None)
        row(programs, 'letters', 'e,t,a', plain, None)
        row(programs, 'two letters', 'th', plain, None)
        row(programs, 'two letters', 'th,he,in,er', plain, None)
        row(programs, 'letters', 'e,t,a,o', plain, 'loop')
        row(programs, 'letters', 'e,th,in,er', plain, 'loop')
        empty = os.path.join(folder, 'empty')
        with open(empty, 'w'):
            pass
        for count in (1000, 10000):
            needles = ','.join('%08d' % (number * 7919 % 100000000) for number in range(count))
            times = [prefilter_run(program, needles, empty)[1] for _ in range(TURNS)]
            print('%d needles of 8 bytes: built in %.1f ns a byte' % (count, min(times) / (8 * count)))


if __name__ == '__main__':
    main()
