#!/usr/bin/env python3
"""Times the built rxscan on patterns of the whole grammar beside outside tools, and the building of large patterns.

usage: bench/grammar.py [MIB [RXSCAN]]   (the size of each input, 1 MiB if left out; a built rxscan in place of ours)

Build the program first: `cd crates/rxscan && rt run`. Each input is made from a fixed seed. `grep -aobP` prints the
places of the matches of one pattern; Python's `re` prints the places of the matches as it counts them, in characters.
The jobs of an input take turns, and the least processor time of each counts. A ratio is rxscan's time over the tool's: below 1,
rxscan is the faster one. The second table has the whole run over a pattern and no haystack, in milliseconds.
"""
import os
import random
import subprocess
import sys
import tempfile

from compare import PROGRAM, least_times, letters, words

PYTHON = r'''
import re, sys
pattern = re.compile(sys.argv[1])
out = []
for line, hay in enumerate(open(sys.argv[2], encoding='utf-8', newline='').read().split('\n'), 1):
    for m in pattern.finditer(hay):
        out.append('%d:0:%d..%d\n' % (line, m.start(), m.end()))
sys.stdout.write(''.join(out))
'''


def in_any_case(rng, word):
    return ''.join(rng.choice([c.lower(), c.upper()]) for c in word)


def mixed_word(rng):
    low, high = rng.choice([('a', 'z'), ('α', 'ω'), ('а', 'я')])
    return ''.join(chr(rng.randint(ord(low), ord(high))) for _ in range(rng.randint(1, 8)))


def inputs(size):
    """For each input its name, our pattern, grep's and Python's (None: the tool has none), and the text."""
    rng = random.Random(20261127)
    ing = words(rng, size, lambda r: letters(r, 1, 6) + ('ing' if r.random() < 0.2 else ''))
    plain = words(rng, size, lambda r: letters(r, 1, 9), '  ')
    names = words(rng, size, lambda r: in_any_case(r, r.choice(['Holmes', 'Watson'])) if r.random() < 0.02 else letters(r, 2, 8))
    mixed = words(rng, size // 2, mixed_word)
    codes = words(rng, size, lambda r: letters(r, 1, 6) + str(r.randint(0, 9999)))
    lines = words(rng, size, lambda r: letters(r, 1, 30) + r.choice(['', ' ']), '\r')
    same = lambda name, pattern, text: (name, pattern, pattern, pattern, text)
    return [
        same('word boundaries', r'\b[a-z]+ing\b', ing),
        same('words and spaces', r'\w+\s+\w+', plain),
        same('names in any case', '(?i)holmes|watson', names),
        ('Unicode classes', r'\p{Greek}+\s\p{Cyrillic}+', r'\p{Greek}+\s\p{Cyrillic}+', '[Ͱ-Ͽ]+\\s[Ѐ-ӿ]+', mixed),
        same('counted repetitions', '[a-z]{3,5}[0-9]{2,3}', codes),
        ('anchors at lines', '(?Rm)^[a-z]+$', None, '(?:^|(?<=\r))[a-z]+(?=\r|$)', lines),
    ]


def ratios(ours, tools, told):
    """The least time of ours over that of each tool; `-` where there is none. All print into the file `told`."""
    least, *others = least_times([(*ours, told)] + [(tool, os.devnull, told) for tool in tools if tool])
    rest = iter(others)
    return ['%.2f' % (least / next(rest)) if tool else '-' for tool in tools]


def main():
    size = int(sys.argv[1] if len(sys.argv) > 1 else 1) << 20
    program = os.path.abspath(sys.argv[2]) if len(sys.argv) > 2 else PROGRAM
    if not os.path.exists(program):
        sys.exit('build the program first: cd crates/rxscan && rt run')
    os.environ['LC_ALL'] = 'C.UTF-8'
    print('| input | pattern | matches | rxscan / grep -aobP | rxscan / Python re |')
    print('|---|---|---|---|---|')
    with tempfile.TemporaryDirectory() as folder:
        hay, given, told = (os.path.join(folder, name) for name in ('hay', 'given', 'told'))
        for name, pattern, perl, python, text in inputs(size):
            open(hay, 'w', encoding='utf-8', newline='').write(text)
            open(given, 'w', encoding='utf-8', newline='').write(pattern + '\n\n' + text)
            rows = subprocess.run([program, 'scan'], stdin=open(given, 'rb'), stdout=subprocess.PIPE, check=True).stdout
            tools = [perl and ['grep', '-aobP', perl, hay], [sys.executable, '-c', PYTHON, python, hay]]
            beside = ratios(([program, 'scan'], given), tools, told)
            print('| %s | `%s` | %d | %s |' % (
                name, pattern.replace('|', '\\|'), rows.count(b'\n'), ' | '.join(beside)), flush=True)
        print('\n| pattern | status | milliseconds |\n|---|---|---|')
        for pattern in ['a', r'\w{50}', r'\pL{20}', r'\w{1000}{1000}', r'(?i)\pL']:
            open(given, 'w', encoding='utf-8').write(pattern + '\n\n')
            status = subprocess.run([program, 'scan'], stdin=open(given, 'rb'), stdout=subprocess.DEVNULL, check=False).returncode
            print('| `%s` | %d | %.1f |' % (pattern, status, 1000 * least_times([([program, 'scan'], given, told)])[0]), flush=True)


if __name__ == '__main__':
    main()
