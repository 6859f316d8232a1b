#!/usr/bin/env python3
"""Times searches from candidate to candidate beside the core alone and the program over the crate regex, and prints ratios.

usage: bench/candidates.py [MIB [RXSCAN [PEER]]]   (the size of each text, 16 MiB if left out; built programs in place of ours, which
`cd crates/rxscan && rt run` builds; PEER prints the same rows as `rxscan scan`, and is left out if none is named)

Each text is one line, but for those of short lines. Its candidates are rare (one in 64 KiB), or dense: none of them is confirmed, each is
confirmed and no match follows, or each is one of a match. Of two texts each search is short, and begins with the patience for two
candidates anew: lines of 80 bytes in which none is confirmed, and a match behind each seven that are not. Of five turns the least processor
time counts, with one worker; the rows are compared. Ends with status 1 where a search takes more than half of the core's time while
candidates are rare, more than 1.3 times that where they are dense, or more than twice that where each search is short.
"""
import os
import random
import sys
import tempfile

from compare import PROGRAM, contents, letters, run_time

TURNS = 5
SEED = 20261130
LIMIT = 1 << 24
RARE = 1 << 16

# A pattern, a match of it, and for dense candidates a piece of text in which one is not confirmed, one that is confirmed and not followed by
# a match, if there can be one, and one in which there is a match.
JOBS = [
    (r'\w+\s+Holmes', ' a Holmes,', ',Holmes', None, ' a Holmes,'),
    (r'[a-z]+\s+Watson\s', ' a Watson ', ',Watson', ' a Watson,', 'a Watson ,'),
    (r'\s[A-Za-z]{0,12}ing\s', ' sing ', ',ing', ' king,', ' king ,'),
]


def rare(rng, match, size):
    """Words of letters other than those of the literals, with a match in each piece of 64 KiB."""
    words, total, due = [], 0, RARE // 2
    while total < size:
        word = match.strip() if total >= due else letters(rng, 1, 9).replace('g', 'h')
        due += RARE if total >= due else 0
        words.append(word)
        total += len(word) + 1
    return ' '.join(words)[:size]


def texts(rng, match, pieces, size):
    """Each text with what its candidates are."""
    yield 'rare', rare(rng, match, size)
    for name, piece in zip(('dense, not confirmed', 'dense, no match', 'dense, matches'), pieces):
        if piece:
            yield name, piece * (size // len(piece))
    yield 'short lines', (piece_of_line(pieces[0]) + '\n') * (size // 80)
    group = pieces[0] * 7 + match
    yield 'short, matches between', group * (size // len(group))


def piece_of_line(piece):
    """A line of 79 bytes of such pieces."""
    return (piece * 80)[:79]


def limit_of(name):
    """The most of the core's time that a search of such a text may take."""
    return 0.5 if name == 'rare' else 2.0 if name.startswith('short') else 1.3


def least_times(folder, commands, pattern, text):
    """The least time of each command, whose rows are the same."""
    given = os.path.join(folder, 'given')
    with open(given, 'w') as file:
        file.write(pattern + '\n\n' + text)
    told = [os.path.join(folder, 'told%d' % number) for number in range(len(commands))]
    turns = [[run_time(command, given, path) for command, path in zip(commands, told)] for _ in range(TURNS)]
    if len({contents(path) for path in told}) > 1:
        sys.exit('%s: the programs print different rows' % pattern)
    return [min(times) for times in zip(*turns)]


def main():
    size = int(sys.argv[1] if len(sys.argv) > 1 else 16) << 20
    program = os.path.abspath(sys.argv[2]) if len(sys.argv) > 2 else PROGRAM
    if not os.path.exists(program):
        sys.exit('no program at ' + program)
    commands = [[program, 'scan', '1'], [program, 'scan', '1', 'off:p']] + [[os.path.abspath(path), 'scan'] for path in sys.argv[3:4]]
    is_fast = True
    print('| pattern | candidates | ns a byte | / core alone | / regex |\n|---|---|---|---|---|')
    with tempfile.TemporaryDirectory() as folder:
        for pattern, match, *pieces in JOBS:
            for name, text in texts(random.Random(SEED), match, pieces, min(size, LIMIT - len(pattern) - 2)):
                ours, *others = least_times(folder, commands, pattern, text)
                ratios = [ours / other for other in others]
                is_fast = is_fast and ratios[0] <= limit_of(name)
                cells = ' | '.join('%.2f' % ratio for ratio in ratios)
                print('| `%s` | %s | %.2f | %s |' % (pattern, name, ours * 1e9 / len(text), cells), flush=True)
    return 0 if is_fast else 1


if __name__ == '__main__':
    sys.exit(main())
