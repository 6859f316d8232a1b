#!/usr/bin/env python3
"""Times the literals of expressions beside the building of their NFA, and prints two tables of ratios.

usage: bench/literals.py [RX_BENCH]   (a built rx_bench in place of ours)

`rx_bench literals` reads patterns, one a line, and times in turns, 99 times each, how their prefixes are made, made and
trimmed for either kind of matches, and how the NFA of the same expressions is built. The least times of three runs count.
The first table gives the ratios of the literals to the NFA: below 1, the literals take less time. The second one gives the
ratios of expressions of one kind at twice a size to those at the size, which take turns: 2 where the time grows with the
size. Trimming stands there alone, as the time with it less the time without it; a dash stands where it is less than a tenth
of the making, which tells nothing.
"""
import random
import subprocess
import sys

from compare import letters
from programs import rx_bench

TURNS = 3
PARTS = ('prefixes', 'preferred', 'sorted', 'nfa')
# What is trimmed in less than this share of the time of the making is not told apart from nothing.
SHARE = 0.1


def run(program, patterns, least):
    """Runs the program once, and keeps the least nanoseconds of each part."""
    done = subprocess.run([program, 'literals'], input='\n'.join(patterns).encode(), stdout=subprocess.PIPE, check=True)
    for line in done.stdout.decode().splitlines():
        found = line.split()
        for name, value in zip(found[::2], found[1::2]):
            least[name] = min(least.get(name, int(value)), int(value))


def times(program, *jobs):
    """The least nanoseconds of each part for each job, which is some patterns. The jobs take turns."""
    least = [{} for _ in jobs]
    for _ in range(TURNS):
        for patterns, kept in zip(jobs, least):
            run(program, patterns, kept)
    return [[kept[part] for part in PARTS] for kept in least]


def microseconds(time):
    return '-' if time is None else '%.1f' % (time / 1000)


def ratio(one, other):
    return '-' if one is None or not other else '%.2f' % (one / other)


def row(program, name, patterns):
    """A line of the first table."""
    [(*parts, nfa)] = times(program, patterns)
    cells = [microseconds(part) for part in (*parts, nfa)] + ['%.3f' % (part / nfa) for part in parts]
    print('| %s | %s |' % (name, ' | '.join(cells)), flush=True)


def trimming(both, making):
    """The time of trimming alone, where it can be told."""
    return both - making if both - making >= SHARE * making else None


def apart(parts):
    """The times of the making, of trimming alone for either kind of matches, and of the NFA."""
    making, preferred, for_all, nfa = parts
    return making, trimming(preferred, making), trimming(for_all, making), nfa


def growth_row(program, name, size, make):
    """A line of the second table: for each part the time at twice the size, and its ratio to that at the size."""
    once, twice = (apart(parts) for parts in times(program, make(size), make(2 * size)))
    cells = [cell for one, two in zip(once, twice) for cell in (microseconds(two), ratio(two, one))]
    print('| %s | %d | %s |' % (name, size, ' | '.join(cells)), flush=True)


def chosen_words(rng):
    """250 words, 250 that begin with one of 8 stems, and 250 that begin with the same 30 letters."""
    words = [letters(rng, 4, 9) for _ in range(250)]
    stems = [letters(rng, 2, 2) for _ in range(8)]
    alike = [rng.choice(stems) + letters(rng, 2, 6) for _ in range(250)]
    stem = letters(rng, 30, 30)
    return words, alike, [stem + letters(rng, 2, 6) for _ in range(250)]


def alternations(words, alike, long):
    """Kinds of growing alternations and unions: a name, a size, and what makes the patterns of a size."""
    return [
        ('one of N words', 125, lambda n: ['|'.join(words[:n])]),
        ('one of N words of 8 stems', 125, lambda n: ['|'.join(alike[:n])]),
        ('one of N words of one stem of 30 letters', 125, lambda n: ['|'.join(long[:n])]),
        ('N words, united', 120, lambda n: words[:n]),
        ('N words of 8 stems, united', 120, lambda n: alike[:n]),
    ]


def nestings():
    """Kinds that nest. At most 250 groups and repetitions may nest, and at most 327673 letters be counted."""
    return [
        ('N nested alternations', 60, lambda n: ['a(?:b|' * n + 'c' + ')' * n]),
        ('N nested alternations, from the right', 60, lambda n: ['(?:' * n + 'c' + 'a|b)' * n]),
        ('N nested groups', 60, lambda n: ['(' * n + 'a' + 'b)' * n]),
        ('N nested options', 60, lambda n: ['(?:' * n + 'a' + 'b)?' * n]),
        ('N nested counts of 10', 2, lambda n: ['(?:' * n + 'a' + '){10}' * n]),
        ('N nested counts of 2', 8, lambda n: ['(?:' * n + 'a' + '){2}' * n]),
    ]


def at_the_limits(rng):
    """Kinds in which each level has about as many literals as there may be, and as long ones, so that it costs what it may."""
    words = '|'.join(letters(rng, 90, 90) for _ in range(240))
    return [
        ('240 words of 90 letters in N nested groups', 60, lambda n: ['(' * n + words + r'\b)' * n]),
    ]


def lengths(words, text):
    """Kinds that grow in length. Word boundaries leave the literals as they are, so each part counts."""
    head = '(?:%s)' % '|'.join(words[:25])
    return [
        ('N parts, groups of a letter', 2000, lambda n: ['(a)' * n]),
        ('N parts, word boundaries', 2000, lambda n: [r'\b' * n]),
        ('one of 25 words, and N word boundaries', 2000, lambda n: [head + r'\b' * n]),
        ('a literal of N bytes', len(text) // 2, lambda n: [text[:n]]),
    ]


def main():
    program = rx_bench(sys.argv[1:])
    rng = random.Random(20261128)
    words, alike, long = chosen_words(rng)
    text = ''.join(letters(rng, 10, 10) for _ in range(10240))
    print('| patterns | prefixes | by preference | for all | NFA | prefixes / NFA | by preference / NFA | for all / NFA |')
    print('|---' * 8 + '|')
    row(program, 'one of 250 words', ['|'.join(words)])
    row(program, 'one of 250 words of 8 stems', ['|'.join(alike)])
    row(program, '250 words, united', words)
    row(program, '250 words between word boundaries', [r'\b(?:%s)\b' % '|'.join(words)])
    row(program, '\\w{50}', [r'\w{50}'])
    row(program, '[ab]{7}[cd]', ['[ab]{7}[cd]'])
    row(program, 'a literal of 100 KB', [text])
    print('\n| patterns | N | prefixes | 2N / N | by preference | 2N / N | for all | 2N / N | NFA | 2N / N |')
    print('|---' * 10 + '|')
    for kind in alternations(words, alike, long) + nestings() + at_the_limits(rng) + lengths(words, text):
        growth_row(program, *kind)


if __name__ == '__main__':
    main()
