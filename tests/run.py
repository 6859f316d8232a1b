#!/usr/bin/env python3
"""Runs built programs on the tables of this folder.

usage: tests/run.py PROGRAM.. [TABLE..]   (every .txt file beside this script, if none is named)

A table is a text of cases with an empty line between them. A case is made of these lines:

    # TEXT            a remark
    $ PROGRAM WORD..  a run of a program with these words, quoted as for a shell. Several such lines are several runs with the same
                      input, which end alike; without one there are five of rxscan: `scan`, and with `off:p`, `off:d`, `off:h` and
                      `off:dhobp`. The first word of rxcase names engines, with commas between them: a run for each
    < TEXT            a line of the input
    <= LITERAL * N    bytes of the input, N times, with no newline after them: a string of Python's, as "a\\t\\u00e9", or
                      bytes, as b"\\xff"; N is 1 if left out
    <% LITERAL * N    the same, N times, with the numbers from 0 on in place of `%d`
    > TEXT            a line of the output that is wanted, and `>= LITERAL * N` as above
    >% LITERAL * N    the same, N times, with the numbers from 1 on, which are those of haystacks, in place of `%d`
    ~ TEXT            a line of the output, or some of its first words with `quit B at N` behind them: the search stopped at a byte B
                      that is not ASCII, and what it had told by then is right
    ? N               the exit status that is wanted, 0 without one

Cases of a program that is not named are left out. There are as many runs at once as there are processors. Each run that ends otherwise is printed with the place of its case. The last
line is `N passed, M failed`, and the exit status is 1 where one failed, and 2 where a table cannot be read.
"""
import ast
import os
import re
import shlex
import subprocess
import sys
from concurrent.futures import ThreadPoolExecutor

FOLDER = os.path.dirname(os.path.abspath(__file__))
SECONDS = 1200

# The runs of a case that names no words: with all engines, without automatic prefilters, without either sort of DFAs, and
# without all that can be switched off.
WITHOUT_WORDS = [['rxscan', 'scan'] + off for off in ([], ['off:p'], ['off:d'], ['off:h'], ['off:dhobp'])]

QUIT = re.compile(rb'(.*)\bquit (\d+) at \d+')


class BadTable(Exception):
    pass


class Case:
    """Runs with the same input, output and status."""

    def __init__(self, place):
        self.place = place
        self.runs = []
        self.input = bytearray()
        self.output = bytearray()
        self.loose = set()
        self.status = 0

    def read(self, line):
        """Takes one line of the table."""
        mark, _, rest = line.partition(' ')
        if line != line.rstrip():
            raise BadTable('blanks at the end of a line: write them as a literal')
        if mark in ('<', '>'):
            self.bytes_of(mark).extend(rest.encode() + b'\n')
        elif mark in ('<=', '>='):
            text, count = parts_of(rest)
            self.bytes_of(mark[0]).extend(literal(text) * count)
        elif mark in ('<%', '>%'):
            text, count = parts_of(rest)
            text, first = literal(text), int(mark == '>%')
            self.bytes_of(mark[0]).extend(b''.join(text.replace(b'%d', b'%d' % k) for k in range(first, first + count)))
        elif mark == '~':
            self.loose.add(self.output.count(b'\n'))
            self.output.extend(rest.encode() + b'\n')
        elif mark == '$':
            self.runs.extend(runs_of(shlex.split(rest)))
        elif mark == '?' and rest.isdecimal():
            self.status = int(rest)
        else:
            raise BadTable('no line of a case: ' + line)

    def bytes_of(self, mark):
        return self.input if mark == '<' else self.output

    def is_wanted(self, output):
        """Whether this is the output that is wanted."""
        if not self.loose:
            return output == self.output
        got, want = output.split(b'\n'), bytes(self.output).split(b'\n')
        return len(got) == len(want) and all(
            a == b or (k in self.loose and is_front(a, b)) for k, (a, b) in enumerate(zip(got, want)))


def runs_of(words):
    """The runs that a line of a case asks for, each with its program first."""
    if words[:1] == ['rxcase'] and len(words) > 1:
        return [['rxcase', engine] + words[2:] for engine in words[1].split(',')]
    if words[:1] == ['rxscan']:
        return [words]
    raise BadTable('no program of a case: ' + ' '.join(words))


def is_front(line, whole):
    """Whether a line is made of the first words of another one, and tells that the search quit at a byte that is not ASCII."""
    quit = QUIT.fullmatch(line)
    return bool(quit) and int(quit.group(2)) >= 128 and (whole + b' ').startswith(quit.group(1))


def parts_of(text):
    """A literal, and how often it is repeated."""
    text, count = re.fullmatch(r'(.*?)(?: \* (\d+))?', text).groups()
    return text, int(count or 1)


def literal(text):
    """The bytes of a literal."""
    try:
        value = ast.literal_eval(text)
    except (SyntaxError, ValueError):
        value = None
    if isinstance(value, str):
        value = value.encode()
    if not isinstance(value, bytes):
        raise BadTable('no literal: ' + text)
    return value


def cases_of(path):
    """The cases of a table."""
    cases, case = [], None
    with open(path, encoding='utf-8', newline='\n') as table:
        for number, line in enumerate(table, 1):
            line = line.rstrip('\n')
            place = '%s:%d' % (os.path.basename(path), number)
            if line.startswith('#'):
                continue
            if not line:
                case = None
                continue
            if case is None:
                case = Case(place)
                cases.append(case)
            try:
                case.read(line)
            except (BadTable, ValueError) as error:
                raise BadTable('%s: %s' % (place, error)) from error
    return cases


def shown(lines, k):
    """A line of an output, for a message."""
    return repr(bytes(lines[k][:200]))[1:] if k < len(lines) else 'missing'


def difference(got, want):
    """Where two outputs differ first."""
    got, want = got.split(b'\n'), want.split(b'\n')
    k = next((k for k, (a, b) in enumerate(zip(got, want)) if a != b), min(len(got), len(want)))
    return 'line %d is %s, and %s is wanted' % (k + 1, shown(got, k), shown(want, k))


def fault(program, words, case):
    """What is wrong with a run of a case, or nothing."""
    try:
        done = subprocess.run([program] + words, input=case.input, stdout=subprocess.PIPE, timeout=SECONDS)
    except subprocess.TimeoutExpired:
        return 'it had not ended after %d seconds' % SECONDS
    faults = []
    if done.returncode != case.status:
        faults.append('the status is %d, and %d is wanted' % (done.returncode, case.status))
    if not case.is_wanted(done.stdout):
        faults.append(difference(done.stdout, case.output))
    return '; '.join(faults)


def main():
    if len(sys.argv) < 2:
        sys.exit(__doc__)
    programs = {os.path.basename(name): os.path.abspath(name) for name in sys.argv[1:] if not name.endswith('.txt')}
    tables = [name for name in sys.argv[1:] if name.endswith('.txt')]
    tables = tables or sorted(os.path.join(FOLDER, name) for name in os.listdir(FOLDER) if name.endswith('.txt'))
    passed = failed = 0
    try:
        cases = [case for table in tables for case in cases_of(table)]
        runs = [(case, run) for case in cases for run in case.runs or WITHOUT_WORDS if run[0] in programs]
        with ThreadPoolExecutor(os.cpu_count()) as pool:
            faults = pool.map(lambda it: fault(programs[it[1][0]], it[1][1:], it[0]), runs)
            for (case, run), wrong in zip(runs, faults):
                passed, failed = passed + (not wrong), failed + bool(wrong)
                if wrong:
                    print('%s: %s: %s' % (case.place, shlex.join(run), wrong), flush=True)
    except (BadTable, OSError) as error:
        print(error)
        print('%d passed, %d failed' % (passed, failed + 1))
        return 2
    print('%d passed, %d failed' % (passed, failed))
    return 1 if failed else 0


if __name__ == '__main__':
    sys.exit(main())
