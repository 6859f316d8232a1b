#!/usr/bin/env python3
"""Prints how many checks `rt ci` may run side by side on this machine, where these are two or more; else nothing.

Left alone, `rt ci` counts for each check the most memory that one of its size may take: 12.7 GB for rx_dfa, where 2.8 were
seen. So it leaves processors idle (DECISIONS: every processor has a check). Both the machine's and the group's limits count.
"""
import os
import re

# What to count for a check, in bytes. The most that one was seen to take is 5.8 GB, for the tests of rx_regex_rows; each of the others takes
# at most 4.1, so as many fit side by side.
A_CHECK = 5_200_000_000


def number(path, pattern):
    """The first number that the file holds by this pattern, or None."""
    try:
        with open(path, encoding='utf-8') as file:
            found = re.search(pattern, file.read(), re.M)
    except OSError:
        return None
    return int(found.group(1)) if found else None


def processors():
    """How many there are for this process, by its group's quota too."""
    found = len(os.sched_getaffinity(0))
    quota, period = number('/sys/fs/cgroup/cpu.max', r'^(\d+) '), number('/sys/fs/cgroup/cpu.max', r'^\S+ (\d+)')
    return min(found, max(quota // period, 1)) if quota and period else found


def memory():
    """How many bytes are free, by the group's limit too."""
    found = 1024 * (number('/proc/meminfo', r'^MemAvailable:\s+(\d+)') or 0)
    limit, held = number('/sys/fs/cgroup/memory.max', r'^(\d+)'), number('/sys/fs/cgroup/memory.current', r'^(\d+)')
    return min(found, limit - (held or 0)) if limit else found


def main():
    lanes = min(processors(), memory() // A_CHECK)
    if lanes >= 2:
        print(lanes)


if __name__ == '__main__':
    main()
