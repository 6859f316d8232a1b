#!/usr/bin/env python3
"""Where the time of a check goes, function by function.

    cd crates/rx_base_rows && python3 ../../bench/proof_times.py rt check --test --jobs 1 --progress

Runs the command in a session of its own. Before each line that it writes stand two numbers: the processor seconds that all
processes of the session have taken so far, and how many of them came since the line before. With `--progress` there is a line
for each function whose proof is checked, and with one job the functions come one after another; so the second number is what
that function took. What stands before the first function is the front end and the reading of the libraries.
"""
import os
import subprocess
import sys

TICKS = os.sysconf("SC_CLK_TCK")


def seconds(session):
    """The processor seconds of the processes of a session, and of those children that they waited for."""
    total = 0
    for name in filter(str.isdigit, os.listdir("/proc")):
        try:
            with open(f"/proc/{name}/stat") as file:
                fields = file.read().rsplit(")", 1)[1].split()
        except OSError:
            continue  # it has ended
        if int(fields[3]) == session:
            total += sum(map(int, fields[11:15]))
    return total / TICKS


def main():
    run = subprocess.Popen(sys.argv[1:], stdout=subprocess.PIPE, stderr=subprocess.STDOUT, start_new_session=True, text=True)
    before = 0
    for line in run.stdout:
        now = seconds(run.pid)
        print(f"{now:7.1f} {now - before:+6.1f} {line}", end="", flush=True)
        before = now
    return run.wait()


if __name__ == "__main__":
    sys.exit(main() if len(sys.argv) > 1 else __doc__)
