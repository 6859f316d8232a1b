#!/usr/bin/env python3
"""Where the time of a check went, module by module, from what it kept.

    python3 bench/module_times.py crates/rx_nfa [since]

A check writes each module into out/incremental as it ends with it. So the time between one file and the one before it is
what that module took, give or take: with two jobs two modules share a time, and on a machine that is full these are waiting
times. It needs no run of its own, and tells of the last check alone where `since` (seconds from 1970) is the time at which it began.

The modules of a function F are F.Lts (its list of steps, which grows with the ways through it and with what is dropped on
each), F.Kinds, F.Tie and F.Layout (of the borrow checker), F.Answers (what stands in proofs/) and F.Proof (the goals that
`search` is left with). Prints first the functions, then the modules.
"""
import collections
import os
import sys


def kept(folder, since):
    """When each module was written, and its name."""
    found = []
    for place, _, names in os.walk(os.path.join(folder, "out", "incremental")):
        for name in names:
            when = os.stat(os.path.join(place, name)).st_mtime_ns / 1e9
            if name.endswith(".oantt") and when >= since:
                found.append((when, name.removesuffix(".oantt").removesuffix(".decls")))
    return sorted(found)


def function_of(module):
    """The function or the file of lemmas that a module is of."""
    library, _, rest = module.partition(".")
    if not library.endswith("-proofs") or "." not in rest:
        return module
    return rest if "emmas" in rest else rest.rpartition(".")[0]


def main():
    since = float(sys.argv[2]) if len(sys.argv) > 2 else 0
    modules = kept(sys.argv[1], since)
    if not modules:
        return "no module was written"
    by_module, by_function = collections.Counter(), collections.Counter()
    for (before, _), (when, module) in zip(modules, modules[1:]):
        by_module[module] += when - before
        by_function[function_of(module)] += when - before
    print(f"{modules[-1][0] - modules[0][0]:.0f} seconds from the first module to the last one")
    for counts in by_function, by_module:
        print("--")
        for name, seconds in counts.most_common(25):
            print(f"{seconds:7.1f} {name}")


if __name__ == "__main__":
    sys.exit(main() if len(sys.argv) > 1 else __doc__)
