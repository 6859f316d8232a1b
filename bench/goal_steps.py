#!/usr/bin/env python3
"""Which goals of a crate took the most steps, from what a check kept.

    python3 bench/goal_steps.py KEPT [FUNCTION]

KEPT is the folder of kept work (crates/NAME/out/incremental), in which a check notes for each goal the steps that it took. These do
not depend on what else the machine does, as seconds do. Prints millions of steps: first by kind of module, then the dearest modules,
then the dearest goals that `search` was left with (`Proof`); or, with a FUNCTION, those of its modules alone. Of a goal that several
checks noted the least counts.
"""
import collections
import json
import os
import re
import sys

GOAL = re.compile(rb'"name":"([^"]*)".*?"steps":(\[[^\]]*\])')
ENDING = '.decls.oantt'


def goals(folder, function):
    """The steps of each goal, by its module and name."""
    found = {}
    for place, _, names in os.walk(folder):
        for name in names:
            if not name.endswith(ENDING) or function and f'.{function}.' not in name:
                continue
            module = name.removesuffix(ENDING).partition('-proofs.')[2]
            with open(os.path.join(place, name), 'rb') as file:
                for goal, steps in GOAL.findall(file.read()):
                    key, taken = (module, goal.decode()), sum(json.loads(steps))
                    found[key] = min(taken, found.get(key, taken))
    return found


def show(title, counted, most):
    print(title)
    for what, steps in counted.most_common(most):
        print(f'{steps / 1e6:9.2f}  {what}')


def main():
    if len(sys.argv) < 2:
        sys.exit(__doc__)
    found = goals(sys.argv[1], sys.argv[2] if len(sys.argv) > 2 else '')
    kinds, modules, proofs = collections.Counter(), collections.Counter(), collections.Counter()
    for (module, goal), steps in found.items():
        kind = module.rpartition('.')[2]
        kinds[kind] += steps
        modules[module] += steps
        if kind == 'Proof':
            proofs[f'{module} {goal}'] += steps
    print(f'{sum(kinds.values()) / 1e6:9.2f}  in all')
    show('kinds of modules', kinds, 12)
    show('modules', modules, 30)
    show('goals left to search', proofs, 40)


if __name__ == '__main__':
    main()
