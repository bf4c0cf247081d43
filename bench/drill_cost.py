#!/usr/bin/env python3
# SPDX-License-Identifier: Apache-2.0 OR MIT
"""What a drill costs: 100,000 made-up commands, judged, kept and applied, and the views of eight users.

    python3 bench/drill_cost.py [PROGRAM]

PROGRAM is `confd` as `rt run` builds it (crates/confd/out/confd if none is named). Needs only Python 3. Each figure is
the least of three runs. The peer is the small model of `checks/`, which reads each rule off the list of entries.
Nothing is kept.
"""

import resource
import subprocess
import sys
import time

from lib.drill import Drill
from lib.program import program_named
from lib.timing import machine, timed

SEED, RUNS = 7, 3


def run(program, steps):
    """The seconds that one drill takes, and what it prints."""
    began = time.perf_counter()
    done = subprocess.run([program, "drill", "--seed", str(SEED), "--steps", str(steps)],
                          stdout=subprocess.PIPE, check=True)
    return time.perf_counter() - began, done.stdout.decode()


def least(program, steps):
    return min(run(program, steps)[0] for _ in range(RUNS))


def main():
    program = program_named(sys.argv[1:2]).path
    print(machine())
    for steps in (1_000, 10_000, 100_000):
        spent = least(program, steps)
        entries = run(program, steps)[1].split("\n")[1]
        print(f"{steps:,} steps: {spent:.3f} s, {spent / steps * 1e6:.1f} us a step, {entries}")
    print(f"at most {resource.getrusage(resource.RUSAGE_CHILDREN).ru_maxrss / 1e3:.1f} MB")
    print(f"the model in Python, 1,000 steps: {timed(lambda: Drill(SEED, 1_000).summary(), RUNS):.3f} s")


if __name__ == "__main__":
    main()
