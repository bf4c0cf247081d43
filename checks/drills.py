#!/usr/bin/env python3
# SPDX-License-Identifier: Apache-2.0 OR MIT
"""Drills, against a small model of the server.

    checks/drills.py [PROGRAM]        crates/confd/out/confd where none is named

A drill makes up commands from a number. Here the numbers and the commands are made anew, by docs/API.md, and given to
`model.py`, which knows no tables. For several seeds and lengths `confd drill` has to print the four lines that come so.
A drill that is run twice has to print the same bytes. Ends with status 0 if all of it is so.
"""
import subprocess
import sys

from lib.drill import Drill
from lib.places import CONFD


DRILLS = [(1, 4), (0, 1), (2147483647, 2), (5, 3), (1, 5), (2, 7), (3, 40), (4, 41), (11, 150), (12, 300), (13, 600)]


def run(program, seed, steps):
    done = subprocess.run([program, "drill", "--seed", str(seed), "--steps", str(steps)],
                          capture_output=True, check=False)
    return done.returncode, done.stdout.decode()


def main():
    program = sys.argv[1] if len(sys.argv) > 1 else CONFD
    failed = 0
    for seed, steps in DRILLS:
        came, due = run(program, seed, steps), (0, Drill(seed, steps).summary())
        if came != due:
            failed += 1
            print(f"seed {seed}, {steps} steps: came {came}, due {due}")
    if run(program, 7, 2000) != run(program, 7, 2000):
        failed += 1
        print("seed 7, 2000 steps: two runs differ")
    print(f"{len(DRILLS) + 1 - failed} passed, {failed} failed")
    return failed > 0


if __name__ == "__main__":
    sys.exit(main())
