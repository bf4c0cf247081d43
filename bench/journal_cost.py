#!/usr/bin/env python3
# SPDX-License-Identifier: Apache-2.0 OR MIT
"""What a journal costs beside a database: commits a second, and opening a large store.

    python3 bench/journal_cost.py [--rows N] [--commits N] [--turns N] [PROGRAM] [FOLDER]

PROGRAM is `confd` as `rt run` builds it (crates/confd/out/confd if none is named). FOLDER is where the files are made,
by default the system's folder for such. It decides which disk is measured, and should be none in memory. Needs only
Python 3. There are a million rows and two thousand commits, if no other numbers are given. Both stores are measured in
turn, N times (5), and the median is printed. Measured are one registration after another over `confd pipe`, without
what opening the store takes, and the processor time of a run on no input, of the same rows. The goals are half as many
commits as the database's, and twice as fast an opening.
"""

import argparse
import os
import statistics
import subprocess
import sys
import tempfile
import time

from lib.journal_file import Row, frame, rows_in
from lib.program import program_named
from lib.timing import machine
from lib.wire import opening as begun, register
from store_cost import COMMITS, conference, fill, run

KINDS = {"journal": ".cj", "database": ""}


def fill_journal(path, rows):
    """The rows that `fill` makes, behind those that are there."""
    first = len(rows_in(path))
    turned = [frame([Row(10, 1, 0, 784111777, 0, 1, 2, on, 0, 0, b"", b"", b"")]) for on in (0, 1)]
    with open(path, "r+b") as file:
        file.seek(-1, os.SEEK_END)
        many = rows - first
        file.write((turned[first % 2] + turned[1 - first % 2]) * (many // 2) + turned[first % 2] * (many % 2) + b"\0")


def in_turn(measure):
    """The medians of what is measured of both, one after the other, so many times."""
    found = {kind: [] for kind in KINDS}
    for _ in range(options.turns):
        for kind in KINDS:
            found[kind].append(measure(kind))
    return {kind: statistics.median(values) for kind, values in found.items()}


def opened(program, path):
    """The seconds of processor time that a run on no input takes, and the most memory that it takes, in bytes."""
    child = subprocess.Popen([program, "pipe", "--store", path], stdin=subprocess.DEVNULL)
    _, status, usage = os.wait4(child.pid, 0)
    child.returncode = os.waitstatus_to_exitcode(status)
    if child.returncode != 0:
        sys.exit(f"{path}: opened with status {child.returncode}")
    return usage.ru_utime + usage.ru_stime, usage.ru_maxrss * 1024


def opening(program, folder):
    paths = {kind: os.path.join(folder, f"large{end}") for kind, end in KINDS.items()}
    for kind, path in paths.items():
        run(program, path, conference())
        (fill if kind == "database" else fill_journal)(path, options.rows)
    spent = in_turn(lambda kind: opened(program, paths[kind])[0])
    for kind, path in paths.items():
        memory, size = opened(program, path)[1] / 1e6, os.path.getsize(path) / 1e6
        told = f"{spent[kind]:.2f} s of processor time, {memory:.0f} MB at most; the file has {size:.0f}"
        print(f"opening {options.rows:,} rows of a {kind}: {told}")
    print(f"the journal opens {spent['database'] / spent['journal']:.2f} times as fast")


def commits(program, folder):
    def measure(kind):
        with tempfile.TemporaryDirectory(dir=folder) as room:
            path = os.path.join(room, f"commits{KINDS[kind]}")
            run(program, path, begun())
            none, _ = run(program, path, b"")
            spent, _ = run(program, path, b"".join(register(f"user{n}") for n in range(options.commits)))
            return options.commits / (spent - none)

    a_second = in_turn(measure)
    for kind in KINDS:
        print(f"{options.commits:,} registrations, a commit each, into a {kind}: {a_second[kind]:,.0f} a second")
    print(f"the journal takes {a_second['journal'] / a_second['database']:.2f} times as many")


def syncs(folder):
    """How many syncs a second the disk takes, of a file that a byte is written to."""
    with tempfile.TemporaryFile(dir=folder) as file:
        file.write(bytes(4096))
        begun = time.perf_counter()
        for n in range(options.commits):
            os.pwrite(file.fileno(), bytes([n % 2]), 0)
            os.fdatasync(file.fileno())
        return options.commits / (time.perf_counter() - begun)


def main():
    global options
    words = argparse.ArgumentParser()
    words.add_argument("--rows", type=int, default=1_000_000)
    words.add_argument("--commits", type=int, default=COMMITS)
    words.add_argument("--turns", type=int, default=5)
    words.add_argument("program", nargs="?")
    words.add_argument("folder", nargs="?")
    options = words.parse_args()
    program = program_named([options.program] if options.program else []).path
    with tempfile.TemporaryDirectory(dir=options.folder) as folder:
        disk = subprocess.run(["df", "--output=fstype", folder],
                              capture_output=True, text=True, check=False).stdout.split()[-1:]
        print(f"{machine()}, {' '.join(disk)}, {syncs(folder):,.0f} syncs a second")
        commits(program, folder)
        opening(program, folder)


if __name__ == "__main__":
    main()
