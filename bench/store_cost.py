#!/usr/bin/env python3
# SPDX-License-Identifier: Apache-2.0 OR MIT
"""What a store costs: opening a million rows, and commits a second.

    python3 bench/store_cost.py [PROGRAM] [FOLDER]

PROGRAM is `confd` as `rt run` builds it (crates/confd/out/confd if none is named). FOLDER is where the files are made,
by default the system's folder for such; it decides which disk is measured. Needs only Python 3. The peer is its module
`sqlite3`: the same rows read by it, and as many transactions of one such row with the same settings. The goals are ten
seconds for the opening, and half as many commits as the peer's.
"""

import contextlib
import os
import resource
import sqlite3
import sys
import tempfile
import time

from lib.database import PEOPLE, TABLES, TIES, opened
from lib.program import program_named
from lib.timing import machine, seconds
from lib.wire import move_to, opening as begun, register, request, submit

ROWS = 1_000_000
COMMITS = 2_000
ROW = "INSERT INTO {} VALUES (?, ?, ?, 0, 784111777, 0, x'', ?, ?, ?, 0, 0, ?, ?)"


def conference():
    """A chair, a member, an author with a paper, in the bidding: a conflict can be turned on and off from here on."""
    chair = "alice"
    return (
        register(chair) + register("bob") + register("erin")
        + request("POST", "/members", chair, {"name": "bob", "role": "member"})
        + move_to("submission") + submit("erin", "Proofs", "We prove.") + move_to("bidding")
    )


def run(program, store, text):
    """The seconds that a run over these bytes takes, and the most memory that any run took, in bytes."""
    return seconds(program, text, "--store", store), resource.getrusage(resource.RUSAGE_CHILDREN).ru_maxrss * 1024


def fill(store, rows=ROWS):
    """Rows that turn bob's conflict on and off, up to so many in all."""
    with opened(store) as file:
        first = sum(file.execute(f"SELECT count(*) FROM {table}").fetchone()[0] for table in TABLES)
        file.executemany(ROW.format(TIES), ((place, 10, 1, 1, 2, place % 2, b"", b"") for place in range(first, rows)))


def read_all(store):
    """The seconds in which the peer reads every row."""
    began = time.perf_counter()
    with opened(store) as file:
        for table in TABLES:
            for _ in file.execute(f"SELECT * FROM {table} ORDER BY place"):
                pass
    return time.perf_counter() - began


def opening(program, folder):
    store = os.path.join(folder, "million")
    run(program, store, conference())
    fill(store)
    spent, memory = run(program, store, b"")
    print(f"opening {ROWS:,} rows: {spent:.1f} s, {memory / 1e6:.0f} MB at most")
    print(f"reading them by Python's sqlite3: {read_all(store):.1f} s")


def commits(program, folder):
    store, other = os.path.join(folder, "commits"), os.path.join(folder, "peer")
    run(program, store, begun())
    none, _ = run(program, store, b"")
    spent, _ = run(program, store, b"".join(register(f"user{n}") for n in range(COMMITS)))
    ours = COMMITS / (spent - none)
    print(f"{COMMITS:,} registrations, a commit each: {ours:,.0f} a second")
    with opened(store) as file:
        table = file.execute("SELECT sql FROM sqlite_schema WHERE name = ?", (PEOPLE,)).fetchone()[0]
    with contextlib.closing(sqlite3.connect(other, isolation_level=None)) as file:
        file.execute("PRAGMA journal_mode = WAL")
        file.execute("PRAGMA synchronous = FULL")
        file.execute(table)
        began = time.perf_counter()
        for n in range(COMMITS):
            file.execute(ROW.format(PEOPLE), (n, 1, n + 1, n + 1, 0, 0, f"user{n}".encode(), bytes(32)))
        theirs = COMMITS / (time.perf_counter() - began)
    print(f"as many transactions of such a row by Python's sqlite3, WAL and FULL: {theirs:,.0f} a second; "
          f"ours are {ours / theirs:.2f} of it")


def main():
    program = program_named(sys.argv[1:2]).path
    where = sys.argv[2] if len(sys.argv) > 2 else None
    print(machine())
    with tempfile.TemporaryDirectory(dir=where) as folder:
        opening(program, folder)
        commits(program, folder)


if __name__ == "__main__":
    main()
