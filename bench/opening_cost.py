#!/usr/bin/env python3
# SPDX-License-Identifier: Apache-2.0 OR MIT
"""Counts the processor instructions that opening a store takes, by valgrind's callgrind, beside another build's. They
are the same whatever else the machine is doing.

    python3 bench/opening_cost.py [--seconds] PROGRAM OTHER

Each store has 500 authors, 500 members and 1,000 papers, and then nothing more, 3,000 bids, comments or tags, or 30
contents of 32 KiB. The tags came in bulks of 512 rows. Each is measured as a journal and as a database. The goal: at
most 0.8 of the other's. Needs Debian's valgrind.

`--seconds` measures processor time instead, the least of five openings by each program in turn, of stores with 9,999
papers and then a hundred times as much.
"""

import argparse
import os
import tempfile

import growth_cost
from growth_cost import make_store, opened, stored
from instructions import taken
from lib.journal_file import Row, spelled
from lib.timing import machine

PAPERS = 1_000
KINDS = {"nothing more": 0, "bids": 3_000, "comments": 3_000, "tags of bulks": 3_000, "contents": 30}
FORMS = {"journal": ".cj", "database": ""}


def make_journal(path, rows):
    """Makes a journal of these rows; each group ends with a row that no further one follows."""
    groups = [[]]
    for kind, maker, more, *numbers, first, second in rows:
        groups[-1].append(Row(kind, maker, more, 0, 0, *numbers, b"", first, second))
        if not more:
            groups.append([])
    with open(path, "wb") as file:
        file.write(spelled(groups[:-1]))


def instructions_of(programs, path):
    """The instructions of one opening by each program."""
    return [taken(program, [], path) for program in programs]


def seconds_of(programs, path):
    """The least processor seconds of five openings by each program, in turn."""
    turns = [[opened(program, path) for program in programs] for _ in range(5)]
    return [min(times) for times in zip(*turns)]


def main():
    options = argparse.ArgumentParser()
    options.add_argument("--seconds", action="store_true")
    options.add_argument("program")
    options.add_argument("other")
    options = options.parse_args()
    times, measure, unit, places = (100, seconds_of, "seconds", ".2f") if options.seconds else (
        1, instructions_of, "instructions", ",")
    if not options.seconds:
        growth_cost.COUNT = PAPERS
    print(machine())
    print(f"\n|a store with|rows|of a|{unit}|of the other's|\n|---|---|---|---|---|")
    with tempfile.TemporaryDirectory() as folder:
        for form, end in FORMS.items():
            for kind, count in KINDS.items():
                rows, path = stored(kind if count else "bids", count * times), os.path.join(folder, kind + end)
                if form == "journal":
                    make_journal(path, rows)
                else:
                    make_store(options.program, path, rows)
                ours, theirs = measure([options.program, options.other], path)
                print(f"|{kind}|{len(rows):,}|{form}|{ours:{places}}|{ours / theirs:.2f}|", flush=True)
                os.remove(path)


if __name__ == "__main__":
    main()
