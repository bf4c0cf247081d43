#!/usr/bin/env python3
# SPDX-License-Identifier: Apache-2.0 OR MIT
"""What the number of a command costs: its look-up, and the digest of its request.

    python3 bench/retries_cost.py [PROGRAM] [--before OTHER] [--tenth] [--runs N]

PROGRAM is `confd` as `rt run` builds it (crates/confd/out/confd if none is named), OTHER one to compare it with where
no number is sent. Needs only Python 3. By `confd pipe` without a store, over 9,999 papers and 500 members:

- bids at random papers while 0, 10,000 and 200,000 numbers are kept. First without a number; then the same bids, each
  by a new number. Then those come again, which are looked up and not judged, and another bid by each of their numbers,
  which is refused. The goal: with 200,000 numbers each costs at most 1.3 times what it does with none.
- uploads of 4 MiB without a number, by a new one, and again. The peer is the digest of as many bytes by Python's
  `hashlib`.

Times are processor time, the kernel's for the program among it; each is the least of three runs, or N. Nothing is kept.
"""

import argparse
import hashlib
import random
import time

from assignment_cost import MEMBERS
from growth_cost import COUNT, PART, SEED, opening, programs_of, spent, started, told_goal
from lib.timing import machine
from lib.wire import LARGEST, move_to, numbered, register, request, upload

LEVELS, MORE = [0, 10_000 // PART, 200_000 // PART], 5_000 // PART
SORTS = ["a bid without a number", "the same by a number", "that again", "another by that number"]
UPLOADS, UPLOADERS = 5, 8  # of each kind so many uploads by each of so many authors


def bids():
    """Bids, each with the number that its member gives it, and another bid with the same: as many as the last level
    has, and more."""
    dice, found = random.Random(SEED), []
    for turn in range(LEVELS[-1] + len(LEVELS) * MORE):
        path, who, value = f"/papers/{dice.randint(1, COUNT)}/bid", f"member-{turn % MEMBERS}", dice.randint(-20, 19)
        found.append((turn // MEMBERS + 1, *(request("PUT", path, who, {"bid": bid}) for bid in (value, value + 1))))
    return found


def costs_of_bids(program, start, asked, has_numbers):
    """Microseconds of each sort, one by one, at each level; where no numbers are sent, of the first sort alone."""
    found, at = [[] for _ in SORTS if has_numbers] or [[]], 0
    with started(program) as child:
        spent(child, start)
        for level in LEVELS:
            used = spent(child, b"".join(numbered(n, bid) if has_numbers else bid for n, bid, _ in asked[at:level]))
            at = max(at, level) + MORE
            some = asked[at - MORE : at]
            by_number, others = [numbered(n, bid) for n, bid, _ in some], [numbered(n, other) for n, _, other in some]
            texts = [[bid for _, bid, _ in some], by_number, by_number, others]
            for sort, text in zip(found, texts):
                now = spent(child, b"".join(text), MORE if text is others else 0)
                sort.append((now - used) / MORE * 1e6)
                used = now
    return found


def of_bids(programs, runs):
    """Prints what a bid costs at each level."""
    start, asked, goals = opening("bidding"), bids(), []
    print("\n|µs a command, where so many numbers are kept|by|" + "|".join(f"{level:,}" for level in LEVELS)
          + "|last to first|")
    print("|---|---|" + "---|" * len(LEVELS) + "---|")
    for name, program in programs.items():
        all_runs = [costs_of_bids(program, start, asked, name == "confd") for _ in range(runs)]
        for sort, costs in zip(SORTS, zip(*all_runs)):
            least = [min(level) for level in zip(*costs)]
            ratio = least[-1] / least[0]
            print(f"|{sort}|{name}|" + "|".join(f"{cost:.1f}" for cost in least) + f"|{ratio:.2f}|", flush=True)
            goals += [told_goal(f"{sort} {ratio:.2f}", ratio, 1.3)] if name == "confd" else []
    print(f"\nThe goal, last to first at most 1.3: {'; '.join(goals)}", flush=True)


def uploads():
    """The requests that lead to a paper of each uploader, and an upload to each."""
    content = random.Random(SEED).randbytes(LARGEST)
    names = [f"author-{n}" for n in range(UPLOADERS)]
    start = [register(name) for name in ["alice", *names]] + [move_to("submission")]
    start += [request("POST", "/papers", name, {"abstract": "", "title": "Proofs"}) for name in names]
    return b"".join(start), [upload(name, p, content) for p, name in enumerate(names, 1)]


def costs_of_uploads(program, start, plain):
    """Seconds that all uploads of each sort take: without a number, by one, and those again."""
    found = []
    with started(program) as child:
        used = spent(child, start)
        for has_number in (False, True, True):
            for number in range(1, UPLOADS + 1):
                for text in plain:
                    now = spent(child, numbered(number, text) if has_number else text)
            found.append(now - used)
            used = now
    return found


def of_uploads(program, runs):
    """Prints what an upload costs, and how fast the digest is."""
    asked, megabytes = uploads(), UPLOADS * UPLOADERS * LARGEST / 1e6
    without, by_one, again = [min(sort) for sort in zip(*(costs_of_uploads(program, *asked) for _ in range(runs)))]
    content = bytes(LARGEST)
    begun = time.process_time()
    for _ in range(UPLOADS * UPLOADERS):
        hashlib.sha256(content)
    peer = time.process_time() - begun
    each = lambda seconds: seconds / (UPLOADS * UPLOADERS) * 1e3
    print(f"\nan upload of 4 MiB: {each(without):.2f} ms, by a number {each(by_one):.2f}, that again {each(again):.2f}")
    print(f"so the digest takes {megabytes / (by_one - without):,.0f} MB a second; "
          f"by Python's hashlib {megabytes / peer:,.0f}")


def main():
    words = argparse.ArgumentParser()
    words.add_argument("program", nargs="*")
    words.add_argument("--before")
    words.add_argument("--tenth", action="store_true")
    words.add_argument("--runs", type=int, default=3)
    options = words.parse_args()
    programs = programs_of(options)
    print(machine(), flush=True)
    of_bids(programs, options.runs)
    of_uploads(programs["confd"], options.runs)


if __name__ == "__main__":
    main()
