#!/usr/bin/env python3
# SPDX-License-Identifier: Apache-2.0 OR MIT
"""What a plan costs, which is solved while the lock is held, beside scipy on the same problem.

    /usr/bin/python3 bench/plan_cost.py [PROGRAM]      crates/confd/out/confd where none is named

The conferences have the greatest sizes, up to 512 places and 4,096 papers times members. For each the same requests are
piped with no GET /plan at their end, and with twenty. A twentieth of the difference is a plan, with the answer and all.
Printed are milliseconds of the processor, the least of three runs, so what else the machine does counts little. With
one place a paper the problem is scipy's `linear_sum_assignment` with the members written out `load` times. Its time is
printed too, if Debian's own python3 finds Debian's python3-scipy. scipy gives a plan of the greatest sum, not the first
of them.

The bids: at random; all equal; the same of all members for a paper, or of a member for all papers; some patterns. Last
come few bids, one in twelve, the others none.
"""

import random
import resource
import sys
import time

from lib.planned import Planned, plan, told
from lib.program import program_named
from lib.wire import register

TIMES = 20
DICE = random.Random(1)
BIDS = [
    ("at random", lambda paper, member: DICE.randint(-20, 20)),
    ("all equal", lambda paper, member: 7),
    ("by member", lambda paper, member: 20 - member % 41),
    ("by paper", lambda paper, member: 20 - paper % 41),
    ("sums", lambda paper, member: (paper + member) % 41 - 20),
    ("products", lambda paper, member: 20 - paper * member // 100 % 41),
    ("few", lambda paper, member: DICE.randint(1, 20) if DICE.random() < 1 / 12 else 0),
]
SIZES = [
    (64, 64, 1, 1), (512, 8, 1, 64), (64, 64, 8, 8), (128, 32, 4, 17), (32, 128, 16, 8), (21, 195, 24, 7),
    (19, 215, 26, 3),
]


def conference(papers, members, bid):
    made = Planned()
    for number in range(1, members):
        made.member(f"m{number}")
    for number in range(1 + papers // 20):
        made.ask(register(f"a{number}"))
    made.post("/phase", "alice", phase="submission")
    for number in range(papers):
        made.paper(f"a{number // 20}")
    made.post("/phase", "alice", phase="bidding")
    for number in made.papers:
        for place, name in enumerate(made.members):
            value = bid(number, place)
            if value:
                made.bid(name, number, value)
    return made


def of_children():
    used = resource.getrusage(resource.RUSAGE_CHILDREN)
    return used.ru_utime + used.ru_stime


def seconds(program, made, *more):
    """What the program needs of the processor for these requests, and what it answers to the last."""
    least, last = None, None
    for _ in range(3):
        since = of_children()
        last = told(program, made, *more)[-1:]
        took = of_children() - since
        least = took if least is None else min(least, took)
    return least, last


def by_scipy(made, load):
    """Seconds of scipy for one place a paper, and the sum; None where it isn't there."""
    try:
        import numpy
        from scipy.optimize import linear_sum_assignment
    except ImportError:
        return None
    worth = numpy.array([[made.bids.get((paper, name), 0) for name in made.members for _ in range(load)]
                         for paper in made.papers])
    least = None
    for _ in range(3):
        since = time.process_time()
        rows, columns = linear_sum_assignment(worth, maximize=True)
        took = time.process_time() - since
        least = took if least is None else min(least, took)
    return least, int(worth[rows, columns].sum())


def sum_of(made, answer):
    rows = [row.split(",") for row in answer[1].decode().splitlines()[1:]]
    return made.worth((int(row[0]), row[2]) for row in rows)


def main():
    program = program_named(sys.argv[1:])
    worst = (0, "")
    for papers, members, per_paper, load in SIZES:
        for title, bid in BIDS:
            made = conference(papers, members, bid)
            asked = [plan("alice", per_paper, load)] * TIMES
            whole, [answer] = seconds(program, made, *asked)
            took = (whole - seconds(program, made)[0]) / TIMES
            said = (f"{papers} papers, {members} members, {per_paper} a paper, {load} at most, "
                    f"bids {title}: {1000 * took:.2f} ms")
            worst = max(worst, (took, said))
            beside = by_scipy(made, load) if per_paper == 1 else None
            if beside is not None:
                assert beside[1] == sum_of(made, answer), (beside[1], sum_of(made, answer))
                said += f", scipy {1000 * beside[0]:.2f} ms"
            print(said, flush=True)
    print(f"the dearest: {worst[1]}")


if __name__ == "__main__":
    main()
