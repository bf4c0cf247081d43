#!/usr/bin/env python3
# SPDX-License-Identifier: Apache-2.0 OR MIT
"""Plans of assignments, against a brute force over all plans that there are, and large ones against scipy.

    python3 checks/plans.py [PLANS [PROGRAM]]     10,000 small plans of crates/confd/out/confd where none are named

Small conferences have two or three papers and three or four members, all made up from a number. They have bids,
conflicts, reviewers, labels that are spent and papers that are withdrawn. Each answer has to be the one of the greatest
sum that is first in order, and `no_plan` exactly if there is none. Middling ones are the plan that another way finds
(best_plans.py). Large ones have the sum that scipy finds (Debian's python3-scipy, so /usr/bin/python3; left out if it
isn't there). The sizes at both limits are tried. Every plan is posted to /assign, which has to take it whole. Prints a
line a check, and last `N passed, M failed`; ends with status 0 if none failed. Takes some minutes.
"""

import random
import sys

from lib.best_plans import best_plan
from lib.checking import expect, run_all
from lib.planned import Planned, plan, text_of, told
from lib.program import program_named
from lib.wire import raw, register


SMALL = 10_000


NO_PLAN = 409, b'{"error":"no_plan"}'


def due_plan(pairs):
    """The answer with this plan, or that there is none."""
    return NO_PLAN if pairs is None else (200, text_of(pairs))


def taken(program, planned, who, per_paper, load):
    """The answer to the query of a plan, which /assign takes whole where it is one."""
    asked = plan(who, per_paper, load)
    [found] = told(program, planned, asked)
    if found[0] == 200:
        rows = found[1].count(b"\n") - 1
        again = told(program, planned, asked, raw("POST", "/assign", who, found[1]))
        expect(again == [found, (200, b'{"rows":%d}' % rows)], (again[1], rows))
    return found


def small_one(seed):
    """A conference of two or three papers, and a plan to ask for."""
    dice = random.Random(seed)
    made = Planned()
    names = ["bob", "carol", "dave"][: dice.randint(2, 3)]
    for name in names:
        made.member(name, "chair" if name == "carol" and dice.random() < 0.5 else "member")
    made.ask(register("erin"))
    made.post("/phase", "alice", phase="submission")
    for _ in range(dice.randint(2, 3)):
        made.paper("erin" if dice.random() < 0.8 else dice.choice(made.members[1:]))
    for number in made.papers:
        if dice.random() < 0.1:
            made.withdraw(number)
    made.post("/phase", "alice", phase="bidding")
    for number in made.papers:
        for name in made.members:
            if dice.random() < 0.15 and name not in made.papers[number]["clash"] and name != "alice":
                made.conflict(number, name)
            elif dice.random() < 0.6:
                made.bid(name, number, dice.choice([-20, -1, 0, 0, 1, 2, 3, 20]))
        for name in made.members:
            if dice.random() < 0.15:
                made.seat(number, name, dice.random() < 0.7)
    chairs = ["alice"] + (["carol"] if made.text.find(b'"name":"carol","role":"chair"') >= 0 else [])
    return made, (dice.choice(chairs), dice.randint(1, 3), dice.randint(1, 3))


def small(program, _folder):
    """Small plans are the first of the greatest sum, or there is none; /assign takes their rows, as they come or
    shuffled."""
    for seed in range(SMALL):
        made, (who, per_paper, load) = small_one(seed)
        best = made.best(who, per_paper, load)
        rows = random.Random(seed).sample(best, len(best)) if best and seed % 2 else best
        posted = [] if best is None else [raw("POST", "/assign", who, text_of(rows))]
        found = told(program, made, plan(who, per_paper, load), *posted)
        expect(found[0] == due_plan(best), (seed, found[0], best))
        if posted:
            expect(found[1] == (200, b'{"rows":%d}' % len(best)), (seed, found[1]))


def large_one(dice, papers, members, bids=range(-20, 21)):
    """A conference of so many papers and members; the one half of the bids is told."""
    made = Planned()
    for number in range(1, members):
        made.member(f"m{number}")
    for number in range(1 + papers // 20):
        made.ask(register(f"a{number}"))
    made.post("/phase", "alice", phase="submission")
    for number in range(papers):
        made.paper(f"a{number // 20}")
    made.post("/phase", "alice", phase="bidding")
    for number in made.papers:
        for name in made.members:
            if dice.random() < 0.5:
                made.bid(name, number, dice.choice(bids))
    return made


def middling(program, _folder):
    """Middling plans are those that best_plans.py finds: the first of the greatest sum, with many that have it."""
    dice = random.Random(3)
    for papers, members, per_paper, load in [(12, 9, 2, 3), (12, 9, 2, 4), (9, 14, 4, 3),
                                             (20, 6, 1, 4), (5, 30, 8, 2), (16, 8, 3, 6)] * 4:
        made = large_one(dice, papers, members, bids=dice.choice([range(-20, 21), [0, 1], [-20, 20], [7]]))
        for number in made.papers:
            for name in made.members[1:]:
                if dice.random() < 0.1:
                    made.conflict(number, name)
        bids = {(paper, name): made.bids.get((paper, name), 0) for paper in made.papers for name in made.free(paper)}
        found = taken(program, made, "alice", per_paper, load)
        best = best_plan(bids, list(made.papers), per_paper, load)
        expect(found == due_plan(best), (papers, members, per_paper, load, found, best))


def greatest(made, per_paper, load):
    """The greatest sum of a plan, by scipy's linear programs, whose answers here are whole; None where there is
    none."""
    import numpy
    from scipy.optimize import linprog
    from scipy.sparse import lil_matrix

    pairs = [(paper, name) for paper in made.open_to("alice", per_paper) for name in made.free(paper)]
    papers = {paper: place for place, paper in enumerate(made.open_to("alice", per_paper))}
    members = {name: place for place, name in enumerate(made.members)}
    full, light = lil_matrix((len(papers), len(pairs))), lil_matrix((len(members), len(pairs)))
    for place, (paper, name) in enumerate(pairs):
        full[papers[paper], place] = light[members[name], place] = 1
    found = linprog([-made.bids.get(pair, 0) for pair in pairs],
                    A_ub=light.tocsr(), b_ub=numpy.full(len(members), load),
                    A_eq=full.tocsr(), b_eq=numpy.full(len(papers), per_paper), bounds=(0, 1), method="highs")
    return round(-found.fun) if found.status == 0 else None


def large(program, _folder):
    """Large plans have the sum that scipy finds."""
    dice = random.Random(1)
    for papers, members, per_paper, load in [(20, 30, 3, 2), (64, 64, 4, 4), (64, 64, 8, 8), (128, 32, 4, 16),
                                             (32, 128, 16, 4), (100, 40, 3, 7), (100, 40, 3, 8), (8, 512, 26, 1)]:
        made = large_one(dice, papers, members)
        found = taken(program, made, "alice", per_paper, load)
        best = greatest(made, per_paper, load)
        if best is None:
            expect(found == NO_PLAN, found)
            continue
        rows = [row.split(",") for row in found[1].decode().splitlines()[1:]]
        pairs = [(int(row[0]), row[2]) for row in rows]
        expect(found[0] == 200 and made.worth(pairs) == best, (papers, members, found[0], made.worth(pairs), best))
        expect(len(set(pairs)) == per_paper * papers
               and pairs == sorted(pairs, key=lambda p: (p[0], made.members.index(p[1]))), "pairs")
        names = [name for _, name in pairs]
        expect(all(names.count(name) <= load for name in made.members), "a load")


def sizes(program, _folder):
    """512 places and 4,096 pairs may be asked for, and one more may not."""
    dice = random.Random(2)
    for papers, members, per_paper, load, code in [(256, 3, 2, 512, 200), (171, 3, 3, 512, 409), (512, 8, 1, 64, 200),
                                                   (513, 7, 1, 512, 409), (64, 64, 1, 1, 200), (64, 64, 8, 8, 200),
                                                   (241, 17, 1, 512, 409)]:
        made = large_one(dice, papers, members)
        found = taken(program, made, "alice", per_paper, load)
        expect(found[0] == code and (code == 200 or found[1] == b'{"error":"plan_too_large"}'),
               (papers, members, found))


def alike(program, _folder):
    """Where all bids are equal, the order alone decides."""
    made = Planned()
    for name in ["bob", "carol", "dave", "erin"]:
        made.member(name)
    made.ask(register("fay"))
    made.post("/phase", "alice", phase="submission")
    for _ in range(5):
        made.paper("fay")
    made.post("/phase", "alice", phase="bidding")
    for number in made.papers:
        for name in made.members:
            made.bid(name, number, 7)
    for per_paper in range(1, 5):
        for load in range(1, 6):
            found = taken(program, made, "alice", per_paper, load)
            expect(found == due_plan(made.best("alice", per_paper, load)), (per_paper, load, found))


def labels(program, _folder):
    """A paper is planned where it has labels left for all places, and no other."""
    made = Planned()
    for number in range(1, 27):
        made.member(f"m{number}")
    made.ask(register("fay"))
    made.post("/phase", "alice", phase="submission")
    made.paper("fay")
    made.paper("fay")
    made.post("/phase", "alice", phase="bidding")
    for number in range(1, 25):
        made.seat(1, f"m{number}", stays=False)
    for per_paper in [1, 2, 3, 26]:
        found = taken(program, made, "alice", per_paper, 2)
        due = [(paper, name) for paper in made.open_to("alice", per_paper) for name in made.members[:per_paper]]
        expect(found == due_plan(due), (per_paper, found))


CHECKS = [alike, labels, sizes, small, middling, large]


def main():
    global SMALL
    words = sys.argv[1:]
    if words and words[0].isdigit():
        SMALL = int(words.pop(0))
    checks = list(CHECKS)
    try:
        import scipy.optimize  # noqa: F401
    except ImportError:
        checks.remove(large)
        print("left out, since there is no scipy: large")
    run_all(checks, program_named(words))


if __name__ == "__main__":
    main()
