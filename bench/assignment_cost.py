#!/usr/bin/env python3
# SPDX-License-Identifier: Apache-2.0 OR MIT
"""What pages, bids and assignments cost in a large conference, beside the same in a small one.

    python3 bench/assignment_cost.py [PROGRAM] [PAGES]

PROGRAM is `confd` as `rt run` builds it (crates/confd/out/confd if none is named). Needs only Python 3. The large
conference has 9,999 papers by 500 authors, 500 members, 5,000 bids and 5,000 assignments. The small one has a paper,
two members, their bids and their assignments. Each figure is one run of `confd pipe` over requests made here, less a
run without what is measured; the least of five. The peer is SQLite, in memory and through Python's module: it answers
the same from tables with the same rows and an index for each question. Nothing is kept.
"""

import json
import sqlite3
import subprocess
import sys
import time

from lib.program import program_named
from lib.timing import RUNS, least, machine
from lib.wire import move_to, register, request

AUTHORS, MEMBERS, PAPERS = 500, 500, 9_999
EACH = 10  # bids, and assignments, a member


def paper_of(member, turn):
    """The paper that a member bids on, and reviews, in her turn: two members a paper, from the first on."""
    return member // 2 * EACH + turn + 1


def conference(authors, members, papers, each):
    """The requests that lead to it, but for bids and assignments; these; and those."""
    opening = [register("alice")]
    opening += [register(f"author-{n}") for n in range(authors)] + [register(f"member-{n}") for n in range(members)]
    opening += [request("POST", "/members", "alice", {"name": f"member-{n}", "role": "member"}) for n in range(members)]
    opening.append(move_to("submission"))
    opening += [
        request("POST", "/papers", f"author-{p % authors}", {"abstract": "We prove.", "title": "Proofs"})
        for p in range(papers)
    ]
    opening.append(move_to("bidding"))
    turns = [(n, paper_of(n, t)) for n in range(members) for t in range(each)]
    bids = [request("PUT", f"/papers/{p}/bid", f"member-{n}", {"bid": n % 41 - 20}) for n, p in turns]
    seats = [
        request("POST", f"/papers/{p}/reviewers", "alice", {"kind": "pc", "user": f"member-{n}"}) for n, p in turns
    ]
    return b"".join(opening), b"".join(bids), b"".join(seats), len(turns)


def last_answer(program, text):
    told = subprocess.run([program, "pipe"], input=text, stdout=subprocess.PIPE, check=True).stdout
    return json.loads(told[told.rindex(b"\r\n\r\n") + 4 :])


def each_cost(program, base, without, asked, count):
    """Microseconds that one of these requests takes."""
    return (least(program, base + asked * count) - without) / count * 1e6


def measure(program, name, shape, count):
    opening, bids, seats, turns = conference(*shape)
    whole = opening + bids + seats
    page = last_answer(program, whole + request("GET", "/papers/1", "alice"))
    if len(page["bids"]) != 2 or len(page["reviewers"]) != 2:
        sys.exit("the page tells other bids or reviewers than there are")
    without = least(program, whole)
    chair = each_cost(program, whole, without, request("GET", "/papers/1", "alice"), count)
    member = each_cost(program, whole, without, request("GET", "/papers/1", "member-0"), count)
    me = each_cost(program, whole, without, request("GET", "/me", "member-0"), count)
    rule = each_cost(program, whole, without,
                     request("POST", "/papers/1/reviewers", "alice", {"kind": "pc", "user": "member-0"}), count)
    print(f"{name}: a page to a chair {chair:.2f} us, to a reviewer {member:.2f}; /me {me:.2f}; "
          f"an assignment refused {rule:.2f}")
    if turns > 2:
        before = least(program, opening)
        then = least(program, opening + bids)
        print(f"{name}: a bid {(then - before) / turns * 1e6:.2f} us, "
              f"an assignment {(without - then) / turns * 1e6:.2f}")
    return chair, member, me


def peer(count):
    """Microseconds in which SQLite tells the bids and reviewers of a paper, and the papers of a reviewer."""
    tables = sqlite3.connect(":memory:")
    tables.execute("create table users (user integer primary key, name text)")
    tables.execute("create table bids (paper integer, user integer, bid integer, "
                   "primary key (paper, user)) without rowid")
    tables.execute("create table seats (paper integer, ordinal integer, user integer, kind integer, "
                   "primary key (paper, ordinal)) without rowid")
    tables.execute("create index by_user on seats (user, paper)")
    tables.executemany("insert into users values (?, ?)", [(n, f"member-{n}") for n in range(MEMBERS)])
    turns = [(n, paper_of(n, t)) for n in range(MEMBERS) for t in range(EACH)]
    tables.executemany("insert into bids values (?, ?, ?)", [(p, n, n % 41 - 20) for n, p in turns])
    drawn = {}
    for n, p in turns:
        drawn[p] = drawn.get(p, 0) + 1
        tables.execute("insert into seats values (?, ?, ?, 3)", (p, drawn[p], n))
    spent = {"page": None, "me": None}
    for _ in range(RUNS):
        began = time.perf_counter()
        for _ in range(count):
            tables.execute("select name, bid from bids join users using (user) "
                           "where paper = 1 order by user").fetchall()
            tables.execute("select name, kind, ordinal from seats join users using (user) "
                           "where paper = 1 order by ordinal").fetchall()
        middle = time.perf_counter()
        for _ in range(count):
            tables.execute("select paper from seats where user = 0 order by paper").fetchall()
        end = time.perf_counter()
        for key, took in (("page", middle - began), ("me", end - middle)):
            spent[key] = took if spent[key] is None else min(spent[key], took)
    return spent["page"] / count * 1e6, spent["me"] / count * 1e6


def main():
    program = program_named(sys.argv[1:2]).path
    count = int(sys.argv[2]) if len(sys.argv) > 2 else 150_000
    print(machine())
    small = measure(program, "small", (1, 2, 1, 1), count)
    large = measure(program, "large", (AUTHORS, MEMBERS, PAPERS, EACH), count)
    ratios = [f"{one / other:.2f}" for one, other in zip(large, small)]
    print(f"large to small: a page to a chair {ratios[0]}, to a reviewer {ratios[1]}, "
          f"/me {ratios[2]} (10 papers assigned, not 1)")
    page, me = peer(count // 10)
    print(f"SQLite: the bids and reviewers of a paper {page:.2f} us, the papers of a reviewer {me:.2f}")


if __name__ == "__main__":
    main()
