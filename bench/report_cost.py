#!/usr/bin/env python3
# SPDX-License-Identifier: Apache-2.0 OR MIT
"""What a bulk assignment and each report cost in a large conference.

    python3 bench/report_cost.py [PROGRAM]

PROGRAM is `confd` as `rt run` builds it (crates/confd/out/confd if none is named). Needs only Python 3. The conference
has 9,999 papers by 500 authors, 500 members and 5,000 assignments, each with a form. Each figure is one run of `confd
pipe` over requests made here, less a run without what is measured; the least of three. The peer is SQLite, in memory
and through Python's module. It makes lines with the same numbers from tables with the same rows, and takes the same
bulk in one transaction. Nothing is kept.
"""

import sqlite3
import sys

from assignment_cost import AUTHORS, EACH, MEMBERS, PAPERS, conference, paper_of
from lib.program import program_named
from lib.timing import least, machine, timed
from lib.wire import raw, request

RUNS = 3
ROWS = 512
FORM = {"score": 4, "confidence": 3, "to_authors": "Good.", "to_pc": "ok"}


def bulk(first):
    """A bulk of 512 rows, each on a paper of its own: assignments, from this paper on."""
    lines = [f"{first + row},pcreview,member-{MEMBERS - 1 - row % 100}," for row in range(ROWS)]
    content = ("paper,action,user,tag\n" + "\n".join(lines) + "\n").encode()
    return raw("POST", "/assign", "alice", content)


def one_by_one(first):
    """The same as 512 requests."""
    return b"".join(
        request("POST", f"/papers/{first + row}/reviewers", "alice",
                {"kind": "pc", "user": f"member-{MEMBERS - 1 - row % 100}"})
        for row in range(ROWS))


def conferences():
    """The requests up to the bidding, with its assignments; those from there to the discussion;
    and those to the notification."""
    opening, _, seats, _ = conference(AUTHORS, MEMBERS, PAPERS, EACH)
    turns = [(n, paper_of(n, t)) for n in range(MEMBERS) for t in range(EACH)]
    forms = b"".join(request("PUT", f"/papers/{p}/review", f"member-{n}", FORM) for n, p in turns)
    phase = lambda name: request("POST", "/phase", "alice", {"phase": name})
    decisions = b"".join(
        request("PUT", f"/papers/{p}/decision", "alice", {"decision": "accept" if p % 4 == 0 else "reject"})
        for p in range(1, PAPERS + 1, 2))
    bidding = opening + seats
    discussion = bidding + phase("reviewing") + forms + phase("discussion") + decisions
    return bidding, discussion, discussion + phase("notification")


def peer():
    """Milliseconds in which SQLite makes the lines of each report, and takes 512 rows."""
    tables = sqlite3.connect(":memory:")
    tables.execute("create table users (user integer primary key, name text)")
    tables.execute("create table papers (paper integer primary key, title text, decision text)")
    tables.execute("create table seats (paper integer, ordinal integer, user integer, kind integer, score integer, "
                   "primary key (paper, ordinal)) without rowid")
    tables.execute("create index by_user on seats (user, paper)")
    tables.executemany("insert into users values (?, ?)", [(n, f"member-{n}") for n in range(MEMBERS)])
    tables.executemany("insert into papers values (?, 'Proofs', ?)",
                       [(p, "accept" if p % 4 == 0 else "reject") for p in range(1, PAPERS + 1)])
    drawn = {}
    for n in range(MEMBERS):
        for t in range(EACH):
            p = paper_of(n, t)
            drawn[p] = drawn.get(p, 0) + 1
            tables.execute("insert into seats values (?, ?, ?, 3, 4)", (p, drawn[p], n))
    tables.commit()
    asked = {
        "papers": "select printf('%4d - %s', paper, title) from papers order by paper",
        "scores": "select printf('%4d %2d %.2f %s', paper, count(*), avg(score), title) "
                  "from papers join seats using (paper) group by paper order by paper",
        "load": "select printf('%-32s %4d %4d %4d %4d', name, "
                "sum(kind = 1), sum(kind = 2), sum(kind = 3), count(score)) "
                "from users join seats using (user) group by user order by user",
        "decisions": "select printf('%4d %-6s %s', paper, decision, title) from papers order by paper",
    }
    spent = {}
    for report, text in asked.items():
        spent[report] = timed(lambda: tables.execute(text).fetchall(), RUNS)

    def take():
        for row in range(ROWS):
            tables.execute("insert into seats values (?, 26, ?, 3, null)", (2600 + row, MEMBERS - 1 - row % 100))
        tables.rollback()

    spent["bulk"] = timed(take, RUNS)
    return {name: seconds * 1e3 for name, seconds in spent.items()}


def main():
    program = program_named(sys.argv[1:2]).path
    print(machine())
    bidding, discussion, notification = conferences()
    theirs = peer()
    without = least(program, bidding, RUNS)
    bulks = [bulk(2600 + ROWS * turn) for turn in range(10)]
    whole = (least(program, bidding + b"".join(bulks), RUNS) - without) / len(bulks) * 1e3
    single = (least(program, bidding + b"".join(one_by_one(2600 + ROWS * turn) for turn in range(10)), RUNS)
              - without) / len(bulks) * 1e3
    print(f"a bulk of {ROWS} rows {whole:.2f} ms; the same one by one {single:.2f}; "
          f"SQLite, its inserts {theirs['bulk']:.2f}")
    without = least(program, discussion, RUNS)
    for report in ("papers", "scores", "load", "decisions"):
        asked = request("GET", f"/reports/{report}", "alice")
        spent = (least(program, discussion + asked * 50, RUNS) - without) / 50 * 1e3
        print(f"/reports/{report} {spent:.2f} ms; SQLite, its lines {theirs[report]:.2f}")
    without = least(program, notification, RUNS)
    spent = (least(program, notification + request("GET", "/reports/letter/1", "author-0") * 20_000, RUNS)
             - without) / 20_000 * 1e6
    print(f"/reports/letter/1 {spent:.2f} us")


if __name__ == "__main__":
    main()
