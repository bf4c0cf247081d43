#!/usr/bin/env python3
# SPDX-License-Identifier: Apache-2.0 OR MIT
"""What searches cost over 9,999 papers, and what bad ones do.

    python3 bench/search_cost.py [PROGRAM]

PROGRAM is `confd` as `rt run` builds it (crates/confd/out/confd if none is named). Needs only Python 3. Each figure is
one run of `confd pipe` over requests made here, less a run without what is measured; the least of three. The peer is
Python's `sqlite3` (its LIKE, over the same abstracts in memory). Nothing is kept.
"""

import sqlite3
import sys
import urllib.parse

from lib.program import program_named
from lib.timing import least, machine, timed
from lib.wire import move_to, register, request

PAPERS, PAPERS_EACH, RUNS = 9_999, 20, 3
WORDS = "we prove what we can and say what we cannot of trees graphs types words locks rows".split()


def abstract(number):
    """5,000 bytes, alike at their beginning in no two papers."""
    words = [WORDS[(number * 7 + place * (1 + number % 5)) % len(WORDS)] for place in range(1200)]
    return f"{number} {' '.join(words)}"[:5000]


def conference(length):
    """9,999 papers in bidding, with abstracts of so many bytes; every third has a tag, and every fifth is withdrawn."""
    text = [register("alice"), register("bob"), request("POST", "/members", "alice", {"name": "bob", "role": "member"})]
    authors = [f"author-{number}" for number in range((PAPERS + PAPERS_EACH - 1) // PAPERS_EACH)]
    text += [register(author) for author in authors] + [move_to("submission")]
    for number in range(PAPERS):
        text.append(request("POST", "/papers", authors[number // PAPERS_EACH],
                            {"abstract": abstract(number)[:length], "title": f"Paper {number}"}))
    text += [request("DELETE", f"/papers/{number + 1}", authors[number // PAPERS_EACH])
             for number in range(0, PAPERS, 5)]
    text += [move_to("bidding")]
    text += [request("PUT", f"/papers/{number + 1}/tags/hot", "bob") for number in range(0, PAPERS, 3) if number % 5]
    return b"".join(text)


def search(text, only_count=True):
    only = "&only=count" if only_count else ""
    return request("GET", f"/search?q={urllib.parse.quote_plus(text)}{only}", "bob")


def cost(program, base, without, asked, times):
    """Seconds that one request takes."""
    spent = least(program, base + asked * times, RUNS)
    return (spent - without) / times


def peer_like(needle):
    """Seconds that one LIKE takes over the same abstracts."""
    store = sqlite3.connect(":memory:")
    store.execute("CREATE TABLE paper (abstract TEXT)")
    store.executemany("INSERT INTO paper VALUES (?)", ((abstract(number),) for number in range(PAPERS)))
    asked = "SELECT count(*) FROM paper WHERE abstract LIKE ?"
    return timed(lambda: store.execute(asked, (f"%{needle}%",)).fetchone(), RUNS)


def main():
    program = program_named(sys.argv[1:2]).path
    print(machine())
    short, long = conference(20), conference(5000)
    without_short, without_long = (least(program, base, RUNS) for base in (short, long))
    for text in ("#hot status:active dec:none", "#hot -status:withdrawn (au:author-17 OR au:author-23)",
                 "au:author-499 OR au:author-1 OR #cold"):
        spent = cost(program, short, without_short, search(text), 100)
        print(f"`{text}`: {spent * 1e3:.2f} ms over {PAPERS:,} papers, "
              f"{PAPERS / spent / 1e6:.1f} million papers a second")
    total = sum(len(abstract(number)) for number in range(PAPERS))
    for needle in ("zebra", "graphs and dragons", "locks rows we prove what nobody", "trees of dragons", "say nothing"):
        ours, theirs = cost(program, long, without_long, search(f'ab:"{needle}"'), 10), peer_like(needle)
        print(f"`ab:\"{needle}\"`: {total / ours / 1e6:.0f} MB/s; sqlite3's LIKE {total / theirs / 1e6:.0f} MB/s; "
              f"{theirs / ours:.2f} times as fast")
    for name, text in (("1,024 opening parentheses", "(" * 1024), ("128 terms and one more", "kale " * 129),
                       ("63 levels, and no end", "-(a OR " * 31), ("a long quotation", '"' + "a" * 1023),
                       ("dashes", "-" * 1024)):
        spent = cost(program, short, without_short, search(text), 2000)
        print(f"{name}: {spent * 1e6:.1f} us")


if __name__ == "__main__":
    main()
