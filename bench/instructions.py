#!/usr/bin/env python3
# SPDX-License-Identifier: Apache-2.0 OR MIT
"""Counts the processor instructions that requests take, by valgrind's callgrind. They are the same for the same program
and input whatever else the machine is doing, so two builds can be compared while provers run.

    bench/instructions.py PROGRAM [OTHER]

`confd pipe` runs over a small conference of 200 papers in the bidding. Measured are a page to a chair, a bid, a search
and a bulk of a hundred rows. Each is what a run with so many of them takes more than one without. Then comes the
opening of a store with 2,000 bids. Needs Debian's valgrind.
"""
import os
import re
import subprocess
import sys
import tempfile

from lib.wire import move_to, raw, register, request

PAPERS = 200


def conference():
    """Three members, and the papers of as many authors as they need, in the bidding."""
    authors = [f"u{n}" for n in range(PAPERS // 20)]
    names = ["alice", "bob", "carol", "dave", *authors]
    made = [register(name) for name in names]
    made += [request("POST", "/members", "alice", {"name": name, "role": "member"}) for name in names[1:4]]
    made.append(move_to("submission"))
    for n in range(PAPERS):
        paper = {"title": f"T{n}", "abstract": "a" * 200, "authors": []}
        made.append(request("POST", "/papers", authors[n // 20], paper))
    return made + [move_to("bidding")]


def bid(n):
    """A bid of a member on one paper after another."""
    return request("PUT", f"/papers/{1 + n % PAPERS}/bid", "bob", {"bid": n % 20})


def bulk(n):
    """A hundred tags, one on each paper; another one in each bulk."""
    rows = "".join(f"{paper},tag,,t{n}\n" for paper in range(1, 101))
    return raw("POST", "/assign", "alice", f"paper,action,user,tag\n{rows}".encode())


def taken(program, requests, store=None):
    """The instructions of one run, whose answers are all accepted."""
    with tempfile.NamedTemporaryFile() as out:
        words = ["valgrind", "--tool=callgrind", f"--callgrind-out-file={out.name}", program, "pipe"]
        words += ["--store", store] if store else []
        ran = subprocess.run(words, input=b"".join(requests), capture_output=True, check=True)
    refused = [status for status in re.findall(rb"HTTP/1.1 (\d+)", ran.stdout) if not status.startswith(b"2")]
    if refused:
        sys.exit(f"{program}: {len(refused)} requests were refused, the first with {refused[0].decode()}")
    return int(re.search(rb"Collected : (\d+)", ran.stderr)[1])


def made(program, store):
    """A store of the version that this program makes, with 2,000 bids."""
    rows = b"".join(conference() + [bid(n) for n in range(2000)])
    subprocess.run([program, "pipe", "--store", store], input=rows, stdout=subprocess.DEVNULL, check=True)
    return store


def counts(program, store):
    """What is measured, by name."""
    begun = conference()
    alone = taken(program, begun)
    measured = {
        "a page to a chair": [request("GET", "/papers/1", "alice")] * 200,
        "a bid": [bid(n) for n in range(200)],
        "a search over 200 papers": [request("GET", "/search?q=%23hot+OR+ti:T1", "alice")] * 20,
        "a bulk of 100 rows": [bulk(n) for n in range(3)],
    }
    found = {name: (taken(program, begun + more) - alone) // len(more) for name, more in measured.items()}
    return found | {"opening a store": taken(program, [], store)}


def main():
    programs = sys.argv[1:]
    with tempfile.TemporaryDirectory() as folder:
        stores = [made(program, os.path.join(folder, f"store-{n}")) for n, program in enumerate(programs)]
        told = [counts(program, store) for program, store in zip(programs, stores)]
    for name in told[0]:
        print(f"{name}: " + ", ".join(f"{found[name]:,}" for found in told) + " instructions")


if __name__ == "__main__":
    main()
