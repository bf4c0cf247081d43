#!/usr/bin/env python3
# SPDX-License-Identifier: Apache-2.0 OR MIT
"""What a command, a row of a store and a record in memory cost as a conference fills.

    python3 bench/growth_cost.py [PROGRAM] [--before OTHER] [--parts commands,stores,memory] [--tenth] [--runs N]

PROGRAM is `confd` as `rt run` builds it (crates/confd/out/confd if none is named), OTHER one to compare it with. Needs
only Python 3. There are 9,999 papers by 500 authors, and 500 members. What is added comes at random papers, the same in
each run. `--tenth` takes a tenth of all except the people, for a first look. Nothing is kept.

- commands: one more bid, comment and tag where 10,000, 40,000 and 160,000 are there, by `confd pipe` without a store.
  Beside it SQLite, in memory and through Python's module, takes the same rows into a table with a key, in one
  transaction. The goal: with 160,000 a command costs at most 1.3 times what it does with 10,000.
- stores: a row of 300,000 comments, 300,000 bids, 30,000 forms, 300,000 tags that came in bulks of 512, or 3,000
  contents of 32 KiB, of a store that is opened. The goal: at most twice what it costs where there are a tenth of them.
- memory: the most of `confd pipe`, without a store, with five conflicts, twenty bids, three reviews of 1,000 bytes and
  ten comments of 100 on each paper. The goal: 1.5 times the texts and 300 bytes a record, with nothing taken off.

Times are processor time, the kernel's for the program among it, so that others at work change little. Each is the
least of three runs, or N, of short openings of five times as many. Of a command's, what the same process had used
before is taken off, of a row's what the opening of the same store without these rows takes.
"""

import argparse
import math
import random
import sqlite3
import subprocess
import sys
import tempfile
import threading
import time

from assignment_cost import AUTHORS, MEMBERS, PAPERS, conference
from lib.database import opened as opened_by_sqlite
from lib.program import program_named
from lib.timing import machine, peak_memory
from lib.wire import move_to, request

SEED = 37
PART = 10 if "--tenth" in sys.argv else 1
COUNT, LEVELS, MORE = PAPERS // PART, [level // PART for level in (10_000, 40_000, 160_000)], 5_000 // PART
STORED = {"comments": 300_000 // PART, "bids": 300_000 // PART, "forms": 30_000 // PART,
          "tags of bulks": 300_000 // PART, "contents": 3_000 // PART}
BULK, CONTENT = 512, bytes(1 << 15)
PHASES = ["setup", "submission", "bidding", "reviewing", "discussion"]
WORDS, LABELS = 100, 3  # the tags that there are, and the reviewers of a paper
TEXT = "Why is that so?"
REFUSAL = b'{"error":'
LAST, LAST_ANSWER = request("GET", "/that-is-no-route"), REFUSAL + b'"no_route"}'
ROW = ("INSERT INTO {} (place, kind, maker, more, n1, n2, n3, n4, n5, b1, b2{}) "
       "VALUES (?, ?, ?, ?, ?, ?, ?, ?, ?, ?, ?{})")
STAMP = {"at": "0", "num": "0", "mark": "x''"}  # what a store may keep of a command, and nothing of it
TABLES = {"people": range(1, 5), "papers": range(5, 10), "ties": range(10, 14), "talk": range(14, 18)}
PEER = "create table t (paper integer, n integer, user integer, what, primary key ({})) without rowid"
PUT = "insert or replace into t values (?1, 0, ?2, ?3)"
ADD = "insert into t select ?1, coalesce(max(n), 0) + 1, ?2, ?3 from t where paper = ?1"
KINDS = {"bid": ("bidding", "paper, user", PUT), "comment": ("discussion", "paper, n", ADD),
         "tag": ("bidding", "paper, what", PUT)}  # of each its phase, and SQLite's key and insertion


def programs_of(options):
    """The program to be measured and, where one is named, the one before it, each by its name."""
    before = {"before": program_named([options.before]).path} if options.before else {}
    return {"confd": program_named(options.program).path, **before}


def started(program, *words):
    """A run of `confd pipe` with these words, to be asked bit by bit; its input ends with the block that it is for."""
    return subprocess.Popen([program, "pipe", *words], stdin=subprocess.PIPE, stdout=subprocess.PIPE, bufsize=0)


def spent(child, text=b"", refusals=0):
    """The processor seconds that it has used once these requests are answered, so many of them by refusals."""
    feeder = threading.Thread(target=child.stdin.write, args=(text + LAST,))
    feeder.start()
    told = bytearray()
    while not told.endswith(LAST_ANSWER):
        more = child.stdout.read(1 << 20)
        if not more:
            sys.exit(f"{child.args} ended with {child.wait()} before the last answer")
        told += more
    feeder.join()
    if told.count(REFUSAL) != refusals + 1:
        sys.exit(f"{child.args}: {told.count(REFUSAL) - 1} refusals, not {refusals}, "
                 f"the first {told[told.index(REFUSAL):][:80]}")
    return time.clock_gettime(~child.pid << 3 | 2)  # the processor clock of that process


def opening(phase):
    """The requests that lead to this phase, from the bidding on, with all people and papers."""
    later = PHASES[PHASES.index("bidding") + 1:PHASES.index(phase) + 1]
    return conference(AUTHORS, MEMBERS, COUNT, 1)[0] + b"".join(move_to(name) for name in later)


def pairs(count, others):
    """So many random pairs of a paper, from 1, and one of these many others, from 0; none of them twice."""
    drawn = random.Random(SEED).sample(range(COUNT * others), count)
    return [(pair // others + 1, pair % others) for pair in drawn]


def made(kind, count):
    """So many bids, comments or tags, each a new one: papers, members and what they say; and the requests."""
    if kind == "bid":
        rows = [(p, n, n % 41 - 20) for p, n in pairs(count, MEMBERS)]
        return rows, [request("PUT", f"/papers/{p}/bid", f"member-{n}", {"bid": bid}) for p, n, bid in rows]
    if kind == "tag":
        rows = [(p, turn % MEMBERS, f"tag-{word}") for turn, (p, word) in enumerate(pairs(count, WORDS))]
        return rows, [request("PUT", f"/papers/{p}/tags/{tag}", f"member-{n}") for p, n, tag in rows]
    dice = random.Random(SEED)
    rows = [(dice.randint(1, COUNT), turn % MEMBERS, TEXT) for turn in range(count)]
    return rows, [request("POST", f"/papers/{p}/comments", f"member-{n}", {"text": text}) for p, n, text in rows]


def costs(take, asked):
    """Microseconds that one of these takes at each level; `take` takes some, and tells the seconds used so far."""
    found, at = [], 0
    for level in LEVELS:
        before = take(asked[at:level])
        at = level + MORE
        found.append((take(asked[level:at]) - before) / MORE * 1e6)
    return found


def costs_of_program(program, start, asked):
    """The same of requests to the program, after these to begin with."""
    with started(program) as child:
        spent(child, start)
        return costs(lambda some: spent(child, b"".join(some)), asked)


def costs_of_sqlite(key, insertion, rows):
    """The same of SQLite, through Python's module."""
    tables = sqlite3.connect(":memory:")
    tables.execute(PEER.format(key))
    return costs(lambda some: (tables.executemany(insertion, some), time.process_time())[1], rows)


def told_goal(what, value, most):
    """What is said of a goal, that a value is at most this."""
    return f"{what}, " + ("met" if value <= most else "missed" if value > most else "not measured")


def commands(programs, runs):
    """Prints what a command costs at each level."""
    print("\n|µs a command, where there are|by|" + "|".join(f"{level:,}" for level in LEVELS) + "|last to first|")
    print("|---|---|" + "---|" * len(LEVELS) + "---|")
    goals = []
    for kind, (phase, key, insertion) in KINDS.items():
        rows, asked = made(kind, LEVELS[-1] + MORE)
        start, found = opening(phase), {}
        for _ in range(runs):
            for name, program in programs.items():
                found.setdefault(name, []).append(costs_of_program(program, start, asked))
            found.setdefault("SQLite", []).append(costs_of_sqlite(key, insertion, rows))
        for name, costs_by_run in found.items():
            least = [min(level) for level in zip(*costs_by_run)]
            ratio = least[-1] / least[0]
            print(f"|a {kind}|{name}|" + "|".join(f"{cost:.1f}" for cost in least) + f"|{ratio:.2f}|", flush=True)
            goals += [told_goal(f"a {kind} {ratio:.2f}", ratio, 1.3)] if name == "confd" else []
    print(f"\nThe goal, last to first at most 1.3: {'; '.join(goals)}", flush=True)


def stored(kind, count):
    """The rows, but for their places, of a store with so many of these, in the form of docs/STORE.md."""
    names = ["alice"] + [f"author-{n}" for n in range(AUTHORS)] + [f"member-{n}" for n in range(MEMBERS)]
    members, papers = range(AUTHORS + 2, len(names) + 1), range(1, COUNT + 1)
    rows = [(1, n, int(n == 1), n, 0, 0, 0, 0, name.encode(), bytes(32)) for n, name in enumerate(names, 1)]
    rows.insert(1, (2, 1, 0, 1, 2, 0, 0, 0, b"", b""))
    rows += [(2, 1, 0, user, 1, 0, 0, 0, b"", b"") for user in members]
    phases = [(3, 1, 0, number, 0, 0, 0, 0, b"", b"") for number in range(len(PHASES))]
    submitted = [(5, p % AUTHORS + 2, 0, p, 0, 0, 0, 0, b"Proofs", b"We prove.") for p in papers]
    contents = count if kind == "contents" else 0
    submitted += [(8, p % AUTHORS + 2, 0, p, 1, 0, 0, 0, CONTENT, b"") for p in papers[:contents]]
    rows += phases[1:2] + submitted + phases[2:3]
    if contents:
        return rows
    if kind == "tags of bulks":
        mark = [int(turn % BULK > 0) for turn in range(1, count)] + [0]  # whether more rows of the bulk follow
        return rows + [(16, 1, more, p, 1, 0, 0, 0, b"tag-%d" % word, b"")
                       for more, (p, word) in zip(mark, pairs(count, WORDS))]
    if kind == "bids":
        return rows + [(11, members[n], 0, p, n % 41, 0, 0, 0, b"", b"") for p, n in pairs(count, MEMBERS)]
    forms, dice, drawn = kind == "forms", random.Random(SEED), {}
    seats = {(p, label): members[(p + label) % MEMBERS] for p in papers for label in range(1, LABELS + 1)}
    rows += [(12, 1, 0, p, user, 3, label, 0, b"", b"") for (p, label), user in seats.items() if forms]
    rows += phases[3:4 if forms else 5]
    for turn in range(count):
        at = p, label = dice.randint(1, COUNT), turn % LABELS + 1 if forms else 0
        drawn[at] = number = drawn.get(at, 0) + 1
        form = (14, seats.get(at), 0, p, label, number, 4, 3, b"Good.", b"ok")
        rows.append(form if forms else (15, members[turn % MEMBERS], 0, p, number, 0, 0, 0, TEXT.encode(), b""))
    return rows


def opened(program, store):
    """The processor seconds in which a store is opened."""
    with started(program, "--store", store) as child:
        return spent(child)


def make_store(program, store, rows):
    """Makes a store of these rows, in tables that the program makes."""
    opened(program, store)
    with opened_by_sqlite(store) as file:
        names = [name for (name,) in file.execute("SELECT name FROM sqlite_schema WHERE type = 'table'")]
        for table, kinds in TABLES.items():
            name = next(name for name in names if name.partition("_")[0] == table)
            # A store of an older version keeps no moments, or no numbers.
            columns = [column for _, column, *_ in file.execute(f"PRAGMA table_info({name})") if column in STAMP]
            placed = ((place, *row) for place, row in enumerate(rows) if row[0] in kinds)
            file.executemany(ROW.format(name, "".join(f", {column}" for column in columns),
                                        "".join(f", {STAMP[column]}" for column in columns)), placed)


def stores(programs, runs):
    """Prints what a row costs where stores are opened."""
    print("\n|opening a store with|by|s|µs a row|µs a row of a tenth|to a tenth|\n|---|---|---|---|---|---|")
    goals = []
    for kind, count in STORED.items():
        sizes = (0, count // 10, count)
        found = {(name, size): [] for name in programs for size in sizes}
        with tempfile.TemporaryDirectory() as folder:
            for name, size in found:
                make_store(programs[name], f"{folder}/{name}-{size}", stored(kind, size))
            for turn in range(5 * runs):
                for (name, size), times in found.items():
                    if turn < runs or size < count:
                        times.append(opened(programs[name], f"{folder}/{name}-{size}"))
        for name in programs:
            none, tenth, whole = [min(found[name, size]) for size in sizes]
            row, row_of_tenth = (whole - none) / count * 1e6, (tenth - none) / sizes[1] * 1e6
            ratio = row / row_of_tenth if tenth > 1.05 * none else math.nan  # too little else, and no number
            print(f"|{count:,} {kind}|{name}|{whole:.2f}|{row:.1f}|{row_of_tenth:.1f}|{ratio:.2f}|", flush=True)
            goals += [told_goal(f"{kind} {ratio:.2f}", ratio, 2)] if name == "confd" else []
    print(f"\nThe goal, to a tenth at most 2: {'; '.join(goals)}", flush=True)


def filled():
    """The requests that fill a conference, how many records they make, and the bytes of their texts."""
    dice, form = random.Random(SEED), {"score": 4, "confidence": 3, "to_authors": "a" * 900, "to_pc": "c" * 100}
    conflicts, bids, seats, forms, comments = groups = [], [], [], [], []
    for p in range(1, COUNT + 1):
        some = [f"member-{n}" for n in dice.sample(range(MEMBERS), 25)]
        at, clear = f"/papers/{p}", some[5:]
        conflicts += [request("POST", f"{at}/conflicts", "alice", {"on": True, "user": who}) for who in some[:5]]
        bids += [request("PUT", f"{at}/bid", who, {"bid": 7}) for who in clear]
        seats += [request("POST", f"{at}/reviewers", "alice", {"kind": "pc", "user": who}) for who in clear[:3]]
        forms += [request("PUT", f"{at}/review", who, form) for who in clear[:3]]
        comments += [request("POST", f"{at}/comments", who, {"text": "t" * 100}) for who in clear[:10]]
    for group in groups:
        dice.shuffle(group)
    start = [opening("bidding"), *conflicts, *bids, *seats]
    steps = [*start, move_to("reviewing"), *forms, move_to("discussion"), *comments]
    # An entry for each account, for the chair's role and each member's, for each paper and for each of four phases.
    records = 1 + AUTHORS + MEMBERS + 1 + MEMBERS + COUNT + 4 + sum(map(len, groups))
    return b"".join(steps), records, COUNT * len("ProofsWe prove.") + len(forms) * 1_000 + len(comments) * 100


def memory(programs, runs):
    """Prints the most memory of a large conference."""
    asked, records, texts = filled()
    print(f"\n|{records:,} records, texts of {texts / 1e6:.1f} MB|MB at most|bytes a record, past 1.5 times the texts|")
    print("|---|---|---|")
    least = {}
    for name, program in programs.items():
        for _ in range(runs):
            with started(program) as child:
                spent(child, asked)
                most = peak_memory(child.pid)
                least[name] = min(most, least.get(name, most))
        print(f"|{name}|{least[name] / 1e6:.1f}|{(least[name] - 1.5 * texts) / records:.0f}|", flush=True)
    allowed, most = 1.5 * texts + 300 * records, least["confd"]
    print(f"\nThe goal, at most {allowed / 1e6:.1f} MB: {told_goal(f'{most / 1e6:.1f}', most, allowed)}", flush=True)


def main():
    """Measures the parts that the words name."""
    parts = {"commands": commands, "stores": stores, "memory": memory}
    words = argparse.ArgumentParser()
    words.add_argument("program", nargs="*")
    words.add_argument("--before")
    words.add_argument("--parts", default=",".join(parts))
    words.add_argument("--tenth", action="store_true")
    words.add_argument("--runs", type=int, default=3)
    options = words.parse_args()
    programs = programs_of(options)
    print(machine(), flush=True)
    for name in options.parts.split(","):
        parts[name](programs, options.runs)


if __name__ == "__main__":
    main()
