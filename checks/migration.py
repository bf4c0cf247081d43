#!/usr/bin/env python3
# SPDX-License-Identifier: Apache-2.0 OR MIT
"""Opens stores of older versions: then their rows are in this one, whatever happens meanwhile.

Version 1 kept no moments, and neither it nor version 2 the numbers of commands.

    python3 checks/migration.py [CHECK..] [PROGRAM]

PROGRAM is `confd` as `rt run` builds it (crates/confd/out/confd where none is named); CHECK is a name out of CHECKS and
CHECKS_BY_SHIM, all where none is told. Needs what store.py needs, and leaves out what it leaves out. Prints a line a
check, and last `N passed, M failed`; ends with status 0 where none failed. Takes about two minutes.

crates/confd/data/version_1.store is such a store: the last confd that made them made it of BEGINNING and COMMITTEE
(conference.py), and version_2.store likewise, of DEADLINES between the two as well. version_1.views and version_2.views
are what `view` of these printed for each user, as lists of lines.
"""

import contextlib
import errno
import json
import os
import resource
import shutil
import signal
import sys
import tempfile
import time

from lib.checking import expect, run_all, with_shim
from lib.conference import BEGINNING, COMMITTEE, DEADLINES, DECIDING, RESPONSE, text_of
from lib.database import OTHER_TABLES, OTHER_VERSION, TABLES, VERSION, opened
from lib.journal_file import LAST_MOMENT
from lib.program import ask, chosen, line_of, read
from lib.server import APART
from lib.shim import FILES, Shim, in_turn, sample
from lib.wire import register, request


HERE = os.path.dirname(os.path.abspath(__file__))
DATA = os.path.join(HERE, "../crates/confd/data")
USERS = ("alice", "bob", "carol", "dave", "erin")
# The tables of rows of each version, and their kinds of entry; an older version has none of the last four.
OLDER = {1: ("people", "papers", "ties", "talk"), 2: ("people_v2", "papers_v2", "ties_v2", "talk_v2")}
VERSIONS = {**OLDER, VERSION: TABLES}
KINDS = ({*range(1, 5), 18, 19}, {*range(5, 10)}, {*range(10, 14), 20, 21}, {*range(14, 18), 22})
# The fields of a row of this version, its place first; those that an older one lacks, and what stands for them in SQL.
FIELDS = ("place", "kind", "maker", "more", "at", "num", "mark", "n1", "n2", "n3", "n4", "n5", "b1", "b2")
LACKED = {1: {"at": "0", "num": "0", "mark": "x''"}, 2: {"num": "0", "mark": "x''"}, VERSION: {}}
# What made a table of an older version.
TABLE = (
    "CREATE TABLE {} (place INTEGER PRIMARY KEY, kind INTEGER NOT NULL, maker INTEGER NOT NULL,"
    " more INTEGER NOT NULL,{} n1 INTEGER NOT NULL, n2 INTEGER NOT NULL, n3 INTEGER NOT NULL, n4 INTEGER NOT NULL,"
    " n5 INTEGER NOT NULL, b1 BLOB NOT NULL, b2 BLOB NOT NULL) STRICT"
)
# The moment of the first command in the stores that keep moments; each next one has the next second.
FIRST_MOMENT = 784_111_777
MILLION = 1_000_000
# The most seconds that a million rows may take.
MOST_SECONDS = 30
MANY = 40_000
# So many papers with reviews that each form is judged by few others; and the most that one author may submit.
PAPERS = 200
MOST_PAPERS = 20
KILLS = 20
# Of more calls so many are refused.
MOST_REFUSED = {"writes": 250, "syncs": 250, "allocations": 100}
WORDS = ["pipe", "--store", "store"]


# ---- stores of older versions


def fields_of(version):
    """The fields of a row that this version has."""
    return [field for field in FIELDS if field not in LACKED[version]]


def make_older(store, version, rows):
    """Makes a store of this version of these rows."""
    moment = "" if "at" in LACKED[version] else " at INTEGER NOT NULL,"
    with opened(store) as file:
        file.execute("PRAGMA journal_mode = WAL")
        file.execute("CREATE TABLE meta (version INTEGER NOT NULL) STRICT")
        for table in VERSIONS[version]:
            file.execute(TABLE.format(table, moment))
        put(file, version, rows)
        file.execute("INSERT INTO meta VALUES (?)", (version,))
    os.chmod(store, 0o600)


def put(file, version, rows):
    """Puts what this version has of these rows into its tables."""
    fields = fields_of(version)
    places = [FIELDS.index(field) for field in fields]
    for table, kinds in zip(VERSIONS[version], KINDS):
        stands = ([row[place] for place in places] for row in rows if row[1] in kinds)
        file.executemany(f"INSERT INTO {table} VALUES ({', '.join('?' * len(fields))})", stands)


def placed(version, rows):
    """Rows as a store of this version has them, of rows without place, moment and number; each command has a moment."""
    at, step = (0, 0) if "at" in LACKED[version] else (FIRST_MOMENT, 1)
    found = []
    for place, (kind, maker, more, *rest) in enumerate(rows):
        found.append((place, kind, maker, more, at, 0, b"", *rest))
        at += step * (1 - more)
    return found


def beginning(phases, papers):
    """Alice, a chair, bob, a member, and papers, in the last of these phases, as rows for `placed`."""
    names = [b"alice", b"bob", *(b"author-%d" % first for first in range(0, papers, MOST_PAPERS))]
    people = [(1, n, int(n == 1), n, 0, 0, 0, 0, name, bytes(32)) for n, name in enumerate(names, 1)]
    people.insert(1, (2, 1, 0, 1, 2, 0, 0, 0, b"", b""))
    submitted = [(5, 3 + n // MOST_PAPERS, 0, n + 1, 0, 0, 0, 0, b"Proofs", b"We prove.") for n in range(papers)]
    later = [(3, 1, 0, number, 0, 0, 0, 0, b"", b"") for number in range(2, phases + 1)]
    return [
        *people, (2, 1, 0, 2, 1, 0, 0, 0, b"", b""), (3, 1, 0, 1, 0, 0, 0, 0, b"", b""), *submitted, *later,
    ]  # fmt: skip


def ties(version, count, more=()):
    """A store's rows, so many and these: bob's conflict is turned on and off in the bidding."""
    rows = beginning(2, 1)
    rows += [(10, 1, 0, 1, 2, turn % 2, 0, 0, b"", b"") for turn in range(1, count - len(rows) + 1)]
    return placed(version, [*rows, *more])


def forms(version, count):
    """A store's rows, so many and some 8 MB: bob writes form after form of each of his reviews."""
    rows = beginning(2, PAPERS)
    rows += [(12, 1, 0, paper, 2, 1, 1, 0, b"", b"") for paper in range(1, PAPERS + 1)]
    rows += [(3, 1, 0, 3, 0, 0, 0, 0, b"", b"")]
    turns = (divmod(turn, PAPERS) for turn in range(count - len(rows)))
    rows += [(14, 2, 0, paper + 1, 1, form + 1, 4, 3, b"Good. " * 16, b"ok " * 32) for form, paper in turns]
    return placed(version, rows)


def stands_in(store):
    """What SQLite's own library finds in a store: its version, and its rows as those of this version."""
    with opened(store) as file:
        said = file.execute("SELECT version FROM meta").fetchall()
        tables = {name for (name,) in file.execute("SELECT name FROM sqlite_schema") if name != "meta"}
        version = next((version for version, names in VERSIONS.items() if tables == set(names)), None)
        expect(version is not None and said == [(version,)], f"the versions {said} of the tables {tables}")
        columns = ", ".join(LACKED[version].get(field, field) for field in FIELDS)
        rows = sorted(row for table in tables for row in file.execute(f"SELECT {columns} FROM {table}"))
    return version, rows


def is_whole(store, rows):
    """The version of a store that has to have these rows, all of them."""
    version, found = stands_in(store)
    expect(found == rows, f"version {version}: {len(found)} rows, which aren't the {len(rows)}")
    return version


def copied(store, folder, name="store"):
    """A copy of a store, its log with it where there is one."""
    copy = os.path.join(folder, name)
    for end in ("", "-wal"):
        with contextlib.suppress(FileNotFoundError):
            os.remove(copy + end)
        if os.path.exists(store + end):
            shutil.copyfile(store + end, copy + end)
            os.chmod(copy + end, 0o600)
    return copy


def kept(version, folder, name="store"):
    """A copy of the store that the last confd of this version made."""
    return copied(os.path.join(DATA, f"version_{version}.store"), folder, name)


# ---- the checks


# What made the stores that are kept.
REQUESTS = {1: BEGINNING + COMMITTEE, 2: BEGINNING + DEADLINES + COMMITTEE}


def of_earlier_confds(program, folder):
    """A store that the last confd of each version made: its rows, and what `view` prints for each user, as before."""
    for version, requests in REQUESTS.items():
        store = kept(version, folder)
        found, due = stands_in(store)
        kinds = set().union(*KINDS) - {19, 20, 21, 22} - ({18} if version == 1 else set())
        expect((found, {row[1] for row in due}) == (version, kinds), f"version {found}, or a kind is missing")
        with open(os.path.join(HERE, f"version_{version}.views")) as file:
            views = json.load(file)
        expect(set(views) == set(USERS), f"views of {set(views)}")
        for user, lines in views.items():
            out, status, err = program.run(["view", "--store", store, "--user", user])
            shown = [json.loads(line) for line in out.splitlines()]
            # What was made before there were moments has the first one.
            since = [{"at": 0, **line} if line.get("mine") else line for line in lines]
            expect((status, err) == (0, b"") and shown == since, f"{version}, {user}: status {status}, {err}, {out}")
            expect(is_whole(store, due) == VERSION, f"of version {version} still")
        fresh = os.path.join(folder, f"fresh-{version}")
        _, status = program.pipe(fresh, text_of(requests))
        expect(status == 0, f"status {status}")
        expect(timeless(stands_in(fresh)[1]) == timeless(due), f"the requests of {version} give other rows now")


def timeless(rows):
    """Rows without their moments."""
    at = FIELDS.index("at")
    return [row[:at] + row[at + 1 :] for row in rows]


# What RESPONSE adds, without place and moment: the phase that older versions hadn't, and what erin responds in it.
RESPONDED = [
    (3, 1, 0, 0, b"", 7, 0, 0, 0, 0, b"", b""), (22, 5, 0, 0, b"", 2, 0, 0, 0, 0, b"Thanks.", b""),
]  # fmt: skip
# What is answered there.
ANSWERED = (
    (200, b'{"phase":"response"}'),
    (200, b'{"reviews":[{"confidence":3,"label":"A","score":4,"to_authors":"Good."}]}'),
    (201, b'{"paper":2}'),
    (200, b'{"text":"Thanks."}'),
)


def into_the_response(program, folder):
    """Such a store as it stood in the reviewing: authors respond then, and all goes on as it did without that."""
    kind, n1 = FIELDS.index("kind"), FIELDS.index("n1")
    for version in OLDER:
        due = stands_in(kept(version, folder, "due"))[1]
        end = next(place for place, row in enumerate(due) if (row[kind], row[n1]) == (3, 4))
        store = os.path.join(folder, f"reviewing-{version}")
        make_older(store, version, due[:end])
        told, status = program.pipe(store, text_of(RESPONSE + DECIDING))
        expect((status, tuple(told[: len(ANSWERED)])) == (0, ANSWERED), f"status {status}, {told}")
        refused = [answer for answer in told if answer[0] >= 400]
        expect(len(told) == len(RESPONSE + DECIDING) and not refused, f"{len(told)} answers, refused {refused}")
        found_in, found = stands_in(store)
        expect((found_in, found[:end]) == (VERSION, due[:end]), f"version {found_in}, or other rows ahead")
        behind = [row[1:] for row in timeless(found[end:])]
        expect(behind == RESPONDED + [row[1:] for row in timeless(due[end:])], f"{behind}")


# The bidding gets a deadline: a kind that version 1 hadn't.
DEADLINE = (18, 1, 0, 2, FIRST_MOMENT, 0, 0, 0, b"", b"")


def goes_on(program, folder):
    """No rows, and rows in the log alone, as a kill leaves them: they are moved, and what comes then has its moment."""
    for version in OLDER:
        due, first = ties(version, 3_000, [DEADLINE]), os.path.join(folder, f"first-{version}")
        make_older(first, version, due[:10])
        with opened(first) as file:
            put(file, version, due[10:])
            file.commit()
            killed = copied(first, folder)
        expect(log_of(killed) > 0, "the log is empty")
        fresh = os.path.join(folder, f"fresh-{version}")
        make_older(fresh, version, [])
        for store, before in ((killed, due), (fresh, [])):
            since = time.time()
            told, status = program.pipe(store, register("gus"))
            expect((status, [code for code, _ in told]) == (0, [201]), f"status {status}, {told}")
            found_in, found = stands_in(store)
            later = {row[FIELDS.index("at")] for row in found[len(before) :]}
            expect(found_in == VERSION and found[: len(before)] == before, f"version {found_in}, {found[-9:]}")
            expect(len(later) == 1 and since - APART <= min(later) <= time.time() + APART, f"{later} since {since}")


def a_million(program, folder):
    """A million rows of each version: no more than half a minute longer than the next opening takes."""
    for version in OLDER:
        store, due = os.path.join(folder, f"store-{version}"), ties(version, MILLION)
        make_older(store, version, due)
        times, processor = [], []
        for _ in range(2):
            began, before = time.perf_counter(), processor_seconds()
            _, status, err = program.run(["pipe", "--store", store])
            times.append(time.perf_counter() - began)
            processor.append(processor_seconds() - before)
            expect((status, err) == (0, b""), f"status {status}, {err}")
        expect(is_whole(store, due) == VERSION, f"of version {version} still")
        os.remove(store)
        told = ", and ".join(f"{took:.1f} s, {of:.1f} s of a processor" for took, of in zip(times, processor))
        print(f"    of version {version}: {told} to open it again", flush=True)
        expect(times[0] - times[1] <= MOST_SECONDS, f"{times[0]:.1f} s and {times[1]:.1f} s")


def processor_seconds():
    """What the programs that ended have taken of a processor, which others at work hardly change."""
    used = resource.getrusage(resource.RUSAGE_CHILDREN)
    return used.ru_utime + used.ru_stime


def log_of(store):
    """The bytes of a store's log."""
    return os.path.getsize(store + "-wal") if os.path.exists(store + "-wal") else 0


def kills(program, folder):
    """Killed while it brings a store to this version: the file has every row, in one of the versions, and opens."""
    question = request("GET", "/phase")
    for version in OLDER:
        original, due = os.path.join(folder, f"original-{version}"), forms(version, MANY)
        make_older(original, version, due)
        store = copied(original, folder)
        with program.begin(store) as child:
            expect(ask(child, question)[0] == 200, "no answer")
            most = log_of(store)
        versions = []
        for turn in range(KILLS):
            store = copied(original, folder)
            with program.begin(store) as child:
                while child.poll() is None and log_of(store) < most * (turn + 1) // KILLS:
                    time.sleep(0.0005)
                child.send_signal(signal.SIGKILL)
            versions.append(is_whole(copied(store, folder, "copy"), due))
            told, status = program.pipe(store, question)
            expect((status, told[0][0]) == (0, 200), f"opened again with status {status} after kill {turn}")
            expect(is_whole(store, due) == VERSION, f"of version {version} still after kill {turn}")
        print(f"    {versions.count(version)} of {KILLS} left version {version}", flush=True)
        expect(versions.count(version) >= KILLS // 2, f"the log was written, and the versions are {versions}")


def full_disk(program, folder):
    """A file that may grow no further: status 6, and the older store is whole; with room it opens."""

    def limit(most):
        signal.signal(signal.SIGXFSZ, signal.SIG_IGN)
        resource.setrlimit(resource.RLIMIT_FSIZE, (most, most))

    for version in OLDER:
        original, due = os.path.join(folder, f"original-{version}"), forms(version, MANY)
        make_older(original, version, due)
        for part in (1, 30, 60, 90):
            store = copied(original, folder)
            most = os.path.getsize(original) * part // 100
            words, text = ["pipe", "--store", store], request("GET", "/phase")
            out, status, err = program.run(words, text, preexec_fn=lambda: limit(most))
            expect((status, out) == (6, b""), f"{most} bytes: status {status}, {out}")
            expect(err == line_of(store, "disk I/O error"), f"{most} bytes: {err}")
            expect(is_whole(copied(store, folder, "copy"), due) == version, f"{most} bytes: not of version {version}")
            told, status = program.pipe(store, request("GET", "/phase"))
            expect((status, told[0][0]) == (0, 200), f"{most} bytes: with room the status is {status}")
            expect(is_whole(store, due) == VERSION, f"{most} bytes: of version {version} still")


# What is done to an older store so that it isn't one; the status is 6, and the file stays byte for byte as it is.
NO_STORES = (
    *((f"UPDATE meta SET version = {said}", OTHER_VERSION) for said in (*VERSIONS, VERSION + 1)),
    ("DELETE FROM meta", OTHER_VERSION),
    ("INSERT INTO meta SELECT version FROM meta", OTHER_VERSION),
    ("DROP TABLE {talk}", OTHER_TABLES),
    ("ALTER TABLE {talk} RENAME TO talk_v0", OTHER_TABLES),
    ("CREATE TABLE more (place INTEGER) STRICT", OTHER_TABLES),
    ("ALTER TABLE {people} ADD COLUMN num INTEGER", OTHER_TABLES),
)

NO_VALUE = "the row at place 0 has a value that no row has"
BAD = "row {}, of kind {}, is bad or ends inside a command"

# What is done to it so that its rows are bad: the status and what standard error says; it is of this version then.
BAD_ROWS = (
    ("UPDATE {ties} SET place = -7 WHERE place = 8", 6, "no row stands at place 8"),
    ("UPDATE {ties} SET place = 9223372036854775807 WHERE place = 8", 6, "no row stands at place 8"),
    ("DELETE FROM {people} WHERE place = 1", 6, "no row stands at place 1"),
    ("INSERT INTO {talk} SELECT * FROM {people} WHERE place = 1", 6, "two rows stand at place 1"),
    ("UPDATE {people} SET n1 = -1 WHERE place = 0", 6, NO_VALUE),
    ("UPDATE {people} SET kind = 19 WHERE place = 1", 3, BAD.format(1, 19)),
    ("UPDATE {papers} SET n1 = 2", 3, BAD.format(6, 5)),
)

# The same to one that keeps moments.
BAD_MOMENTS = (
    ("UPDATE {people} SET at = -1 WHERE place = 0", 6, NO_VALUE),
    (f"UPDATE {{ties}} SET at = {LAST_MOMENT + 1} WHERE place = 8", 3, BAD.format(8, 10)),
    ("UPDATE {people} SET at = at + 1 WHERE place = 1", 3, BAD.format(1, 2)),
)


def changed(store, version, change):
    """Makes a small store of this version, and does such a change to it."""
    make_older(store, version, ties(version, 12))
    with opened(store) as file:
        file.executescript(change.format(**dict(zip(VERSIONS[1], VERSIONS[version]))))


def bad_ones(program, folder):
    """What is no older store is left as it is, with status 6; bad rows stand in this version, with their status."""
    question = request("GET", "/phase")
    for version in OLDER:
        for change, reason in NO_STORES:
            if change.endswith(f"= {version}"):
                continue
            store = os.path.join(folder, "no-store")
            changed(store, version, change)
            before = read(store)
            out, status, line = program.run(["pipe", "--store", store], question)
            expect((status, out, line) == (6, b"", line_of(store, reason)), f"{change}: status {status}, {line}")
            expect(read(store) == before, f"{change}: the file was changed")
            os.remove(store)
        for change, due, reason in BAD_ROWS + (BAD_MOMENTS if "at" in fields_of(version) else ()):
            store = os.path.join(folder, "bad")
            changed(store, version, change)
            _, rows = stands_in(store)
            for _ in range(2):
                out, status, line = program.run(["pipe", "--store", store], question)
                expect((status, out, line) == (due, b"", line_of(store, reason)), f"{change}: status {status}, {line}")
                expect(is_whole(store, rows) == VERSION, f"{change}: of version {version} still")
            for end in ("", "-wal"):
                with contextlib.suppress(FileNotFoundError):
                    os.remove(store + end)


# ---- with calls of the system refused


def refused_in_turn(program, folder, name, orders_of, ends):
    """Refuses calls of this name, one a run, in the opening of a kept store of each version.

    `orders_of` gives the orders for a call's number, `ends` says which statuses may come.
    """
    shim = Shim(folder)
    for version in OLDER:
        due = stands_in(kept(version, folder, "due"))[1]
        with tempfile.TemporaryDirectory() as other:
            kept(version, other)
            orders = shim.run(program, WORDS, b"", other, scope=FILES)[3]
            count = getattr(orders, name)
        versions = {}

        def refuse(number, other):
            store = kept(version, other)
            _, status, err, _ = shim.run(program, WORDS, b"", other, scope=FILES, **orders_of(number))
            expect(status in ends, f"status {status}, {err}")
            versions[number] = is_whole(copied(store, other, "copy"), due)
            _, status, err = program.run(["pipe", "--store", store])
            expect((status, is_whole(store, due)) == (0, VERSION), f"opened again: status {status}, {err}")

        numbers = sample(count, MOST_REFUSED[name])
        failed = in_turn(refuse, numbers)
        what = f"version {version}: {len(failed)} of {len(numbers)}, the first: call {failed[:1]}"
        expect(count > 0 and not failed, what)
        left = list(versions.values()).count(version)
        print(f"    {len(numbers)} of {count} {name} refused, one a run; {left} left version {version}", flush=True)
        expect(left > 0, f"none left version {version}")


def writes(program, folder):
    """Each write fails once: status 6, or 0 where the file was shut, and the store is whole in one of the versions."""
    refused_in_turn(program, folder, "writes", lambda at: {"refuse_write": at, "error": errno.ENOSPC}, (0, 6))


def syncs(program, folder):
    """Each sync fails once: the same."""
    refused_in_turn(program, folder, "syncs", lambda at: {"refuse_sync": at, "error": errno.EIO}, (0, 6))


def allocations(program, folder):
    """Allocations fail, one a run: status 9, or 0 where it made no difference, and the store is whole likewise."""
    refused_in_turn(program, folder, "allocations", lambda at: {"refuse_allocation": at}, (0, 9))


CHECKS = (of_earlier_confds, into_the_response, goes_on, bad_ones, a_million, kills, full_disk)

# Those that refuse calls of the system, by what cc builds.
CHECKS_BY_SHIM = (writes, syncs, allocations)


if __name__ == "__main__":
    run_all(*chosen(CHECKS + with_shim(CHECKS_BY_SHIM), sys.argv[1:]))
