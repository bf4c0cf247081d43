#!/usr/bin/env python3
# SPDX-License-Identifier: Apache-2.0 OR MIT
"""Tries deploy/move_store.py, which makes a journal of a database and a database of a journal.

    python3 checks/move_store.py [CHECK..] [PROGRAM]

PROGRAM is `confd` as `rt run` builds it (crates/confd/out/confd where none is named), and CHECK a name of CHECKS, all
if none is told. Needs only Python 3. Prints a line a check, and last `N passed, M failed`; ends with status 0
where none failed. Takes half a minute.
"""

import os
import random
import resource
import signal
import stat
import subprocess
import sys
import time

from lib import database as databases
from lib.checking import expect, run_all
from lib.conference import EVERY_ROUTE, text_of
from lib.journal_file import EMPTY, groups_of, rows_in, rows_of, spelled
from lib.places import TOP
from lib.program import LONG, Program, ask, chosen, read
from lib.wire import opening, register, request, submit, upload


SCRIPT = os.path.join(TOP, "deploy", "move_store.py")
# A content as large as one may be.
CONTENT = random.Random(11).randbytes(4_194_304)
KILLS = 20


def begun(program, source, to, **more):
    words = [sys.executable, SCRIPT, "--confd", program.path, source, to]
    return subprocess.Popen(words, stdout=subprocess.PIPE, stderr=subprocess.PIPE, text=True, **more)


def moved(program, source, to, **more):
    """The status of a move, and what it wrote."""
    with begun(program, source, to, **more) as child:
        out, err = child.communicate(timeout=LONG)
    return child.returncode, out, err


def expect_moved(program, source, to):
    status, out, err = moved(program, source, to)
    expect((status, err) == (0, ""), f"{source} to {to}: status {status}, {err}")
    expect(not os.path.exists(to + ".moving"), "its folder is still there")
    expect(stat.S_IMODE(os.stat(to).st_mode) == 0o600, "others may read it")
    return out


def expect_refused(program, source, to, why, **more):
    """It ends with status 1 and this reason, and there is nothing new; an empty log is confd's way to shut FROM."""
    before = files_beside(to, source + "-wal")
    status, out, err = moved(program, source, to, **more)
    expect((status, out) == (1, "") and err.startswith("move_store: "), f"status {status}, {out}{err}")
    expect(why in err, f"{err!r} doesn't say {why!r}")
    after = files_beside(to, source + "-wal")
    expect(before == after, f"{before} became {after}")


def files_beside(path, but):
    """The files in a path's folder except one; none if there is no folder."""
    folder = os.path.dirname(path)
    return sorted(set(os.listdir(folder)) - {os.path.basename(but)}) if os.path.isdir(folder) else None


def both(folder):
    return os.path.join(folder, "one.store"), os.path.join(folder, "one.cj")


def views(program, path, names):
    return [program.run(["view", "--store", path, "--user", name])[:2] for name in names]


# ---- what comes of it


def every_route(program, folder):
    """A conference on every route: a journal, a database of it, and a journal of that, which is the first byte by
    byte; the database has the rows that confd puts into one; each user is shown the same."""
    due, first = os.path.join(folder, "due.store"), os.path.join(folder, "first.cj")
    for path in (due, first):
        program.run(["pipe", "--store", path], text_of(EVERY_ROUTE))
    database, journal = both(folder)
    rows = rows_in(first)
    names = [row.b1.decode() for row in rows if row.kind == 1]
    out = expect_moved(program, first, database)
    expect(out == f"{database}: {len(rows)} rows and {len(names)} users, as in {first}\n", out)
    expect_moved(program, database, journal)
    expect(read(journal) == read(first), "the journal has other bytes")
    expect(databases.rows(database) == databases.rows(due), "the database has other rows")
    shown = views(program, first, names)
    expect(all(status == 0 for _, status in shown), "a view failed")
    expect(shown == views(program, database, names) == views(program, journal, names), "views differ")
    code, _ = program.pipe(database, register("newcomer"))[0][0]
    expect(code == 201, "it takes no command")


def contents(program, folder):
    """A database with contents, whose log confd left beside it as it was killed, both ways; FROM stays."""
    database, journal = both(folder)
    program.pipe(database, opening() + submit("alice", "Proofs", "We prove."))
    with program.begin(database) as child:
        for text in (upload("alice", 1, CONTENT), upload("alice", 1, CONTENT[::-1]), register("bob")):
            code, _ = ask(child, text)
            expect(code in (200, 201), f"answered {code}")
    expect(b"bob" in read(database + "-wal") and b"bob" not in read(database), "the log has nothing of its own")
    before = os.stat(database).st_ino
    expect_moved(program, database, journal)
    expect(os.stat(database).st_ino == before, "FROM is another file")
    kept = [row.b1 for row in rows_in(journal) if row.kind == 8]
    expect(kept == [CONTENT, CONTENT[::-1]], "the contents differ")
    back = os.path.join(folder, "back.store")
    expect_moved(program, journal, back)
    expect(databases.rows(back) == databases.rows(database), "the rows differ")


def none(program, folder):
    """A store without rows is moved too."""
    database, journal = both(folder)
    program.pipe(database, b"")
    expect_moved(program, database, journal)
    expect(read(journal) == EMPTY, "the journal isn't empty")
    other = os.path.join(folder, "other.store")
    expect_moved(program, journal, other)
    expect(program.pipe(other, register("alice"))[0][0][0] == 201, "it takes no command")


def owner(program, folder):
    """The new store is its old owner's."""
    if os.geteuid() != 0:
        return
    database, journal = both(folder)
    program.pipe(database, opening())
    os.chown(database, 4711, 4712)
    expect_moved(program, database, journal)
    expect((os.stat(journal).st_uid, os.stat(journal).st_gid) == (4711, 4712), f"{os.stat(journal)}")


# ---- what is refused


def changed(path, *texts):
    with databases.opened(path) as file:
        for text in texts:
            file.execute(text)


def written(path, content):
    with open(path, "wb") as file:
        file.write(content)


def names(program, folder):
    """Refused by name: files of one format, one that is missing or empty, one that is there, a folder that isn't."""
    database, journal = both(folder)
    program.pipe(database, opening())
    program.pipe(journal, opening())
    other, empty = os.path.join(folder, "other.cj"), os.path.join(folder, "empty.store")
    written(empty, b"")
    kept = read(journal)
    expect_refused(program, journal, other, "are of one format")
    expect_refused(program, os.path.join(folder, "none.store"), other, "none.store: there is no such file")
    expect_refused(program, folder, other, f"{folder}: there is no such file")
    expect_refused(program, empty, other, "empty.store: it is empty")
    expect_refused(program, database, journal, "one.cj: it is there already")
    expect_refused(program, database, os.path.join(folder, "no", "other.cj"), "no: there is no such folder")
    written(os.path.join(folder, "new.store-wal"), b"a log")
    expect_refused(program, journal, os.path.join(folder, "new.store"), "new.store-wal: it is there already")
    os.mkdir(other + ".moving")
    written(os.path.join(other + ".moving", "letter"), b"")
    expect_refused(program, database, other, "letter in it isn't a move's")
    expect(os.listdir(other + ".moving") == ["letter"], "somebody's file is gone")
    expect(read(journal) == kept, "TO was written")
    expect_refused(Program("/nowhere/confd"), database, os.path.join(folder, "x.cj"), "/nowhere/confd: no such")


def held(program, folder):
    """While confd has FROM open nothing is moved."""
    for source, to in (both(folder), both(folder)[::-1]):
        with program.begin(source) as child:
            expect(ask(child, request("GET", "/phase"))[0] == 200, "no answer")
            expect_refused(program, source, to, "another process has the file open")
        expect_moved(program, source, to)
        os.remove(source)


# What a database is made, and what is said of it.
TABLE = "papers_v3"
BAD_DATABASES = (
    (["DELETE FROM people_v3 WHERE place = 1"], "no row stands at place 1"),
    (["INSERT INTO papers_v3 SELECT * FROM people_v3 WHERE place = 1"], "two rows stand at place 1"),
    (["INSERT INTO papers_v3 SELECT * FROM people_v3 WHERE place = 2", "DELETE FROM people_v3 WHERE place = 2"],
     "the row at place 2 stands in another table than its kind's"),
    (["UPDATE people_v3 SET n1 = 9 WHERE place = 2"], "row 2, of kind 3, is bad or ends inside a command"),
    (["UPDATE people_v3 SET more = 1 WHERE place = 2"], "row 2, of kind 3, is bad or ends inside a command"),
    (["UPDATE people_v3 SET n1 = -1 WHERE place = 2"], "the row at place 2 has a value that no row has"),
    (["UPDATE meta SET version = 4"], "the store says another version than that of its tables"),
    (["CREATE TABLE notes (text)"], "the tables aren't those of version 3"),
    (["ALTER TABLE people_v3 RENAME TO people"], "the tables aren't those of version 3"),
)  # fmt: skip


def bad_databases(program, folder):
    """Refused by name, and not brought to another version: a database of other tables, of another version, with a
    place that no row or two have, with a bad row; what is none."""
    database, journal = both(folder)
    program.pipe(database, opening())
    whole = read(database)
    for texts, why in BAD_DATABASES:
        written(database, whole)
        changed(database, *texts)
        before = databases.contents(database)
        expect_refused(program, database, journal, why)
        expect(databases.contents(database) == before, f"{texts}: FROM has changed")
    for content in (b"no database, but a text of some length" * 200, whole[:5000], EMPTY):
        written(database, content)
        expect_refused(program, database, journal, "one.store: ")


def bad_journals(program, folder):
    """Refused by name: what is no journal, one that is cut, one with a bad row or of a kind that none has."""
    database, journal = both(folder)
    program.pipe(journal, opening())
    whole = read(journal)
    groups = groups_of(whole)
    rows = rows_of(whole)
    for content, why in (
        (b"no journal", "one.cj: the file is no journal"),
        (whole[:-1], "one.cj: the file is no journal"),
        (whole[:60], "one.cj: the file is no journal"),
        (whole[:9] + b"\xff" + whole[10:], "one.cj: the file is no journal"),
        (spelled([*groups, [rows[2]._replace(n1=9)]]), "one.cj: row 3, of kind 3, is bad"),
        (spelled([*groups, [rows[2]._replace(kind=77)]]), "one.cj: row 3, of kind 77, is bad"),
        (spelled([*groups, [rows[2]._replace(num=2**64 - 1)]]), "one.cj: row 3, of kind 3, is bad"),
        (spelled([*groups[:-1], [rows[2]._replace(more=1)]]), "one.cj: row 2, of kind 3, is bad"),
    ):
        written(journal, content)
        expect_refused(program, journal, database, why)
        expect(read(journal) == content, "FROM has changed")


def other_views(program, folder):
    """A confd that shows one user something else in the new store: nothing is moved, and she is named."""
    database, journal = both(folder)
    program.pipe(database, opening() + register("bob"))
    liar = os.path.join(folder, "liar")
    with open(liar, "w", encoding="utf-8") as file:
        file.write(f'#!/bin/sh\ncase "$*" in *made*bob) echo more;; esac\nexec {program.path} "$@"\n')
    os.chmod(liar, 0o755)
    expect_refused(Program(liar), database, journal, "confd doesn't show bob the same in both stores")
    expect_moved(program, database, journal)


# ---- what ends it


def full_disk(program, folder):
    """A disk that is full at some moment: nothing is left, and why is said."""
    database, journal = both(folder)

    def limit():
        signal.signal(signal.SIGXFSZ, signal.SIG_IGN)
        resource.setrlimit(resource.RLIMIT_FSIZE, (1_000_000, 1_000_000))

    told, _ = program.pipe(database, opening() + submit("alice", "Proofs") + upload("alice", 1, CONTENT))
    expect(told[-1][0] == 200, "the upload")
    expect_refused(program, database, journal, "File too large", preexec_fn=limit)
    expect_moved(program, database, journal)
    expect_refused(program, journal, os.path.join(folder, "two.store"), "disk", preexec_fn=limit)


def killed(program, folder):
    """Killed at any moment: TO isn't there, or whole; the next move takes away what was left. Ended by a signal it
    leaves nothing."""
    first = os.path.join(folder, "first.cj")
    program.run(["pipe", "--store", first], text_of(EVERY_ROUTE))
    due, journal = both(folder)
    began = time.monotonic()
    expect_moved(program, first, due)
    takes = time.monotonic() - began
    source, to = first, os.path.join(folder, "to.store")
    left = whole = 0
    for turn in range(KILLS):
        number = signal.SIGTERM if turn % 4 == 3 else signal.SIGKILL
        with begun(program, source, to, start_new_session=True) as child:
            time.sleep(takes * (turn + 1) / KILLS)
            # All of its processes at once, as when the machine stops.
            (os.killpg if number == signal.SIGKILL else os.kill)(child.pid, number)
            out, err = child.communicate(timeout=LONG)
        is_told = number == signal.SIGKILL or out or "ended by SIGTERM" in err or child.returncode == -number
        expect(is_told, f"ended by a signal: {child.returncode}, {err}")
        remains = os.path.exists(to + ".moving")
        expect(number == signal.SIGKILL or not remains, "ended by a signal it left its folder")
        left += remains
        if os.path.exists(to):
            whole += 1
            expect(databases.rows(to) == databases.rows(due), "what it left isn't whole")
            os.remove(to)
            expect(not os.path.exists(to + "-wal"), "it left a log")
        expect(read(first) == read(source), "FROM has changed")
    expect(left > 0, "no kill came in the middle")
    expect_moved(program, source, to)
    expect(databases.rows(to) == databases.rows(due), "the rows differ")


CHECKS = (
    every_route, contents, none, owner, names, held, bad_databases, bad_journals, other_views, full_disk, killed,
)  # fmt: skip

if __name__ == "__main__":
    run_all(*chosen(CHECKS, sys.argv[1:]))
