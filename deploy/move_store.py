#!/usr/bin/env python3
# SPDX-License-Identifier: Apache-2.0 OR MIT
"""Makes a journal of a database, or a database of a journal: the same history, in the other of confd's two formats.

    deploy/move_store.py [--confd PROGRAM] FROM TO

One of FROM and TO ends in `.cj`, and no confd runs on FROM, which is left unchanged; a log beside a database is taken
into it. TO isn't there yet. It gets FROM's owner, and only that user can read it. PROGRAM is `confd`, found as a shell
finds it if it isn't named. TO is made whole or not at all: only if it has the rows of FROM, and if `confd view` prints
the same of both for each user. So the move costs two openings a user. Until then everything is in a folder TO.moving
beside it, which a kill may leave and the next move to TO removes. TO takes as much room on the disk as FROM, a database
twice that meanwhile.

The formats are those of docs/STORE.md. Needs Python 3 with SQLite 3.37 or later, and no package. Prints one line, and
ends with status 0; if anything fails, with status 1 and what failed on standard error, and 2 if the words are wrong.
"""

import argparse
import concurrent.futures
import contextlib
import fcntl
import itertools
import os
import shutil
import signal
import sqlite3
import subprocess
import sys

from store_formats import NoStore, held_database, held_journal, is_journal, write_database, write_journal

# A name that nobody registers, since a name has no such character, and what confd ends with if told of it.
NOBODY, NO_SUCH_NAME = "?", 8
REGISTERED = 1
# What a move makes in its folder, a database with files beside it.
FRESH, MADE_JOURNAL, MADE_DATABASE = MADE = "fresh.store", "made.cj", "made.store"
ENDINGS = {signal.SIGINT, signal.SIGTERM, signal.SIGHUP}
# After how many rows a signal is asked for.
ROWS = 1_000


class Refused(Exception):
    """The move can't be made, and why."""


class Confd:
    """The program, of which stores are asked."""

    def __init__(self, program):
        self.path = shutil.which(program)
        if self.path is None:
            raise Refused(f"{program}: no such program; name it by --confd")

    def view(self, store, name):
        """The status and the output of a view, and the reason that standard error has for a status that isn't 0."""
        words = [self.path, "view", "--store", store, f"--user={name}"]
        done = subprocess.run(words, stdin=subprocess.DEVNULL, capture_output=True, check=False)
        return done.returncode, done.stdout, done.stderr.decode(errors="replace").strip()

    def expect_good(self, store):
        """Refuses a store that confd doesn't open."""
        status, _, reason = self.view(store, NOBODY)
        if status != NO_SUCH_NAME:
            raise Refused(reason.removeprefix("confd: ") or f"{store}: confd view ended with status {status}")


# ---- where the new store is made


@contextlib.contextmanager
def room(path):
    """A folder of this process's own, which is gone at the end."""
    with contextlib.suppress(FileExistsError):
        os.mkdir(path, 0o700)
    folder = os.open(path, os.O_RDONLY | os.O_DIRECTORY)
    try:
        fcntl.flock(folder, fcntl.LOCK_EX | fcntl.LOCK_NB)
        remove_made(path)
    except BlockingIOError:
        os.close(folder)
        raise Refused(f"{path}: another move is at work there") from None
    try:
        yield path
    finally:
        remove_made(path)
        os.rmdir(path)
        os.close(folder)


def remove_made(path):
    """Empties the folder of what a move makes; a folder with anything else is somebody's, and stays."""
    names = os.listdir(path)
    others = [name for name in names if name.split("-")[0] not in MADE]
    if others:
        raise Refused(f"{path}: {others[0]} in it isn't a move's")
    for name in names:
        os.remove(os.path.join(path, name))


def synced_folder(path):
    folder = os.open(path, os.O_RDONLY | os.O_DIRECTORY)
    try:
        os.fsync(folder)
    finally:
        os.close(folder)


def placed(made, source, to):
    """Gives the new store its name, which nothing has yet, and its owner, for good."""
    told = os.stat(source)
    os.chmod(made, 0o600)
    if (told.st_uid, told.st_gid) != (os.geteuid(), os.getegid()):
        os.chown(made, told.st_uid, told.st_gid)
    with open(made, "rb") as file:
        os.fsync(file.fileno())
    try:
        os.link(made, to)
    except FileExistsError:
        raise Refused(f"{to}: it is there already") from None
    synced_folder(os.path.dirname(to))


# ---- the move


def held(path, fresh):
    return held_journal(path) if is_journal(path) else held_database(path, fresh)


def expect_names(source, to):
    """Refuses names of files with which no move begins."""
    if is_journal(source) == is_journal(to):
        raise Refused(f"{source} and {to} are of one format: one has to end in .cj, and the other not")
    if not os.path.isfile(source):
        raise Refused(f"{source}: there is no such file")
    if os.path.getsize(source) == 0 and not os.path.exists(source + "-wal"):
        raise Refused(f"{source}: it is empty")
    for name in (to, to + "-wal"):
        if os.path.lexists(name):
            raise Refused(f"{name}: it is there already")
    if not os.path.isdir(os.path.dirname(to)):
        raise Refused(f"{os.path.dirname(to)}: there is no such folder")


def written(source, made, fresh):
    """Makes the new store; gives its users' names and how many rows it has."""
    names, count = [], 0

    def noted(rows):
        nonlocal count
        for row in rows:
            if count % ROWS == 0:
                go_on()
            count += 1
            if row.kind == REGISTERED:
                names.append(row.b1.decode())
            yield row

    with held(source, fresh) as rows:
        (write_journal if is_journal(made) else write_database)(made, noted(rows()))
    return names, count


def expect_same_views(confd, source, made, names):
    """Refuses stores of which some user, or who is none, is shown something else."""
    with concurrent.futures.ThreadPoolExecutor(2) as pool:
        for name in [*names, NOBODY]:
            go_on()
            first, second = pool.map(confd.view, (source, made), (name, name))
            if first[:2] != second[:2] or first[0] != (NO_SUCH_NAME if name == NOBODY else 0):
                said = " ".join(reason for _, _, reason in (first, second) if reason)
                raise Refused(f"{source}: confd doesn't show {name} the same in both stores. {said}")


def move(confd, source, to):
    expect_names(source, to)
    with room(to + ".moving") as folder:
        fresh = os.path.join(folder, FRESH)
        made = os.path.join(folder, MADE_JOURNAL if is_journal(to) else MADE_DATABASE)
        confd.expect_good(fresh)
        if not is_journal(to):
            confd.expect_good(made)
        # Its form first, since confd brings a store of an older version to this one; then its rows.
        with held(source, fresh):
            pass
        confd.expect_good(source)
        names, count = written(source, made, fresh)
        expect_same_views(confd, source, made, names)
        with held(source, fresh) as rows:
            with held(made, fresh) as others:
                if any(one != other for one, other in itertools.zip_longest(rows(), others())):
                    raise Refused(f"{source}: it has changed meanwhile")
            # What last closes a database takes its log into it.
            if os.path.exists(made + "-wal"):
                raise Refused(f"{made}: its log is still there")
            placed(made, source, to)
    return f"{to}: {count} rows and {len(names)} users, as in {source}"


def go_on():
    """A signal ends the move as a failure does, so that nothing is left: it waits until it is asked for."""
    came = signal.sigpending() & ENDINGS
    if came:
        raise Refused(f"ended by {came.pop().name}")


def main():
    words = argparse.ArgumentParser(
        usage="move_store.py [--confd PROGRAM] FROM TO",
        description="Makes a journal of a database, or a database of a journal. Stop confd before.",
    )
    words.add_argument("--confd", default="confd", metavar="PROGRAM", help="confd, if it isn't on the path")
    words.add_argument("source", metavar="FROM", help="the store that there is, left unchanged")
    words.add_argument("to", metavar="TO", help="the new store; a journal's name ends in .cj")
    told = words.parse_args()
    source, to = os.path.abspath(told.source), os.path.abspath(told.to)
    signal.pthread_sigmask(signal.SIG_BLOCK, ENDINGS)
    try:
        print(move(Confd(told.confd), source, to))
    except NoStore as error:
        sys.exit(f"move_store: {source}: {error}")
    except (Refused, OSError, sqlite3.Error, OverflowError) as error:
        sys.exit(f"move_store: {error}")


if __name__ == "__main__":
    main()
