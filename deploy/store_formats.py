# SPDX-License-Identifier: Apache-2.0 OR MIT
"""A store's two formats, journals and databases, row by row: written from docs/STORE.md and from nothing else.

No script of its own: move_store.py uses it, and so do checks/lib/journal_file.py and what builds on that.
"""

import collections
import contextlib
import fcntl
import heapq
import io
import os
import pathlib
import sqlite3
import struct

MAGIC = b"CONFDJ01"
CLOSED, OPEN = b"\0", b"\1"
NUMBERS = "kind maker more at num n1 n2 n3 n4 n5".split()
TEXTS = "mark b1 b2".split()
Row = collections.namedtuple("Row", NUMBERS + TEXTS)
# A journal of no group.
EMPTY = MAGIC + CLOSED
NUMBERS_OF_A_ROW = struct.Struct(f">{len(NUMBERS)}Q")
# The kinds of a database's tables.
KINDS = {
    "people_v3": {1, 2, 3, 4, 18, 19},
    "papers_v3": {5, 6, 7, 8, 9},
    "ties_v3": {10, 11, 12, 13, 20, 21},
    "talk_v3": {14, 15, 16, 17, 22},
}
TABLE_OF = {kind: table for table, kinds in KINDS.items() for kind in kinds}
VERSION = 3
COLUMNS = "kind, maker, more, at, num, mark, n1, n2, n3, n4, n5, b1, b2"
IN_COLUMNS = [Row._fields.index(name) for name in COLUMNS.split(", ")]
ROW_OF_COLUMNS = [COLUMNS.split(", ").index(name) for name in Row._fields]


class NoStore(Exception):
    """The file is no store of this version, and why."""


class NoJournal(NoStore):
    """The bytes are no journal."""


def is_journal(path):
    """Whether a store of this name is a journal."""
    return os.fspath(path).endswith(".cj")


# ---- journals


def number(n):
    return n.to_bytes(8, "big")


def field(content):
    return number(len(content)) + content


def spelled_row(row):
    texts = row[len(NUMBERS) :]
    return NUMBERS_OF_A_ROW.pack(*row[: len(NUMBERS)]) + b"".join(field(text) for text in texts)


def frame(rows):
    """What is appended of a group: an open gate, the payload's length, and the payload."""
    return OPEN + field(b"".join(spelled_row(row) for row in rows))


def spelled(groups):
    """The file of these groups."""
    return MAGIC + b"".join(frame(rows) for rows in groups) + CLOSED


class Bytes:
    """A file's next bytes, so many at most, read from left to right."""

    def __init__(self, file, length):
        self.file, self.left = file, length

    def take(self, n):
        content = self.file.read(n) if n <= self.left else b""
        if len(content) != n:
            raise NoJournal("the file is no journal")
        self.left -= n
        return content

    def number(self):
        return int.from_bytes(self.take(8), "big")

    def row(self):
        numbers = NUMBERS_OF_A_ROW.unpack(self.take(NUMBERS_OF_A_ROW.size))
        return Row(*numbers, *(self.take(self.number()) for _ in TEXTS))


def groups_in(file):
    """The groups of an open file one by one, each a list of rows; it isn't read past the closed gate."""
    whole = Bytes(file, file.seek(0, os.SEEK_END) - file.seek(0))
    if whole.take(len(MAGIC)) != MAGIC:
        raise NoJournal("the file is no journal")
    while whole.take(1) == OPEN:
        payload = io.BytesIO(whole.take(whole.number()))
        rows = Bytes(payload, len(payload.getbuffer()))
        group = []
        while rows.left:
            group.append(rows.row())
        yield group


def groups_of(content):
    """The groups of a file, each a list of rows; bytes after the closed gate aren't looked at."""
    return list(groups_in(io.BytesIO(content)))


def rows_of(content):
    """The rows of a file, in order."""
    return [row for group in groups_of(content) for row in group]


def rows_in(path):
    with open(path, "rb") as file:
        return rows_of(file.read())


@contextlib.contextmanager
def held_journal(path):
    """The rows of a journal that no other process has open, as a function that reads them from the first on."""
    with open(path, "rb") as file:
        try:
            fcntl.flock(file, fcntl.LOCK_EX | fcntl.LOCK_NB)
        except BlockingIOError:
            raise NoStore("another process has the file open") from None
        yield lambda: (row for group in groups_in(file) for row in group)


def write_journal(path, rows):
    """Writes a journal of these rows to a file that isn't there yet, and syncs it."""
    with open(path, "xb") as file:
        file.write(MAGIC)
        for group in groups_by_more(rows):
            file.write(frame(group))
        file.write(CLOSED)
        file.flush()
        os.fsync(file.fileno())


def groups_by_more(rows):
    """The rows of each command: each row but its last says that more follow."""
    group = []
    for row in rows:
        group.append(row)
        if not row.more:
            yield group
            group = []
    if group:
        raise NoStore("the last row says that another one of its command follows")


# ---- databases


def connected(path):
    """A database that is there; its rows are changed by nothing but COMMIT."""
    place = pathlib.Path(path).absolute().as_uri() + "?mode=rw"
    return contextlib.closing(sqlite3.connect(place, uri=True, timeout=0, isolation_level=None))


def texts_of_tables(file):
    return list(file.execute("SELECT sql FROM sqlite_schema ORDER BY name"))


@contextlib.contextmanager
def held_database(path, fresh):
    """The rows of a database that no other process has open, as a function that reads them from the first on.

    `fresh` is a store without rows that confd made: both have the same tables.
    """
    with connected(fresh) as file:
        due = texts_of_tables(file)
    try:
        with connected(path) as file:
            file.execute("BEGIN EXCLUSIVE")
            if texts_of_tables(file) != due:
                raise NoStore(f"the tables aren't those of version {VERSION}; confd brings an older store to it")
            if list(file.execute("SELECT version FROM meta")) != [(VERSION,)]:
                raise NoStore("the store says another version than that of its tables")
            with contextlib.ExitStack() as reads:
                yield lambda: reads.enter_context(contextlib.closing(rows_by_place(file)))
    except sqlite3.OperationalError as error:
        if "locked" in str(error):
            raise NoStore("another process has the file open") from None
        raise NoStore(str(error)) from None
    except sqlite3.DatabaseError as error:
        raise NoStore(str(error)) from None


def rows_by_place(file):
    """The rows of the four tables by place, which is 0, 1, 2 and so on."""
    tables = [file.execute(f"SELECT place, '{table}', {COLUMNS} FROM {table} ORDER BY place") for table in KINDS]
    due = 0
    for place, table, *columns in heapq.merge(*tables):
        if place != due:
            raise NoStore(f"no row stands at place {due}" if place > due else f"two rows stand at place {place}")
        row = Row(*(columns[at] for at in ROW_OF_COLUMNS))
        if row.kind not in KINDS[table]:
            raise NoStore(f"the row at place {place} stands in another table than its kind's")
        yield row
        due += 1


def write_database(path, rows):
    """Adds these rows to a store without rows that confd made, all or none, and syncs it."""
    marks = ", ".join("?" * (len(Row._fields) + 1))
    with connected(path) as file:
        file.execute("PRAGMA synchronous = FULL")
        file.execute("BEGIN")
        for place, row in enumerate(rows):
            if row.kind not in TABLE_OF:
                raise NoStore(f"row {place} is of kind {row.kind}, which no table has")
            columns = (row[at] for at in IN_COLUMNS)
            file.execute(f"INSERT INTO {TABLE_OF[row.kind]} (place, {COLUMNS}) VALUES ({marks})", (place, *columns))
        file.execute("COMMIT")
