# SPDX-License-Identifier: Apache-2.0 OR MIT
"""A database that `confd` keeps, as SQLite's own library reads it."""

import contextlib
import sqlite3

# The version of the stores, and its tables.
VERSION = 3
TABLES = PEOPLE, PAPERS, TIES, TALK = "people_v3", "papers_v3", "ties_v3", "talk_v3"
# Why a file is refused that is no store of a version.
OTHER_TABLES = "the tables are not those of a store that this confd reads"
OTHER_VERSION = "the store says another version than that of its tables"


@contextlib.contextmanager
def opened(store, **more):
    """The file as SQLite's own library opens it; what was changed is in it, and it is let go, at the end."""
    with contextlib.closing(sqlite3.connect(store, **more)) as file, file:
        yield file


def rows(store):
    """Every row of the four tables, by place, without its moment and its command's number."""
    with opened(store) as file:
        found = [
            row
            for table in TABLES
            for row in file.execute(f"SELECT place, kind, maker, more, n1, b1, b2 FROM {table}")
        ]
    return sorted(found)


def contents(store):
    """All that SQLite's own library finds in the file."""
    with opened(store) as file:
        return list(file.iterdump())
