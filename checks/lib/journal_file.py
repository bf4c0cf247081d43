# SPDX-License-Identifier: Apache-2.0 OR MIT
"""Reads and writes a journal's file (deploy/store_formats.py), and judges its rows on the small model: written from
docs/STORE.md and from nothing else.
"""

import re
import sys

from .model import PHASES, Conference
from .places import TOP

sys.path.append(str(TOP / "deploy"))
from store_formats import (  # noqa: E402
    EMPTY, NUMBERS, OPEN, TEXTS, NoJournal, Row, connected, field, frame, groups_by_more, groups_of, rows_by_place,
    rows_in, rows_of, spelled,
)  # fmt: skip

__all__ = [
    "EMPTY", "LAST_MOMENT", "NUMBERS", "OPEN", "TEXTS", "Bad", "Judged", "NoJournal", "Row", "connected", "field",
    "frame", "groups_by_more", "groups_of", "rows_by_place", "rows_in", "rows_of", "spelled",
]  # fmt: skip

# 9999-12-31T23:59:59Z, behind which no row has a moment; the last number of a command, and the last of users and
# papers.
LAST_MOMENT, LAST_NUMBER, LAST_USER = 253_402_300_799, 10**18 - 1, 9_999
NAME = re.compile(rb"[a-z0-9-]{1,32}")
MODES = ["open", "blind", "anonymous"]
# The phases by their numbers in rows, of which the response has the last.
NUMBERED = [phase for phase in PHASES if phase != "response"] + ["response"]
ROLES = {1: "member", 2: "chair"}
# The most authors of a paper beside the one who submits it.
COAUTHORS = 19


# ---- the rows


class Bad(Exception):
    """No history has these rows; the number of the first that is bad."""


def is_person(n):
    return 1 <= n <= LAST_USER


def is_stamped(row):
    """Whether the row's maker, moment, number and mark may be those of a command."""
    is_numbered = 1 <= row.num <= LAST_NUMBER and len(row.mark) == 32
    return is_person(row.maker) and row.at <= LAST_MOMENT and (is_numbered or (row.num, row.mark) == (0, b""))


def uses(row, *names):
    """Whether the row has nothing in a field but these."""
    blank = {name: 0 for name in ("n1", "n2", "n3", "n4", "n5")} | {"b1": b"", "b2": b""}
    return all(getattr(row, name) == empty for name, empty in blank.items() if name not in names)


def is_title(text):
    try:
        return 1 <= len(text) <= 200 and all(ord(letter) >= 32 and ord(letter) != 127 for letter in text.decode())
    except UnicodeDecodeError:
        return False


class Judged:
    """The model of the history that rows spell, each of them judged by it;
    kinds of a committee at work are no entry here."""

    def __init__(self, rows):
        self.rows, self.model, self.used, self.digests = rows, Conference(), set(), {}
        at = 0
        while at < len(rows):
            at = self.group_from(at)

    def group_from(self, at):
        """Where the group ends that begins at this row."""
        row = self.rows[at]
        if not is_stamped(row) or row.more > 1 or (row.num and (row.maker, row.num) in self.used):
            raise Bad(at)
        group = {1: self.registered, 5: self.submitted}.get(row.kind, self.single)(at)
        if row.num:
            self.used.add((row.maker, row.num))
        return at + group

    def follows(self, at):
        """The row behind this one, of the same command, which says that it goes on."""
        if at + 1 == len(self.rows):
            raise Bad(at)
        row, first = self.rows[at + 1], self.rows[at]
        if (row.maker, row.at, row.num, row.mark) != (first.maker, first.at, first.num, first.mark) or row.more > 1:
            raise Bad(at + 1)
        return row

    def ask(self, at, rows, method, path, body):
        """Has the model judge the command that these rows are to be of."""
        maker, before = self.rows[at].maker, len(self.model.history)
        users = dict(self.model.users())
        self.model.now = self.rows[at].at
        who = users.get(maker, "-")
        code, _ = self.model.ask(who, method, path, body)
        if code not in (200, 201) or [entry[0] for entry in self.model.history[before:]] != [maker] * len(rows):
            raise Bad(at)
        for place in range(before, len(self.model.history)):
            self.model.moments[place] = self.rows[at].at
            if self.rows[at].num:
                self.model.numbers[place] = self.rows[at].num
        return [entry[1:] for entry in self.model.history[before:]]

    def registered(self, at):
        row, users = self.rows[at], len(self.model.users())
        if not uses(row, "n1", "b1", "b2") or not NAME.fullmatch(row.b1) or len(row.b2) != 32:
            raise Bad(at)
        if row.num or row.n1 != users + 1 or row.maker != row.n1 or row.more != (users == 0):
            raise Bad(at)
        if self.model.number_of(row.b1.decode()):
            raise Bad(at)
        group = [row]
        if row.more:
            group.append(self.follows(at))
            if not uses(group[1], "n1", "n2") or group[1][:3] != (2, 1, 0) or (group[1].n1, group[1].n2) != (1, 2):
                raise Bad(at + 1)
        self.ask(at, group, "POST", "/register", {"name": row.b1.decode()})
        self.digests[row.b1.decode()] = row.b2.hex()
        return len(group)

    def submitted(self, at):
        row, names = self.rows[at], dict(self.model.users())
        if not uses(row, "n1", "b1", "b2") or not is_title(row.b1) or row.n1 != len(self.model.papers()) + 1:
            raise Bad(at)
        authors, group, free = [], [row], set(names) - {row.maker}
        body = {"title": row.b1.decode(), "abstract": row.b2.decode(), "authors": authors}
        self.ask(at, group, "POST", "/papers", body)
        if row.more and not free:
            raise Bad(at)
        # The model is asked again, with all authors, once they are known.
        del self.model.history[-1:]
        while group[-1].more:
            place = at + len(group)
            other = self.follows(place - 1)
            if other.kind != 6 or not uses(other, "n1", "n2") or other.n1 != row.n1 or other.n2 not in free:
                raise Bad(place)
            free.discard(other.n2)
            authors.append(names[other.n2])
            group.append(other)
            if other.more and (not free or len(authors) == COAUTHORS):
                raise Bad(place)
        self.ask(at, group, "POST", "/papers", body)
        return len(group)

    def single(self, at):
        """A command that adds one entry."""
        row, names = self.rows[at], dict(self.model.users())
        told = self.command_of(row, names)
        if told is None or row.more:
            raise Bad(at)
        self.ask(at, [row], *told)
        return 1

    @staticmethod
    def command_of(row, names):
        """The request that adds this row; none where none does, or where it is about papers."""
        if row.kind == 2 and uses(row, "n1", "n2") and row.n1 in names and row.n2 in ROLES:
            return "POST", "/members", {"name": names[row.n1], "role": ROLES[row.n2]}
        if row.kind == 3 and uses(row, "n1") and row.n1 < len(NUMBERED):
            return "POST", "/phase", {"phase": NUMBERED[row.n1]}
        if row.kind == 4 and uses(row, "n1") and row.n1 < len(MODES):
            return "POST", "/mode", {"mode": MODES[row.n1]}
        if row.kind == 18 and uses(row, "n1", "n2") and row.n1 in (1, 2, 3, 4, 7) and row.n2 == 0:
            return "POST", "/deadlines", {"phase": NUMBERED[row.n1], "until": None}
        if row.kind == 19 and uses(row, "n1") and row.n1 in names:
            return "DELETE", f"/members/{names[row.n1]}", None
        return None
