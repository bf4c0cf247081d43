# SPDX-License-Identifier: Apache-2.0 OR MIT
"""Posts rows of bulks in pieces, so that each is done once however often the program or the server is broken off.

Before the first piece is sent, all of them are written beside the rows' file, as FILE.sent, each with its
Command-Number. Called again, the same goes on from there: a piece that was accepted, but whose answer was lost, is
answered what it was then. Once all is done the file is removed.
"""

from __future__ import annotations

import contextlib
import hashlib
import json
import os
import re
from collections.abc import Callable, Sequence
from dataclasses import dataclass
from pathlib import Path

from confd_client.bulks import ACTIONS, HEADER, Row, bulk_text, pieces, shuffled
from confd_client.cli.app import App, Partly
from confd_client.cli.status import count_of
from confd_client.credentials import NAME
from confd_client.errors import BadFile, BulkRow, meaning_of
from confd_client.tables import Line, read_table, write_table
from confd_client.transport import fresh_number

TAG = re.compile(r"~{0,2}[a-z0-9-]{1,32}")
PAPER = re.compile(r"[1-9][0-9]{0,3}")


class RowRefused(Partly):
    """The server refused a row of a file: the row at `line`, for `rule`. `done` is how many rows were done before."""

    def __init__(self, path: Path, line: int, rule: str, done: int, rest: str) -> None:
        super().__init__(f"{path}, line {line}: {rule}: {meaning_of(rule)}; {count_of(done, 'row')} done{rest}")
        self.path, self.line, self.rule, self.done = path, line, rule, done

    def details(self) -> dict[str, object]:
        """With the file, the line, the rule, and how many rows were done."""
        return super().details() | {"path": str(self.path), "line": self.line, "rule": self.rule, "done": self.done}


@dataclass
class Piece:
    """Rows that are sent at once, the number that they are sent by, and whether they were done."""

    number: int
    rows: list[Row]
    done: bool = False


def read_rows(path: Path) -> list[Row]:
    """The rows of a file as `plan` writes it. Raises `BadFile` for a row that no server would take."""
    lines = read_table(path, HEADER[:2], HEADER[2:])
    return [checked_row(line, Row(line["paper"], line.one_of("action", ACTIONS), line["user"], line["tag"],
                                  line.number)) for line in lines]


def checked_row(line: Line, row: Row) -> Row:
    """The row of a line. Raises `BadFile` where no server would take it."""
    if not PAPER.fullmatch(row.paper):
        raise line.wrong(f"paper: {row.paper!r} is no number of a paper")
    if row.action in ("tag", "cleartag"):
        if not TAG.fullmatch(row.tag):
            raise line.wrong(f"tag: {row.tag!r} is no tag")
    elif not NAME.fullmatch(row.user):
        raise line.wrong(f"user: {row.user!r} is no name of a user")
    return row


@dataclass(frozen=True)
class Columns:
    """How a command's file has its rows: the names of its columns, and the values of a row in them."""

    names: Sequence[str]
    values: Callable[[Row], Sequence[str]]


OF_ASSIGN = Columns(HEADER, lambda row: (row.paper, row.action, row.user, row.tag))


class Posting:
    """What is to be posted of a file, kept beside it until all is done; of standard input nothing is kept.

    `columns` are the file's own, in which FILE.rest is written. `later` are rows that the caller sends by itself once
    these are done.
    """

    def __init__(self, app: App, path: Path, rows: Sequence[Row], columns: Columns = OF_ASSIGN,
                 later: Sequence[Row] = ()) -> None:
        self.app, self.path, self.rows, self.columns, self.later = app, path, rows, columns, later
        self.kept = None if str(path) == "-" else path.with_name(path.name + ".sent")
        credentials = app.credentials()
        self.whose = f"{credentials.name if credentials else ''} {app.url}"
        self.digest = hashlib.sha256(bulk_text(rows)).hexdigest()
        self.pieces = self._found() or [Piece(fresh_number(), piece) for piece in pieces(shuffled(rows))]

    def post(self) -> int:
        """Posts all pieces that aren't done, and tells how many there are in all.

        Raises what `Client.bulk` does; for a row that is refused `RowRefused`, with the rows that weren't done in
        FILE.rest. After any other error the same call goes on.
        """
        self._keep()
        for piece in self.app.track([piece for piece in self.pieces if not piece.done], "Posting"):
            try:
                self.app.client.bulk(piece.rows, number=piece.number)
            except BulkRow as refused:
                raise self._refused(piece, refused) from refused
            piece.done = True
            self._keep()
        if self.kept is not None:
            self.kept.unlink(missing_ok=True)
        return len(self.pieces)

    def _found(self) -> list[Piece] | None:
        """The pieces that an earlier call kept. Raises `BadFile` where they are of other rows, or of somebody else."""
        if self.kept is None or not self.kept.exists():
            return None
        try:
            told = json.loads(self.kept.read_text(encoding="utf-8"))
            if told["digest"] != self.digest or told["whose"] != self.whose:
                raise BadFile(self.kept, f"is what is left to do of other rows than those of {self.path} now, or for "
                                         "another user or server: finish that, or remove it")
            return [Piece(each["number"], [Row(*row) for row in each["rows"]], each["done"])
                    for each in told["pieces"]]
        except (OSError, ValueError, KeyError, TypeError) as cause:
            raise BadFile(self.kept, "can't be read: see what was done, and remove it") from cause

    def _keep(self) -> None:
        """Writes what is done and what isn't, for the user alone, in place of what was kept before."""
        if self.kept is None:
            return
        told = {"whose": self.whose, "digest": self.digest, "pieces": [
            {"number": piece.number, "done": piece.done,
             "rows": [[row.paper, row.action, row.user, row.tag, row.line] for row in piece.rows]}
            for piece in self.pieces]}
        new = self.kept.with_name(self.kept.name + ".new")
        try:
            with contextlib.suppress(FileNotFoundError):
                new.unlink()
            with os.fdopen(os.open(new, os.O_WRONLY | os.O_CREAT | os.O_EXCL, 0o600), "w", encoding="utf-8") as file:
                json.dump(told, file)
                file.flush()
                os.fsync(file.fileno())
            new.replace(self.kept)
        except OSError as cause:
            raise BadFile(self.kept, cause.strerror or "can't be written") from cause

    def _refused(self, piece: Piece, refused: BulkRow) -> RowRefused:
        """The error for a row that was refused; what wasn't done stands in a file of its own then."""
        row = piece.rows[(refused.row or 1) - 1]
        undone = [row for each in self.pieces if not each.done for row in each.rows]
        done = len(self.rows) - len(undone)
        undone = sorted([*undone, *self.later], key=lambda row: row.line)
        told = ""
        if self.kept is not None:
            rest = self.path.with_name(self.path.name + ".rest")
            write_table(rest, self.columns.names, [self.columns.values(each) for each in undone])
            self.kept.unlink(missing_ok=True)
            told = f", {len(undone)} not; those are in {rest}: mend that file and send it"
        return RowRefused(self.path, row.line, refused.rule or "", done, told)
