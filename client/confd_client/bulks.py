# SPDX-License-Identifier: Apache-2.0 OR MIT
"""Bulks: files of comma-separated values that assign, declare and tag, many at once (docs/API.md, section 8)."""

from __future__ import annotations

import csv
import io
import random
from collections.abc import Iterable, Iterator, Sequence
from dataclasses import dataclass, field

from confd_client.errors import Unexpected

HEADER = ("paper", "action", "user", "tag")
LARGEST_BULK = 512
"""The most rows of one bulk."""
ASSIGNS = {"primary": "primary", "secondary": "secondary", "pcreview": "pc"}
"""The actions that assign a reviewer, each with the kind of reviewer."""
ACTIONS = (*ASSIGNS, "clearreview", "conflict", "clearconflict", "tag", "cleartag")


@dataclass(frozen=True)
class Row:
    """One row of a bulk; `line` is where it stands in the file that it was read from, 0 where there is no file."""

    paper: str
    action: str
    user: str = ""
    tag: str = ""
    line: int = field(default=0, compare=False)


def bulk_text(rows: Iterable[Row]) -> bytes:
    """The file that has these rows (RFC 4180)."""
    text = io.StringIO()
    written = csv.writer(text, lineterminator="\n")
    written.writerow(HEADER)
    written.writerows((row.paper, row.action, row.user, row.tag) for row in rows)
    return text.getvalue().encode()


def plan_rows(content: bytes) -> tuple[Row, ...]:
    """The rows of a plan, as the server answers it. Raises `Unexpected` where it is none."""
    try:
        header, *rows = csv.reader(io.StringIO(content.decode(), newline=""))
        if tuple(header) != HEADER:
            raise ValueError
        return tuple(Row(paper, action, user, tag, place)
                     for place, (paper, action, user, tag) in enumerate(rows, start=2))
    except (ValueError, TypeError) as cause:
        raise Unexpected("an answer that is no plan") from cause


def shuffled(rows: Sequence[Row], chance: random.Random | None = None) -> list[Row]:
    """The same rows, with those of a paper together, and a paper's rows that assign in an order by chance.

    A paper's labels are given in the order of its rows, so an order by number would tell who registered before whom.
    Rows of different papers don't depend on one another. Of one paper only rows that assign and that no other row of
    the paper stands between change places, so that who is taken off and assigned again is so still.
    """
    chance = chance or random.SystemRandom()
    by_paper: dict[str, list[Row]] = {}
    for row in rows:
        by_paper.setdefault(row.paper, []).append(row)
    ordered: list[Row] = []
    for group in by_paper.values():
        run: list[Row] = []
        for row in group:
            if row.action not in ASSIGNS:
                chance.shuffle(run)
                ordered += [*run, row]
                run = []
            else:
                run.append(row)
        chance.shuffle(run)
        ordered += run
    return ordered


def pieces(rows: Sequence[Row], most: int = LARGEST_BULK) -> Iterator[list[Row]]:
    """The rows in their order, cut into pieces of at most so many; a paper's rows, where they stand together and aren't
    more than that, are in one piece."""
    piece: list[Row] = []
    start = 0
    while start < len(rows):
        end = start
        while end < len(rows) and rows[end].paper == rows[start].paper:
            end += 1
        group = list(rows[start:end])
        start = end
        if piece and len(piece) + len(group) > most:
            yield piece
            piece = []
        piece += group
        while len(piece) > most:
            yield piece[:most]
            piece = piece[most:]
    if piece:
        yield piece
