# SPDX-License-Identifier: Apache-2.0 OR MIT
"""All that a caller is shown of a conference, and the files that keep it.

What the server refuses is left out and noted under its error's name: an export shows its caller what the server's
answers show them, at the moments at which they were asked.
"""

from __future__ import annotations

import csv
import datetime
import io
import json
import pathlib
from collections.abc import Callable, Iterable, Sequence
from dataclasses import dataclass, field, fields
from typing import TypeVar

from confd_client import files
from confd_client.answers import (
    AcceptedPaper, Account, BidOf, Comment, Conference, Deadline, DecisionLine, LoadLine, Me, Page, PaperLine, Review,
    Reviewer, Role, ScoreLine, as_json)
from confd_client.client import Client
from confd_client.errors import Conflict, NoContent, NoResponse, NotAuthor, NotChair, NotMember, WrongPhase

T = TypeVar("T")

NOT_SHOWN = (Conflict, NoContent, NoResponse, NotAuthor, NotChair, NotMember, WrongPhase)
"""Refusals that only say that the caller isn't shown what was asked for, or not yet, or that it isn't there."""
Track = Callable[[Sequence[int]], Iterable[int]]
"""Hands out the papers' numbers, one after another, as a progress bar does."""


@dataclass(frozen=True)
class Paper:
    """One paper as the caller is shown it. What wasn't told is None, and `refused` has the error by what was asked."""

    page: Page
    reviews: tuple[Review, ...] | None = None
    response: str | None = None
    comments: tuple[Comment, ...] | None = None
    letter: str | None = None
    contents: tuple[str, ...] = ()
    refused: dict[str, str] = field(default_factory=dict)


@dataclass(frozen=True)
class Export:
    """A conference as the caller is shown it, read between two moments."""

    begun: datetime.datetime
    ended: datetime.datetime
    me: Me
    conference: Conference
    accounts: tuple[Account, ...]
    deadlines: tuple[Deadline, ...]
    accepted: tuple[AcceptedPaper, ...]
    papers: tuple[Paper, ...]
    reports: Reports


@dataclass(frozen=True)
class Reports:
    """The reports; None where the caller isn't shown one."""

    papers: tuple[PaperLine, ...] | None
    scores: tuple[ScoreLine, ...] | None
    load: tuple[LoadLine, ...] | None
    decisions: tuple[DecisionLine, ...] | None


def papers_of(me: Me, conference: Conference, accepted: Iterable[AcceptedPaper]) -> list[int]:
    """The numbers of the papers whose pages the caller is told: to the committee all, to others those of their own."""
    if me.role is not Role.ACCOUNT:
        return list(range(1, conference.papers + 1))
    return sorted({*me.papers, *me.invited, *me.assigned, *(each.paper for each in accepted)})


def asked(ask: Callable[[], T], what: str, refused: dict[str, str]) -> T | None:
    """What an answer tells, or None where the caller isn't shown it: the error's name is then in `refused`."""
    try:
        return ask()
    except NOT_SHOWN as refusal:
        refused[what] = refusal.name
        return None


def _contents(client: Client, page: Page, folder: pathlib.Path) -> tuple[str, ...]:
    """Writes each version that the caller may read, and names the files, from `folder` on."""
    found = []
    for version in page.versions or ():
        content = asked(lambda v=version: client.content_of_version(page.paper, v), "content", {})  # type: ignore[misc]
        if content is not None:
            name = f"contents/paper-{page.paper}-v{version}{files.suffix_of(content)}"
            files.create(folder / name, content)
            found.append(name)
    return tuple(found)


def _paper(client: Client, me: Me, number: int, folder: pathlib.Path) -> Paper | None:
    refused: dict[str, str] = {}
    page = asked(lambda: client.page(number), "page", refused)
    if page is None:
        return None
    letter = asked(lambda: client.letter(number), "letter", refused) if number in me.papers else None
    return Paper(
        page,
        asked(lambda: client.reviews(number), "reviews", refused),
        asked(lambda: client.response(number), "response", refused),
        asked(lambda: client.comments(number), "comments", refused),
        letter,
        _contents(client, page, folder),
        refused,
    )


def collect(client: Client, folder: pathlib.Path, track: Track) -> Export:
    """Asks for all that the caller is shown, and writes the contents into `folder` as they come.

    Some five requests a paper. Raises what the requests raise, but for refusals that say that something isn't shown.
    """
    begun = _now()
    me, conference, accepted = client.me(), client.phase(), client.accepted()
    papers = [_paper(client, me, number, folder) for number in track(papers_of(me, conference, accepted))]
    refused: dict[str, str] = {}
    reports = Reports(
        asked(client.papers_report, "papers", refused), asked(client.scores_report, "scores", refused),
        asked(client.load_report, "load", refused), asked(client.decisions_report, "decisions", refused))
    return Export(begun, _now(), me, conference, client.accounts(), client.deadlines(), accepted,
                  tuple(paper for paper in papers if paper is not None), reports)


def _now() -> datetime.datetime:
    return datetime.datetime.now(datetime.UTC).replace(microsecond=0)


# ---- files


def safe_cell(value: object) -> object:
    """A value as a cell of a spreadsheet: a text that one would take for a formula gets an apostrophe in front.

    Authors write titles and texts, and chairs open them (OWASP, "CSV Injection"). Numbers stay; conference.json has
    each text as it is.
    """
    if isinstance(value, str) and value.startswith(("=", "+", "-", "@", "\t", "\r")):
        return f"'{value}"
    return value


def table(columns: Sequence[str], rows: Iterable[Sequence[object]]) -> bytes:
    """Comma-separated values (RFC 4180) in UTF-8; None is an empty field."""
    out = io.StringIO(newline="")
    writer = csv.writer(out)
    writer.writerow(columns)
    writer.writerows([safe_cell(value) for value in row] for row in rows)
    return out.getvalue().encode()


def _flat(value: object) -> object:
    """A field of an answer as one cell; the parts of a list stand behind each other."""
    told = as_json(value)
    if isinstance(told, list):
        return " ".join(str(each) for each in told)
    if isinstance(told, bool):
        return "yes" if told else "no"
    return told


def _records(records: Iterable[tuple[int, object]], kind: type) -> bytes:
    """A table of answers that belong to papers, with a column for each field."""
    names = [each.name for each in fields(kind)]
    return table(["paper", *names], ([paper, *(_flat(getattr(record, name)) for name in names)]
                                     for paper, record in records))


def _pages(papers: Sequence[Paper]) -> bytes:
    """The papers, but for what has a table of its own."""
    apart = {"bids", "reviewers"}
    names = [each.name for each in fields(Page) if each.name not in apart]
    return table([*names, "contents"], ([*(_flat(getattr(paper.page, name)) for name in names),
                                         " ".join(paper.contents)] for paper in papers))


def _lines(records: Iterable[object] | None, kind: type) -> bytes:
    """A table of answers, with a column for each field."""
    names = [each.name for each in fields(kind)]
    return table(names, ([_flat(getattr(record, name)) for name in names] for record in records or ()))


def tables(export: Export) -> dict[str, bytes]:
    """The tables of an export, by the names of their files."""
    papers, reports = export.papers, export.reports
    responses = ([p.page.paper, p.response] for p in papers if p.response is not None)
    return {
        "accounts.csv": _lines(export.accounts, Account),
        "deadlines.csv": _lines(export.deadlines, Deadline),
        "accepted.csv": _lines(export.accepted, AcceptedPaper),
        "papers.csv": _pages(papers),
        "reviewers.csv": _records(((p.page.paper, each) for p in papers for each in p.page.reviewers or ()), Reviewer),
        "bids.csv": _records(((p.page.paper, each) for p in papers for each in p.page.bids or ()), BidOf),
        "reviews.csv": _records(((p.page.paper, each) for p in papers for each in p.reviews or ()), Review),
        "comments.csv": _records(((p.page.paper, each) for p in papers for each in p.comments or ()), Comment),
        "responses.csv": table(["paper", "text"], responses),
        "scores.csv": _lines(reports.scores, ScoreLine),
        "load.csv": _lines(reports.load, LoadLine),
        "decisions.csv": _lines(reports.decisions, DecisionLine),
    }


def write(export: Export, overview: str, folder: pathlib.Path) -> None:
    """Writes an export into a folder that has its contents already."""
    text = json.dumps(as_json(export), ensure_ascii=False, indent=1)
    files.create(folder / "conference.json", text.encode() + b"\n")
    for name, content in tables(export).items():
        files.create(folder / "csv" / name, content)
    files.create(folder / "overview.html", overview.encode())
