# SPDX-License-Identifier: Apache-2.0 OR MIT
"""How a conference stands, as far as one chair is told: put together from reports and pages.

confd has no read that tells which reviews are missing: that is on each paper's page. So a survey reads each page once
that can say something, on one connection, and beside that at most six more requests. Papers with which the chair is in
conflict, and withdrawn ones, are named and not read.
"""

from __future__ import annotations

from collections.abc import Callable, Iterable
from dataclasses import dataclass

from confd_client.answers import (
    Account, Conference, Deadline, Decision, DecisionLine, Mark, Page, PaperLine, Phase, Role)
from confd_client.client import Client
from confd_client.errors import NotChair

Track = Callable[[Iterable[int], str], Iterable[int]]
"""Hands on the numbers that it is given, and may show how far they are."""


@dataclass(frozen=True)
class PaperStatus:
    """A paper that the chair may follow: by name who has written a form, and who hasn't though assigned.

    `externals` are those of both who aren't on the committee. The decision is None where it isn't told yet.
    """

    paper: int
    title: str
    done: tuple[str, ...]
    missing: tuple[str, ...]
    externals: tuple[str, ...]
    decision: Decision | None = None


@dataclass(frozen=True)
class MemberStatus:
    """A member of the committee, chairs among them, or an external (`role` is account) who reviews: on how many of the
    chair's papers they have bid, how many they review, and on which of these a form is missing."""

    name: str
    role: Role
    bids: int
    assigned: int
    missing: tuple[int, ...]


@dataclass(frozen=True)
class Status:
    """How the conference stands.

    Before the bidding nobody is told of papers that aren't their own, so `papers`, `members`, `in_conflict` and
    `withdrawn` are empty then; `committee` is who is on it at any time.
    """

    conference: Conference
    deadlines: tuple[Deadline, ...]
    committee: tuple[Account, ...]
    accounts: int
    papers: tuple[PaperStatus, ...] = ()
    members: tuple[MemberStatus, ...] = ()
    in_conflict: tuple[int, ...] = ()
    withdrawn: tuple[int, ...] = ()

    @property
    def undecided(self) -> tuple[int, ...]:
        """The papers on which nobody decided."""
        return tuple(paper.paper for paper in self.papers if paper.decision == Decision.NONE)

    @property
    def without_reviewers(self) -> tuple[int, ...]:
        """The papers that nobody reviews."""
        return tuple(paper.paper for paper in self.papers if not paper.done and not paper.missing)

    @property
    def missing(self) -> tuple[tuple[int, str], ...]:
        """Each review that is missing: the paper, and who is to write it."""
        return tuple((paper.paper, name) for paper in self.papers for name in paper.missing)

    @property
    def without_bids(self) -> tuple[str, ...]:
        """The members who haven't bid on any of the papers."""
        return tuple(each.name for each in self.members if each.bids == 0 and each.role != Role.ACCOUNT)


def no_track(papers: Iterable[int], _: str) -> Iterable[int]:
    """The numbers as they are, without a sign of how far they are."""
    return papers


def pages_of(client: Client, papers: Iterable[int], track: Track = no_track) -> dict[int, Page]:
    """The pages of papers, by number: a request each."""
    return {paper: client.page(paper) for paper in track(list(papers), "Reading papers")}


def clear_papers(lines: Iterable[PaperLine]) -> list[int]:
    """The papers that aren't withdrawn and with which the caller isn't in conflict."""
    return [line.paper for line in lines if line.mark is Mark.CLEAR]


def take_status(client: Client, track: Track = no_track) -> Status:
    """How the conference stands. From the bidding on it needs a chair, else raises `NotChair`."""
    conference = client.phase()
    accounts = client.accounts()
    committee = tuple(account for account in accounts if account.role != Role.ACCOUNT)
    deadlines = client.deadlines()
    if conference.phase.place < Phase.BIDDING.place:
        return Status(conference, deadlines, committee, len(accounts))
    if client.me().role != Role.CHAIR:
        raise NotChair(403, what="status")
    lines = client.papers_report()
    decided = client.decisions_report() if conference.phase.place >= Phase.DISCUSSION.place else ()
    pages = pages_of(client, clear_papers(lines), track)
    # Somebody may have declared a conflict of the caller's since the report.
    clear = [page for page in pages.values() if not page.conflict]
    in_conflict = {line.paper for line in lines if line.mark is Mark.CONFLICT} | set(pages) - {
        page.paper for page in clear}
    papers = _papers(clear, {account.name for account in committee}, decided)
    return Status(
        conference, deadlines, committee, len(accounts), papers, _members(papers, committee, clear),
        tuple(sorted(in_conflict)), tuple(line.paper for line in lines if line.mark is Mark.WITHDRAWN))


def _papers(pages: Iterable[Page], members: set[str], decided: Iterable[DecisionLine]) -> tuple[PaperStatus, ...]:
    decisions = {line.paper: line.decision for line in decided}
    papers = []
    for page in pages:
        reviewers = [(each.user or each.label, bool(each.done)) for each in page.reviewers or ()]
        papers.append(PaperStatus(
            page.paper, page.title or "",
            tuple(name for name, done in reviewers if done), tuple(name for name, done in reviewers if not done),
            tuple(name for name, _ in reviewers if name not in members), decisions.get(page.paper)))
    return tuple(papers)


def _members(papers: Iterable[PaperStatus], committee: Iterable[Account],
             pages: Iterable[Page]) -> tuple[MemberStatus, ...]:
    roles = {account.name: account.role for account in committee}
    bids = dict.fromkeys(roles, 0)
    for page in pages:
        for bid in page.bids or ():
            bids[bid.user] = bids.get(bid.user, 0) + 1
    assigned: dict[str, list[int]] = {name: [] for name in roles}
    missing: dict[str, list[int]] = {}
    for paper in papers:
        for name in (*paper.done, *paper.missing):
            assigned.setdefault(name, []).append(paper.paper)
        for name in paper.missing:
            missing.setdefault(name, []).append(paper.paper)
    return tuple(
        MemberStatus(name, roles.get(name, Role.ACCOUNT), bids.get(name, 0), len(reviewed),
                     tuple(missing.get(name, ())))
        for name, reviewed in assigned.items())
