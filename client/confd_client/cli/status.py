# SPDX-License-Identifier: Apache-2.0 OR MIT
"""`confd-client status`: the state of the conference."""

from __future__ import annotations

import datetime
from collections.abc import Iterable

import click
from rich.console import RenderableType

from confd_client.answers import Deadline, Phase, Role, as_json
from confd_client.cli.app import App, Command, pass_app
from confd_client.survey import Status, take_status


@click.command(cls=Command)
@click.option("--all", "show_all", is_flag=True, help="List each paper and member, also where nothing is missing.")
@pass_app
def command(app: App, show_all: bool) -> None:
    """Shows the state of the conference: which reviews are missing, which papers are undecided, who hasn't bid.

    For chairs; before the bidding for everyone. It reads the page of each paper, and shows papers with which you are
    in conflict only by their numbers.

    \b
    Examples:
      confd-client status
      confd-client --json status | jq '.undecided'
    """
    status = take_status(app.client, app.track)
    app.emit(status_as_json(status), list(shown(app, status, show_all)))


def status_as_json(status: Status) -> dict[str, object]:
    """The status with what follows from it: undecided papers, missing reviews, who hasn't bid."""
    told: dict[str, object] = as_json(status)
    return told | {
        "missing": [{"paper": paper, "user": user} for paper, user in status.missing],
        "undecided": list(status.undecided), "without_bids": list(status.without_bids),
        "without_reviewers": list(status.without_reviewers)}


def numbers(papers: Iterable[int]) -> str:
    """Numbers of papers as a reader has them, `1-3, 7`."""
    runs: list[list[int]] = []
    for paper in papers:
        if runs and runs[-1][-1] == paper - 1:
            runs[-1] = [runs[-1][0], paper]
        else:
            runs.append([paper])
    return ", ".join("-".join(str(paper) for paper in run) for run in runs)


def count_of(number: int, one: str, many: str | None = None) -> str:
    """A number with the noun that it counts: `1 paper`, `2 papers`."""
    return f"{number} {one if number == 1 else many or one + 's'}"


def told_deadline(deadline: Deadline) -> str:
    """A deadline as a reader has it, and whether it is over."""
    if deadline.until is None:
        return f"{deadline.phase} without a deadline"
    over = " (over)" if deadline.until < datetime.datetime.now(datetime.UTC) else ""
    return f"{deadline.phase} until {deadline.until:%Y-%m-%d %H:%M:%S} UTC{over}"


def shown(app: App, status: Status, show_all: bool) -> Iterable[RenderableType]:
    """What is printed of a status."""
    conference = status.conference
    chairs = ", ".join(account.name for account in status.committee if account.role is Role.CHAIR)
    yield (f"Phase {conference.phase}, mode {conference.mode}; {count_of(conference.papers, 'paper')}, "
           f"{count_of(status.accounts, 'account')}, {len(status.committee)} on the committee (chairs: {chairs})")
    for deadline in status.deadlines:
        yield f"Deadline: {told_deadline(deadline)}"
    if conference.phase.place < Phase.BIDDING.place:
        return
    yield from _papers(app, status, show_all)
    yield from _members(app, status, show_all)
    if status.withdrawn:
        yield f"Withdrawn: {numbers(status.withdrawn)}"
    if status.in_conflict:
        yield f"You are in conflict with: {numbers(status.in_conflict)}. Another chair has to look at them."


def _papers(app: App, status: Status, show_all: bool) -> Iterable[RenderableType]:
    due = [paper for paper in status.papers
           if show_all or paper.missing or not paper.done or paper.paper in status.undecided]
    if due:
        yield app.fill(app.table("#Paper", "Title", "#Done", "Missing", "Decision"), [
            (paper.paper, paper.title, len(paper.done),
             ", ".join(f"{name} (external)" if name in paper.externals else name for name in paper.missing),
             paper.decision) for paper in due])
    reviews = sum(len(paper.done) for paper in status.papers)
    yield (f"Reviews: {reviews} done, {len(status.missing)} missing; "
           f"{count_of(len(status.without_reviewers), 'paper')} without a reviewer")
    if status.conference.phase.place >= Phase.DISCUSSION.place:
        yield f"Undecided: {len(status.undecided)}" + (f" ({numbers(status.undecided)})" if status.undecided else "")


def _members(app: App, status: Status, show_all: bool) -> Iterable[RenderableType]:
    due = [each for each in status.members if show_all or each.missing]
    if due:
        yield app.fill(app.table("Name", "Role", "#Bids", "#Reviews", "#Missing", "Of papers"), [
            (each.name, "external" if each.role is Role.ACCOUNT else each.role, each.bids, each.assigned,
             len(each.missing), numbers(each.missing)) for each in due])
    if status.without_bids:
        yield f"Haven't bid: {', '.join(status.without_bids)}"
