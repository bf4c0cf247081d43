# SPDX-License-Identifier: Apache-2.0 OR MIT
"""`confd-client papers`: what is the caller's to review, and what the caller submitted, with what is missing."""

from __future__ import annotations

import datetime
from collections.abc import Sequence
from dataclasses import dataclass

import click
from rich.console import RenderableType

from confd_client.answers import Conference, Decision, Me, Page, Phase
from confd_client.cli.app import App, Command, pass_app
from confd_client.client import Client
from confd_client.export import asked


@dataclass(frozen=True)
class ToReview:
    """A paper that is the caller's to review: under which label, how many forms there are under it, and what is next.

    `state` is `done`, `missing`, `to come` before the reviewing, `not written` when it is too late, `invited` where the
    caller may read the paper and isn't its reviewer yet, `withdrawn`, or `conflict` where the caller is in conflict
    with the paper by now.
    """

    paper: int
    title: str | None
    label: str | None
    forms: int
    state: str
    version: int | None


@dataclass(frozen=True)
class Own:
    """A paper of the caller's own; `missing` is what its authors may still hand in now, of content and response."""

    paper: int
    title: str | None
    version: int | None
    withdrawn: bool
    decision: Decision | None
    missing: tuple[str, ...]


@click.command(cls=Command)
@pass_app
def command(app: App) -> None:
    """Lists what is yours to review, and your own papers, with what is missing.

    \b
    Examples:
      confd-client papers
      confd-client --json papers
    """
    client = app.client
    me, conference = client.me(), client.phase()
    until = deadline(client, conference.phase)
    theirs = sorted({*me.assigned, *me.invited})
    to_review, own = [], []
    for number in app.track([*theirs, *me.papers], "Papers"):
        if number in theirs:
            to_review.append(reviewed(client, number, conference))
        else:
            own.append(submitted(client, number, conference))
    told = {"phase": conference.phase, "until": until, "review": to_review, "own": own}
    app.emit(told, shown(app, me, conference, until, to_review, own))


def deadline(client: Client, phase: Phase) -> datetime.datetime | None:
    """The deadline of a phase, where it has one."""
    return next((each.until for each in client.deadlines() if each.phase is phase), None)


def reviewed(client: Client, number: int, conference: Conference) -> ToReview:
    """A paper that is the caller's to review."""
    page = client.page(number)
    reviews = asked(lambda: client.reviews(number), "reviews", {}) or ()
    forms = sum(each.label == page.label for each in reviews)
    return ToReview(number, page.title, page.label, forms, state(page, forms, conference.phase), last(page))


def state(page: Page, forms: int, phase: Phase) -> str:
    """How a review stands: the words of `ToReview`."""
    if page.withdrawn:
        return "withdrawn"
    if page.conflict:
        return "conflict"
    if page.label is None:
        return "invited"
    if forms:
        return "done"
    if phase.place < Phase.REVIEWING.place:
        return "to come"
    return "missing" if phase.place < Phase.NOTIFICATION.place else "not written"


def submitted(client: Client, number: int, conference: Conference) -> Own:
    """A paper of the caller's own."""
    page = client.page(number)
    missing = []
    if not page.withdrawn:
        if conference.phase is Phase.SUBMISSION and not page.versions:
            missing.append("content")
        if conference.phase is Phase.RESPONSE and asked(lambda: client.response(number), "response", {}) is None:
            missing.append("response")
    return Own(number, page.title, last(page), bool(page.withdrawn), page.decision, tuple(missing))


def last(page: Page) -> int | None:
    """The number of a paper's last version, where there is one that the caller may read."""
    return page.versions[-1] if page.versions else None


def shown(app: App, me: Me, conference: Conference, until: datetime.datetime | None, to_review: Sequence[ToReview],
          own: Sequence[Own]) -> list[RenderableType]:
    """What is printed for a reader."""
    due = f", until {until:%Y-%m-%d %H:%M:%S} UTC" if until is not None else ""
    found: list[RenderableType] = [f"{me.name}, {conference.phase}{due}"]
    if to_review:
        missing = sum(each.state == "missing" for each in to_review)
        table = app.table("#paper", "title", "label", "#version", "review", title=f"To review: {missing} missing")
        rows = ([each.paper, each.title, each.label, each.version,
                 f"{each.state}, {each.forms} versions" if each.forms > 1 else each.state] for each in to_review)
        found.append(app.fill(table, rows))
    if own:
        table = app.table("#paper", "title", "#version", "standing", "missing", title="Your papers")
        found.append(app.fill(table, ([each.paper, each.title, each.version, standing(each), ", ".join(each.missing)]
                                      for each in own)))
    return found if to_review or own else [*found, "Nothing is yours to review, and you submitted no paper."]


def standing(paper: Own) -> str:
    """What became of a paper, as far as its author is told."""
    if paper.withdrawn:
        return "withdrawn"
    return "" if paper.decision is None else str(paper.decision)
