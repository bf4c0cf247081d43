# SPDX-License-Identifier: Apache-2.0 OR MIT
"""`confd-client phase`: which phase it is, and on to the next."""

from __future__ import annotations

from collections.abc import Iterable

import click

from confd_client.answers import Conference, Phase
from confd_client.cli.app import App, Command, pass_app
from confd_client.cli.status import count_of, numbers
from confd_client.survey import Status, take_status


@click.command(cls=Command)
@click.argument("following", metavar="[NEXT]", required=False, type=click.Choice([phase.value for phase in Phase]))
@click.option("--yes", "is_sure", is_flag=True, help="Don't ask.")
@pass_app
def command(app: App, following: str | None, is_sure: bool) -> None:
    """Tells the phase, or moves the conference on to the phase NEXT, for good.

    It first says what would be left undone: missing reviews, undecided papers, members who haven't bid. Then it asks.

    \b
    Examples:
      confd-client phase
      confd-client phase discussion
      confd-client --json phase notification --yes
    """
    conference = app.client.phase()
    if following is None:
        app.emit(conference, f"{conference.phase} (mode {conference.mode}, {count_of(conference.papers, 'paper')})")
        return
    wanted = Phase(following)
    if wanted not in may_follow(conference.phase):
        raise click.UsageError(f"{wanted} doesn't follow {conference.phase}: " + (
            " or ".join(may_follow(conference.phase)) + " does" if may_follow(conference.phase) else "it is the last"))
    left = left_behind(take_status(app.client, app.track), wanted)
    for line in left:
        app.note(f"- {line}")
    app.confirm(f"Go from {conference.phase} to {wanted}? There is no way back", is_sure)
    app.client.set_phase(wanted)
    app.emit({"from": conference.phase, "phase": wanted, "left": left}, f"{wanted}")


def may_follow(phase: Phase) -> list[Phase]:
    """The phases that may come next: the response alone may be left out."""
    order: list[Phase] = list(Phase)
    after = order[phase.place + 1:phase.place + 2]
    return [*after, Phase.DISCUSSION] if phase is Phase.REVIEWING else after


def left_behind(status: Status, wanted: Phase) -> list[str]:
    """What can't be done later, or not as well, once the conference is in the phase that is wanted: a line each."""
    conference = status.conference
    lines = list(_closing(conference, wanted))
    if wanted is Phase.REVIEWING and status.without_bids:
        lines.append(f"{count_of(len(status.without_bids), 'member')} haven't bid: {', '.join(status.without_bids)}")
    if conference.phase in (Phase.REVIEWING, Phase.RESPONSE, Phase.DISCUSSION):
        lines += _reviews(status)
    if wanted is Phase.NOTIFICATION:
        if status.undecided:
            lines.append(f"{count_of(len(status.undecided), 'paper')} would stay undecided, for good: "
                         f"{numbers(status.undecided)}")
        if status.in_conflict:
            lines.append(f"{count_of(len(status.in_conflict), 'paper')} with which you are in conflict: another chair "
                         f"has to tell whether they are decided: {numbers(status.in_conflict)}")
    return lines


def _closing(conference: Conference, wanted: Phase) -> Iterable[str]:
    """What the next phase ends whatever has been done so far."""
    if wanted is Phase.SUBMISSION:
        yield f"the mode stays {conference.mode}"
    if wanted is Phase.BIDDING:
        yield (f"no more papers than the {conference.papers} that there are; none of them can be revised, uploaded or "
               "withdrawn any more")
    if wanted is Phase.DISCUSSION and conference.phase is Phase.REVIEWING:
        yield "the response is left out: authors read no reviews before the notification, and can't respond"
    if wanted is Phase.NOTIFICATION:
        yield "no more reviews, comments, assignments, conflicts or decisions; the committee stays as it is"
    if wanted is Phase.CLOSED:
        yield "everyone may read the accepted papers"


def _reviews(status: Status) -> Iterable[str]:
    if status.missing:
        papers = sorted({paper for paper, _ in status.missing})
        names = sorted({name for _, name in status.missing})
        yield (f"{count_of(len(status.missing), 'review')} missing, of the papers {numbers(papers)}, by "
               f"{', '.join(names)}")
    if status.without_reviewers:
        yield (f"{count_of(len(status.without_reviewers), 'paper')} without a reviewer: "
               f"{numbers(status.without_reviewers)}")
