# SPDX-License-Identifier: Apache-2.0 OR MIT
"""`confd-client deadline`: the deadlines of the phases."""

from __future__ import annotations

import datetime

import click

from confd_client.cli.app import App, Command, pass_app
from confd_client.cli.status import told_deadline

WORK = ["submission", "bidding", "reviewing", "response", "discussion"]
"""The phases that may have a deadline."""


def _moment(_: click.Context, __: click.Parameter, text: str | None) -> datetime.datetime | str | None:
    """A time with its offset, `none`, or nothing."""
    if text is None or text == "none":
        return text
    try:
        moment = datetime.datetime.fromisoformat(text)
    except ValueError as error:
        raise click.BadParameter(f"{text!r} is no time such as 2027-01-31T23:59:59Z") from error
    if moment.tzinfo is None:
        raise click.BadParameter(f"{text!r} has no time zone: write 2027-01-31T23:59:59Z for UTC, or such as +01:00 "
                                 "in place of Z")
    return moment


@click.command(cls=Command)
@click.argument("phase", required=False, type=click.Choice(WORK))
@click.argument("until", required=False, callback=_moment)
@pass_app
def command(app: App, phase: str | None, until: datetime.datetime | str | None) -> None:
    """Tells the deadlines, or sets that of PHASE to UNTIL, a time with its time zone, or `none`.

    \b
    Examples:
      confd-client deadline
      confd-client deadline submission 2027-01-31T23:59:59-12:00
      confd-client deadline bidding none
    """
    if phase is None:
        deadlines = app.client.deadlines()
        app.emit({"deadlines": deadlines}, [told_deadline(each) for each in deadlines] or "no deadlines")
        return
    if until is None:
        raise click.UsageError("until when? A time, or none")
    told = app.client.set_deadline(phase, until if isinstance(until, datetime.datetime) else None)
    app.emit({"phase": told.phase, "until": told.until}, told_deadline(told))
