# SPDX-License-Identifier: Apache-2.0 OR MIT
"""`confd-client reviews`: the reviews of a paper."""

from __future__ import annotations

from collections.abc import Iterable

import click

from confd_client.answers import Review
from confd_client.cli.app import App, Command, pass_app
from confd_client.cli.texts import PAPER
from confd_client.export import asked


@click.command(cls=Command)
@click.argument("paper", type=PAPER)
@pass_app
def command(app: App, paper: int) -> None:
    """Shows the reviews of PAPER that you may read, and its authors' response.

    \b
    Examples:
      confd-client reviews 7
      confd-client --json reviews 7
    """
    found = app.client.reviews(paper)
    response = asked(lambda: app.client.response(paper), "response", {})
    shown = list(blocks(found))
    if response is not None:
        shown.append(f"Response of the authors\n{response}\n")
    app.emit({"reviews": found, "response": response}, shown or "no review")


def blocks(reviews: Iterable[Review]) -> Iterable[str]:
    """Each review as a text."""
    for each in reviews:
        version = "" if each.version is None else f", version {each.version}"
        by = f" by {each.user}" if each.user else ""
        lines = [f"Review {each.label}{by}{version}", f"Score {each.score}, confidence {each.confidence}",
                 each.to_authors]
        if each.to_pc:
            lines += ["To the committee:", each.to_pc]
        yield "\n".join(lines) + "\n"
