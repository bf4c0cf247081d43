# SPDX-License-Identifier: Apache-2.0 OR MIT
"""`confd-client letter`: what became of one's own papers."""

from __future__ import annotations

import sys

import click

from confd_client.cli.app import App, Command, pass_app
from confd_client.cli.texts import PAPER


@click.command(cls=Command)
@click.argument("papers", metavar="[PAPER]...", nargs=-1, type=PAPER)
@pass_app
def command(app: App, papers: tuple[int, ...]) -> None:
    """Prints the letters about your papers, from the notification on: the decision and the reviews.

    \b
    Examples:
      confd-client letter
      confd-client letter 7 > letter.txt
    """
    found = {number: app.client.letter(number) for number in papers or app.client.me().papers}
    if found and not app.as_json and not sys.stdout.isatty():
        # Into a file each letter goes as it is.
        click.echo("\n".join(found.values()), nl=False)
        return
    app.emit(found, list(found.values()) or "you submitted no paper")
