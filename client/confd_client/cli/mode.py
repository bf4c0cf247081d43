# SPDX-License-Identifier: Apache-2.0 OR MIT
"""`confd-client mode`: who sees names."""

from __future__ import annotations

import click

from confd_client.answers import Mode
from confd_client.cli.app import App, Command, pass_app


@click.command(cls=Command)
@click.argument("mode", type=click.Choice([mode.value for mode in Mode]))
@pass_app
def command(app: App, mode: str) -> None:
    """Sets who sees the names of authors and reviewers; only in setup.

    open: both sides see the other's; blind: authors don't see who reviews them; anonymous: of the
    committee only chairs see the names of authors and reviewers.

    \b
    Example:
      confd-client mode anonymous
    """
    told = app.client.set_mode(mode)
    app.emit({"mode": told}, str(told))
