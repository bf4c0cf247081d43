# SPDX-License-Identifier: Apache-2.0 OR MIT
"""`confd-client withdraw`: withdraws a paper."""

from __future__ import annotations

import click

from confd_client.cli.app import App, Command, pass_app
from confd_client.cli.texts import PAPER


@click.command(cls=Command)
@click.argument("paper", type=PAPER)
@click.option("--yes", "is_sure", is_flag=True, help="Don't ask.")
@pass_app
def command(app: App, paper: int, is_sure: bool) -> None:
    """Withdraws PAPER, for good. For its authors, during the submission.

    \b
    Examples:
      confd-client withdraw 7
    """
    app.confirm(f"Withdraw paper {paper}? There is no way back", is_sure)
    app.client.withdraw(paper)
    app.emit({"paper": paper}, f"paper {paper} is withdrawn")
