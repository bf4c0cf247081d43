# SPDX-License-Identifier: Apache-2.0 OR MIT
"""`confd-client respond`: responds to a paper's reviews."""

from __future__ import annotations

from pathlib import Path

import click

from confd_client.cli.app import App, Command, pass_app
from confd_client.cli.texts import COMMENT_BYTES, FILE, PAPER, read_text


@click.command(cls=Command)
@click.argument("paper", type=PAPER)
@click.argument("path", metavar="FILE", type=FILE)
@click.option("--yes", "is_sure", is_flag=True, help="Don't ask.")
@pass_app
def command(app: App, paper: int, path: Path, is_sure: bool) -> None:
    """Responds to the reviews of PAPER with the text of FILE, of 1 to 10,000 bytes: once, for all its authors.

    `confd-client reviews` shows the reviews.

    \b
    Examples:
      confd-client respond 7 response.txt
    """
    text = read_text(path, COMMENT_BYTES, least=1)
    app.confirm(f"Respond to the reviews of paper {paper}? It can't be changed, and one response is all there is",
                is_sure)
    app.client.respond(paper, text)
    app.emit({"paper": paper}, f"paper {paper} has its response")
