# SPDX-License-Identifier: Apache-2.0 OR MIT
"""`confd-client upload`: uploads a paper's content."""

from __future__ import annotations

from pathlib import Path

import click
from rich.progress import BarColumn, DownloadColumn, Progress, TextColumn, TransferSpeedColumn

from confd_client.cli.app import App, Command, pass_app
from confd_client.cli.texts import FILE, PAPER, read_file
from confd_client.transport import LARGEST_BODY


@click.command(cls=Command)
@click.argument("paper", type=PAPER)
@click.argument("path", metavar="FILE", type=FILE)
@pass_app
def command(app: App, paper: int, path: Path) -> None:
    """Uploads FILE, of any kind and at most 4 MiB, as the next version of PAPER's content. For its authors.

    \b
    Examples:
      confd-client upload 7 proofs.pdf
    """
    version = sent_content(app, paper, read_file(path, LARGEST_BODY))
    app.emit({"paper": paper, "version": version}, f"paper {paper}: version {version}")


def sent_content(app: App, paper: int, content: bytes) -> int:
    """Uploads a content with a progress bar on a terminal's standard error; tells the version's number."""
    if app.as_json or not app.err.is_terminal:
        return app.client.upload(paper, content)
    columns = (TextColumn("{task.description}"), BarColumn(), DownloadColumn(), TransferSpeedColumn())
    with Progress(*columns, console=app.err, transient=True) as progress:
        bar = progress.add_task("Upload", total=len(content))
        return app.client.upload(paper, content, on_sent=lambda sent: progress.update(bar, completed=sent))
