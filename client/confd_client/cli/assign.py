# SPDX-License-Identifier: Apache-2.0 OR MIT
"""`confd-client assign`: does what a plan, or any file of rows, asks for."""

from __future__ import annotations

from pathlib import Path

import click

from confd_client.cli.app import App, Command, pass_app
from confd_client.cli.posting import Posting, read_rows
from confd_client.cli.status import count_of


@click.command(cls=Command)
@click.argument("file", type=click.Path(path_type=Path))
@pass_app
def command(app: App, file: Path) -> None:
    """Assigns reviewers, declares conflicts and sets tags from FILE, which has the columns paper, action, user and tag.

    The actions are primary, secondary, pcreview, clearreview, conflict, clearconflict, tag and cleartag. The rows go in
    pieces of at most 512; of each piece all are done or none. A paper's reviewers are assigned in a random order, since
    the order of their labels could tell who they are.

    If it is interrupted, call it again with the same file: nothing is done twice. What is left to do is kept in
    FILE.sent meanwhile. If a row is refused, the rows that weren't done are written to FILE.rest.

    \b
    Examples:
      confd-client assign plan.csv
      printf 'paper,action,tag\\n7,tag,hot\\n' | confd-client assign -
    """
    rows = read_rows(file)
    posted = Posting(app, file, rows).post() if rows else 0
    app.emit({"rows": len(rows), "pieces": posted}, f"{count_of(len(rows), 'row')} done")
