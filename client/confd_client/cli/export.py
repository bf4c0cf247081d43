# SPDX-License-Identifier: Apache-2.0 OR MIT
"""`confd-client export`: all that the caller is shown, as files."""

from __future__ import annotations

from pathlib import Path

import click

from confd_client import export, files, overview
from confd_client.cli.app import App, Command, pass_app
from confd_client.cli.status import count_of


@click.command(cls=Command)
@click.argument("folder", metavar="OUT", type=click.Path(path_type=Path))
@pass_app
def command(app: App, folder: Path) -> None:
    """Writes all that you are shown into the new folder OUT, readable only by you.

    conference.json has everything; csv has tables for a spreadsheet, where a text that begins like a formula has an
    apostrophe in front; contents has the papers; overview.html is a page with tables that sort and plots of scores,
    bids and load, which opens from the disk without a network. What the server doesn't show you isn't there.

    \b
    Examples:
      confd-client export 2027-03-01
    """
    with files.new_folder(folder) as room:
        found = export.collect(app.client, room, lambda numbers: app.track(numbers, "Papers"))
        export.write(found, overview.render(found), room)
    contents = sum(len(paper.contents) for paper in found.papers)
    app.emit({"folder": str(folder), "papers": len(found.papers), "contents": contents},
             f"{count_of(len(found.papers), 'paper')}, {count_of(contents, 'content')} in {folder}: see "
             f"{folder / 'overview.html'}")
