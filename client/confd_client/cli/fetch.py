# SPDX-License-Identifier: Apache-2.0 OR MIT
"""`confd-client fetch`: papers' contents, as files."""

from __future__ import annotations

from dataclasses import dataclass
from pathlib import Path

import click

from confd_client import files
from confd_client.cli.app import App, Command, Partly, pass_app
from confd_client.cli.papers import last
from confd_client.cli.status import count_of
from confd_client.cli.texts import FOLDER, PAPER
from confd_client.client import Client
from confd_client.errors import NoContent, NoPaper, meaning_of
from confd_client.export import NOT_SHOWN, papers_of


@dataclass(frozen=True)
class Fetched:
    """What became of one paper: the file, and whether it was written now; or the error why there is none."""

    paper: int
    path: str | None = None
    new: bool = False
    error: str | None = None


@click.command(cls=Command)
@click.argument("papers", metavar="[PAPER]...", nargs=-1, type=PAPER)
@click.option("--all", "every", is_flag=True, help="All papers whose content you may read.")
@click.option("--version", type=click.IntRange(min=1), help="This version, not the last; for a paper's authors.")
@click.option("--into", "folder", type=FOLDER, default=Path("."), show_default=True, help="The folder for the files.")
@pass_app
def command(app: App, papers: tuple[int, ...], every: bool, version: int | None, folder: Path) -> None:
    """Fetches the contents of papers: those named, or all that are yours to review.

    Paper 7 in version 2 becomes paper-7-v2.pdf, or .bin where it isn't PDF, readable only by you. A file that is there
    with other bytes is left unchanged.

    \b
    Examples:
      confd-client fetch --into papers
      confd-client fetch 7 12
      confd-client fetch --all --into papers
    """
    if (papers and every) or (version is not None and len(papers) != 1):
        raise click.UsageError("name papers or say --all; --version is of one paper")
    numbers = list(papers) or wanted(app.client, every)
    files.folder_for(folder)
    found = []
    for number in app.track(numbers, "Contents"):
        one = fetched(app.client, number, version, folder)
        if one.path is not None:
            app.note(f"{one.path}{'' if one.new else ': is there already'}")
        elif not every:
            app.note(f"paper {number}: {one.error}: {meaning_of(one.error or '')}")
        found.append(one)
    missing = sum(each.path is None for each in found)
    app.emit(found, f"{count_of(len(found) - missing, 'content')}, {sum(each.new for each in found)} new")
    if missing and not every:
        raise Partly(f"{count_of(missing, 'paper')} without a content for you")


def wanted(client: Client, every: bool) -> list[int]:
    """The papers that are the caller's to review or to read as an external, or all that there are."""
    me = client.me()
    if every:
        return papers_of(me, client.phase(), client.accepted())
    return sorted({*me.assigned, *me.invited})


def fetched(client: Client, number: int, version: int | None, folder: Path) -> Fetched:
    """Writes a content into its file. Raises `FileTaken` where that is there with other bytes."""
    try:
        chosen = version if version is not None else last(client.page(number))
        if chosen is None:
            return Fetched(number, error=NoContent.name)
        content = client.content_of_version(number, chosen)
    except (*NOT_SHOWN, NoPaper) as refusal:
        return Fetched(number, error=refusal.name)
    path = folder / f"paper-{number}-v{chosen}{files.suffix_of(content)}"
    return Fetched(number, str(path), files.write_new(path, content))
