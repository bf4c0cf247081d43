# SPDX-License-Identifier: Apache-2.0 OR MIT
"""`confd-client form`: review forms to fill in."""

from __future__ import annotations

from dataclasses import dataclass
from pathlib import Path

import click

from confd_client import files, forms
from confd_client.answers import Page, Phase, Review
from confd_client.cli.app import App, Command, Partly, pass_app
from confd_client.cli.papers import deadline
from confd_client.cli.status import count_of
from confd_client.cli.texts import FOLDER, PAPER
from confd_client.client import Client
from confd_client.export import asked


@dataclass(frozen=True)
class Made:
    """The form of one paper: the file, or the error why there is none; `version` is that of the review in it."""

    paper: int
    path: str | None = None
    version: int | None = None
    error: str | None = None


@click.command(cls=Command)
@click.argument("papers", metavar="[PAPER]...", nargs=-1, type=PAPER)
@click.option("--into", "folder", type=FOLDER, default=Path("."), show_default=True, help="The folder for the forms.")
@pass_app
def command(app: App, papers: tuple[int, ...], folder: Path) -> None:
    """Makes review forms: of the papers named, or of all that are yours to review.

    The form of paper 7 is review-7.txt, with your last review in it where you have written one. A file that is there is
    left as it is, so nothing that you have written in it is lost.

    \b
    Examples:
      confd-client form --into forms
      confd-client form 7
    """
    client = app.client
    until = deadline(client, Phase.REVIEWING)
    files.folder_for(folder)
    found = []
    for number in app.track(papers or client.me().assigned, "Forms"):
        one = made(client, number, folder, f"{until:%Y-%m-%d %H:%M:%S} UTC" if until else None)
        app.note(f"paper {number}: {one.error}" if one.path is None else one.path)
        found.append(one)
    missing = sum(each.path is None for each in found)
    app.emit(found, f"{count_of(len(found) - missing, 'form')} made")
    if missing:
        raise Partly(f"{count_of(missing, 'form')} not made")


def own_review(client: Client, page: Page) -> Review | None:
    """The caller's last review of a paper, where they have written one."""
    reviews = asked(lambda: client.reviews(page.paper), "reviews", {}) or ()
    own = [each for each in reviews if each.label == page.label]
    return max(own, key=lambda each: each.version or 0) if own else None


def made(client: Client, number: int, folder: Path, until: str | None) -> Made:
    """Writes the form of a paper, unless there is a file by its name."""
    refused: dict[str, str] = {}
    page = asked(lambda: client.page(number), "page", refused)
    if page is None:
        return Made(number, error=refused["page"])
    if page.label is None:
        return Made(number, error="conflict" if page.conflict else "not_reviewer")
    review = own_review(client, page)
    filled: forms.ReviewForm | None = None
    version: int | None = None
    if review is not None:
        filled = forms.ReviewForm(number, review.score, review.confidence, review.to_authors, review.to_pc or "")
        version = review.version
    path = folder / f"review-{number}.txt"
    try:
        files.write_new(path, forms.render(number, page.title or "", page.label, filled, until).encode())
    except files.FileTaken:
        return Made(number, error="file_taken")
    return Made(number, str(path), version)
