# SPDX-License-Identifier: Apache-2.0 OR MIT
"""`confd-client revise`: gives a paper another title or abstract."""

from __future__ import annotations

from pathlib import Path

import click

from confd_client.cli.app import App, Command, pass_app
from confd_client.cli.texts import ABSTRACT_BYTES, FILE, PAPER, checked_title, read_text
from confd_client.errors import NotAuthor


@click.command(cls=Command)
@click.argument("paper", type=PAPER)
@click.option("--title", help="1 to 200 bytes; the title stays where you don't say it.")
@click.option("--abstract", "abstract_file", type=FILE, help="A file with the abstract; it stays where you name none.")
@pass_app
def command(app: App, paper: int, title: str | None, abstract_file: Path | None) -> None:
    """Gives PAPER another title, another abstract, or both. For its authors, during the submission.

    \b
    Examples:
      confd-client revise 7 --title 'Proofs, again'
      confd-client revise 7 --abstract abstract.txt
    """
    if title is None and abstract_file is None:
        raise click.UsageError("say --title or --abstract")
    if title is not None:
        checked_title(title)
    abstract = read_text(abstract_file, ABSTRACT_BYTES) if abstract_file else None
    if title is None or abstract is None:
        page = app.client.page(paper)
        if page.title is None or page.abstract is None:
            raise NotAuthor(403, what=f"PUT /papers/{paper}")
        title, abstract = title or page.title, page.abstract if abstract is None else abstract
    app.client.revise(paper, title, abstract)
    app.emit({"paper": paper, "title": title, "abstract": abstract}, f"paper {paper}: {title}")
