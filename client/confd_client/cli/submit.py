# SPDX-License-Identifier: Apache-2.0 OR MIT
"""`confd-client submit`: submits a paper."""

from __future__ import annotations

from pathlib import Path

import click

from confd_client.cli.app import App, Command, Partly, pass_app
from confd_client.cli.texts import ABSTRACT_BYTES, FILE, checked_title, read_file, read_text
from confd_client.cli.upload import sent_content
from confd_client.errors import ClientError
from confd_client.transport import LARGEST_BODY


@click.command(cls=Command)
@click.option("--title", required=True, help="1 to 200 bytes.")
@click.option("--abstract", "abstract_file", type=FILE, help="A file with the abstract, of at most 5,000 bytes.")
@click.option("--author", "authors", multiple=True, help="Another author's name here; say it once for each, in order.")
@click.option("--content", "content_file", type=FILE, help="The paper itself, of at most 4 MiB, to upload at once.")
@pass_app
def command(app: App, title: str, abstract_file: Path | None, authors: tuple[str, ...],
            content_file: Path | None) -> None:
    """Submits a paper, with you as its first author, and prints its number.

    The authors can't be changed later; title, abstract and content can, until the deadline.

    \b
    Examples:
      confd-client submit --title 'Proofs' --abstract abstract.txt --author gus --content proofs.pdf
      confd-client submit --title 'Types'
    """
    checked_title(title)
    abstract = read_text(abstract_file, ABSTRACT_BYTES) if abstract_file else ""
    content = read_file(content_file, LARGEST_BODY) if content_file else None
    paper = app.client.submit(title, abstract, authors)
    version = None
    if content is not None:
        try:
            version = sent_content(app, paper, content)
        except ClientError as error:
            app.emit({"paper": paper}, f"paper {paper}")
            raise Partly(f"paper {paper} is submitted, its content isn't uploaded: {error}") from error
    app.emit({"paper": paper, "version": version}, f"paper {paper}")
