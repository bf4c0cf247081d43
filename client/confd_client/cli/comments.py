# SPDX-License-Identifier: Apache-2.0 OR MIT
"""`confd-client comments`: the committee's comments on a paper."""

from __future__ import annotations

from collections.abc import Iterable
from pathlib import Path

import click

from confd_client.answers import Comment
from confd_client.cli.app import App, Command, pass_app
from confd_client.cli.texts import COMMENT_BYTES, FILE, PAPER, read_text


@click.command(cls=Command)
@click.argument("paper", type=PAPER)
@click.option("--add", "path", type=FILE, help="Comment with the text of this file, - for standard input.")
@pass_app
def command(app: App, paper: int, path: Path | None) -> None:
    """Shows the comments on PAPER, or adds one.

    \b
    Examples:
      confd-client comments 7
      echo 'Accept?' | confd-client comments 7 --add -
    """
    if path is not None:
        number = app.client.comment(paper, read_text(path, COMMENT_BYTES, least=1))
        app.emit({"paper": paper, "comment": number}, f"comment {number}")
        return
    found = app.client.comments(paper)
    app.emit(found, list(blocks(found)) or "no comment")


def blocks(comments: Iterable[Comment]) -> Iterable[str]:
    """Each comment under a line that says which it is, and whose as far as that is told."""
    for each in comments:
        by = f"by {each.user}" if each.user else f"by reviewer {each.label}" if each.label else "by a member"
        text = "\n".join(f"  {line}" for line in each.text.split("\n"))
        yield f"comment {each.n} {by}\n{text}"
