# SPDX-License-Identifier: Apache-2.0 OR MIT
"""`confd-client search`: papers that a search finds."""

from __future__ import annotations

import click

from confd_client.cli.app import App, Command, pass_app


@click.command(cls=Command)
@click.argument("query")
@click.option("--count", "count_only", is_flag=True, help="Tell only how many there are.")
@pass_app
def command(app: App, query: str, count_only: bool) -> None:
    """Finds papers by the search QUERY, among those whose title you are told.

    A word is found in titles and abstracts; ti:, ab:, au: and re: look into titles, abstracts, names of authors and of
    reviewers; #tag, dec:accept, status:withdrawn and has:review are further terms; AND, OR, NOT and parentheses bind
    them.

    \b
    Examples:
      confd-client search '#hot OR dec:none'
      confd-client search --count -- '-has:content'
    """
    found = app.client.search(query, count_only=count_only)
    if found.papers is None:
        app.emit(found, str(found.count))
        return
    table = app.table("#Paper", "Title")
    app.emit(found, app.fill(table, [(each.paper, each.title) for each in found.papers]) if found.papers else "none")
