# SPDX-License-Identifier: Apache-2.0 OR MIT
"""`confd-client conflicts`: declares conflicts from a file."""

from __future__ import annotations

from collections.abc import Sequence
from pathlib import Path

import click

from confd_client.answers import Phase, Role
from confd_client.bulks import Row
from confd_client.cli.app import App, Command, Partly, pass_app
from confd_client.cli.posting import Columns, Posting, checked_row
from confd_client.cli.status import count_of
from confd_client.errors import Refusal
from confd_client.tables import read_table

YES, NO = ("", "on", "yes", "true", "1"), ("off", "no", "false", "0")
COLUMNS = Columns(("paper", "user", "on"),
                  lambda row: (row.paper, row.user, "yes" if row.action == "conflict" else "no"))


@click.command(cls=Command)
@click.argument("file", type=click.Path(path_type=Path))
@pass_app
def command(app: App, file: Path) -> None:
    """Declares conflicts from FILE, which has the columns paper and user, and, to end some, a column on (yes or no).

    Authors declare members for their papers before the bidding. From then on members declare their own, and chairs
    those of others, in pieces of at most 512 rows, as `assign` sends them.

    \b
    Example:
      confd-client conflicts conflicts.csv
    """
    rows = []
    for line in read_table(file, ("paper", "user"), ("on",)):
        action = "conflict" if line.one_of("on", (*YES, *NO)) in YES else "clearconflict"
        rows.append(checked_row(line, Row(line["paper"], action, line["user"], line=line.number)))
    me = app.client.me()
    phase = app.client.phase().phase
    is_bulk = me.role is Role.CHAIR and Phase.BIDDING.place <= phase.place <= Phase.DISCUSSION.place
    # A bulk refuses a conflict of the caller's own.
    at_once = [row for row in rows if is_bulk and row.user != me.name]
    by_itself = [row for row in rows if not is_bulk or row.user == me.name]
    if at_once:
        Posting(app, file, at_once, COLUMNS, by_itself).post()
    refused = _declare(app, file, by_itself)
    done = len(rows) - len(refused)
    app.emit({"rows": done, "refused": refused}, f"{count_of(done, 'row')} done")
    if refused:
        raise Partly(f"{count_of(len(refused), 'row')} refused")


def _declare(app: App, file: Path, rows: Sequence[Row]) -> list[dict[str, object]]:
    """Declares conflicts one by one, and tells which were refused."""
    refused: list[dict[str, object]] = []
    for row in app.track(rows, "Declaring"):
        try:
            app.client.declare(int(row.paper), row.user, row.action == "conflict")
        except Refusal as error:
            refused.append({"line": row.line, "paper": int(row.paper), "user": row.user, "error": error.name})
            app.note(f"{file}, line {row.line}: {error.name}: {error.meaning()}")
    return refused
