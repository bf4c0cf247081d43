# SPDX-License-Identifier: Apache-2.0 OR MIT
"""`confd-client invite`: invites reviewers from outside the committee."""

from __future__ import annotations

from pathlib import Path

import click

from confd_client.cli.app import App, Command, Partly, pass_app
from confd_client.cli.status import count_of
from confd_client.credentials import NAME
from confd_client.errors import AlreadyInvited, Refusal
from confd_client.tables import read_table


@click.command(cls=Command)
@click.argument("file", type=click.Path(path_type=Path))
@pass_app
def command(app: App, file: Path) -> None:
    """Invites users who aren't on the committee to papers, from FILE, which has the columns paper and user.

    They read the paper, and may be assigned to it as members are. A user who is invited already stays so, and a row
    that is refused stops no other. For chairs.

    \b
    Example:
      confd-client invite externals.csv
    """
    wanted: list[tuple[int, int, str]] = []
    for line in read_table(file, ("paper", "user")):
        if not NAME.fullmatch(line["user"]):
            raise line.wrong(f"user: {line['user']!r} is no name of a user")
        wanted.append((line.number, line.whole("paper", 1, 9999), line["user"]))
    invited = 0
    refused: list[dict[str, object]] = []
    for number, paper, user in app.track(wanted, "Inviting"):
        try:
            app.client.invite(paper, user)
            invited += 1
        except AlreadyInvited:
            pass
        except Refusal as error:
            refused.append({"line": number, "paper": paper, "user": user, "error": error.name})
            app.note(f"{file}, line {number}: {error.name}: {error.meaning()}")
    unchanged = len(wanted) - invited - len(refused)
    app.emit({"invited": invited, "unchanged": unchanged, "refused": refused},
             f"{invited} invited, {unchanged} were invited already")
    if refused:
        raise Partly(f"{count_of(len(refused), 'row')} refused")
