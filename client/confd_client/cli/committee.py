# SPDX-License-Identifier: Apache-2.0 OR MIT
"""`confd-client committee`: names the committee from a file."""

from __future__ import annotations

from pathlib import Path

import click

from confd_client.answers import Role
from confd_client.cli.app import App, Command, pass_app
from confd_client.tables import read_table


@click.command(cls=Command)
@click.argument("file", type=click.Path(path_type=Path))
@pass_app
def command(app: App, file: Path) -> None:
    """Appoints the committee from FILE, which has the columns name and role: member, chair, or account to dismiss.

    Each user in it has to have an account. A user who has the role already keeps it, and a user who isn't in the file
    isn't changed; so the file may be sent again. The whole file is checked before anything is sent.

    \b
    Example:
      confd-client committee committee.csv
    """
    roles = {account.name: account.role for account in app.client.accounts()}
    wanted: dict[str, Role] = {}
    for line in read_table(file, ("name", "role")):
        name, role = line["name"], Role(line.one_of("role", [role.value for role in Role]))
        if name not in roles:
            raise line.wrong(f"nobody is registered as {name!r}")
        if name in wanted:
            raise line.wrong(f"{name} is there twice")
        if role is Role.MEMBER and roles[name] is Role.CHAIR:
            raise line.wrong(f"{name} is a chair: dismiss them first, by the role account")
        wanted[name] = role
    changes = [(name, role) for name, role in wanted.items() if roles[name] is not role]
    for name, role in app.track(changes, "Naming"):
        if role is Role.ACCOUNT:
            app.client.dismiss(name)
        else:
            app.client.appoint(name, role)
    app.emit({"changed": [{"name": name, "role": role} for name, role in changes],
              "unchanged": len(wanted) - len(changes)},
             f"{len(changes)} named or dismissed, {len(wanted) - len(changes)} left as they are")
