# SPDX-License-Identifier: Apache-2.0 OR MIT
"""`confd-client register`: makes an account."""

from __future__ import annotations

import os

import click

from confd_client.cli.app import App, Command, default_secret_file, pass_app
from confd_client.credentials import Credentials, made_up_secret, read_secret_file, write_secret_file
from confd_client.errors import Refusal


@click.command(cls=Command)
@click.argument("name")
@pass_app
def command(app: App, name: str) -> None:
    """Makes an account by the name NAME. The first user to register becomes a chair.

    The secret is that of --secret-file (else ~/.config/confd/secret), or of CONFD_SECRET. If there is no such file, a
    secret is made up and written there, readable only by you: keep it, since nobody can give you another.

    \b
    Example:
      confd-client --secret-file alice.secret register alice
    """
    path = app.secret_file or default_secret_file()
    secret = os.environ.get("CONFD_SECRET") if app.secret_file is None else None
    is_new = secret is None and not path.exists()
    try:
        if secret is None:
            credentials = Credentials(name, made_up_secret()) if is_new else read_secret_file(path, name)
        else:
            credentials = Credentials(name, secret)
    except ValueError as error:
        raise click.UsageError(str(error)) from error
    if is_new:
        write_secret_file(path, credentials)
    try:
        with app.client_of(None) as client:
            user = client.register(name, credentials.secret)
    except Refusal:
        if is_new:
            path.unlink()
        raise
    app.emit({"user": user, "name": name, "secret_file": str(path) if secret is None else None},
             f"{name} is user {user}" + (f"; the secret is in {path}" if is_new else ""))
