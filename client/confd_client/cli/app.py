# SPDX-License-Identifier: Apache-2.0 OR MIT
"""What the commands share: who asks which server, how they print, count and ask, and how they end."""

from __future__ import annotations

import contextlib
import functools
import json
import os
import re
import sys
from collections.abc import Callable, Iterable, Iterator, Sequence
from dataclasses import dataclass, field
from pathlib import Path
from typing import Any, TextIO, TypeVar

import click
from rich.box import SIMPLE
from rich.console import Console, RenderableType
from rich.progress import BarColumn, MofNCompleteColumn, Progress, TextColumn, TimeRemainingColumn
from rich.table import Table
from rich.text import Text

from confd_client.answers import as_json
from confd_client.client import PATIENCE, Client
from confd_client.credentials import Credentials, read_secret_file
from confd_client.errors import BadFile, ClientError, Unanswered, Unexpected

T = TypeVar("T")

WIDE = 200
"""How many columns a table may take that isn't printed to a terminal."""
STEERING = re.compile("[\0-\x08\x0b-\x1f\x7f-\x9f\u202a-\u202e\u2066-\u2069\ud800-\udfff]")
"""Control characters but tabs and line feeds, what changes the direction of writing, and what is no character."""
REFUSED, NO_ANSWER, WRONG_FILE, SAID_NO = 1, 3, 4, 5
"""The exit statuses that this program adds to 0, and to 2 of a wrong command line."""


class SaidNo(ClientError):
    """The user was asked, and said no; nothing was sent."""


class Partly(ClientError):
    """Some of what was asked for was refused. What was done, and what wasn't, has been printed by then."""


def status_of(error: ClientError) -> int:
    """The exit status of what ended a command."""
    if isinstance(error, (Unanswered, Unexpected)):
        return NO_ANSWER
    if isinstance(error, BadFile):
        return WRONG_FILE
    return SAID_NO if isinstance(error, SaidNo) else REFUSED


def fail(error: ClientError, in_json: bool) -> None:
    """Says on standard error what ended a command: a line, or a JSON object for scripts."""
    told = {key: value for key, value in error.details().items() if value is not None}
    click.echo(json.dumps(told) if in_json else f"confd-client: {error}", err=True)


def _console(stream: TextIO) -> Console:
    """A console that prints texts as they are, and to files without breaking lines of tables where it can."""
    wide = None if stream.isatty() else WIDE
    return Console(file=stream, highlight=False, markup=False, emoji=False, width=wide)


@dataclass
class App:
    """One call of the program: the common options, and what a command needs to do its work.

    A command prints its result by `emit`, goes through what takes long by `track`, says more by `note`, and asks by
    `confirm`. With `--json` standard output has the one value of `emit`, and nothing else is said.
    """

    url: str
    user: str | None = None
    secret_file: Path | None = None
    ca_file: Path | None = None
    patience: float = PATIENCE
    as_json: bool = False
    is_url_named: bool = True
    out: Console = field(default_factory=lambda: _console(sys.stdout))
    err: Console = field(default_factory=lambda: _console(sys.stderr))

    @functools.cached_property
    def client(self) -> Client:
        """The client of the user who asks; made, and the secret read, when it is first wanted."""
        return self.client_of(self.credentials())

    def client_of(self, credentials: Credentials | None) -> Client:
        """A client of the same server for these credentials. Raises `click.UsageError` for a bad `--url`."""
        try:
            return Client(self.url, credentials, patience=self.patience, on_wait=self._waits, ca_file=self.ca_file)
        except ValueError as error:
            raise click.UsageError(f"--url: {error}") from error

    def credentials(self) -> Credentials | None:
        """The name and the secret: of `--secret-file`, else of CONFD_SECRET, else of the file that is there for that.

        None where there is none of the three and no `--user`: then what needs no login is answered.
        """
        if self.secret_file is not None:
            return read_secret_file(self.secret_file, self.user)
        secret = os.environ.get("CONFD_SECRET")
        if secret is not None:
            if self.user is None:
                raise click.UsageError("CONFD_SECRET needs --user, or CONFD_USER")
            try:
                return Credentials(self.user, secret)
            except ValueError as error:
                raise click.UsageError(f"CONFD_SECRET: {error}") from error
        if default_secret_file().exists():
            return read_secret_file(default_secret_file(), self.user)
        if self.user is not None:
            raise click.UsageError("--user needs --secret-file, or CONFD_SECRET")
        return None

    def printable(self, text: str) -> str:
        """A text as a terminal may have it: what users wrote may have characters that would steer it."""
        return STEERING.sub("\ufffd", text)

    def table(self, *columns: str, title: str | None = None) -> Table:
        """A table to be filled by `fill`; columns whose names begin with `#` hold numbers."""
        made = Table(title=title, box=SIMPLE, title_justify="left", pad_edge=False)
        for name in columns:
            made.add_column(name.removeprefix("#"), justify="right" if name.startswith("#") else "left",
                            overflow="fold")
        return made

    def fill(self, table: Table, rows: Iterable[Sequence[object]]) -> Table:
        """The table with these rows; what is None is empty."""
        for row in rows:
            table.add_row(*(Text(self.printable("" if each is None else str(each))) for each in row))
        return table

    def emit(self, value: object, show: RenderableType | Sequence[RenderableType] = ()) -> None:
        """Prints the result: with `--json` the value as JSON, dataclasses among it, else what `show` has, in turn.

        Texts of `show` are printed without markup, since titles and names may have brackets, and as `printable` says.
        """
        if self.as_json:
            click.echo(json.dumps(as_json(value), ensure_ascii=False))
            return
        for each in [show] if isinstance(show, str) or not isinstance(show, Sequence) else show:
            if isinstance(each, str):
                self.out.print(self.printable(each), soft_wrap=True)
            else:
                self.out.print(each)

    def note(self, text: str) -> None:
        """Says something on standard error, but nothing to scripts."""
        if not self.as_json:
            self.err.print(self.printable(text), soft_wrap=True)

    def track(self, items: Iterable[T], what: str, total: int | None = None) -> Iterator[T]:
        """The items, one after another, with a progress bar on a terminal's standard error."""
        if self.as_json or not self.err.is_terminal:
            yield from items
            return
        columns = (TextColumn("{task.description}"), BarColumn(), MofNCompleteColumn(), TimeRemainingColumn())
        with Progress(*columns, console=self.err, transient=True) as progress:
            yield from progress.track(items, total=total, description=what)

    def confirm(self, question: str, is_sure: bool) -> None:
        """Asks, unless the user said by `--yes` that they are sure. Raises `SaidNo`, and `click.UsageError` where there
        is nobody to ask."""
        if is_sure:
            return
        if self.as_json or not sys.stdin.isatty():
            raise click.UsageError("nobody to ask: say --yes")
        if not click.confirm(question, err=True):
            raise SaidNo("nothing was done")

    def _waits(self, reason: str, seconds: float) -> None:
        if seconds >= 1:
            self.note(f"{self.url}: {reason}; sending again in {seconds:.0f} s")
            if not self.is_url_named:
                self.note("Is the server elsewhere? Say where by --url, or by the variable CONFD_URL")
                self.is_url_named = True

    def close(self) -> None:
        """Closes the client's connections, where it was wanted."""
        if "client" in self.__dict__:
            self.client.close()


def default_secret_file() -> Path:
    """The file in which a secret is looked for where none is named."""
    base = os.environ.get("XDG_CONFIG_HOME") or os.path.expanduser("~/.config")
    return Path(base) / "confd" / "secret"


def app_of(context: click.Context) -> App:
    """The `App` of a call, which the group made."""
    app = context.find_object(App)
    assert app is not None
    return app


class Command(click.Command):
    """A command that takes `--json` too, so that it may stand at either place."""

    def __init__(self, *words: Any, **options: Any) -> None:
        super().__init__(*words, **options)

        def wanted(context: click.Context, _: click.Parameter, value: bool) -> None:
            if value:
                app_of(context).as_json = True

        self.params.append(click.Option(["--json"], is_flag=True, expose_value=False, callback=wanted,
                                        help="Answer one JSON value on standard output."))


def pass_app(function: Callable[..., Any]) -> Callable[..., Any]:
    """Gives a command the `App` as its first argument, and closes it at the end."""

    @click.pass_context
    @functools.wraps(function)
    def call(context: click.Context, *words: Any, **options: Any) -> Any:
        app = app_of(context)
        with contextlib.closing(app):
            return context.invoke(function, app, *words, **options)

    return call
