# SPDX-License-Identifier: Apache-2.0 OR MIT
"""The command `confd-client`: a group of commands, each in a module of its own.

A module of this package that is named in `MODULES` has `command`, a `click.Command` made by
`@click.command(cls=Command)` and `@pass_app`; its name on the command line is the module's, with `-` for `_`. What
commands share is in `confd_client.cli.app`.
"""

from __future__ import annotations

import importlib
import os
import re
import sys
from pathlib import Path

import click
from click.core import ParameterSource

from confd_client import __version__
from confd_client.cli.app import REFUSED, App, fail, status_of
from confd_client.client import PATIENCE
from confd_client.errors import BadFile, ClientError

GROUPS = {
    "For everyone": ["register", "phase", "deadline", "search", "papers", "export"],
    "For authors": ["submit", "revise", "upload", "withdraw", "conflicts", "reviews", "respond", "letter"],
    "For members": ["bids", "fetch", "form", "review", "comments"],
    "For chairs": ["mode", "committee", "invite", "status", "plan", "assign", "decide", "letters"],
}
"""The commands as `--help` lists them, each below the first whom it is for."""
MODULES = [module for modules in GROUPS.values() for module in modules]


class Commands(click.Group):
    """The group; a command's module is imported when it is asked for."""

    def list_commands(self, ctx: click.Context) -> list[str]:
        """The names of all commands."""
        return [module.replace("_", "-") for module in MODULES]

    def get_command(self, ctx: click.Context, cmd_name: str) -> click.Command | None:
        """The command by that name, if there is one."""
        if cmd_name not in self.list_commands(ctx):
            return None
        module = importlib.import_module(f"confd_client.cli.{cmd_name.replace('-', '_')}")
        command: click.Command = module.command
        command.name = cmd_name
        return command

    def format_commands(self, ctx: click.Context, formatter: click.HelpFormatter) -> None:
        """Lists the commands by whom they are for, each with the first sentence of its help."""
        for title, modules in GROUPS.items():
            with formatter.section(title):
                formatter.write_dl([(name, _first_sentence(self.get_command(ctx, name)))
                                    for name in (module.replace("_", "-") for module in modules)])


def _first_sentence(command: click.Command | None) -> str:
    text = " ".join((command and command.help or "").split())
    return re.split(r"(?<=[^.])\.(?: |$)", text)[0]


@click.group(cls=Commands, context_settings={"help_option_names": ["-h", "--help"]})
@click.version_option(__version__)
@click.option("--url", default="http://127.0.0.1:8080", show_default=True, envvar="CONFD_URL", show_envvar=True,
              help="Where the server is: https, or http to this machine.")
@click.option("--user", envvar="CONFD_USER", show_envvar=True, help="Your name, where the secret file doesn't have it.")
@click.option("--secret-file", type=click.Path(path_type=Path), envvar="CONFD_SECRET_FILE", show_envvar=True,
              help="A file of your own, mode 0600: your secret, or NAME.SECRET. Else ~/.config/confd/secret is taken, "
                   "where it is there.")
@click.option("--ca-file", type=click.Path(path_type=Path, exists=True), envvar="CONFD_CA_FILE", show_envvar=True,
              help="The certificates to trust, in place of the system's.")
@click.option("--patience", type=click.FloatRange(min=0), default=PATIENCE, show_default=True,
              envvar="CONFD_PATIENCE", show_envvar=True,
              help="For how many seconds a request is sent again while nothing answers it; inf: for ever.")
@click.option("--json", "as_json", is_flag=True, help="Answer one JSON value on standard output, for scripts.")
@click.pass_context
def main_group(context: click.Context, url: str, user: str | None, secret_file: Path | None, ca_file: Path | None,
               patience: float, as_json: bool) -> None:
    """Works with confd, the conference review server, for chairs, members and authors.

    Your secret comes from --secret-file, or from the variable CONFD_SECRET with --user; it is never a word of the
    command line. You are shown what the server shows you, and no more.

    \b
    Exit status:
      0 all was done
      1 the server refused it, or a part of it
      2 the command line is wrong
      3 no server answered
      4 a file is wrong, and nothing was sent
      5 you were asked and said no

    \b
    Examples:
      confd-client --user alice --secret-file alice.secret status
      CONFD_URL=https://review.example.org confd-client --json papers
    """
    context.obj = App(url=url, user=user, secret_file=secret_file, ca_file=ca_file, patience=patience,
                      as_json=as_json, is_url_named=context.get_parameter_source("url") is not ParameterSource.DEFAULT)


def main(words: list[str] | None = None) -> None:
    """Runs the command that the words ask for, and ends with its status."""
    sys.exit(run(words))


def run(words: list[str] | None = None) -> int:
    """Runs the command that the words ask for (the process's where none are handed in), and tells the exit status."""
    try:
        main_group.main(args=words, prog_name="confd-client", standalone_mode=False)
        return 0
    except click.ClickException as error:
        error.show()
        return int(error.exit_code)
    except click.Abort:
        click.echo("confd-client: broken off", err=True)
        return 130
    except BrokenPipeError:
        # Whoever reads standard output wants no more of it; nor is it to be written to at the end.
        os.dup2(os.open(os.devnull, os.O_WRONLY), sys.stdout.fileno())
        return REFUSED
    except OSError as error:
        failed: ClientError = BadFile(error.filename or "a file", error.strerror or str(error))
    except ClientError as error:
        failed = error
    fail(failed, in_json="--json" in (sys.argv[1:] if words is None else words))
    return status_of(failed)
