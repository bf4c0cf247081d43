# SPDX-License-Identifier: Apache-2.0 OR MIT
"""What all commands share: progress, what is printed, how many requests are asked, and where secrets may stand."""

from __future__ import annotations

import io
from pathlib import Path
from typing import Any

import click
import pytest
from rich.console import Console

from confd_client.cli import MODULES, main_group, run
from confd_client.cli.app import App
from tests.conftest import Server
from tests.gateways import gateway


def test_progress_is_shown_on_a_terminal_alone() -> None:
    """With what is done and how much there is; not to scripts, nor into files."""
    told = io.StringIO()
    terminal = Console(file=told, force_terminal=True, width=100)
    assert list(App("http://127.0.0.1:1", err=terminal).track([3, 1, 2], "Reading")) == [3, 1, 2]
    assert "Reading" in told.getvalue() and "3/3" in told.getvalue()
    for app in (App("http://127.0.0.1:1", err=terminal, as_json=True),
                App("http://127.0.0.1:1", err=Console(file=told, width=100))):
        told.truncate(0)
        assert list(app.track([3, 1, 2], "Reading")) == [3, 1, 2]
        assert told.getvalue() == ""


def test_texts_of_others_steer_no_terminal(capsys: pytest.CaptureFixture[str]) -> None:
    """Neither by control characters nor by markup, in texts and in tables."""
    app = App("http://127.0.0.1:1")
    nasty = "a\x1b[31mb\x07\u202ec\x9b\n[red]d[/red] :smile: ünï 😀"
    plain = "a\ufffd[31mb\ufffd\ufffdc\ufffd\n[red]d[/red] :smile: ünï 😀"
    app.emit(None, nasty)
    assert capsys.readouterr().out == plain + "\n"
    app.emit(None, app.fill(app.table("text"), [[nasty]]))
    out = capsys.readouterr().out
    assert all(line in out for line in plain.split("\n")) and "\x1b" not in out


def test_a_status_asks_a_request_a_paper(server: Server) -> None:
    """And six besides; withdrawn papers and those of a conflict aren't asked for."""
    alice = server.committee("bob")
    server.go_to("submission")
    erin = server.client("erin")
    for number in range(1, 8):
        erin.submit(f"Paper {number}", "")
    erin.withdraw(6)
    erin.declare(7, "alice")
    server.go_to("discussion")
    with gateway(server) as between:
        assert server.call("alice", "--json", "status", url=between.url).json()["undecided"] == [1, 2, 3, 4, 5]
    assert sum(seen.path.startswith("/papers/") for seen in between.seen) == 5
    assert len(between.seen) == 5 + 6
    assert alice.phase().papers == 7


def test_no_word_of_the_command_line_is_a_secret() -> None:
    """There is an option for a file, and none for the secret itself."""
    context = click.Context(main_group)
    commands = [main_group, *(main_group.get_command(context, module) for module in MODULES)]
    for command in commands:
        assert command is not None
        names = {word for option in command.params for word in option.opts if "secret" in word}
        assert names <= {"--secret-file"}
    assert run(["--secret", "alice-secret-000001", "phase"]) == 2


def test_an_address_that_nobody_named(monkeypatch: pytest.MonkeyPatch, capsys: pytest.CaptureFixture[str]) -> None:
    """If nothing answers there, it is asked once whether it is meant."""
    made: list[App] = []

    def recorded(**words: Any) -> App:
        made.append(App(**words))
        return made[-1]

    monkeypatch.setattr("confd_client.cli.App", recorded)
    monkeypatch.delenv("CONFD_URL", raising=False)
    for words in (["phase", "-h"], ["--url", "http://127.0.0.1:8080", "phase", "-h"]):
        assert run(words) == 0
    monkeypatch.setenv("CONFD_URL", "http://127.0.0.1:8080")
    assert run(["phase", "-h"]) == 0
    assert [app.is_url_named for app in made] == [False, True, True]
    for app in made:
        app._waits("connection refused", 1)
        app._waits("connection refused", 2)
    assert capsys.readouterr().err.count("CONFD_URL") == 1


def test_each_module_is_listed() -> None:
    """A command whose module isn't in the list can't be called."""
    folder = Path(__file__).parents[1] / "confd_client" / "cli"
    with_command = {path.stem for path in folder.glob("*.py") if "\ndef command(" in path.read_text(encoding="utf-8")}
    assert with_command == set(MODULES) and len(MODULES) == len(set(MODULES))
