# SPDX-License-Identifier: Apache-2.0 OR MIT
"""What the tests share: a server of each test's own, its users, and calls of the command line.

The program is the one that CONFD_PROGRAM names, else crates/confd/out/confd, as `rt run` makes it.
"""

from __future__ import annotations

import contextlib
import io
import json
import os
import re
import subprocess
import time
from collections.abc import Iterator
from dataclasses import dataclass
from pathlib import Path
from typing import Any

import pytest

from confd_client import Client, Credentials, Phase
from confd_client.cli import run
from confd_client.credentials import write_secret_file

ROOT = Path(__file__).resolve().parents[2]
PROGRAM = Path(os.environ.get("CONFD_PROGRAM", ROOT / "crates/confd/out/confd"))


@dataclass(frozen=True)
class Done:
    """How a call of the command line ended."""

    status: int
    out: str
    err: str

    def json(self) -> Any:
        """Its one JSON value."""
        return json.loads(self.out)


def secret_of(name: str) -> str:
    """The secret of a user of the tests."""
    return f"{name}-secret-000001"


class Server:
    """`confd serve` in a process of its own, with its store, which outlives it."""

    def __init__(self, folder: Path) -> None:
        self.folder, self.port = folder, 0
        self.process: subprocess.Popen[bytes] | None = None
        self.clients: dict[str, Client] = {}

    @property
    def url(self) -> str:
        """Where it listens."""
        return f"http://127.0.0.1:{self.port}"

    def start(self) -> None:
        """Starts it, on the port that it had before if it had one: once that is free again."""
        while not self._started():
            time.sleep(0.1)

    def _started(self) -> bool:
        words = ["--listen", f"127.0.0.1:{self.port}", "--workers", "16", "--connections", "65536",
                 "--store", str(self.folder / "conference.cj")]
        self.process = subprocess.Popen([str(PROGRAM), "serve", *words], stdin=subprocess.DEVNULL,
                                        stdout=subprocess.DEVNULL, stderr=subprocess.PIPE)
        assert self.process.stderr is not None
        line = self.process.stderr.readline().decode()
        found = re.fullmatch(r"confd: listening on 127\.0\.0\.1:(\d+)\n", line)
        if found is None:
            self.kill()
            assert self.port and "in use" in line, line
            return False
        self.port = int(found.group(1))
        return True

    def kill(self) -> None:
        """Kills it."""
        if self.process is not None:
            self.process.kill()
            self.process.wait()
            assert self.process.stderr is not None
            self.process.stderr.close()
            self.process = None

    def client(self, name: str) -> Client:
        """The client of a user, who is registered the first time."""
        if name not in self.clients:
            client = Client(self.url, Credentials(name, secret_of(name)), patience=20)
            client.register(name, secret_of(name))
            self.clients[name] = client
        return self.clients[name]

    def secret_file(self, name: str) -> Path:
        """A file with a user's secret."""
        path = self.folder / f"{name}.secret"
        if not path.exists():
            write_secret_file(path, Credentials(name, secret_of(name)))
        return path

    def call(self, name: str, *words: object, url: str | None = None) -> Done:
        """Calls the command line as a user, in this process."""
        out, err = io.StringIO(), io.StringIO()
        common = ["--url", url or self.url, "--secret-file", str(self.secret_file(name)), "--patience", "30"]
        with contextlib.redirect_stdout(out), contextlib.redirect_stderr(err):
            status = run([*common, *(str(word) for word in words)])
        return Done(status, out.getvalue(), err.getvalue())

    def committee(self, *members: str, chair: str = "alice") -> Client:
        """Registers a chair and members, and names these; tells the chair's client."""
        client = self.client(chair)
        for name in members:
            self.client(name)
            client.appoint(name, "member")
        return client

    def go_to(self, phase: str, chair: str = "alice", response: bool = True) -> None:
        """Moves the conference on to a phase, with the response phase or without it."""
        client = self.client(chair)
        while (now := client.phase().phase) != phase:
            order = [each for each in Phase if response or each != Phase.RESPONSE]
            client.set_phase(order[order.index(now) + 1])


@pytest.fixture
def server(tmp_path: Path) -> Iterator[Server]:
    """A server without users, and none of this machine's settings for the command line."""
    if not PROGRAM.exists():
        pytest.skip(f"no program: {PROGRAM}")
    found = Server(tmp_path)
    found.start()
    try:
        yield found
    finally:
        for client in found.clients.values():
            client.close()
        found.kill()


@pytest.fixture(autouse=True)
def no_settings(tmp_path: Path, monkeypatch: pytest.MonkeyPatch) -> None:
    """Takes this machine's settings away from the command line."""
    for name in [name for name in os.environ if name.startswith("CONFD_") and name != "CONFD_PROGRAM"]:
        monkeypatch.delenv(name)
    monkeypatch.setenv("XDG_CONFIG_HOME", str(tmp_path / "config"))
    monkeypatch.setenv("COLUMNS", "120")
