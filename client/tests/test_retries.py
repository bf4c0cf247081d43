# SPDX-License-Identifier: Apache-2.0 OR MIT
"""Lost connections, gateways' errors and a killed server: each command acts once."""

from __future__ import annotations

import contextlib
import socket
import threading
import time
from pathlib import Path

import pytest
import requests

from confd_client import Client, Credentials, Unanswered, Unexpected, errors, transport
from tests.conftest import Server, secret_of
from tests.gateways import gateway, relay


def discussing(server: Server) -> Client:
    """A chair's client, in the discussion of one paper."""
    alice = server.client("alice")
    server.go_to("submission")
    server.client("erin").submit("Proofs", "")
    server.go_to("discussion")
    return alice


def at(url: str, patience: float = 20) -> Client:
    """A chair's client by another way."""
    return Client(url, Credentials("alice", secret_of("alice")), patience=patience)


@pytest.mark.parametrize("trouble", ["drop", "lose", "head", "half", "late", "keeper", 429, 502, 503, 504, 507])
def test_a_command_acts_once(server: Server, trouble: str | int) -> None:
    """Whatever happens to it twice, it is sent again by its number, and acts once."""
    alice = discussing(server)
    with gateway(server, trouble, trouble) as between, at(between.url) as client:
        assert client.comment(1, "x") == 1
    assert len(between.seen) == 3 and len(set(between.seen)) == 1 and between.seen[0].number
    assert [comment.text for comment in alice.comments(1)] == ["x"]


@pytest.mark.parametrize("trouble", ["drop", "head", "half", 429, 502, 503, 504, 507])
def test_a_read_is_sent_again(server: Server, trouble: str | int) -> None:
    """Without a number."""
    alice = discussing(server)
    with gateway(server, trouble) as between, at(between.url) as client:
        assert client.page(1) == alice.page(1)
    assert [seen.number for seen in between.seen] == [None, None]


def test_each_command_has_another_number(server: Server) -> None:
    """Two processes of one user don't count from one place."""
    discussing(server)
    with gateway(server) as between, at(between.url) as client, at(between.url) as other:
        for each in (client, other) * 20:
            each.comment(1, "x")
    numbers = {seen.number for seen in between.seen}
    assert len(numbers) == 40 and all(len(number or "") == 18 for number in numbers)


def test_a_number_that_is_used_is_left_for_another(server: Server, monkeypatch: pytest.MonkeyPatch) -> None:
    """Where it was chosen; one that the caller gave is refused."""
    alice = discussing(server)
    alice.comment(1, "x", number=7)
    numbers = iter([7, 7, 8])
    monkeypatch.setattr(transport, "fresh_number", lambda: next(numbers))
    assert alice.comment(1, "y") == 2
    with pytest.raises(errors.NumberUsed):
        alice.comment(1, "z", number=7)
    assert [comment.text for comment in alice.comments(1)] == ["x", "y"]


def test_a_registration_whose_answer_was_lost(server: Server) -> None:
    """It is told by its number, since the account has its secret; another's account stays taken."""
    with gateway(server, "lose") as between, Client(between.url, patience=20) as client:
        assert client.register("alice", secret_of("alice")) == 1
    with gateway(server, "drop") as between, Client(between.url, patience=20) as client:
        with pytest.raises(errors.NameTaken):
            client.register("alice", secret_of("bob"))


def test_patience_ends(server: Server) -> None:
    """With the number by which the command is sent again, and acts once."""
    alice = discussing(server)
    with gateway(server, *["lose"] * 20) as between, at(between.url, patience=0.5) as client:
        with pytest.raises(Unanswered) as raised:
            client.comment(1, "x")
    number = raised.value.number
    assert number is not None and str(number) in str(raised.value)
    assert alice.comment(1, "x", number=number) == 1
    assert len(alice.comments(1)) == 1


def test_a_server_that_cannot_store(server: Server) -> None:
    """Once patience is over its own error is told."""
    discussing(server)
    with gateway(server, *["keeper"] * 20) as between, at(between.url, patience=0.3) as client:
        with pytest.raises(errors.KeeperFault) as raised:
            client.comment(1, "x")
    assert raised.value.status == 503


def test_pauses_grow(server: Server) -> None:
    """Each is at most twice the one before, at least half of its own bound."""
    discussing(server)
    told: list[float] = []
    with gateway(server, *["drop"] * 4) as between, Client(
            between.url, patience=20, on_wait=lambda _, seconds: told.append(seconds)) as client:
        client.phase()
    bounds = [0.1, 0.2, 0.4, 0.8]
    assert len(told) == 4
    assert all(bound / 2 <= pause <= bound for pause, bound in zip(told, bounds, strict=True))


@pytest.mark.parametrize("status", [302, 403, 404, 413, 500])
def test_an_answer_of_another_server(server: Server, status: int) -> None:
    """It isn't followed, nor taken for a refusal of confd's, nor sent again."""
    discussing(server)
    with gateway(server, status) as between, at(between.url) as client:
        with pytest.raises(Unexpected, match="not from confd"):
            client.comment(1, "x")
    assert len(between.seen) == 1


def test_a_certificate_that_nobody_vouches_for() -> None:
    """What is wrong with it is told, without what only a programmer reads; anything else is told whole."""
    told = ("Max retries (Caused by SSLError(SSLCertVerificationError(1, '[SSL: CERTIFICATE_VERIFY_FAILED] "
            "certificate verify failed: self-signed certificate (_ssl.c:992)')))")
    assert transport.why_insecure(requests.exceptions.SSLError(told)) == (
        "certificate verify failed: self-signed certificate")
    assert transport.why_insecure(requests.exceptions.SSLError("wrong version")) == "wrong version"


def test_a_secure_connection_that_is_cut() -> None:
    """In its handshake: what was asked is sent again, as after any other lost connection."""
    reasons = list[str]()

    def cut(listener: socket.socket) -> None:
        with contextlib.suppress(OSError):
            while True:
                with listener.accept()[0] as near:
                    near.recv(65536)

    def wait(reason: str, _: float) -> None:
        reasons.append(reason)
        if len(reasons) == 3:
            raise InterruptedError

    with socket.create_server(("127.0.0.1", 0)) as listener:
        threading.Thread(target=cut, args=(listener,), daemon=True).start()
        with Client(f"https://127.0.0.1:{listener.getsockname()[1]}", patience=20, on_wait=wait) as client:
            with pytest.raises(InterruptedError):
                client.phase()
        listener.shutdown(socket.SHUT_RDWR)
    assert reasons == ["the secure connection was cut"] * 3


def test_what_the_environment_says_of_others(server: Server, monkeypatch: pytest.MonkeyPatch, tmp_path: Path) -> None:
    """Neither a proxy nor a .netrc is asked."""
    alice = server.client("alice")
    netrc = tmp_path / "netrc"
    netrc.write_text("machine 127.0.0.1 login mallory password mallory-secret-000001\n")
    monkeypatch.setenv("NETRC", str(netrc))
    monkeypatch.setenv("http_proxy", "http://127.0.0.1:1")
    assert alice.me().name == "alice"


@pytest.mark.parametrize("url", ["http://review.example.org", "ftp://127.0.0.1", "127.0.0.1:8080", "", "http://",
                                 "http://alice@127.0.0.1", "http://127.0.0.1/?x", "http://127.0.0.1.example.org"])
def test_secrets_cross_no_net_in_the_clear(url: str) -> None:
    """Only https, and http to this machine, are taken."""
    with pytest.raises(ValueError, match=r"address|clear"):
        Client(url)


@pytest.mark.parametrize("url", ["https://review.example.org", "http://localhost:8080/", "http://[::1]:8080"])
def test_addresses_that_are_taken(url: str) -> None:
    """Without a slash at their end."""
    Client(url).close()


def test_cut_connections_and_a_killed_server(server: Server) -> None:
    """A hundred comments, in their order, each once, while every connection is cut and the server killed thrice."""
    alice = discussing(server)
    stop = threading.Event()

    def kill() -> None:
        for _ in range(3):
            stop.wait(0.7)
            server.kill()
            time.sleep(0.2)
            server.start()

    killer = threading.Thread(target=kill)
    killer.start()
    with relay(server, seed=5, longest=3000) as between, at(between.url, patience=60) as client:
        for number in range(1, 101):
            assert client.comment(1, f"comment {number}") == number
    stop.set()
    killer.join()
    assert [comment.text for comment in alice.comments(1)] == [f"comment {number}" for number in range(1, 101)]
    assert between.cuts > 10
