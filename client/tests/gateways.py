# SPDX-License-Identifier: Apache-2.0 OR MIT
"""What stands between a client and the server, and does the worst that it may do: a gateway and a relay."""

from __future__ import annotations

import contextlib
import http.client
import random
import socket
import threading
from collections.abc import Iterator
from dataclasses import dataclass
from http.server import BaseHTTPRequestHandler, ThreadingHTTPServer

from tests.conftest import Server

HTML = b"<html><body><h1>502 Bad Gateway</h1></body></html>"


@dataclass(frozen=True)
class Seen:
    """A request that came to the gateway."""

    method: str
    path: str
    number: str | None
    body: bytes


class Gateway:
    """Hands requests on to a server as nginx does, but for the first ones, which meet what was planned, in turn:

    `drop` ends the connection; `lose` hands the request on and ends the connection without the answer; `half` and
    `head` give a part of the answer, one of its content, the other of its head; a number is a status that it answers
    by itself, with a page of HTML; `late` hands the request on and answers 504; `keeper` answers as confd does when it
    can't store.
    """

    def __init__(self, server: Server, plan: list[str | int]) -> None:
        self.server, self.plan, self.seen = server, plan, list[Seen]()
        gateway = self

        class Handler(BaseHTTPRequestHandler):
            """One connection."""

            protocol_version = "HTTP/1.1"

            def log_message(self, *_: object) -> None:
                """Says nothing."""

            def handle_request(self) -> None:
                """One request."""
                body = self.rfile.read(int(self.headers.get("Content-Length") or 0))
                gateway.seen.append(Seen(self.command, self.path, self.headers.get("Command-Number"), body))
                planned = gateway.plan.pop(0) if gateway.plan else "pass"
                status, content = 0, b""
                if planned in ("pass", "lose", "half", "head", "late"):
                    status, content = gateway.ask(self.command, self.path, dict(self.headers), body)
                if planned in ("drop", "lose"):
                    self.close_connection = True
                    return
                if isinstance(planned, int) or planned == "late":
                    status, content = (planned if isinstance(planned, int) else 504), HTML
                if planned == "keeper":
                    status, content = 503, b'{"error":"keeper_fault"}'
                if planned == "head":
                    self.wfile.write(f"HTTP/1.1 {status} Fine\r\nContent-Type: appl".encode())
                    self.close_connection = True
                    return
                self.send_response(status)
                self.send_header("Content-Length", str(len(content)))
                if status == 302:
                    self.send_header("Location", "/phase")
                self.end_headers()
                self.wfile.write(content[:-1] if planned == "half" else content)
                self.close_connection = planned == "half"

            do_GET = do_POST = do_PUT = do_DELETE = do_HEAD = handle_request

        self.http = ThreadingHTTPServer(("127.0.0.1", 0), Handler)
        self.http.daemon_threads = True
        self.url = f"http://127.0.0.1:{self.http.server_address[1]}"
        threading.Thread(target=self.http.serve_forever, args=(0.05,), daemon=True).start()

    def ask(self, method: str, path: str, headers: dict[str, str], body: bytes) -> tuple[int, bytes]:
        """The server's answer."""
        connection = http.client.HTTPConnection("127.0.0.1", self.server.port, timeout=20)
        with contextlib.closing(connection):
            connection.request(method, path, body, {name: value for name, value in headers.items()
                                                    if name not in ("Host", "Connection")})
            answer = connection.getresponse()
            return answer.status, answer.read()

    def close(self) -> None:
        """Takes no more connections."""
        self.http.shutdown()
        self.http.server_close()


@contextlib.contextmanager
def gateway(server: Server, *plan: str | int) -> Iterator[Gateway]:
    """A gateway, for as long as the block runs."""
    made = Gateway(server, list(plan))
    try:
        yield made
    finally:
        made.close()


class Relay:
    """Hands bytes on between clients and the server, and cuts each connection after a random number of bytes on their
    way there or back; where the server doesn't listen, at once."""

    def __init__(self, server: Server, seed: int, longest: int) -> None:
        self.server, self.random, self.longest, self.cuts = server, random.Random(seed), longest, 0
        self.listener = socket.create_server(("127.0.0.1", 0))
        self.url = f"http://127.0.0.1:{self.listener.getsockname()[1]}"
        threading.Thread(target=self._listen, daemon=True).start()

    def close(self) -> None:
        """Takes no more connections."""
        self.listener.close()

    def _listen(self) -> None:
        with contextlib.suppress(OSError):
            while True:
                near, _ = self.listener.accept()
                left = self.random.randrange(self.longest)
                threading.Thread(target=self._carry, args=(near, left, self.random.random() < 0.5), daemon=True).start()

    def _carry(self, near: socket.socket, left: int, there: bool) -> None:
        try:
            far = socket.create_connection(("127.0.0.1", self.server.port), timeout=20)
        except OSError:
            near.close()
            return
        ways = [threading.Thread(target=self._copy, args=(near, far, left if there else None), daemon=True),
                threading.Thread(target=self._copy, args=(far, near, None if there else left), daemon=True)]
        for way in ways:
            way.start()
        for way in ways:
            way.join()
        near.close()
        far.close()

    def _copy(self, source: socket.socket, target: socket.socket, left: int | None) -> None:
        """Hands on until an end, or until so many bytes went: both connections end then."""
        with contextlib.suppress(OSError):
            while data := source.recv(65536):
                if left is not None and len(data) >= left:
                    self.cuts += 1
                    target.sendall(data[:left])
                    break
                target.sendall(data)
                left = None if left is None else left - len(data)
        for each in (source, target):
            with contextlib.suppress(OSError):
                each.shutdown(socket.SHUT_RDWR)


@contextlib.contextmanager
def relay(server: Server, seed: int, longest: int) -> Iterator[Relay]:
    """A relay, for as long as the block runs."""
    made = Relay(server, seed, longest)
    try:
        yield made
    finally:
        made.close()
