# SPDX-License-Identifier: Apache-2.0 OR MIT
"""`confd serve` in a process of its own, and clients that talk to it over sockets."""

import concurrent.futures
import contextlib
import re
import socket
import subprocess
import time

from .checking import expect
from .program import LONG
from .wire import moment_of

# No answer that is due at once may take so many seconds.
SOON = 20
# By how many seconds a date may be off the system's clock.
APART = 1


class Server:
    """`confd serve` in a process of its own."""

    def __init__(self, program, store, workers=4, connections=65536, listen="127.0.0.1:0", **more):
        words = ["--listen", listen, "--workers", str(workers), "--connections", str(connections), "--store", store]
        self.process = subprocess.Popen(
            [program.path, "serve", *words],
            stdin=subprocess.DEVNULL,
            stdout=subprocess.PIPE,
            stderr=subprocess.PIPE,
            **more,
        )
        self.port = None
        line = self.process.stderr.readline().decode()
        found = re.fullmatch(r"confd: listening on 127\.0\.0\.1:(\d+)\n", line)
        if found is None:
            self.stop()
            raise AssertionError(f"standard error began with {line!r}")
        self.port = int(found.group(1))

    def stop(self):
        """Kills it where it runs still."""
        self.process.kill()
        self.process.wait()
        self.process.stdout.close()
        self.process.stderr.close()

    def ended(self):
        """What it wrote and its status, once it ended by itself."""
        out, err = self.process.communicate(timeout=LONG)
        return out, self.process.returncode, err


def free_port(host="127.0.0.1", family=socket.AF_INET):
    """A port on which nobody listens."""
    with socket.socket(family) as taken:
        taken.bind((host, 0))
        return taken.getsockname()[1]


@contextlib.contextmanager
def serving(program, store, **more):
    server = Server(program, store, **more)
    try:
        yield server
    finally:
        server.stop()


def is_now(date, since):
    """Whether a date is what the system's clock gave between then and now."""
    return since - APART <= moment_of(date) <= time.time() + APART


class Gone(Exception):
    """The server ended the connection before its answer."""


class Client:
    """One connection, on which requests and answers go as bytes."""

    def __init__(self, server, patience=SOON):
        self.socket = socket.create_connection(("127.0.0.1", server.port), timeout=patience)
        self.rest = b""

    def __enter__(self):
        return self

    def __exit__(self, *_):
        self.socket.close()

    def send(self, text):
        self.socket.sendall(text)

    def answer(self, is_head=False):
        """The next answer: its code, its fields and its content; none where the stream ended before it."""
        while b"\r\n\r\n" not in self.rest:
            if not self.more():
                return None
        head, _, self.rest = self.rest.partition(b"\r\n\r\n")
        lines = head.split(b"\r\n")
        fields = dict(line.split(b": ", 1) for line in lines[1:])
        expect(lines[1].startswith(b"Date: ") and len(fields) == len(lines) - 1, f"the fields are {lines[1:]}")
        moment_of(fields[b"Date"].decode())
        length = 0 if is_head else int(fields[b"Content-Length"])
        while len(self.rest) < length:
            expect(self.more(), "an answer was cut")
        content, self.rest = self.rest[:length], self.rest[length:]
        return int(lines[0].split(b" ")[1]), fields, content

    def more(self):
        piece = self.socket.recv(65536)
        self.rest += piece
        return piece != b""

    def ask(self, text, is_head=False):
        self.send(text)
        return self.answer(is_head)

    def is_ended(self):
        """No more bytes come; waits for the end."""
        return self.rest == b"" and not self.more()


def ask_once(server, text):
    with Client(server) as client:
        return client.ask(text)


def at_once(count, act):
    """Calls the act with each number below the count, all at once, and gives what they gave."""
    with concurrent.futures.ThreadPoolExecutor(count) as pool:
        return list(pool.map(act, range(count)))


def words_of(path, **changes):
    words = {"listen": "127.0.0.1:0", "workers": "2", "connections": "2", "store": path, **changes}
    return ["serve", *(word for name, value in words.items() if value is not None for word in (f"--{name}", value))]
