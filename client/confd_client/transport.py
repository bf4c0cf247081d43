# SPDX-License-Identifier: Apache-2.0 OR MIT
"""Requests and answers over HTTP, and how they are sent again until they are answered."""

from __future__ import annotations

import contextlib
import io
import ipaddress
import json
import math
import random
import re
import secrets
import time
from collections.abc import Callable, Mapping
from dataclasses import dataclass
from pathlib import Path
from typing import Any
from urllib.parse import quote, urlsplit

import requests

from confd_client.credentials import Credentials
from confd_client.errors import NumberUsed, Refusal, TooLarge, Unanswered, Unexpected, refusal

LARGEST_BODY = 4_194_304
"""The most bytes of a body."""
CONNECTED_WITHIN, ANSWERED_WITHIN = 10.0, 90.0
"""After how many seconds a connection that isn't made, or on which nothing comes, counts as lost."""
FIRST_PAUSE, LONGEST_PAUSE = 0.1, 10.0
"""The seconds before a request is sent a second time, and the most before any; each pause is twice the one before."""
FRESH_NUMBERS = 3
"""How many numbers that turn out to be used are left for others before that is told."""
SEND_AGAIN = {429, 502, 503, 504, 507}
"""The statuses after which the same is sent again: a gateway's, and those of confd's own that say so. By 429 a gateway
refuses more requests than it takes from one address."""
FOR_EVER = math.inf
"""As a patience: a request is sent again until it is answered, however long that takes."""

Waiting = Callable[[str, float], None]
"""Told before each pause: why the request is sent again, and after how many seconds."""
Sending = Callable[[int], None]
"""Told how many bytes of a body are on their way; from the beginning again where it is sent again."""


@dataclass(frozen=True)
class Answer:
    """A whole answer: its status, the type of its content, what Content-Length says, and the content.

    `sent` is how many times the request was sent.
    """

    status: int
    content_type: str
    length: int
    content: bytes
    sent: int

    def json(self) -> Any:
        """The content as JSON; None where it is none."""
        try:
            return json.loads(self.content)
        except ValueError:
            return None


@dataclass(frozen=True)
class Request:
    """A request as it is sent, each time the same bytes; `on_sent` follows its body."""

    method: str
    path: str
    query: Mapping[str, str]
    body: bytes | None
    body_type: str | None
    on_sent: Sending | None = None

    def __str__(self) -> str:
        return f"{self.method} {self.path}"


class Followed(io.BytesIO):
    """A body that tells how much of it was read."""

    def __init__(self, body: bytes, on_sent: Sending) -> None:
        super().__init__(body)
        self._on_sent = on_sent

    def read(self, size: int | None = -1, /) -> bytes:
        """The next bytes, which are then told of."""
        found = super().read(size)
        self._on_sent(self.tell())
        return found


class Lost(Exception):
    """Nothing came that settles the request: it is sent again."""


def fresh_number() -> int:
    """A Command-Number of 18 digits by chance. Numbers are each user's own and kept for good, so processes that share
    an account mustn't count from one place: among a million such numbers two are equal once in two million tries."""
    return 10**17 + secrets.randbelow(9 * 10**17)


def segment(text: str) -> str:
    """A text as one segment of a path. A segment of dots would be read as a step in the path; since no name and no tag
    is one, a blank stands for it, which is none either."""
    return quote(text, safe="~") if text.strip(".") else "%20"


def checked_url(url: str) -> str:
    """The address of a server without a slash at its end. Raises ValueError where it is neither https, nor http to this
    machine: else secrets would cross a net in the clear."""
    parts = urlsplit(url)
    host = parts.hostname or ""
    if parts.scheme not in ("http", "https") or not host or parts.query or parts.fragment or parts.username:
        raise ValueError(f"{url!r} is no address of a server, such as https://review.example.org")
    if parts.scheme == "http" and not _is_loopback(host):
        raise ValueError(f"{url!r} would send secrets in the clear: take https, or http to this machine")
    return url.rstrip("/")


def _is_loopback(host: str) -> bool:
    if host == "localhost":
        return True
    try:
        return ipaddress.ip_address(host).is_loopback
    except ValueError:
        return False


class Transport:
    """One server, asked over connections that are kept. For one thread at a time."""

    def __init__(self, url: str, credentials: Credentials | None, *, patience: float, on_wait: Waiting | None,
                 ca_file: Path | None, sleep: Callable[[float], None] = time.sleep) -> None:
        self.url = checked_url(url)
        self.patience, self.on_wait, self.ca_file, self.sleep = patience, on_wait, ca_file, sleep
        self.session = requests.Session()
        # Neither a proxy nor a .netrc of the environment is to see or to change what goes to the server.
        self.session.trust_env = False
        self.session.headers.update({"Accept-Encoding": "identity", "User-Agent": "confd-client"})
        if ca_file is not None:
            self.session.verify = str(ca_file)
        if credentials is not None:
            self.session.headers["Authorization"] = credentials.field()

    def close(self) -> None:
        """Closes the connections."""
        self.session.close()

    def read(self, request: Request) -> Answer:
        """The answer to a read or a registration. Raises what `command` does."""
        answer = self._until_answered(request, None)
        return answer if request.method == "HEAD" else _accepted(request, answer)

    def command(self, request: Request, number: int | None) -> Answer:
        """The answer to a command, which acts once. Where no number is given it takes a fresh one, and another where
        that one is used: then this command was never accepted by it.

        Raises the `Refusal` that the server answers; `Unanswered` where no whole answer came within the patience, with
        the number; `Unexpected` where what came is no answer of confd's.
        """
        if number is None:
            for _ in range(FRESH_NUMBERS):
                with contextlib.suppress(NumberUsed):
                    return self._by_number(request, fresh_number())
        return self._by_number(request, fresh_number() if number is None else number)

    def _by_number(self, request: Request, number: int) -> Answer:
        return _accepted(request, self._until_answered(request, number))

    def _until_answered(self, request: Request, number: int | None) -> Answer:
        if request.body is not None and len(request.body) > LARGEST_BODY:
            raise TooLarge(413, what=str(request))
        until, pause, sent = time.monotonic() + self.patience, FIRST_PAUSE, 0
        while True:
            sent += 1
            last = None
            try:
                answer = self._once(request, number, sent)
                if answer.status not in SEND_AGAIN:
                    return answer
                last, reason = answer, f"the status {answer.status}"
            except Lost as cause:
                reason = str(cause)
            if time.monotonic() + pause > until:
                raise _given_up(request, last, reason, number)
            wait = pause * random.uniform(0.5, 1.0)
            if self.on_wait is not None:
                self.on_wait(reason, wait)
            self.sleep(wait)
            pause = min(2 * pause, LONGEST_PAUSE)

    def _once(self, request: Request, number: int | None, sent: int) -> Answer:
        """One exchange. Raises `Lost` where its answer didn't come whole."""
        headers = {} if number is None else {"Command-Number": str(number)}
        if request.body_type is not None:
            headers["Content-Type"] = request.body_type
        try:
            # An empty one isn't followed: requests would send a file without bytes in chunks.
            body = request.body if not request.body or not request.on_sent else Followed(request.body, request.on_sent)
            told = self.session.request(
                request.method, self.url + request.path, params=dict(request.query), data=body,
                headers=headers, timeout=(CONNECTED_WITHIN, ANSWERED_WITHIN), allow_redirects=False)
        except requests.exceptions.SSLError as cause:
            if is_cut(cause):
                raise Lost("the secure connection was cut") from cause
            raise Unanswered(str(request), f"no secure connection: {why_insecure(cause)}") from cause
        except (requests.ConnectionError, requests.Timeout, requests.exceptions.ChunkedEncodingError) as cause:
            raise Lost(_why(cause)) from cause
        except requests.RequestException as cause:
            raise Unanswered(str(request), str(cause), number) from cause
        return Answer(told.status_code, told.headers.get("Content-Type", ""), _whole_length(request, told),
                      told.content, sent)


def _whole_length(request: Request, told: requests.Response) -> int:
    """How long the content is. Raises `Lost` where head or content were cut short, which `requests` lets pass: a head
    without Content-Length, which all of confd's have, or a content of another length."""
    if told.headers.get("Transfer-Encoding", "").lower() == "chunked":
        return len(told.content)
    length = told.headers.get("Content-Length", "")
    if not length.isdigit():
        raise Lost("the connection ended inside the head of the answer")
    if request.method != "HEAD" and len(told.content) != int(length):
        raise Lost(f"the connection ended after {len(told.content)} of {length} bytes")
    return int(length)


def _why(cause: requests.RequestException) -> str:
    """A few words on why no answer came."""
    text = str(cause)
    for known in ("Connection refused", "Name or service not known", "Connection reset", "timed out",
                  "Remote end closed connection", "Broken pipe"):
        if known in text:
            return known[0].lower() + known[1:]
    return type(cause).__name__


def is_cut(cause: requests.exceptions.SSLError) -> bool:
    """Whether a secure connection only ended too early, in its handshake or later: that may pass."""
    return "EOF" in str(cause)


def why_insecure(cause: requests.exceptions.SSLError) -> str:
    """A few words on what is wrong with a certificate; all that is told where it is something else."""
    found = re.search(r"certificate verify failed: .*?(?= \(_ssl)", str(cause))
    return found.group() if found is not None else str(cause)


def _accepted(request: Request, answer: Answer) -> Answer:
    """The answer where it is a success, else its refusal is raised."""
    if 200 <= answer.status < 300:
        return answer
    raised = refusal(answer.status, answer.json(), str(request))
    raised.sent = answer.sent
    raise raised


def _given_up(request: Request, last: Answer | None, reason: str, number: int | None) -> Refusal | Unanswered:
    """What is raised once the patience is over: the last refusal where it is one of confd's own."""
    if last is not None:
        try:
            return refusal(last.status, last.json(), str(request))
        except Unexpected:
            pass
    return Unanswered(str(request), reason, number)
