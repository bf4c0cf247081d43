# SPDX-License-Identifier: Apache-2.0 OR MIT
"""Requests and answers as bytes: what scripts send to `confd`, and how they read what comes back."""

import email.utils
import json

from . import model
from .checking import expect

# A body's most bytes.
LARGEST = 4_194_304


# ---- requests


def secret_of(name):
    """The secret of a user in these scripts. Stores of older versions, which checks open, have digests of it."""
    return f"{name}-secret-0123456789"


def raw(method, path, who=None, content=None, fields=()):
    """A request whose content is bytes as they are. `who` is a name, or a whole token NAME.SECRET; `fields` are further
    lines of its head."""
    lines = [f"{method} {path} HTTP/1.1", "Host: c"]
    if who is not None:
        lines.append(f"Authorization: Bearer {who if '.' in who else f'{who}.{secret_of(who)}'}")
    if content is not None:
        lines.append(f"Content-Length: {len(content)}")
    return "\r\n".join([*lines, *fields]).encode() + b"\r\n\r\n" + (content or b"")


def request(method, path, who=None, body=None, number=None):
    """A request whose body, if it has one, is sent as JSON; `number` is a command's."""
    fields = [] if number is None else [f"Command-Number: {number}"]
    return raw(method, path, who, None if body is None else json_of(body), fields)


def json_of(body):
    """A body as it is sent."""
    return json.dumps(body, separators=(",", ":")).encode()


def asked(who, method, path, body, numbers):
    """The request that the model is asked by the same words: `-` is nobody, a body may be a text, and `numbers` are the
    values of its fields Command-Number."""
    fields = [f"Command-Number: {number}" for number in numbers]
    token = None if who == "-" else who if "." in who else f"{who}.{model.secret_of(who)}"
    return raw(method, path, token, model.content_of(body), fields)


def numbered(number, text):
    """A request that gives its command a number."""
    return text.replace(b"\r\n\r\n", f"\r\nCommand-Number: {number}\r\n\r\n".encode(), 1)


def register(name):
    return request("POST", "/register", body={"name": name, "secret": secret_of(name)})


def submit(name, title, abstract=""):
    return request("POST", "/papers", name, {"abstract": abstract, "title": title})


def upload(who, paper, content):
    return raw("PUT", f"/papers/{paper}/content", who, content)


def move_to(phase):
    """The request by which alice, a chair, moves the conference on."""
    return request("POST", "/phase", "alice", {"phase": phase})


def opening():
    """A chair, and the phase in which papers come: three rows."""
    return register("alice") + move_to("submission")


# ---- answers


def answers(out):
    """The answers that stand whole in these bytes, each as its status code and its content."""
    found, at = [], 0
    while True:
        end = out.find(b"\r\n\r\n", at)
        if end < 0:
            return found
        fields = dict(line.split(b": ", 1) for line in out[at:end].split(b"\r\n")[1:])
        begin = end + 4
        stop = begin + int(fields.get(b"Content-Length", b"0"))
        if len(out) < stop:
            return found
        found.append((int(out[at:end].split(b" ")[1]), out[begin:stop]))
        at = stop


def moment_of(date):
    """The seconds since 1970 that the value of a field Date tells, in the one form that there is."""
    told = email.utils.parsedate_to_datetime(date)
    expect(email.utils.format_datetime(told, usegmt=True) == date, f"the date {date}")
    return int(told.timestamp())
