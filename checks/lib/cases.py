# SPDX-License-Identifier: Apache-2.0 OR MIT
"""What the cases of crates/conformance/data send and what is due there: `exchanges` gives requests with their answers.

The head of crates/conformance/src/main.rt lists the forms of a line. Those of the store, of faults and of ends tell no
request and no answer, and are passed over; of N connections that are alike one is taken.
"""
import re
from dataclasses import dataclass, field

from .model import secret_of

# What refuses bytes that are no request: behind it nothing is read. The first two come before a method is known.
HEADLESS = ("head_too_large", "bad_http")
CLOSING = (*HEADLESS, "no_host", "length_required", "bad_length", "too_large")
CLOSED = {b'{"error":"%s"}' % name.encode() for name in CLOSING}
USUAL = "Sun, 06 Nov 1994 08:49:37 GMT"
ESCAPE = re.compile(rb"\\(?:([rn\\])|x([0-9A-Fa-f]{2})|\((\d+) ([^)]*)\))")
SIMPLE = {b"r": b"\r", b"n": b"\n", b"\\": b"\\"}
TYPES = {"bytes:": "application/octet-stream", "text:": "text/plain; charset=utf-8", "": "application/json"}
ANSWER = re.compile(r"(\d{3}) (?:Allow: ([^;]*); )?(HEAD )?(bytes:|text:|) ?(.*)", re.S)
SKIPPED, END = re.compile(rb"[\r\n]*"), re.compile(rb"\n\r?\n")


@dataclass
class Request:
    """A request that is whole: its fields are pairs of a name in lower case and a value."""

    method: str
    target: str
    fields: list
    body: bytes

    def values(self, name):
        return [value for key, value in self.fields if key == name]


@dataclass
class Answer:
    """An answer that is due. Of one to HEAD the content is what GET would be answered, and isn't sent."""

    status: str
    fields: dict
    content: bytes
    is_head: bool

    def closes(self):
        """Whether it refuses bytes that are no request."""
        return self.content in CLOSED

    def is_headless(self):
        """Whether it refuses bytes whose method isn't known."""
        return self.content in {b'{"error":"%s"}' % name.encode() for name in HEADLESS}


@dataclass
class Talk:
    """A connection: all that is sent, and its answers, each with its line and what may come in its place."""

    sent: bytearray = field(default_factory=bytearray)
    answers: list = field(default_factory=list)


def unescaped(text):
    """The bytes that a text with escapes stands for."""
    def one(match):
        letter, digits, count, times = match.groups()
        if letter:
            return SIMPLE[letter]
        return bytes([int(digits, 16)]) if digits else times * int(count)

    return ESCAPE.sub(one, text.encode())


def request_bytes(number, text):
    """The bytes of `NAME METHOD PATH [BODY]`, with this number of a command where it isn't empty."""
    name, method, path, body = (text.split(" ", 3) + [""])[:4]
    body = unescaped(body)
    token = name if "." in name else f"{name}.{secret_of(name)}"
    login = "" if name == "-" else f"Authorization: Bearer {token}\r\n"
    told = b"Command-Number: " + unescaped(number) + b"\r\n" if number else b""
    head = f"{method} {path} HTTP/1.1\r\nHost: c\r\n{login}".encode()
    return head + told + f"Content-Length: {len(body)}\r\n\r\n".encode() + body


def answer_of(text, date, closes):
    """The answer that `CODE [Allow: METHODS; ][HEAD ][bytes: |text: ]CONTENT` tells."""
    status, allow, head, kind, content = ANSWER.fullmatch(text).groups()
    content = unescaped(content)
    fields = {"Date": date}
    if status == "401":
        fields["WWW-Authenticate"] = 'Bearer realm="confd"'
    if allow:
        fields["Allow"] = allow
    fields.update({"Content-Type": TYPES[kind], "Content-Length": str(len(content))})
    if closes:
        fields["Connection"] = "close"
    return Answer(status, fields, content, bool(head))


def lines_of(shared, own):
    """The lines of a case with their numbers, those told several times once a time."""
    for number, line in shared + own:
        if not line.startswith("*"):
            yield number, line
            continue
        times, line = line[1:].split(" ", 1)
        for time in range(1, int(times) + 1):
            yield number, line.replace("\\#", str(time))


def talks(lines):
    """The connections of a case; the program's own streams come first, and are one where it is `pipe`."""
    told, date, is_pipe = [Talk()], USUAL, True
    for number, line in lines:
        form, _, rest = line.partition(" ")
        if form == "$":
            is_pipe = rest.startswith("confd pipe")
        elif form == "~":
            date = rest.split(" ", 1)[1]
        elif form.startswith("&"):
            told.append(Talk())
        elif form in ("<", "<!"):
            told[-1].answers.append((number, [answer_of(rest, date, form == "<!")]))
        elif form == "|":
            told[-1].answers[-1][1].append(answer_of(rest, date, False))
        elif form.startswith(">>"):
            told[-1].sent += unescaped(rest) * int(form[2:] or 1)
        elif form.startswith(">"):
            told[-1].sent += request_bytes(form[1:], rest)
    return told if is_pipe else told[1:]


def head_at(sent, place):
    """The request whose head is at this place, without its body, and where the head ends."""
    start = SKIPPED.match(sent, place).end()
    end = END.search(sent, start).end()
    first, *rest = sent[start:end].decode("latin-1").replace("\r\n", "\n").strip("\n").split("\n")
    method, target, _ = first.split(" ")
    fields = [(name.lower(), value.strip(" \t")) for name, _, value in (line.partition(":") for line in rest)]
    return Request(method, target.encode("latin-1").decode(), fields, b""), end


def request_at(sent, place):
    """The request at this place, and where it ends."""
    request, end = head_at(sent, place)
    stop = end + int((request.values("content-length") or ["0"])[0])
    request.body = bytes(sent[end:stop])
    return request, stop


def cases(path):
    """The cases of a file: of each its lines, with their numbers."""
    parts = [[]]
    for number, line in enumerate(path.read_text().splitlines(), 1):
        if line.startswith("== "):
            parts.append([])
        elif line and not line.startswith("#"):
            parts[-1].append((number, line))
    for own in parts[1:]:
        yield list(lines_of(parts[0], own))


def exchanges_in(lines):
    """Each answer that is due in a case, connection by connection: its line, its request and itself. Of bytes that are
    no request it is what their head says, and none if no method is known."""
    for talk in talks(lines):
        place = 0
        for number, due in talk.answers:
            request = None
            if not due[0].closes():
                request, place = request_at(talk.sent, place)
            elif not due[0].is_headless():
                request, _ = head_at(talk.sent, place)
            for answer in due:
                yield number, request, answer


def exchanges(path):
    """Each answer that is due in a file's cases, as above."""
    for lines in cases(path):
        yield from exchanges_in(lines)
