#!/usr/bin/env python3
# SPDX-License-Identifier: Apache-2.0 OR MIT
"""Tries `confd serve` behind nginx, with the configuration of deploy/nginx.conf.

    python3 checks/behind_nginx.py [CHECK..] [PROGRAM]

PROGRAM is `confd` as `rt run` builds it (crates/confd/out/confd if none is named), and CHECK a name of CHECKS. Needs
the Debian packages nginx-light and openssl, and is no part of the gate. Prints a line a check, and last `N passed, M
failed`; ends with status 0 if none failed. Takes some two minutes.
"""

import contextlib
import http.client
import json
import os
import socket
import ssl
import sys
import threading
import time

from lib.checking import expect, run_all
from lib.nginx import nginx_before
from lib.own_systemd import has_come
from lib.program import chosen
from lib.server import serving
from lib.wire import secret_of


SECRET = secret_of("alice")


@contextlib.contextmanager
def behind_nginx(program, folder, is_closed=False):
    """The port at which nginx answers for a server of 64 workers."""
    with serving(program, os.path.join(folder, "store"), workers=64) as server:
        with nginx_before(server.port, folder, is_closed) as nginx:
            yield nginx.port


def unverified():
    """TLS without a look at the certificate, which this run made."""
    context = ssl.create_default_context()
    context.check_hostname = False
    context.verify_mode = ssl.CERT_NONE
    return context


def ask(port, method, path, who=None, body=None, client="192.0.2.1"):
    """The status and the content of one request over TLS, from an address."""
    connection = http.client.HTTPSConnection("127.0.0.1", port, timeout=30, context=unverified())
    fields = {"X-Real-IP": client}
    if who is not None:
        fields["Authorization"] = f"Bearer {who}.{SECRET}"
    connection.request(method, path, body, fields)
    answer = connection.getresponse()
    told = answer.status, answer.read().decode()
    expect(len(answer.headers.get_all("Date", [])) == 1, f"the fields are {answer.headers}")
    connection.close()
    return told


def registered(port, name, client="192.0.2.1"):
    return ask(port, "POST", "/register", body=json.dumps({"name": name, "secret": SECRET}), client=client)


def address(number):
    """Addresses that differ."""
    return f"198.51.{number // 256}.{number % 256}"


def one_after_another(program, folder):
    """requests over TLS: register, log in, submit, a page, a wrong path, HEAD"""
    with behind_nginx(program, folder) as port:
        expect(registered(port, "alice") == (201, '{"user":1}'), "register")
        told = ask(port, "POST", "/phase", "alice", '{"phase":"submission"}')
        expect(told == (200, '{"phase":"submission"}'), told)
        told = ask(port, "POST", "/papers", "alice", '{"abstract":"We prove.","title":"Proofs"}')
        expect(told == (201, '{"paper":1}'), told)
        code, page = ask(port, "GET", "/papers/1", "alice")
        expect(code == 200 and json.loads(page)["title"] == "Proofs", page)
        expect(ask(port, "GET", "/nowhere")[0] == 404, "a path that isn't there")
        expect(ask(port, "HEAD", "/phase") == (200, ""), "HEAD")


def many_at_once(program, folder):
    """two hundred clients at once, over nginx's kept connections, are all answered"""
    with behind_nginx(program, folder) as port:
        told = [None] * 200

        def act(number):
            told[number] = registered(port, f"user-{number}", address(number))

        threads = [threading.Thread(target=act, args=(number,)) for number in range(len(told))]
        for thread in threads:
            thread.start()
        for thread in threads:
            thread.join()
        users = sorted(json.loads(content)["user"] for code, content in told if code == 201)
        expect(users == list(range(1, len(told) + 1)), [one for one in told if one[0] != 201][:3])


def slow_clients(program, folder):
    """a hundred clients that send a part of a request and wait hold no worker"""
    with behind_nginx(program, folder) as port, contextlib.ExitStack() as held:
        for number in range(100):
            slow = held.enter_context(socket.create_connection(("127.0.0.1", port)))
            slow = held.enter_context(unverified().wrap_socket(slow))
            head = f"POST /register HTTP/1.1\r\nHost: c\r\nX-Real-IP: {address(number)}\r\n"
            slow.sendall(head.encode() + b"Content-Length: 60\r\n\r\n{")
        began = time.monotonic()
        expect(registered(port, "alice") == (201, '{"user":1}'), "register")
        expect(time.monotonic() - began < 5, "the answer took five seconds")


def pauses(program, folder):
    """after pauses about as long as confd and nginx keep an idle connection, each command is answered"""
    with behind_nginx(program, folder) as port:
        for number, pause in enumerate((3.5, 4.0, 4.5, 4.9, 5.0, 5.1, 5.5), 1):
            told = registered(port, f"user-{number}")
            expect(told == (201, f'{{"user":{number}}}'), f"ahead of {pause} seconds: {told}")
            time.sleep(pause)
        with open(f"{folder}/error.log", encoding="utf-8") as file:
            expect(file.read() == "", "nginx met an error")


def too_large(program, folder):
    """a body of more than 4 MiB is refused, and one of 4 MiB comes to confd"""
    with behind_nginx(program, folder) as port:
        expect(ask(port, "POST", "/register", body="x" * 4_194_304)[0] == 400, "4 MiB")
        expect(ask(port, "POST", "/register", body="x" * 4_194_305)[0] == 413, "a byte more")


# What deploy/nginx.conf allows one client at once, and after how many seconds one more.
REGISTRATIONS, NEXT_REGISTRATION = 10, 10
UPLOADS, NEXT_UPLOAD = 20, 3
REQUESTS = 20


def expect_limit(act, code, most, pause):
    """The act is taken as often as is allowed at once, and once more for each such pause; then it is 429."""
    began = time.monotonic()
    codes = [act(number) for number in range(most)]
    while codes[-1] == code and len(codes) < 10 * most:
        codes.append(act(len(codes)))
    allowed = most + (time.monotonic() - began) / pause + 1
    expect(set(codes[:-1]) == {code} and codes[-1] == 429, f"{len(codes)} times: {codes[-3:]}")
    expect(most <= len(codes) - 1 <= allowed, f"{len(codes) - 1} were taken")


def registrations(program, folder):
    """from one address ten registrations, then one in ten seconds; from another, and of other requests, as many as
    come"""
    with behind_nginx(program, folder) as port:
        expect_limit(lambda n: registered(port, f"user-{n}")[0], 201, REGISTRATIONS, NEXT_REGISTRATION)
        expect(registered(port, "other", "192.0.2.2")[0] == 201, "another address")
        codes = {ask(port, "GET", "/phase")[0] for _ in range(100)}
        expect(codes == {200}, f"reads: {codes}")
        time.sleep(NEXT_REGISTRATION)
        expect(registered(port, "later")[0] == 201, "later")


def networks(program, folder):
    """addresses of one network of IPv6 are one client"""
    with behind_nginx(program, folder) as port:
        def act(number):
            return registered(port, f"user-{number}", f"2001:db8::{number:x}:1")[0]

        expect_limit(act, 201, REGISTRATIONS, NEXT_REGISTRATION)
        expect(registered(port, "other", "2001:db8:0:1::1")[0] == 201, "another network")


def uploads(program, folder):
    """from one address twenty uploads, then one in three seconds, and reads of contents as many as come"""
    with behind_nginx(program, folder) as port:
        registered(port, "alice")
        ask(port, "POST", "/phase", "alice", '{"phase":"submission"}')
        ask(port, "POST", "/papers", "alice", '{"abstract":"","title":"Proofs"}')

        def act(_):
            return ask(port, "PUT", "/papers/1/content", "alice", "x")[0]

        expect_limit(act, 200, UPLOADS, NEXT_UPLOAD)
        codes = {ask(port, "GET", "/papers/1/content", "alice")[0] for _ in range(50)}
        expect(codes == {200}, f"reads: {codes}")
        told = ask(port, "PUT", "/papers/1/content", "alice", "x", client="192.0.2.2")
        expect(told[0] == 200, f"another address: {told}")


def at_a_time(program, folder):
    """from one address twenty requests at a time"""
    with behind_nginx(program, folder) as port, contextlib.ExitStack() as held:
        for _ in range(REQUESTS):
            slow = held.enter_context(socket.create_connection(("127.0.0.1", port)))
            slow = held.enter_context(unverified().wrap_socket(slow))
            slow.sendall(b"PUT /phase HTTP/1.1\r\nHost: c\r\nX-Real-IP: 192.0.2.1\r\nContent-Length: 60\r\n\r\n{")
        # nginx counts a request once it has read its head.
        expect(has_come(lambda: ask(port, "GET", "/phase")[0] == 429), "one more")
        expect(ask(port, "GET", "/phase", client="192.0.2.2")[0] == 200, "another address")


def closed(program, folder):
    """with the lines that close registration: 403, but from the addresses that they name, and all else is served"""
    with behind_nginx(program, folder, is_closed=True) as port:
        expect(registered(port, "alice")[0] == 201, "an address that is named")
        expect(registered(port, "bob", "198.51.100.1")[0] == 403, "another address")
        expect(ask(port, "POST", "/register?again", client="198.51.100.1")[0] == 403, "with a query")
        expect(ask(port, "GET", "/me", "alice", client="198.51.100.1")[0] == 200, "another path")


CHECKS = (
    one_after_another, many_at_once, slow_clients, pauses, too_large, registrations, networks, uploads, at_a_time,
    closed,
)  # fmt: skip

if __name__ == "__main__":
    run_all(*chosen(CHECKS, sys.argv[1:]))
