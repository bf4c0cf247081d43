#!/usr/bin/env python3
# SPDX-License-Identifier: Apache-2.0 OR MIT
"""Tries `confd serve` with the clients that people use: curl, requests, ab and wrk.

    python3 checks/clients.py [PROGRAM]

PROGRAM is `confd` as `rt run` builds it (crates/confd/out/confd where none is named). Needs the Debian packages curl,
python3-requests, apache2-utils and wrk, and is no part of the gate. Prints a line a check, and last
`N passed, M failed`; ends with status 0 where none failed. Takes about half a minute.
"""

import json
import os
import re
import subprocess
import sys
import time

from lib.checking import expect, run_all
from lib.program import LONG, program_named
from lib.server import Client, is_now, serving
from lib.wire import opening, secret_of


SECRET = secret_of("alice")


def said(*words, text=b""):
    """What a command wrote on standard output; it has to end well."""
    done = subprocess.run(words, input=text, capture_output=True, timeout=LONG)
    expect(done.returncode == 0, f"{words[0]} ended with {done.returncode}: {done.stderr.decode()}")
    return done.stdout.decode()


def address(server, path):
    return f"http://127.0.0.1:{server.port}{path}"


def with_curl(program, folder):
    """curl: register, log in, submit, submit twice by a number, a page, a wrong secret, HEAD and its date, a 413,
    HTTP/1.0, ten requests on one connection."""

    def curl(*words, text=b""):
        out = said("curl", "--silent", "--show-error", "--max-time", "20", "--write-out", "\n%{http_code}", *words,
                   text=text)
        content, _, code = out.rpartition("\n")
        return int(code), content

    with serving(program, os.path.join(folder, "store")) as server:
        login = ("--oauth2-bearer", f"alice.{SECRET}")
        registration = json.dumps({"name": "alice", "secret": SECRET})
        told = curl("--data", registration, address(server, "/register"))
        expect(told == (201, '{"user":1}'), told)
        told = curl(*login, "--data", '{"phase":"submission"}', address(server, "/phase"))
        expect(told == (200, '{"phase":"submission"}'), told)
        told = curl(*login, "--json", '{"abstract":"We prove.","title":"Proofs"}', address(server, "/papers"))
        expect(told == (201, '{"paper":1}'), told)
        for _ in range(2):
            told = curl(*login, "--header", "Command-Number: 7", "--json", '{"abstract":"","title":"Types"}',
                        address(server, "/papers"))
            expect(told == (201, '{"paper":2}'), told)
        code, page = curl(*login, address(server, "/papers/1"))
        expect(code == 200 and json.loads(page)["title"] == "Proofs", page)
        told = curl("--oauth2-bearer", "alice.wrong-secret-000001", address(server, "/papers/1"))
        expect(told == (401, '{"error":"unauthorized"}'), told)
        since = time.time()
        code, head = curl("--head", address(server, "/phase"))
        expect(code == 200 and "Content-Length:" in head, head)
        told = re.findall(r"^Date: (.*?)\r?$", head, re.MULTILINE)
        expect(len(told) == 1 and is_now(told[0], since), head)
        expect(curl("--http1.0", address(server, "/phase"))[0] == 200, "HTTP/1.0")
        told = curl("--header", "Expect:", "--data-binary", "@-", address(server, "/register"), text=b"x" * 4_194_305)
        expect(told == (413, '{"error":"too_large"}'), told)
        ten = said("curl", "--silent", "--write-out", "\n%{num_connects}\n",
                   *[address(server, "/phase")] * 10).splitlines()
        expect([int(count) for count in ten[1::2]] == [1] + [0] * 9, f"connections made: {ten[1::2]}")


def with_requests(program, folder):
    """requests: a session of ten requests, with a login."""
    import requests

    with serving(program, os.path.join(folder, "store")) as server, requests.Session() as session:
        since = time.time()
        told = session.post(address(server, "/register"), json={"name": "alice", "secret": SECRET}, timeout=20)
        expect((told.status_code, told.json()) == (201, {"user": 1}), told.text)
        expect(is_now(told.headers["Date"], since), told.headers)
        session.headers["Authorization"] = f"Bearer alice.{SECRET}"
        told = session.post(address(server, "/phase"), json={"phase": "submission"}, timeout=20)
        expect(told.json() == {"phase": "submission"}, told.text)
        for number in range(1, 9):
            told = session.post(address(server, "/papers"), json={"abstract": "", "title": f"Paper {number}"},
                                timeout=20)
            expect((told.status_code, told.json()) == (201, {"paper": number}), told.text)


def with_ab(program, folder):
    """ab: two thousand requests of 32 clients, with connections kept and without; none fails."""
    with serving(program, os.path.join(folder, "store"), workers=64) as server:
        for kept in ((), ("-k",)):
            told = said("ab", "-q", "-n", "2000", "-c", "32", *kept, address(server, "/phase"))
            expect(re.search(r"Complete requests: +2000\n", told), told)
            expect(re.search(r"Failed requests: +0\n", told) and "Non-2xx" not in told, told)


def with_wrk(program, folder):
    """wrk: 64 kept connections over 64 workers for three seconds; every answer is a 200."""
    with serving(program, os.path.join(folder, "store"), workers=64) as server:
        told = said("wrk", "-t", "2", "-c", "64", "-d", "3", address(server, "/phase"))
        expect("Non-2xx" not in told and "Socket errors" not in told, told)
        expect(int(re.search(r"(\d+) requests in", told).group(1)) > 0, told)
        with Client(server) as client:
            expect(client.ask(opening())[0] == 201, "a client behind it")


if __name__ == "__main__":
    run_all((with_curl, with_requests, with_ab, with_wrk), program_named(sys.argv[1:]))
