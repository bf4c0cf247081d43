#!/usr/bin/env python3
# SPDX-License-Identifier: Apache-2.0 OR MIT
"""Tries `confd serve` with more clients than it has workers: an idle one gives way, and no other.

    python3 checks/crowds.py [CHECK..] [PROGRAM]

PROGRAM is `confd` as `rt run` builds it (crates/confd/out/confd where none is named); CHECK is a name out of CHECKS,
all where none is told. Needs Python 3, and `strace` for `calls`, which is left out, with a line that says so, where it
is missing or may not trace. Prints a line a check, and last `N passed, M failed`; ends with status 0 where none failed.
Takes about three quarters of a minute.
"""

import collections
import contextlib
import os
import random
import re
import select
import shutil
import signal
import subprocess
import sys
import threading
import time

from lib.checking import expect, run_all
from lib.database import rows
from lib.program import LONG, chosen
from lib.server import Client, ask_once, at_once, serving
from lib.wire import LARGEST, opening, register, request, submit, upload


WORKERS = 64
# After how many seconds a connection gives way to another that waits: one that has sent nothing, one between two
# requests, one whose request isn't whole.
SILENT, BETWEEN, WITHIN = 1, 0.1, 10
# Within how many seconds the next client is answered once somebody may give way.
GOAL = 2
# The same where somebody may at once, by how much a busy machine may be late.
LATE = 0.9
# How many come at once, how many more than wait may give way on a busy machine, and how many papers each submits.
FEW, MORE, PAPERS = 8, 2, 15
# How often what depends on how fast clients come is tried at most.
TURNS = 5
PHASE = request("GET", "/phase")


# ---- clients


@contextlib.contextmanager
def crowd(server, count=WORKERS):
    """So many clients, one a worker, and what holds more of them."""
    with contextlib.ExitStack() as held:
        yield [held.enter_context(Client(server)) for _ in range(count)], held


def asks(client):
    """Whether the server answers; it doesn't where the connection gave way, and then no byte comes."""
    try:
        answer = client.ask(PHASE)
    except ConnectionError:
        return False
    expect(answer is None or answer[0] == 200, f"{answer}")
    return answer is not None


def are_ended(clients):
    """How many connections the server has ended, with no byte before the end."""
    count = 0
    for there in select.select([client.socket for client in clients], [], [], 0)[0]:
        count += 1
        with contextlib.suppress(ConnectionResetError):
            expect(there.recv(1) == b"", "bytes came that nobody asked for")
    return count


def next_waits(server, held, most, since=0, least=0):
    """One client more, which is answered after so many seconds at most, and not before so many have passed since a
    moment. It stays."""
    client = held.enter_context(Client(server))
    begun = time.monotonic()
    expect(asks(client), "the next client's answer")
    ended = time.monotonic()
    expect(ended - begun <= most, f"answered after {ended - begun:.2f} s, due within {most:.1f}")
    expect(ended - since >= least, f"answered {ended - since:.2f} s after they began, due are {least}")
    return client


@contextlib.contextmanager
def dripping(clients):
    """Each of them begins a request, and sends a byte a second more of it."""
    over = threading.Event()

    def drip():
        for piece in [b"GET /phase HTTP/1.1\r\nX: "] + [b"x"] * LONG:
            for client in clients:
                with contextlib.suppress(OSError):
                    client.send(piece)
            if over.wait(1):
                return

    thread = threading.Thread(target=drip)
    thread.start()
    try:
        yield
    finally:
        over.set()
        thread.join()


# ---- who gives way, and when


def silent(program, folder):
    """Behind 64 clients that send nothing the next is answered once they did so for a second."""
    for turn in range(TURNS):
        with serving(program, os.path.join(folder, f"store{turn}"), workers=WORKERS) as server:
            begun = time.monotonic()
            with crowd(server) as (clients, held):
                # On a busy machine they may have come for so long that the next needn't wait, which tells little.
                is_young = time.monotonic() - begun < SILENT / 2
                next_waits(server, held, GOAL, begun, SILENT)
                for _ in range(3):
                    next_waits(server, held, LATE)
                expect(4 <= are_ended(clients) <= 4 + MORE, f"{are_ended(clients)} gave way to 4")
        if is_young:
            return


def polite(program, folder):
    """Behind 64 clients that ask every four seconds the next is answered at once, a tenth of a second after they
    asked."""
    with serving(program, os.path.join(folder, "store"), workers=WORKERS) as server:
        with crowd(server) as (clients, held):
            for turn in range(3):
                begun = time.monotonic()
                still = [client for client in clients if asks(client)]
                gone = len(clients) - len(still)
                expect(3 <= gone <= 3 + MORE if turn > 0 else gone == 0, f"{gone} gave way to {3 * (turn > 0)}")
                clients = still + [next_waits(server, held, LATE, begun, BETWEEN) for _ in range(3)]
                time.sleep(4 * (turn < 2))


def dribbling(program, folder):
    """Behind 64 clients that send a byte a second the next is answered once they did so for ten seconds."""
    with serving(program, os.path.join(folder, "store"), workers=WORKERS) as server:
        with crowd(server) as (clients, held):
            begun = time.monotonic()
            with dripping(clients):
                time.sleep(3)
                next_waits(server, held, WITHIN - 3 + GOAL, begun, WITHIN)
                time.sleep(GOAL)
                for _ in range(3):
                    next_waits(server, held, LATE)


def nobody_waits(program, folder):
    """Where nobody waits nobody gives way: silent ones, ones between requests, and ones amid a request stay."""
    with serving(program, os.path.join(folder, "store"), workers=6) as server, crowd(server, 6) as (clients, _):
        silent, dribbled, polite = clients[:2], clients[2:4], clients[4:]
        with dripping(dribbled):
            for _ in range(4):
                expect(all(asks(client) for client in polite), "a client that asks every three seconds")
                time.sleep(3)
            expect(are_ended(clients) == 0, "a connection gave way to nobody")
        for client in dribbled:
            client.send(b"\r\nHost: c\r\n\r\n")
        expect([client.answer()[0] for client in dribbled] == [200, 200], "a request of twelve seconds")
        expect(all(asks(client) for client in silent + polite), "a client that was silent for twelve seconds")


def as_many_as_wait(program, folder):
    """Eight who come at once are answered, and of 64 who ask nothing eight give way, or a few more."""
    with serving(program, os.path.join(folder, "store"), workers=WORKERS) as server, crowd(server) as (clients, _):
        expect(all(asks(client) for client in clients), "a client that found a worker")
        time.sleep(2 * BETWEEN)
        with crowd(server, FEW) as (others, _):
            begun = time.monotonic()
            expect(all(asks(client) for client in others), "a client that waits")
            waited = time.monotonic() - begun
            expect(waited < GOAL, f"they waited {waited:.1f} s")
            time.sleep(BETWEEN / 2)
            count = are_ended(clients)
            expect(FEW <= count <= FEW + MORE, f"{count} gave way to {FEW}")


# ---- what is kept of those who don't


def amid_an_answer(program, folder):
    """Who takes four seconds over a content that she sends, or is sent, gives way to nobody until it is whole."""
    content = os.urandom(LARGEST)
    with serving(program, os.path.join(folder, "store"), workers=2) as server:
        with Client(server) as client:
            client.send(opening() + submit("alice", "Large") + upload("alice", 1, content))
            expect([client.answer()[0] for _ in range(4)] == [201, 200, 201, 200], "opening")

        def sends():
            with Client(server) as client:
                text = upload("alice", 1, content)
                for at in range(0, len(text), len(text) // 40):
                    client.send(text[at : at + len(text) // 40])
                    time.sleep(0.1)
                return client.answer()[2] == b'{"version":2}'

        def takes():
            with Client(server) as client:
                client.send(request("GET", "/papers/1/content/1", "alice"))
                while len(client.rest) < LARGEST:
                    time.sleep(0.1)
                    wanted = len(client.rest) + LARGEST // 40
                    while len(client.rest) < wanted and client.more():
                        pass
                return client.answer()[2] == content

        def waits():
            time.sleep(1)
            with contextlib.ExitStack() as held:
                next_waits(server, held, 4 + GOAL)
            return True

        expect(at_once(3, lambda number: (sends, takes, waits)[number]()) == [True] * 3, "a content was cut")


def asked_as_it_gives_way(program, folder):
    """Three times as many clients as workers, which ask as their connections give way, and again where they did: each
    command is answered, and stands in the store once."""
    store = os.path.join(folder, "store")
    with serving(program, store, workers=FEW) as server:
        ask_once(server, register("alice"))
        ask_once(server, request("POST", "/phase", "alice", {"phase": "submission"}))

        def work(number):
            dice, name, again, connection = random.Random(number), f"user{number}", 0, None
            expect(ask_once(server, register(name))[0] == 201, "a registration")
            for paper in range(PAPERS):
                text = request(
                    "POST", "/papers", name, {"abstract": "", "title": f"{name} {paper}"}, number=paper + 1
                )
                answer = None
                while answer is None:
                    with contextlib.suppress(ConnectionError):
                        connection = connection or Client(server)
                        answer = connection.ask(text)
                    if answer is None:
                        connection.__exit__()
                        connection, again = None, again + 1
                expect(answer[0] == 201, f"{answer}")
                time.sleep(BETWEEN * (0.7 + 0.6 * dice.random()))
            connection.__exit__()
            return again

        again = sum(at_once(3 * FEW, work))
    titles = collections.Counter(bytes(row[5]).decode() for row in rows(store) if row[1] == 5)
    due = {f"user{number} {paper}" for number in range(3 * FEW) for paper in range(PAPERS)}
    expect(set(titles) == due and set(titles.values()) == {1}, f"{len(titles)} of {len(due)} papers")
    expect(again > FEW, f"sent again {again} times: nobody gave way")


# ---- what it costs


def may_trace():
    """Whether strace is there, and may trace."""
    words = ["strace", "-o", os.devnull, "true"]
    return shutil.which("strace") is not None and subprocess.run(words, stderr=subprocess.DEVNULL).returncode == 0


@contextlib.contextmanager
def traced(process, folder):
    """The lines of what strace tells of a process meanwhile, once it is over."""
    path, lines = os.path.join(folder, "calls"), []
    strace = subprocess.Popen(["strace", "-f", "-o", path, "-p", str(process.pid)], stderr=subprocess.PIPE)
    # It says how many threads it attached to, or why it can't.
    told = strace.stderr.readline()
    expect(b"attached" in told, f"{told}")
    yield lines
    strace.send_signal(signal.SIGINT)
    strace.communicate()
    with open(path, encoding="utf-8") as file:
        lines += file.readlines()


def calls(program, folder):
    """A request costs two calls of the system, however long the client waits before it; clients that wait cost none."""
    if not may_trace():
        print("left out: there is no strace, or it may not trace")
        return
    with serving(program, os.path.join(folder, "store"), workers=WORKERS) as server:
        with crowd(server) as (clients, _):
            expect(all(asks(client) for client in clients), "a client that found a worker")
            with traced(server.process, folder) as idle:
                time.sleep(2)
        with Client(server) as client:
            expect(asks(client) and asks(client), "a client that found a worker")
            with traced(server.process, folder) as lines:
                for turn in range(100):
                    time.sleep(2 * BETWEEN * (turn % 20 == 0))
                    expect(asks(client), "a client that asks on")
    # The thread that looks who waits at the listener is none of the workers.
    found = collections.Counter()
    for line in lines:
        call = re.match(r"\d+ +(?:<\.\.\. )?(\w+)", line)
        if call is not None and "unfinished" not in line:
            found[call.group(1)] += 1
    counts = found.pop("recvfrom", 0), found.pop("sendto", 0)
    expect(all(99 <= count <= 101 for count in counts), f"{counts} reads and writes for 100 requests")
    expect(sum(found.values()) <= 20, f"other calls: {found}")
    expect(len(idle) <= 3 * WORKERS, f"{len(idle)} calls in two seconds in which nothing was asked")


CHECKS = (
    silent, polite, dribbling, nobody_waits, as_many_as_wait, amid_an_answer, asked_as_it_gives_way, calls,
)  # fmt: skip

if __name__ == "__main__":
    run_all(*chosen(CHECKS, sys.argv[1:]))
