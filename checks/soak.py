#!/usr/bin/env python3
# SPDX-License-Identifier: Apache-2.0 OR MIT
"""Runs whole conferences by the client through nginx, one after the other for an hour, and does harm to the server.

    /usr/bin/python3 checks/soak.py [--minutes N] [--seed N] [PROGRAM]

PROGRAM is `confd` as `rt run` builds it (crates/confd/out/confd if none is named). Needs cc and the Debian packages
nginx-light, openssl and python3-requests, and is no part of the gate.

A round has two conferences side by side, one kept in a journal and one in a database. Each has 26 users at once, and
goes from the first registration to the close. Each command is sent again by its number until it is answered. Meanwhile
the server is killed and started again on its store, and connections on both sides of nginx hang and are cut. The disk
is full, the clock is set back, clients stall, and nginx reads its configuration again. What is looked at after a round:

- each acknowledged command is in the store's rows, in one group, and nothing else is;
- the small model of `model.py` gets these commands in the rows' order. It gives the answers that came, it has every
  comment that anybody read, and it tells what `confd view` and the server, started once more, tell;
- memory, descriptors and threads of that server are those of the first round. The one of the first round runs on to the
  end: each round asks it everything again, old commands among it, and it doesn't grow.

Prints a line a round, and last `N passed, M failed`; ends with status 0 if none failed. What a failed round left is
kept, and its line says where.
"""

import argparse
import collections
import concurrent.futures
import contextlib
import errno
import json
import os
import random
import re
import shutil
import signal
import socket
import ssl
import sys
import tempfile
import threading
import time

from lib.checking import expect
from lib.drill import KINDS
from lib.journal_file import connected, groups_by_more, rows_by_place, rows_in
from lib.model import secret_of
from lib.model_by_kind import ByKind
from lib.model_views import view_lines
from lib.nginx import nginx_before
from lib.program import program_named
from lib.relay import Relay
from lib.server import Server, ask_once
from lib.shim import FILES, Orders, shim_for
from lib.whole_conference import AUTHORS, COMMITTEE, Conference
from lib.wire import asked, raw

STORES = {"journal": "store.cj", "database": "store"}
# The rooms and pauses of the relays, and the hosts from which nginx sees its clients, since it counts what each asks.
ROOMS, PAUSES = (None, None, None, 3_000, 30_000, 1_000_000), (0, 0, 0.5, 3)
HOSTS = [f"127.0.{number // 200}.{number % 200 + 2}" for number in range(600)]
# By how many seconds the clock is set back at most.
BACK = 90_000
# By how much of its memory a server may differ from that of the first round, and by how many bytes one may grow.
APART, GROWTH = 0.05, 1 << 20
# What a server may say.
SAID = re.compile(r"confd: (commands are (refused \(503\): .*|taken again)|\S+: not shut well, .*)\n")
TO_BE_STARTED = "has to be started again"
# Whose views and answers are compared with the model's.
ASKED = [*COMMITTEE[:4], *AUTHORS[:2], AUTHORS[-1]]


# ---- servers


class Heard(Server):
    """A server behind nginx, and what it says."""

    def __init__(self, program, store, **more):
        super().__init__(program, store, workers=64, **more)
        self.store, self.lines = store, []
        self.listener = threading.Thread(target=self.listen, daemon=True)
        self.listener.start()

    def listen(self):
        for line in self.process.stderr:
            self.lines.append(line.decode())

    def end(self, number):
        """Ends it by a signal; it must not have ended before, nor have said anything unknown."""
        self.process.send_signal(number)
        status = self.process.wait()
        self.listener.join()
        super().stop()
        unknown = [line for line in self.lines if not SAID.fullmatch(line)]
        expect(status == -number and not unknown, f"the server ended with status {status}, and said {unknown[:3]}")

    def usage(self):
        """Its memory in bytes, its open descriptors and its threads, once what it served is closed."""
        told = []
        for _ in range(10):
            time.sleep(0.3)
            with open(f"/proc/{self.process.pid}/status", encoding="utf-8") as file:
                lines = dict(line.split(":", 1) for line in file)
            descriptors = len(os.listdir(f"/proc/{self.process.pid}/fd"))
            told.append(Usage(int(lines["VmRSS"].split()[0]) << 10, descriptors, int(lines["Threads"])))
        return min(told, key=lambda usage: usage.descriptors)


Usage = collections.namedtuple("Usage", "memory descriptors threads")


class Deployment:
    """confd behind nginx, with a relay on either side of nginx, for one conference after the other."""

    def __init__(self, program, shim, kind, folder, seed, cleanup):
        self.program, self.shim, self.kind, self.folder = program, shim, kind, folder
        self.random, self.done = random.Random(f"{seed} {kind}"), collections.Counter()
        self.inner, self.outer = Relay(seed, ROOMS, PAUSES), Relay(seed, ROOMS, PAUSES, HOSTS)
        self.nginx = cleanup.enter_context(nginx_before(self.inner.port, folder))
        self.outer.target = self.nginx.port
        self.server = self.orders = self.first = self.lasting = None
        for each in (self.inner.close, self.outer.close, lambda: self.server and self.server.stop()):
            cleanup.callback(each)

    def start(self, store):
        # (the C library's heaps are one for each thread where they aren't one for all, and fill for long by chance)
        words = {**self.shim.environment(self.orders), "MALLOC_ARENA_MAX": "1"}
        self.server = Heard(self.program, store, env=words)
        self.inner.target = self.server.port

    def round(self, folder):
        """A whole conference under harm: what is left of it."""
        store, begun, over = os.path.join(folder, STORES[self.kind]), time.time(), threading.Event()
        cuts = self.inner.cuts + self.outer.cuts
        if self.server is not None:  # (of a round that failed)
            self.server.stop()
        self.orders = Orders(f"{store}.orders", scope=FILES, lasts=1, error=errno.ENOSPC)
        self.start(store)
        conference = Conference(f"https://127.0.0.1:{self.outer.port}", self.nginx.certificate)
        with concurrent.futures.ThreadPoolExecutor(1) as pool, contextlib.closing(conference):
            harm = pool.submit(self.harm, over)
            try:
                conference.run()
            finally:
                over.set()
                harm.result()
        for user in conference.users.values():
            self.done.update(commands=len(user.acknowledged), sendings=user.sendings())
        self.done["connections cut"] = self.inner.cuts + self.outer.cuts - cuts
        self.server.end(signal.SIGTERM)
        left = Left(self.program, store, conference, begun)
        self.start(store)
        left.answers(self.server)
        return left

    # ---- harm

    def harm(self, over):
        """One harm after the other, each undone by itself."""
        harms = {"kills": self.kill, "cuts of all": self.cut, "full disks": self.fill, "clocks set back": self.set_back,
                 "stalls": self.stall, "reloads": self.nginx.reload}  # fmt: skip
        while not over.wait(self.random.uniform(0.2, 2)):
            # (as the operator does)
            is_lasting = any(TO_BE_STARTED in line for line in self.server.lines)
            name = "kills" if is_lasting else self.random.choice([*harms, "kills"])
            harms[name]()
            self.done[name] += 1

    def kill(self):
        self.server.end(self.random.choice([signal.SIGKILL, signal.SIGTERM]))
        time.sleep(self.random.uniform(0, 1))
        self.start(self.server.store)

    def cut(self):
        self.random.choice([self.inner, self.outer]).cut()

    def fill(self):
        """The disk has room for a few writes more; then there is room again, perhaps behind a kill."""
        self.orders.tell(most_write=self.random.choice([0, 100, 4096]),
                         refuse_write=self.orders.writes + self.random.randint(1, 9))  # fmt: skip
        time.sleep(self.random.uniform(0.5, 3))
        is_killed = self.random.random() < 0.3
        if is_killed:
            self.server.end(signal.SIGKILL)
        self.orders.tell(refuse_write=0, most_write=0)
        if is_killed:
            self.start(self.server.store)

    def set_back(self):
        back, until = self.random.randint(1, BACK), time.monotonic() + self.random.uniform(0.5, 3)
        while time.monotonic() < until:
            self.orders.tell(moment=int(time.time()) - back)
            time.sleep(0.05)
        self.orders.tell(moment=0)

    def stall(self):
        """Clients of nginx, and some of confd itself, that wait in the midst of a request."""
        context = ssl.create_default_context(cafile=self.nginx.certificate)
        with contextlib.ExitStack() as held, contextlib.suppress(OSError):
            for number in range(30):
                port = self.nginx.port if number < 20 else self.server.port
                link = held.enter_context(socket.create_connection(("127.0.0.1", port)))
                if number < 20:
                    link = held.enter_context(context.wrap_socket(link, server_hostname="127.0.0.1"))
                link.sendall(raw("PUT", "/papers/1/content", "alice", b"x" * 3000)[: self.random.randint(1, 3000)])
            time.sleep(self.random.uniform(0.5, 3))


# ---- what is left


def rows_of(store):
    """All rows of a store that no process has open."""
    if store.endswith(".cj"):
        return rows_in(store)
    with connected(store) as file:
        return list(rows_by_place(file))


class Left:
    """What a conference left in its store, which is compared with what was acknowledged."""

    def __init__(self, program, store, conference, begun):
        self.store, self.users = store, {user.number: user for user in conference.users.values()}
        # (`view` opens the store first, as confd does behind a crash)
        views = {name: program.run(["view", "--store", store, "--user", name])[0] for name in ASKED}
        self.rows = rows_of(store)
        groups = list(groups_by_more(self.rows))
        self.once_each(groups)
        self.model = ByKind()
        for group in groups:
            self.replay(group, begun)
        for (paper, number), text in conference.read.items():
            kept = [fields[3] for _, fields in self.model.comments(paper) if fields[1] == number]
            expect(kept == [text], f"comment {number} on paper {paper} was read, and is {kept}")
        for name, view in views.items():
            expect(view.decode().splitlines() == view_lines(self.model, name), f"the view of {name}")

    def once_each(self, groups):
        """That each accepted command stands in one group, and each user once, and nothing else does."""
        came = collections.Counter((group[0].maker, group[0].num) for group in groups)
        due = {(user, number) for user in self.users for number in (0, *self.users[user].acknowledged)}
        expect(not due - set(came), f"{len(due - set(came))} of {len(due)} acknowledged are lost: "
               f"{[self.told(key) for key in list(due - set(came))[:3]]}")  # fmt: skip
        other = [(key, times) for key, times in came.items() if times > 1 or key not in due]
        expect(not other, f"doubled, or never acknowledged: {other[:3]}")

    def told(self, key):
        user, number = key
        return self.users[user].name, number, *map(str, self.users[user].acknowledged.get(number, ["registered"]))

    def replay(self, group, begun):
        """The model gets a group's command: it has to give its answer, and to add these entries."""
        row, before = group[0], len(self.model.history)
        user = self.users[row.maker]
        self.model.now = row.at
        if row.num == 0:
            came = 201, f'{{"user":{user.number}}}'
            due = self.model.ask("-", "POST", "/register", {"name": user.name})
        else:
            request, came = user.acknowledged[row.num]
            body = request.body and request.body.decode()
            is_json = request.body_type == "application/json"
            due = self.model.ask(user.name, request.method, request.path, json.loads(body) if is_json else body,
                                 [str(row.num)])  # fmt: skip
        expect(came == due, f"{self.told((row.maker, row.num))}: came {came}, due {due}")
        added = [(KINDS.index(kind) + 1, maker) for maker, kind, _ in self.model.history[before:]]
        expect(added == [(each.kind, each.maker) for each in group], f"entries {added}, rows {group}")
        expect(row.kind != KINDS.index("uploaded") + 1 or row.b1 == request.body, f"a content of paper {row.n1}")
        expect(begun - BACK - 1 <= row.at <= time.time(), f"a row of {row.at}")
        self.model.moments.update({before + place: row.at for place in range(len(group))})

    def answers(self, server):
        """That a server on this store answers as the model does, and old commands and refused ones as they were."""
        papers = self.model.papers()
        paths = ["/me", "/phase", "/accounts", "/accepted", "/search?q=a", "/reports/papers"]
        paths += [f"/papers/{paper}{part}" for paper in papers for part in ("", "/reviews", "/comments", "/response")]
        words = [(name, "GET", path, None) for name in ASKED for path in paths]
        words += [(name, "PUT", f"/papers/{paper}/bid", {"bid": 1}) for name in ASKED for paper in papers]
        for name, method, path, body in words:
            code, _, content = ask_once(server, asked(name, method, path, body, []))
            due, told = self.model.ask(name, method, path, body)
            expect((code, content.decode()) == (due, told.removeprefix("text: ")), f"{name} {method} {path}: "
                   f"came {code} {content}, due {due} {told}")  # fmt: skip
        for user in self.users.values():
            for number, (request, due) in list(user.acknowledged.items())[::5]:
                text = raw(request.method, request.path, f"{user.name}.{secret_of(user.name)}", request.body,
                           [f"Command-Number: {number}"])  # fmt: skip
                code, _, content = ask_once(server, text)
                expect((code, content.decode()) == due, f"{request} again: came {code} {content}, due {due}")
                with socket.create_connection(("127.0.0.1", server.port)) as link:
                    link.sendall(text[: len(text) // 2])


# ---- rounds


def compared(deployment, left):
    """What the server of this round takes beside the one of the first round, and whether that one grew."""
    taken = deployment.server.usage()
    if deployment.first is None:
        deployment.first, deployment.lasting, deployment.server = (taken, left), (deployment.server, []), None
        return f"{deployment.kind} {taken.memory / 1e6:.1f} MB"
    (first, first_left), (server, before) = deployment.first, deployment.lasting
    deployment.server.end(signal.SIGTERM)
    deployment.server = None
    first_left.answers(server)
    before.append(server.usage())
    expect(abs(taken.memory / first.memory - 1) < APART and taken[1:] == first[1:], f"{taken}, in round 1 {first}")
    expect(before[-1].memory <= before[0].memory + GROWTH and before[-1][1:] == before[0][1:], f"grew: {before}")
    return f"{deployment.kind} {taken.memory / 1e6:.1f} MB, of round 1 {before[-1].memory / 1e6:.1f} MB"


def tried(deployments, number, folder):
    """One round of all deployments at once: what its line says."""
    begun = time.monotonic()

    def act(deployment):
        os.mkdir(own := os.path.join(folder, deployment.kind))
        deployment.done.clear()
        return compared(deployment, deployment.round(own))

    with concurrent.futures.ThreadPoolExecutor(len(deployments)) as pool:
        told = "; ".join(pool.map(act, deployments))
    done = sum((deployment.done for deployment in deployments), collections.Counter())
    harm = ", ".join(f"{many} {name}" for name, many in sorted(done.items()))
    return f"round {number}, {time.monotonic() - begun:.0f} s: {harm}; {told}"


def run_rounds(deployments, base, seconds):
    """Rounds for so many seconds, two at least; how many passed and how many failed."""
    until, failed, number = time.monotonic() + seconds, 0, 0
    while number < 2 or time.monotonic() < until:
        number += 1
        os.mkdir(folder := os.path.join(base, f"round-{number}"))
        try:
            print(f"ok: {tried(deployments, number, folder)}", flush=True)
        except Exception as error:
            failed += 1
            print(f"FAILED: round {number}, {folder}\n    {type(error).__name__}: {error}", flush=True)
        else:
            if all(deployment.first[1].store.find(folder) < 0 for deployment in deployments):
                shutil.rmtree(folder)
    return number - failed, failed


def first_again(deployments):
    """That the stores of the first round are as they were."""
    for deployment in deployments:
        (_, left), (server, _) = deployment.first, deployment.lasting
        server.end(signal.SIGTERM)
        expect(rows_of(left.store) == left.rows, f"the rows of the {deployment.kind} are others")


def main():
    words = argparse.ArgumentParser()
    words.add_argument("--minutes", type=float, default=60)
    words.add_argument("--seed", type=int, default=1)
    words.add_argument("program", nargs="*")
    options = words.parse_args()
    program, base = program_named(options.program), tempfile.mkdtemp(prefix="soak-")
    with contextlib.ExitStack() as cleanup:
        shim, deployments = shim_for(program, base), []
        for kind in STORES:
            os.mkdir(folder := os.path.join(base, kind))
            deployments.append(Deployment(program, shim, kind, folder, options.seed, cleanup))
        passed, failed = run_rounds(deployments, base, 60 * options.minutes)
        try:
            first_again(deployments)
        except Exception as error:
            failed += 1
            print(f"FAILED: the first round at the end, {base}\n    {type(error).__name__}: {error}", flush=True)
    if not failed:
        shutil.rmtree(base)
    print(f"{passed} passed, {failed} failed")
    sys.exit(1 if failed else 0)


if __name__ == "__main__":
    main()
