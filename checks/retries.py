#!/usr/bin/env python3
# SPDX-License-Identifier: Apache-2.0 OR MIT
"""Sends ten thousand commands of `confd serve`, each by its number until it is answered, while connections are cut and
the server is killed.

    python3 checks/retries.py [--commands N] [--kills N] [--seed N] [PROGRAM]

PROGRAM is `confd` as `rt run` builds it (crates/confd/out/confd if none is named). Needs only Python 3. Eight clients
take a conference from setup to discussion through a relay that cuts each connection after a random number of bytes, on
the way there or back. A client whose answer doesn't come whole connects anew and sends the same bytes. Meanwhile the
server is killed, and started again on its store. Whatever the order, each of these commands is to be accepted. Now and
then a client sends an old one again, or another by an old number. What is looked at:

- each number of each user is in the store's rows at the entries of one command, with the mark of what was sent;
- the small model of `model.py` gets the commands once each in the order of the rows. It gives the answers that the
  clients got, and adds as many entries of the same kinds. Then it answers as the server does about every paper, review
  and comment.

Prints a line a check, and last `N passed, M failed`; ends with status 0 where none failed. Takes about a minute.
"""

import argparse
import collections
import concurrent.futures
import json
import os
import random
import socket
import threading
import time

from lib.checking import expect, run_all
from lib.database import opened
from lib.drill import KINDS
from lib.model import mark_of, secret_of
from lib.model_by_kind import ByKind
from lib.program import LONG, program_named
from lib.relay import Relay
from lib.server import SOON, Server
from lib.wire import answers, asked


CLIENTS = ["alice", "bob", "carol", "dave", "erin", "fay", "gus", "hal"]
CHAIRS = ["alice", "carol"]
# Members who ask nothing: further authors, whom authors declare in conflict, whom each chair assigns, and whom each
# declares.
COAUTHORS = ["coauthor0", "coauthor1"]
DECLARED = [f"declared{n}" for n in range(6)]
SEATED = {chair: [f"seated-{chair}{n}" for n in range(6)] for chair in CHAIRS}
CONFLICTED = {chair: [f"conflicted-{chair}{n}" for n in range(3)] for chair in CHAIRS}
OTHERS = COAUTHORS + DECLARED + [name for names in (SEATED, CONFLICTED) for chair in CHAIRS for name in names[chair]]
# The share of all commands that each phase has.
SHARES = {"setup": 0.02, "submission": 0.25, "bidding": 0.28, "reviewing": 0.15, "discussion": 0.3}
WORKERS = 16
# How many papers and comments are each user's at most, and how many of a paper's labels each chair gives.
PAPERS, COMMENTS, LABELS = 12, 900, 9
# How often a client sends an old command again, and another by its number.
OLD, OTHER = 0.05, 0.02
UNTIL = [None, "9999-12-30T22:00:00Z", "9000-01-01T00:00:00+01:00"]
options = None


class Sender:
    """One user, with one connection at a time, who sends each request until it is answered."""

    def __init__(self, port, name):
        self.port, self.name, self.link, self.sendings = port, name, None, 0

    def once(self, text):
        """The answer to a request; none where the connection ended before it."""
        self.sendings += 1
        try:
            self.link = self.link or socket.create_connection(("127.0.0.1", self.port), timeout=SOON)
            self.link.sendall(text)
            out = b""
            while not answers(out):
                piece = self.link.recv(65536)
                if not piece:
                    break
                out += piece
        except OSError:
            out = b""
        found = answers(out)
        if not found and self.link is not None:
            self.link.close()
            self.link = None
        return (found[0][0], found[0][1].decode()) if found else None

    def ask(self, method, path, body=None, fields=()):
        text, begun = asked(self.name, method, path, body, fields), time.monotonic()
        while (answer := self.once(text)) is None:
            expect(time.monotonic() - begun < LONG, f"{self.name}: {method} {path} isn't answered")
            time.sleep(0.002)
        return answer


class Client(Sender):
    """A sender of commands that are accepted whatever the others do meanwhile: what it works on it shares with
    nobody."""

    def __init__(self, port, name, seed, papers):
        super().__init__(port, name)
        # the papers that weren't withdrawn, by number, with their authors
        self.random, self.papers = random.Random(seed), papers
        self.sent = {}  # each command by its number, with its answer
        self.submitted, self.conflicts, self.seats, self.reviews, self.comments = 0, set(), [], [], 0
        self.given = collections.Counter()  # how many labels of a paper it gave

    def command(self, method, path, body=None):
        number = len(self.sent) + 1
        code, content = self.ask(method, path, body, [str(number)])
        expect(code in (200, 201), f"{self.name}, number {number}, {method} {path} {body}: {code} {content}")
        self.sent[number] = (method, path, body, (code, content))
        self.again()
        return json.loads(content)

    def again(self):
        """Now and then an old command, which has its old answer, or another by its number, which is refused."""
        number = self.random.randint(1, len(self.sent))
        method, path, body, answer = self.sent[number]
        if self.random.random() < OLD:
            came = self.ask(method, path, body, [str(number)])
            expect(came == answer, f"{self.name}, number {number} again: came {came}, due {answer}")
        if self.random.random() < OTHER:
            came = (self.ask(method, path, "another", [str(number)]) if method == "DELETE"
                    else self.ask("PUT", "/papers/1/tags/other", None, [str(number)]))
            expect(came == (409, '{"error":"number_used"}'), f"{self.name}, number {number} for another: {came}")

    def work(self, phase, count):
        for _ in range(count):
            getattr(self, phase)()

    # ---- what is done in each phase
    def own(self):
        return [paper for paper, author in list(self.papers.items()) if author == self.name]

    def clear(self):
        """A paper with which the user is in no conflict."""
        return self.random.choice([paper for paper, author in list(self.papers.items())
                                   if author != self.name and paper not in self.conflicts])

    def setup(self):
        if self.random.random() < 0.5:
            return self.command("POST", "/mode", {"mode": self.random.choice(["open", "blind", "anonymous"])})
        return self.deadline("submission")

    def deadline(self, phase):
        self.command("POST", "/deadlines", {"phase": phase, "until": self.random.choice(UNTIL)})

    def submission(self):
        own, deed = self.own(), self.random.random()
        texts = {"abstract": f"By {self.name}.", "title": f"Paper {len(self.sent)}"}
        if not own or (deed < 0.1 and self.submitted < PAPERS):
            authors = self.random.sample(COAUTHORS, self.random.randrange(3))
            self.submitted += 1
            self.papers[self.command("POST", "/papers", {**texts, "authors": authors})["paper"]] = self.name
        elif deed < 0.5:
            self.command("PUT", f"/papers/{self.random.choice(own)}", texts)
        elif deed < 0.8:
            self.command("PUT", f"/papers/{self.random.choice(own)}/content",
                         self.random.choice("xyz") * self.random.randrange(300))
        elif deed < 0.95 or len(own) < 4:
            self.command("POST", f"/papers/{self.random.choice(own)}/conflicts",
                         {"on": True, "user": self.random.choice(DECLARED)})
        elif self.name in CHAIRS and deed < 0.98:
            self.deadline("submission")
        else:
            paper = self.random.choice(own)
            self.command("DELETE", f"/papers/{paper}")
            del self.papers[paper]

    def bidding(self):
        deed = self.random.random()
        if self.name in CHAIRS and deed < 0.5:
            self.chair()
        elif deed < 0.7:
            self.command("PUT", f"/papers/{self.clear()}/bid", {"bid": self.random.randint(-20, 20)})
        elif deed < 0.71 and len(self.conflicts) < 3:
            paper = self.clear()
            self.command("POST", f"/papers/{paper}/conflicts", {"on": True, "user": self.name})
            self.conflicts.add(paper)
            self.seats = [seat for seat in self.seats if seat[0] != paper]
        else:
            self.tag()

    def tag(self):
        tag = self.random.choice(["hot", "~mine", "cold"] + ["~~chairs"] * (self.name in CHAIRS))
        self.command(self.random.choice(["PUT", "PUT", "DELETE"]), f"/papers/{self.clear()}/tags/{tag}")

    def chair(self):
        """What chairs do from the bidding to the discussion."""
        deed, paper = self.random.random(), self.clear()
        free = [name for name in SEATED[self.name] if (paper, name) not in self.seats]
        if deed < 0.3 and free and self.given[paper] < LABELS:
            name = self.random.choice(free)
            self.given[paper] += 1
            self.command("POST", f"/papers/{paper}/reviewers",
                         {"kind": self.random.choice(["primary", "secondary", "pc"]), "user": name})
            self.seats.append((paper, name))
        elif deed < 0.5 and self.seats:
            paper, name = self.seats.pop(self.random.randrange(len(self.seats)))
            self.command("DELETE", f"/papers/{paper}/reviewers/{name}")
        elif deed < 0.8:
            self.command("POST", f"/papers/{paper}/conflicts",
                         {"on": self.random.random() < 0.6, "user": self.random.choice(CONFLICTED[self.name])})
        else:
            rows = [f"{self.clear()},{self.random.choice(['tag', 'cleartag'])},,bulk"
                    for _ in range(self.random.randint(1, 4))]
            rows.append(f"{self.clear()},conflict,{self.random.choice(CONFLICTED[self.name])},")
            self.command("POST", "/assign", "\n".join(["paper,action,user,tag", *rows]) + "\n")

    def review(self):
        if not self.reviews:
            return self.tag()
        form = {"confidence": self.random.randint(1, 5), "score": self.random.randint(1, 5),
                "to_authors": "Good.", "to_pc": ""}
        return self.command("PUT", f"/papers/{self.random.choice(self.reviews)}/review", form)

    def reviewing(self):
        return self.chair() if self.name in CHAIRS and self.random.random() < 0.5 else self.review()

    def discussion(self):
        deed = self.random.random()
        if self.name in CHAIRS and deed < 0.2:
            self.command("PUT", f"/papers/{self.clear()}/decision",
                         {"decision": self.random.choice(["accept", "reject"])})
        elif self.name in CHAIRS and deed < 0.3:
            self.chair()
        elif deed < 0.8 and self.comments < COMMENTS:
            self.comments += 1
            self.command("POST", f"/papers/{self.clear()}/comments",
                         {"text": f"Comment {self.comments} by {self.name}."})
        elif deed < 0.9:
            self.review()
        else:
            self.tag()


def registrations(server):
    """Everybody's account, in order; a registration has no number."""
    for name in CLIENTS + OTHERS:
        code, content = Sender(server.port, "-").ask("POST", "/register", {"name": name, "secret": secret_of(name)})
        expect(code == 201, f"{name}: {code} {content}")


def conference(clients, count):
    """So many commands of all clients together, phase by phase; a phase is begun by alice, alone."""
    alice = clients[0]
    for name in CLIENTS[1:] + OTHERS:
        alice.command("POST", "/members", {"name": name, "role": "chair" if name in CHAIRS else "member"})
    with concurrent.futures.ThreadPoolExecutor(len(clients)) as pool:
        for phase, share in SHARES.items():
            if phase != "setup":
                alice.command("POST", "/phase", {"phase": phase})
            if phase == "reviewing":
                for client in clients[1:]:
                    papers = [paper for paper, author in alice.papers.items()
                              if "alice" != author != client.name and paper not in alice.conflicts | client.conflicts]
                    client.reviews = alice.random.sample(papers, 2)
                    for paper in client.reviews:
                        alice.command("POST", f"/papers/{paper}/reviewers", {"kind": "pc", "user": client.name})
            at_work = clients if phase != "setup" else [client for client in clients if client.name in CHAIRS]
            asked = [pool.submit(client.work, phase, int(count * share / len(at_work))) for client in at_work]
            for future in asked:
                future.result()
        for _ in range(count - sum(len(client.sent) for client in clients)):
            clients[1].discussion()


def kill_and_start(program, store, relay, servers, clients, count, over):
    """Kills the server at random numbers of answers, and starts another on its store."""
    dice = random.Random(options.seed)
    for kill in range(options.kills):
        due = count * (kill + 0.9 * dice.random()) / options.kills
        while sum(len(client.sent) for client in clients) < due and not over.is_set():
            time.sleep(0.001)
        if over.is_set():
            return kill
        servers[-1].stop()
        servers.append(Server(program, store, workers=WORKERS))
        relay.target = servers[-1].port
    return options.kills


def kept(store):
    """The groups of the store's rows in order: of each row the kind, the maker, the number and the mark."""
    with opened(store) as file:
        tables = [name
                  for name, in file.execute("SELECT name FROM sqlite_master WHERE type = 'table' AND name != 'meta'")]
        rows = sorted(row for table in tables
                      for row in file.execute(f"SELECT place, more, kind, maker, num, mark FROM {table}"))
    groups = [[]]
    for place, (told, more, *row) in enumerate(rows):
        expect(told == place, f"row {place} has the place {told}")
        groups[-1].append(tuple(row))
        if not more:
            groups.append([])
    expect(groups.pop() == [], "the last group goes on")
    return groups


def once_each(groups, clients):
    """That each command stands in one group, whole, with its mark, and nothing else does."""
    due = {}
    for user, client in enumerate(clients, 1):
        due.update({(user, number): mark_of(*sent[:3]) for number, sent in client.sent.items()})
    came = collections.Counter()
    for group in groups[len(CLIENTS + OTHERS) :]:
        _, maker, number, mark = group[0]
        expect({row[1:] for row in group} == {(maker, number, mark)}, f"a command's rows differ: {group}")
        expect(due.get((maker, number)) == bytes(mark), f"a command that nobody sent: {group}")
        came[maker, number] += 1
    twice = [key for key, times in came.items() if times > 1]
    expect(not twice and len(came) == len(due),
           f"{len(came)} of {len(due)} commands stand there, {len(twice)} twice: {twice[:3]}")


def replayed(groups, clients):
    """The model behind the same commands in the rows' order, each asked once; its answers have to be those that
    came."""
    model, names = ByKind(), iter(CLIENTS + OTHERS)
    for group in groups:
        before, (_, maker, number, _) = len(model.history), group[0]
        if number == 0:
            model.ask("-", "POST", "/register", {"name": next(names)})
        else:
            client = clients[maker - 1]
            method, path, body, answer = client.sent[number]
            due = model.ask(client.name, method, path, body, [str(number)])
            expect(answer == due, f"{client.name}, number {number}, {method} {path}: came {answer}, due {due}")
        added = [(KINDS.index(kind) + 1, by) for by, kind, _ in model.history[before:]]
        expect(added == [row[:2] for row in group], f"entries {added}, rows {group}")
    return model


def as_told(server, model, papers):
    """What the server tells of everything, and the model of the same."""
    asked = [("-", "/phase"), ("-", "/deadlines"), ("-", "/accounts"), *((name, "/me") for name in CLIENTS)]
    asked += [("alice", f"/papers/{paper}{part}") for paper in papers for part in ("", "/reviews", "/comments")]
    for name, path in asked:
        came, due = Sender(server.port, name).ask("GET", path), model.ask(name, "GET", path)
        expect(came == due, f"{name} GET {path}: came {came}, due {due}")
    return len(asked)


def act_once(program, folder):
    """Each command acts once, however often it was sent: by the store's rows, and by the model."""
    store, relay, papers = os.path.join(folder, "store"), Relay(options.seed), {}
    servers, over = [Server(program, store, workers=WORKERS)], threading.Event()
    try:
        registrations(servers[0])
        relay.target = servers[0].port
        clients = [Client(relay.port, name, f"{options.seed} {name}", papers) for name in CLIENTS]
        with concurrent.futures.ThreadPoolExecutor(1) as pool:
            killer = pool.submit(kill_and_start, program, store, relay, servers, clients, options.commands, over)
            try:
                conference(clients, options.commands)
            finally:
                over.set()
            kills = killer.result()
        expect(kills == options.kills, f"{kills} kills")
        sendings = sum(client.sendings for client in clients)
        print(f"    {options.commands:,} commands in {sendings:,} sendings over {relay.carried:,} connections, "
              f"{kills} kills", flush=True)
        servers[-1].stop()
        groups = kept(store)
        once_each(groups, clients)
        model = replayed(groups, clients)
        servers.append(Server(program, store, workers=WORKERS))
        told = as_told(servers[-1], model, sorted(papers))
        print(f"    {len(model.history):,} rows, {told} questions answered as the model does", flush=True)
    finally:
        relay.close()
        for server in servers:
            server.stop()


def main():
    global options
    words = argparse.ArgumentParser()
    words.add_argument("--commands", type=int, default=10_000)
    words.add_argument("--kills", type=int, default=5)
    words.add_argument("--seed", type=int, default=1)
    words.add_argument("program", nargs="*")
    options = words.parse_args()
    run_all([act_once], program_named(options.program))


if __name__ == "__main__":
    main()
