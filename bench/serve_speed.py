#!/usr/bin/env python3
# SPDX-License-Identifier: Apache-2.0 OR MIT
"""How fast `confd serve` answers, beside others in the same run.

    python3 bench/serve_speed.py [--turns N] [--seconds S] [--connections C,..] [--requests R]
                                 [--before OTHER] [PROGRAM] [FOLDER]

PROGRAM is `confd` as `rt run` builds it (crates/confd/out/confd if none is named), OTHER an earlier one to be measured
in the same run. FOLDER is where the stores are made, by default the system's folder for such; it decides which disk is
measured. Needs Debian's packages nginx-light, wrk, python3-flask and gunicorn. One peer is nginx with one worker, which
sends the same bytes from memory. Another is a small Flask application over a database of SQLite's in WAL mode, under
gunicorn with two processes of four threads. For what is kept the peer is SQLite's own commits with the setting that
confd uses. All loads keep their connections alive; all talk on loopback.

Every load, on each number C of connections (1,4,16,64), is tried N times (5) for S seconds (2) on each server in turn,
and its figure is the median. At the end R requests (a million) are made on 64 connections, and the slowest of them is
told; 0 leaves that out.
"""

import argparse
import contextlib
import os
import re
import signal
import socket
import sqlite3
import statistics
import subprocess
import sys
import tempfile
import time

from lib.program import program_named
from lib.server import free_port
from lib.timing import machine
from lib.wire import move_to, register, request, secret_of, submit

SUBMISSIONS = 1_000
CONNECTIONS = (1, 4, 16, 64)
OURS, BEFORE, NGINX_NAME, FLASK_NAME = "confd", "confd before", "nginx", "Flask"
ABSTRACT = "We prove that nobody learns what the rules forbid. " * 13

FLASK = """
import sqlite3
from flask import Flask, g, jsonify, request
app = Flask(__name__)
def db():
    if "db" not in g:
        g.db = sqlite3.connect(STORE)
        g.db.execute("PRAGMA synchronous = FULL")
    return g.db
@app.teardown_appcontext
def close(_):
    if "db" in g:
        g.pop("db").close()
@app.get("/phase")
def phase():
    papers = db().execute("SELECT count(*) FROM papers").fetchone()[0]
    return jsonify(mode="blind", papers=papers, phase="submission")
@app.get("/papers/<int:paper>")
def page(paper):
    name, _, secret = request.headers.get("Authorization", "")[7:].partition(".")
    if db().execute("SELECT 1 FROM people WHERE name = ? AND secret = ?", (name, secret)).fetchone() is None:
        return jsonify(error="unauthorized"), 401
    title, abstract = db().execute("SELECT title, abstract FROM papers WHERE paper = ?", (paper,)).fetchone()
    return jsonify(paper=paper, title=title, abstract=abstract)
@app.post("/papers")
def submit():
    told = request.get_json(force=True)
    with db():
        added = db().execute("INSERT INTO papers (title, abstract) VALUES (?, ?)", (told["title"], told["abstract"]))
    return jsonify(paper=added.lastrowid), 201
"""

NGINX = """
worker_processes 1;
pid {folder}/nginx.pid;
error_log {folder}/nginx.log;
events {{ worker_connections 512; }}
http {{
    access_log off;
    keepalive_requests 100000000;
    server {{
        listen 127.0.0.1:{port};
        default_type application/json;
        location = /phase {{ return 200 '{phase}'; }}
        location = /papers/1 {{ return 200 '{page}'; }}
    }}
}}
"""


def submission(who):
    return submit(who, "Proofs", ABSTRACT)


class Client:
    """One connection that is kept alive."""

    def __init__(self, port):
        self.socket = socket.create_connection(("127.0.0.1", port))
        self.socket.setsockopt(socket.IPPROTO_TCP, socket.TCP_NODELAY, 1)

    def ask(self, sent):
        """The status and the content of the answer."""
        self.socket.sendall(sent)
        came = b""
        while b"\r\n\r\n" not in came:
            came += self.more()
        head, _, content = came.partition(b"\r\n\r\n")
        length = int(re.search(rb"(?i)content-length: *(\d+)", head).group(1))
        while len(content) < length:
            content += self.more()
        return int(head.split()[1]), content

    def more(self):
        piece = self.socket.recv(65536)
        if not piece:
            raise ConnectionError("the server ended the connection")
        return piece


@contextlib.contextmanager
def running(words, port, **more):
    """A server, as soon as it listens; killed at the end."""
    server = subprocess.Popen(words, stdout=subprocess.DEVNULL, stderr=subprocess.DEVNULL,
                              start_new_session=True, **more)
    try:
        for _ in range(100):
            try:
                socket.create_connection(("127.0.0.1", port)).close()
                break
            except OSError:
                time.sleep(0.1)
        yield server.pid
    finally:
        os.killpg(server.pid, signal.SIGKILL)
        server.wait()


def confd(program, store, port, workers):
    return running(
        [program, "serve", "--listen", f"127.0.0.1:{port}", "--workers", str(workers), "--connections", "65536",
         "--store", store], port)


def wrk(port, path, connections, seconds, who=None):
    """What wrk prints of a load; the failures that it counted end the run."""
    words = ["wrk", f"-t{1 if connections == 1 else 2}", f"-c{connections}", f"-d{seconds}s", "--timeout", "30s"]
    if who is not None:
        words += ["-H", f"Authorization: Bearer {who}.{secret_of(who)}"]
    out = subprocess.run(words + [f"http://127.0.0.1:{port}{path}"], capture_output=True, text=True, check=True).stdout
    if "Non-2xx" in out or "Socket errors" in out:
        sys.exit(f"wrk: {path}: {out}")
    return out


def load(port, path, connections, seconds, who=None):
    """Requests a second."""
    return float(re.search(r"Requests/sec: *([\d.]+)", wrk(port, path, connections, seconds, who)).group(1))


def conference(port):
    """Fills a server of confd: alice is chair, in submission, and erin submits paper 1, whose page is told."""
    client = Client(port)
    for name in ("alice", "erin"):
        client.ask(register(name))
    client.ask(move_to("submission"))
    client.ask(submission("erin"))
    return client.ask(request("GET", "/phase"))[1], client.ask(request("GET", "/papers/1", "erin"))[1]


def submissions_a_second(port, told_names):
    """Submissions, one after another on one connection; a user of confd's may make 20."""
    client = Client(port)
    users = [f"u{number}" for number in range(SUBMISSIONS // 20)]
    if told_names:
        for name in users:
            client.ask(register(name))
    sent = [submission(users[number // 20]) for number in range(SUBMISSIONS)]
    began = time.perf_counter()
    for piece in sent:
        status, content = client.ask(piece)
        if status != 201:
            sys.exit(f"a submission was answered {status} {content}")
    return SUBMISSIONS / (time.perf_counter() - began)


def commits_a_second(folder):
    """SQLite's own commits of such a row, in WAL mode and with each commit on the disk."""
    with contextlib.closing(sqlite3.connect(os.path.join(folder, "peer.store"), isolation_level=None)) as db:
        db.execute("PRAGMA journal_mode = WAL")
        db.execute("PRAGMA synchronous = FULL")
        db.execute("CREATE TABLE papers (paper INTEGER PRIMARY KEY, title TEXT, abstract TEXT)")
        began = time.perf_counter()
        for _ in range(SUBMISSIONS):
            db.execute("INSERT INTO papers (title, abstract) VALUES ('Proofs', ?)", (ABSTRACT,))
        return SUBMISSIONS / (time.perf_counter() - began)


def flask_app(folder):
    store = os.path.join(folder, "flask.store")
    with contextlib.closing(sqlite3.connect(store)) as db, db:
        db.execute("PRAGMA journal_mode = WAL")
        db.execute("CREATE TABLE people (name TEXT PRIMARY KEY, secret TEXT)")
        db.execute("CREATE TABLE papers (paper INTEGER PRIMARY KEY, title TEXT, abstract TEXT)")
        db.execute("INSERT INTO people VALUES ('erin', ?)", (secret_of("erin"),))
        db.execute("INSERT INTO papers VALUES (1, 'Proofs', ?)", (ABSTRACT,))
    with open(os.path.join(folder, "peer.py"), "w", encoding="utf-8") as file:
        file.write(f"STORE = {store!r}\n{FLASK}")


def switches(group):
    """How often the threads of a server's processes have let a processor go by themselves."""
    told = 0
    for process in filter(str.isdigit, os.listdir("/proc")):
        with contextlib.suppress(ProcessLookupError, FileNotFoundError):
            if os.getpgid(int(process)) == group:
                for task in os.listdir(f"/proc/{process}/task"):
                    with open(f"/proc/{process}/task/{task}/status", encoding="utf-8") as file:
                        told += int(re.search(r"\nvoluntary_ctxt_switches:\s*(\d+)", file.read()).group(1))
    return told


def compared(title, figures):
    """A line of what each server did, and what ours is beside it."""
    ours = figures[OURS]
    beside = ", ".join(f"{ours / figure:.2f} of {name}" for name, figure in figures.items() if name != OURS)
    told = ", ".join(f"{name} {figure:,.0f}" for name, figure in figures.items())
    print(f"{title}: {told} a second; {beside}", flush=True)


def reads(servers, counts, turns, seconds):
    """Each load on each server in turn, as often as there are turns."""
    for path, who in (("/phase", None), ("/papers/1", "erin")):
        for connections in counts:
            found = {name: [] for name in servers}
            for _ in range(turns):
                for name, (port, _) in servers.items():
                    found[name].append(load(port, path, connections, seconds, who))
            title = f"GET {path}{', login' if who else ''}, {connections} connections"
            compared(title, {name: statistics.median(figures) for name, figures in found.items()})


def slowest(name, port, pid, requests):
    """A line of the slowest of so many requests on 64 connections, and of how often a thread gave up its processor."""
    made, longest, span, before = 0, 0.0, 10, switches(pid)
    while made < requests:
        out = wrk(port, "/phase", 64, span)
        made += int(re.search(r"(\d+) requests in", out).group(1))
        number, unit = re.search(r"Latency +[\d.]+\w+ +[\d.]+\w+ +([\d.]+)(us|ms|s) ", out).groups()
        longest = max(longest, float(number) * {"us": 1e-3, "ms": 1, "s": 1000}[unit])
    print(f"{name}: the slowest of {made:,} requests on 64 connections took {longest:,.1f} ms; "
          f"{(switches(pid) - before) / made:.2f} switches a request", flush=True)


def words():
    """What the command line asks for."""
    found = argparse.ArgumentParser()
    found.add_argument("--turns", type=int, default=5)
    found.add_argument("--seconds", type=int, default=2)
    found.add_argument("--connections", type=lambda text: [int(word) for word in text.split(",")], default=CONNECTIONS)
    found.add_argument("--requests", type=int, default=1_000_000)
    found.add_argument("--before")
    found.add_argument("program", nargs="?")
    found.add_argument("folder", nargs="?")
    return found.parse_args()


@contextlib.contextmanager
def beside_each_other(asked, folder):
    """Each server's port and process by its name, all of them running; and the bytes of a page."""
    with contextlib.ExitStack() as held:
        servers = {}
        for name, program in ((OURS, asked.program), (BEFORE, asked.before)):
            if program is not None:
                port = free_port()
                pid = held.enter_context(
                    confd(os.path.abspath(program), os.path.join(folder, f"{name}.store"), port, 64))
                servers[name] = port, pid
                phase, page = conference(port)
        port = free_port()
        with open(os.path.join(folder, "nginx.conf"), "w", encoding="utf-8") as file:
            file.write(NGINX.format(folder=folder, port=port, phase=phase.decode(), page=page.decode()))
        servers[NGINX_NAME] = port, held.enter_context(
            running(["nginx", "-c", os.path.join(folder, "nginx.conf"), "-g", "daemon off;"], port))
        flask_app(folder)
        port = free_port()
        servers[FLASK_NAME] = port, held.enter_context(
            running(["gunicorn", "-w", "2", "-k", "gthread", "--threads", "4", "--keep-alive", "60",
                     "-b", f"127.0.0.1:{port}", "peer:app"], port, cwd=folder))
        yield servers, len(page)


def one_and_two_workers(program, folder, turns, seconds):
    """A line of one worker with one connection beside two with two."""
    with contextlib.ExitStack() as held:
        ports = {}
        for workers in (1, 2):
            ports[workers] = free_port()
            held.enter_context(confd(program, os.path.join(folder, f"workers{workers}.store"), ports[workers], workers))
        found = {workers: statistics.median(load(port, "/phase", workers, seconds) for _ in range(turns))
                 for workers, port in ports.items()}
    print(f"confd, 1 worker and 1 connection {found[1]:,.0f} a second, 2 and 2 {found[2]:,.0f}: "
          f"{found[2] / found[1]:.2f} times")


def main():
    asked = words()
    asked.program = program = program_named([asked.program] if asked.program else []).path
    print(machine())
    for command in (["nginx", "-v"], ["wrk", "-v"], [sys.executable, "--version"]):
        told = subprocess.run(command, capture_output=True, text=True)
        print((told.stdout + told.stderr).splitlines()[0])
    with tempfile.TemporaryDirectory(dir=asked.folder) as folder:
        with beside_each_other(asked, folder) as (servers, page):
            print(f"the page has {page} bytes; medians of {asked.turns} turns of {asked.seconds} seconds", flush=True)
            reads(servers, asked.connections, asked.turns, asked.seconds)
            for name in (OURS, BEFORE, NGINX_NAME):
                if asked.requests and name in servers:
                    slowest(name, *servers[name], asked.requests)
            flask_posts = submissions_a_second(servers[FLASK_NAME][0], False)
        one_and_two_workers(program, folder, asked.turns, asked.seconds)
        port = free_port()
        with confd(program, os.path.join(folder, "posts.store"), port, 4):
            conference(port)
            posts = submissions_a_second(port, True)
        commits = commits_a_second(folder)
        print(f"POST /papers, kept: {posts:,.0f} a second; Flask {flask_posts:,.0f}; "
              f"SQLite's own commits {commits:,.0f}; ours are {posts / commits:.2f} of these")


if __name__ == "__main__":
    main()
