#!/usr/bin/env python3
# SPDX-License-Identifier: Apache-2.0 OR MIT
"""What contents cost: uploads and downloads of 4 MiB over a socket, and memory with 400 of them.

    python3 bench/content_cost.py [PROGRAM] [FOLDER]

PROGRAM is `confd` as `rt run` builds it (crates/confd/out/confd if none is named). FOLDER is where the files are made,
by default the system's folder for such. It decides which disk is measured, and has to have 5 GB free. Needs Debian's
packages nginx-light and wrk. The peer of downloads is nginx with one worker, which sends the same bytes from a file.

The goals: downloads at least half as fast as the peer's. For 400 uploads, memory at most 1.25 times their bytes without
a store, and 1.5 times with one. To open that store, at most 2.25 times, and 15 seconds.
"""

import os
import subprocess
import sys
import tempfile
import threading
import time

from lib.program import program_named
from lib.server import free_port
from lib.timing import machine, peak_memory
from lib.wire import LARGEST, move_to, register, submit, upload
from serve_speed import Client, confd, load, running

USERS = 25
EACH = 16
TIMES = 32
# Connections, and the threads of wrk that make them.
LOADS = ((1, 1), (8, 2))

NGINX = """
worker_processes 1;
pid {folder}/nginx.pid;
error_log {folder}/nginx.log;
events {{ worker_connections 512; }}
http {{
    access_log off;
    sendfile on;
    keepalive_requests 100000000;
    server {{
        listen 127.0.0.1:{port};
        default_type application/octet-stream;
        root {folder}/files;
    }}
}}
"""


def accepted(answer, wanted):
    if answer[0] != wanted:
        sys.exit(f"answered {answer[0]}: {answer[1][:80]!r}")


# ---- speed

def uploads_a_second(port):
    """Bytes a second of uploads, one after another on one connection, of two users with a paper each."""
    client = Client(port)
    accepted(client.ask(register("alice")), 201)
    accepted(client.ask(move_to("submission")), 200)
    content = os.urandom(LARGEST)
    users = [f"u{number}" for number in range(TIMES // EACH)]
    for name in users:
        accepted(client.ask(register(name)), 201)
        accepted(client.ask(submit(name, "Proofs", "We prove.")), 201)
    began = time.perf_counter()
    for number in range(TIMES):
        accepted(client.ask(upload(users[number // EACH], number // EACH + 1, content)), 200)
    return TIMES * LARGEST / (time.perf_counter() - began)


def speed(program, folder):
    port = free_port()
    with confd(program, os.path.join(folder, "speed.store"), port, 8):
        up = uploads_a_second(port)
        down = [load(port, "/papers/1/content", connections, threads, "u0") * LARGEST for connections, threads in LOADS]
    port = free_port()
    os.makedirs(os.path.join(folder, "files"))
    with open(os.path.join(folder, "files", "content"), "wb") as file:
        file.write(os.urandom(LARGEST))
    conf = os.path.join(folder, "nginx.conf")
    with open(conf, "w", encoding="utf-8") as file:
        file.write(NGINX.format(folder=folder, port=port))
    os.chmod(folder, 0o755)
    with running(["nginx", "-c", conf, "-g", "daemon off;"], port):
        peer = [load(port, "/content", connections, threads) * LARGEST for connections, threads in LOADS]
    print(f"uploads of 4 MiB, kept in a store, on one connection: {up / 1e6:,.0f} MB a second")
    for (connections, _), ours, theirs in zip(LOADS, down, peer):
        print(f"downloads of 4 MiB, connections {connections}: {ours / 1e6:,.0f} MB a second; "
              f"by nginx from a file {theirs / 1e6:,.0f}; ours are {ours / theirs:.2f} of it")


# ---- memory


def drained(stream):
    """Reads a stream to its end beside what goes on."""
    thread = threading.Thread(target=lambda: [None for _ in iter(lambda: stream.read(65536), b"")], daemon=True)
    thread.start()
    return thread


def pipe(words, pieces, count):
    """The peak of memory of a program that is given these bytes, in times of the contents, and its seconds;
    it has to end well."""
    began = time.perf_counter()
    process = subprocess.Popen(words, stdin=subprocess.PIPE, stdout=subprocess.PIPE)
    reading = drained(process.stdout)
    for piece in pieces:
        process.stdin.write(piece)
    process.stdin.flush()
    most, settled = 0, 0
    while settled < 20:
        now = peak_memory(process.pid)
        settled = settled + 1 if now == most else 0
        most = max(most, now)
        time.sleep(0.1)
    process.stdin.close()
    while process.poll() is None:
        most = max(most, peak_memory(process.pid))
        time.sleep(0.01)
    reading.join()
    if process.returncode != 0:
        sys.exit(f"{words} ended with {process.returncode}")
    return most / (count * LARGEST), time.perf_counter() - began


def all_uploads():
    """A chair, 25 authors with a paper each, and 16 uploads of each."""
    yield register("alice")
    yield move_to("submission")
    content = os.urandom(LARGEST)
    for number in range(USERS):
        who = f"u{number}"
        yield register(who)
        yield submit(who, "Proofs", "We prove.")
        for _ in range(EACH):
            yield upload(who, number + 1, content)


def memory(program, folder):
    store = os.path.join(folder, "memory.store")
    count = USERS * EACH
    without, _ = pipe([program, "pipe"], all_uploads(), count)
    kept, _ = pipe([program, "pipe", "--store", store], all_uploads(), count)
    began = time.perf_counter()
    process = subprocess.Popen([program, "pipe", "--store", store], stdin=subprocess.DEVNULL, stdout=subprocess.DEVNULL)
    most = 0
    while process.poll() is None:
        most = max(most, peak_memory(process.pid))
        time.sleep(0.005)
    seconds = time.perf_counter() - began
    if process.returncode != 0:
        sys.exit(f"opening ended with {process.returncode}")
    print(f"{count} uploads of 4 MiB: {without:.2f} times their bytes at most without a store, {kept:.2f} with one")
    print(f"opening that store: {most / (count * LARGEST):.2f} times their bytes at most, in {seconds:.1f} s")


def main():
    program = program_named(sys.argv[1:2]).path
    place = sys.argv[2] if len(sys.argv) > 2 else None
    print(machine())
    with tempfile.TemporaryDirectory(dir=place) as folder:
        speed(program, folder)
        memory(program, folder)


if __name__ == "__main__":
    main()
