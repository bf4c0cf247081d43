#!/usr/bin/env python3
# SPDX-License-Identifier: Apache-2.0 OR MIT
"""Tries what no proof says of sockets, clocks, threads and sizes: time-outs, an hour's connection, the time of day,
growth, addresses.

    python3 checks/edge.py [CHECK..] [PROGRAM]

PROGRAM is `confd` as `rt run` builds it (crates/confd/out/confd if none is named); CHECK is a name out of CHECKS, all
if none is named. Needs Python 3, and `cc` for checks/lib/shim.c, which makes time run faster, and cuts reads and writes
short and counts them. Without a `cc` it ends well with a line that says so. Prints a line a check, and last `N passed,
M failed`; ends with status 0 if none failed. Takes about half a minute.
"""

import contextlib
import json
import os
import re
import select
import socket
import subprocess
import sys
import tempfile
import threading
import time

from lib.checking import expect, run_all
from lib.conference import beginnings, codes_of, post
from lib.database import rows
from lib.program import LONG, NO_TIME, chosen
from lib.server import SOON, Client, at_once, free_port, serving, words_of
from lib.shim import DATE, MOMENT, SOCKETS, Orders, shim_for
from lib.wire import LARGEST, opening, raw, register, request, submit, upload


# For how many seconds a request or an answer may go on, and how long a kept connection may ask nothing.
TIMEOUT, IDLE = 60, 5
# The clock of `timeouts` goes so many times as fast.
SPEED = 12
# By how many seconds of that clock a busy machine may be late: so few that a minute isn't taken for five seconds.
LATE = 40
# More rows than any one page, any one bulk, and 20,000.
BULKS, ROWS_EACH = 41, 512
# The last moment that has a date, and what is said where the time of day can't be had.
LAST, LAST_DATE = 253_402_300_799, "Fri, 31 Dec 9999 23:59:59 GMT"
shim = None


def begun(client):
    """Registers a chair, begins the submission, and submits a paper with a content of the largest size."""
    client.send(opening() + submit("alice", "Large"))
    expect([client.answer()[0] for _ in range(3)] == [201, 200, 201], "opening")
    expect(client.ask(upload("alice", 1, os.urandom(LARGEST)))[0] == 200, "upload")


# ---- time


def ends_after(server, act, due):
    """The server ends a connection on which this is done after so many of its own seconds, and not before."""
    name = act.__name__
    with Client(server, (due + LATE) / SPEED + SOON) as client:
        moment = time.monotonic()
        threading.Thread(target=act, args=(client,), daemon=True).start()
        try:
            while client.more():
                pass
        except ConnectionResetError:
            pass
        except TimeoutError:
            raise AssertionError(f"{name}: never ended, due after {due} seconds of its own") from None
        span = (time.monotonic() - moment) * SPEED
    expect(due - 2 < span < due + LATE, f"{name}: ended after {span:.1f} s of its own, due after {due}")


def silent(_client):
    pass


def asked_once(client):
    client.send(request("GET", "/phase"))


def asked_again(client):
    """Asks, takes the answer, and sends the first byte of another request alone."""
    client.send(request("GET", "/phase"))
    time.sleep(IDLE / SPEED / 2)
    client.send(b"G")


def dripping(client):
    with contextlib.suppress(OSError):
        for byte in b"GET /phase HTTP/1.1\r\nX: " + b"x" * 400:
            client.send(bytes([byte]))
            time.sleep(2 / SPEED)


def unread(server):
    """Asks for more contents than the system holds, and takes none of them in time: they are cut off."""
    with Client(server, LONG) as client:
        client.send(request("GET", "/papers/1/content", "alice") * 16)
        time.sleep((TIMEOUT + 20) / SPEED)
        came = 0
        with contextlib.suppress(ConnectionResetError):
            while came < 16 * LARGEST and (piece := client.socket.recv(LARGEST)):
                came += len(piece)
        expect(came < 16 * LARGEST, "contents that nobody took for a minute went on coming")


def timeouts(program, folder):
    """By a faster clock: a minute for a request or an answer, and five seconds in which nothing is asked; no longer."""
    orders = Orders(os.path.join(folder, "orders"), speed=SPEED)
    with serving(program, os.path.join(folder, "store"), workers=6, env=shim.environment(orders)) as server:
        with Client(server) as client:
            begun(client)
        acts = (
            lambda: ends_after(server, silent, TIMEOUT), lambda: ends_after(server, asked_once, IDLE),
            lambda: ends_after(server, asked_again, TIMEOUT), lambda: ends_after(server, dripping, TIMEOUT),
            lambda: unread(server),
        )  # fmt: skip
        at_once(len(acts), lambda number: acts[number]())


def an_hour(program, folder):
    """A connection on which a request comes every fifty seconds, whole or in two, is served for more than an hour."""
    orders = Orders(os.path.join(folder, "orders"))
    store = os.path.join(folder, "store")
    with serving(program, store, env=shim.environment(orders)) as server, Client(server) as client:
        expect(client.ask(register("alice"))[0] == 201, "registered")
        for turn in range(100):
            # The server waits for the request meanwhile; to the system it is no time at all.
            time.sleep(0.005)
            orders.tell(ahead=(turn + 1) * 50 * 10**9)
            text = request("GET", "/me", "alice")
            if turn % 3 == 2:
                client.send(text[:10])
                time.sleep(0.005)
                text = text[10:]
            with contextlib.suppress(OSError):
                answer = client.ask(text)
                expect(answer is not None and answer[0] == 200, f"{answer} after {50 * (turn + 1)} seconds")
                continue
            expect(False, f"ended after {50 * (turn + 1)} seconds")


# ---- the time of day


def time_of_day(program, folder):
    """It is asked for once an answer. Where it can't be had, or has no date, `pipe` ends with status 10,
    that request unanswered."""
    steps = (
        (2, register("alice")), (0, request("HEAD", "/phase")), (0, request("GET", "/nowhere")), (1, register("bob"))
    )
    steps += ((0, b"no request\r\n\r\n"),)
    text = b"".join(text for _, text in steps)

    def run(**numbers):
        with tempfile.TemporaryDirectory(dir=folder) as place:
            out, status, err, orders = shim.run(program, ["pipe", "--store", "store"], text, place, **numbers)
            names = [bytes(row[5]) for row in rows(os.path.join(place, "store")) if row[1] == 1]
            return out, status, err, orders.times, names

    out, status, err, times, names = run()
    ends = beginnings(steps, out)
    expect((status, err, times) == (0, b"", len(steps)), f"status {status}, {err}, asked for {times} times")
    expect((codes_of(ends), names) == ([201, 200, 404, 201, 400], [b"alice", b"bob"]), f"{codes_of(ends)}, {names}")
    expect(out.count(f"\r\nDate: {DATE}\r\n".encode()) == len(steps), f"{out}")
    for number in range(len(steps)):
        kept = [b"alice"] * (number > 0) + [b"bob"] * (number > 3)
        came = run(refuse_time=number + 1)
        expect(came == (ends[number], 10, NO_TIME, number + 1, kept), f"call {number + 1} refused: {came}")
    came, status, _, times, _ = run(moment=LAST)
    expect(
        (came, status, times) == (out.replace(DATE.encode(), LAST_DATE.encode()), 0, len(steps)), f"{status}, {came}"
    )
    for moment in (-1, -(10**9), LAST + 1, 2**40, 2**62):
        came = run(moment=moment)
        expect(came == (b"", 10, NO_TIME, 1, []), f"at {moment}: {came}")


def jumps(program, folder):
    """In `serve` a time of day that stands or goes back is told; where it can't be had, that connection ends,
    and no other."""
    orders = Orders(os.path.join(folder, "orders"), moment=MOMENT)
    store = os.path.join(folder, "store")
    with serving(program, store, workers=4, env=shim.environment(orders)) as server, Client(server) as client:
        with Client(server) as other:
            for moment, date in (
                (MOMENT, DATE), (MOMENT, DATE), (LAST, LAST_DATE), (1, "Thu, 01 Jan 1970 00:00:01 GMT"), (MOMENT, DATE)
            ):
                orders.tell(moment=moment)
                for asked in (client, other):
                    code, fields, _ = asked.ask(request("GET", "/phase"))
                    expect((code, fields[b"Date"]) == (200, date.encode()), f"at {moment}: {code} {fields}")
            orders.tell(moment=LAST + 1)
            expect(other.ask(register("alice")) is None, "answered at a moment without a date")
            orders.tell(moment=MOMENT)
        with Client(server) as other:
            orders.tell(refuse_time=orders.times + 1)
            expect(other.ask(register("bob")) is None, "answered without a time of day")
            orders.tell(refuse_time=0)
        expect(client.ask(register("carol"))[2] == b'{"user":1}', "the first to be registered")
    expect([bytes(row[5]) for row in rows(store) if row[1] == 1] == [b"carol"], "names in the file")


def until_a_deadline(program, folder):
    """In `serve` papers are taken up to the very second of a deadline, by the time of day at each request."""
    orders = Orders(os.path.join(folder, "orders"), moment=MOMENT)
    steps = (register("alice"), post("/phase", "alice", phase="submission"))
    steps += (post("/deadlines", "alice", phase="submission", until="1994-11-06T08:49:37Z"),)
    with serving(
        program, os.path.join(folder, "store"), env=shim.environment(orders)
    ) as server, Client(server) as client:
        codes = [client.ask(text)[0] for text in steps]
        expect(codes == [201, 200, 200], f"{codes}")
        for moment, code in ((MOMENT, 201), (MOMENT + 1, 409), (MOMENT, 201), (LAST, 409), (1, 201)):
            orders.tell(moment=moment)
            came, _, content = client.ask(submit("alice", "Proofs"))
            expect(came == code and (content == b'{"error":"late"}') == (code == 409), f"at {moment}: {came} {content}")


# ---- pieces


def pieces(program, folder):
    """Reads and writes of sockets that move a few bytes each: every answer is whole, and so is a content, both ways."""
    for most_read, most_write in ((1, 1), (7, 1000), (0, 30_000)):
        place = os.path.join(folder, f"{most_read}-{most_write}")
        orders = Orders(place + "-orders", scope=SOCKETS, most_read=most_read, most_write=most_write)
        with serving(program, place, env=shim.environment(orders)) as server, Client(server) as client:
            client.send(opening() + submit("alice", "Proofs", "We prove."))
            expect([client.answer()[0] for _ in range(3)] == [201, 200, 201], "opening")
            content = os.urandom(100_000 if most_write > 1 else 3_000)
            expect(client.ask(upload("alice", 1, content))[0] == 200, "upload")
            code, _, came = client.ask(request("GET", "/papers/1/content", "alice"))
            expect((code, came == content) == (200, True), f"{code}, {len(came)} bytes of {len(content)}")
            code, _, page = client.ask(request("GET", "/papers/1", "alice"))
            expect(code == 200 and json.loads(page)["title"] == "Proofs", f"{code} {page}")


# ---- threads


def contended(program, folder):
    """Twelve clients that ask as fast as they can: nobody is left waiting, and each command has its number."""
    count, turns = 12, 400
    with serving(program, os.path.join(folder, "store"), workers=16) as server:

        def work(number):
            users = []
            for turn in range(4):
                with Client(server) as client:
                    code, _, content = client.ask(register(f"user{number}-{turn}"))
                    expect(code == 201, f"{code} {content}")
                    users.append(json.loads(content)["user"])
                    client.send(request("GET", "/phase") * (turns // 4))
                    expect(all(client.answer()[0] == 200 for _ in range(turns // 4)), "a question")
            return users

        users = sorted(user for users in at_once(count, work) for user in users)
        expect(users == list(range(1, 4 * count + 1)), f"{users}")


# ---- sizes


def many_rows(program, folder):
    """A store of more than 20,000 rows, from bulks of 512: it opens, answers, is printed, and takes more."""
    store = os.path.join(folder, "store")
    text = opening() + register("bob") + post("/members", "alice", name="bob", role="member") + register("erin")
    text += submit("erin", "Proofs") + post("/phase", "alice", phase="bidding")
    bulk = raw("POST", "/assign", "alice", b"paper,action,user,tag\n" + b"1,conflict,bob,\n" * ROWS_EACH)
    told, status = program.pipe(store, text + bulk * BULKS)
    expect(status == 0 and {code for code, _ in told} <= {200, 201}, f"status {status}, {told[-1]}")
    due = len(rows(store))
    expect(due == 8 + BULKS * ROWS_EACH, f"{due} rows")
    told, status = program.pipe(store, request("GET", "/accounts") + register("fay"))
    expect((status, [code for code, _ in told]) == (0, [200, 201]), f"status {status}, {told}")
    out, status, err = program.run(["view", "--store", store, "--user", "alice"])
    lines = out.count(b"\n")
    expect((status, err) == (0, b"") and lines > BULKS * ROWS_EACH, f"status {status}, {err}, {lines} lines")
    with serving(program, store) as server, Client(server) as client:
        expect(client.ask(request("GET", "/papers/1", "alice"))[0] == 200, "served")


def counts(program, folder, text, expected):
    """What a run counts whose input is a file, from which a read gets as many bytes as it asks for."""
    path = os.path.join(folder, "input")
    with open(path, "wb") as file:
        file.write(text)
    orders = Orders(os.path.join(folder, "orders"))
    with open(path, "rb") as file:
        how = {"stdin": file, "stdout": subprocess.PIPE, "env": shim.environment(orders), "timeout": LONG}
        done = subprocess.run([program.path, "pipe"], **how)
    expect((done.returncode, done.stdout.count(b"HTTP/1.1 ")) == (0, expected), f"status {done.returncode}")
    return orders


def growth(program, folder):
    """No buffer grows by a little: heads, bodies, contents and lists cost few reads, writes and allocations."""
    begin = opening() + submit("alice", "Large")
    few = counts(program, folder, begin, 3)
    padding = "x" * 200
    head = "\r\n".join(["GET /phase HTTP/1.1", "Host: c", *[f"X: {padding}"] * 60]).encode() + b"\r\n\r\n"
    body = raw("POST", "/register", "alice", b'{"name":"bob","secret":"' + b"s" * 64 + b'"' + b" " * 16_000 + b"}")
    content = upload("alice", 1, bytes(LARGEST))
    question = request("GET", "/papers/1/content", "alice")
    accounts = b"".join(register(f"user{number}") for number in range(2_000))
    # What is added, the most reads, writes and allocations that it may cost.
    for name, before, added, reads, writes, allocations in (
        ("a long head", begin, head, 3, 1, 12),
        ("a long body", begin, body, 5, 1, 40),
        ("a content", begin, content, 90, 1, 30),
        ("a content asked for", begin + content, question, 2, 2, 20),
        ("a list of 2,000 accounts", begin + accounts, request("GET", "/accounts"), 2, 1, 60),
        ("2,000 registrations", begin, accounts, 120, 2_000, 60_000),
    ):
        old = few if before is begin else counts(program, folder, before, before.count(b"HTTP/1.1\r\n"))
        new = counts(program, folder, before + added, (before + added).count(b"HTTP/1.1\r\n"))
        costs = tuple(getattr(new, field) - getattr(old, field) for field in ("reads", "writes", "allocations"))
        fits = all(cost <= most for cost, most in zip(costs, (reads, writes, allocations)))
        expect(fits, f"{name}: {costs} reads, writes and allocations, at most {(reads, writes, allocations)}")


def memory_of(server):
    """How many bytes of memory are the server's own, used yet or not."""
    with open(f"/proc/{server.process.pid}/status", encoding="utf-8") as file:
        return 1024 * int(re.search(r"VmData:\s+(\d+) kB", file.read())[1])


def room(program, folder):
    """A connection that has asked for little has little room: less than 256 KiB, once the workers have begun."""
    count = 32
    with serving(program, os.path.join(folder, "store"), workers=count) as server:

        def taken():
            """What as many connections take together that ask once and stay."""
            before = memory_of(server)
            with contextlib.ExitStack() as clients:
                for _ in range(count):
                    client = clients.enter_context(Client(server))
                    expect(client.ask(request("GET", "/phase"))[0] == 200, "a question")
                return memory_of(server) - before

        taken()
        # The workers see the ends of these.
        time.sleep(1)
        grown = taken()
        expect(grown < count << 18, f"{grown} bytes")


# ---- addresses


def listeners(process):
    """Where a process listens, as texts of /proc/net: addresses in hexadecimal digits, with the port."""
    sockets = set()
    for name in os.listdir(f"/proc/{process.pid}/fd"):
        with contextlib.suppress(OSError):
            sockets.update(re.findall(r"socket:\[(\d+)\]", os.readlink(f"/proc/{process.pid}/fd/{name}")))
    found = []
    for table in ("tcp", "tcp6"):
        with contextlib.suppress(FileNotFoundError), open(f"/proc/{process.pid}/net/{table}") as file:
            for line in file.readlines()[1:]:
                fields = line.split()
                if fields[3] == "0A" and fields[9] in sockets:
                    found.append(fields[1])
    return found


def addresses(program, folder):
    """It listens at the address and the port that it was told, says so, answers there, and listens nowhere else."""
    places = [("127.0.0.1", socket.AF_INET, "0100007F"), ("127.0.0.2", socket.AF_INET, "0200007F")]
    with contextlib.suppress(OSError):
        free_port("::1", socket.AF_INET6)
        places.append(("::1", socket.AF_INET6, "00000000000000000000000001000000"))
    for number, (host, family, digits) in enumerate(places):
        port = free_port(host, family)
        name = f"[{host}]:{port}" if ":" in host else f"{host}:{port}"
        words = words_of(os.path.join(folder, f"store{number}"), listen=name)
        process = subprocess.Popen([program.path, *words], stdout=subprocess.PIPE, stderr=subprocess.PIPE)
        try:
            ready, _, _ = select.select([process.stderr], [], [], SOON)
            line = process.stderr.readline() if ready else b""
            expect(line == f"confd: listening on {name}\n".encode(), f"told {name}, it says {line}")
            expect(listeners(process) == [f"{digits}:{port:04X}"], f"told {name}, it listens at {listeners(process)}")
            with socket.create_connection((host, port), timeout=SOON) as client:
                client.sendall(request("GET", "/phase"))
                expect(client.recv(12) == b"HTTP/1.1 200", f"no answer at {name}")
        finally:
            process.kill()
            process.communicate()


CHECKS = (
    timeouts, an_hour, time_of_day, jumps, until_a_deadline, pieces, contended, many_rows, growth, room, addresses,
)  # fmt: skip


def main():
    global shim
    checks, program = chosen(CHECKS, sys.argv[1:])
    with tempfile.TemporaryDirectory() as folder:
        shim = shim_for(program, folder)
        run_all(checks, program)


if __name__ == "__main__":
    main()
