#!/usr/bin/env python3
# SPDX-License-Identifier: Apache-2.0 OR MIT
"""Refuses memory to `confd`, one allocation after another: what goes out is whole answers, and then nothing or the 507.

    python3 checks/memory.py [--all] [CHECK..] [PROGRAM]

PROGRAM is `confd` as `rt run` builds it (crates/confd/out/confd where none is named); CHECK is a name out of CHECKS,
all where none is told. Needs Python 3, and `cc` for checks/lib/shim.c, which refuses the allocations; without a `cc` it
ends well with a line that says so. Prints a line a check, and last `N passed, M failed`; ends with status 0 where none
failed. Takes less than a minute.

Each run has one allocation refused. Of a run with more than MOST allocations so many are refused, evenly; --all
refuses each.
"""

import contextlib
import json
import os
import shutil
import sys
import tempfile

from lib.checking import expect, run_all
from lib.conference import (
    BEGINNING, BIDDING, CUT, DEADLINES, EVERY_ROUTE, JUDGING, RETRIES, beginnings, codes_of, rows_behind, text_of,
)  # fmt: skip
from lib.database import rows
from lib.program import NO_TIME, chosen
from lib.server import Client, serving
from lib.shim import DATE, MOMENT, Orders, in_turn, sample, shim_for
from lib.wire import register, request


MOST = 1_000
NO_MEMORY = (
    f"HTTP/1.1 507 Insufficient Storage\r\nDate: {DATE}\r\nContent-Type: application/json\r\n"
    "Content-Length: 21\r\nConnection: close\r\n\r\n"
).encode()
LINE = b"confd: out of memory\n"
# What the 507 may look like: to HEAD it has no content.
ENDINGS = (NO_MEMORY + b'{"error":"no_memory"}', NO_MEMORY)
shim = None
most = MOST


def without_ending(out):
    """What went out ahead of the 507, where there is one."""
    for ending in ENDINGS:
        if out.endswith(ending):
            return out[: -len(ending)]
    return out


class Whole:
    """A run with all the memory that it wants: words that name the store `store`, text, and what is due.

    `made` is a folder with a store from which it begins.
    """

    def __init__(self, program, words, text, made=None):
        self.program, self.words, self.text, self.made = program, words, text, made
        with tempfile.TemporaryDirectory() as folder:
            self.make(folder)
            self.out, self.status, _, orders = shim.run(program, words, text, folder)
            self.count = orders.allocations
            self.rows = rows(os.path.join(folder, "store")) if "--store" in words else []

    def make(self, folder):
        if self.made is not None:
            for name in os.listdir(self.made):
                shutil.copy(os.path.join(self.made, name), folder)

    def refused(self, number, folder):
        """Refuses the allocation of this number: what went out ahead of the 507; none where it made no difference."""
        self.make(folder)
        out, status, err, _ = shim.run(self.program, self.words, self.text, folder, refuse_allocation=number)
        if (out, status) == (self.out, self.status):
            return None
        expect((status, err) == (9, LINE), f"status {status}, standard error {err}")
        return without_ending(out)

    def in_turn(self, looks):
        """Refuses the allocations in turn, and has each run's folder looked at, with what went out ahead of the 507."""
        missed = []

        def refuse(number, folder):
            out = self.refused(number, folder)
            if out is None:
                missed.append(number)
            else:
                expect(self.out.startswith(out), f"what went out is no beginning of what is due: {out[-300:]}")
                looks(folder, out)

        numbers = sample(self.count, most)
        failed = in_turn(refuse, numbers)
        expect(not failed, f"{len(failed)} of {len(numbers)}, the first: allocation {failed[:1]}")
        told = f"    {len(numbers)} of {self.count} allocations refused, one a run"
        print(told + (f"; {len(missed)} made no difference" if missed else ""), flush=True)


def answered(whole, steps):
    """A look at where the answers end: each that went out is whole."""
    ends = beginnings(steps, whole.out)

    def looks(_folder, out):
        expect(out in ends, f"an answer was cut: {out[-300:]}")

    return looks


def every_route(program, _folder):
    """Every route, on a history in memory: whole answers, and then nothing or the 507; status 9."""
    whole = Whole(program, ["pipe"], text_of(EVERY_ROUTE))
    codes = codes_of(beginnings(EVERY_ROUTE, whole.out))
    expect(whole.status == 0 and len(codes) == len(EVERY_ROUTE) and max(codes) < 500, f"status {whole.status}, {codes}")
    whole.in_turn(answered(whole, EVERY_ROUTE))


def a_cut(program, _folder):
    """A question, a registration and one whose body is cut: the same, in a run that would end with status 1."""
    whole = Whole(program, ["pipe"], text_of(CUT))
    expect((whole.status, codes_of(beginnings(CUT, whole.out))) == (1, [200, 201]), f"status {whole.status}")
    whole.in_turn(answered(whole, CUT))


def a_store(program, _folder):
    """A conference on a store: what was answered is in it, and besides at most the one command that was not."""
    steps = BEGINNING + DEADLINES + RETRIES + BIDDING + JUDGING
    whole = Whole(program, ["pipe", "--store", "store"], text_of(steps))
    ends, counts = beginnings(steps, whole.out), rows_behind(steps)
    expect((whole.status, len(whole.rows)) == (0, counts[-1]), f"status {whole.status}, {len(whole.rows)} rows")

    def looks(folder, out):
        expect(out in ends, f"an answer was cut: {out[-300:]}")
        number = ends.index(out)
        store = os.path.join(folder, "store")
        found = rows(store) if number > 0 else []
        due = counts[number : number + 2]
        expect(len(found) in due, f"{len(found)} rows behind {number} answers, due {due}")
        expect(found == whole.rows[: len(found)], f"other rows behind {number} answers")

    whole.in_turn(looks)


def opened(program, folder):
    """A store that is opened again, and printed by `view`: nothing, or whole lines, and the rows stay."""
    program.pipe(os.path.join(folder, "store"), text_of(BEGINNING))
    question = request("GET", "/accounts")
    for words, text in ((["pipe"], question), (["view", "--user", "erin"], b"")):
        words = [*words, "--store", "store"]
        whole = Whole(program, words, text, made=folder)
        expect(whole.status == 0 and whole.out, f"status {whole.status}")

        def looks(place, out):
            expect(words[0] == "view" or out == b"", f"a part of an answer went out: {out}")
            expect(out == b"" or out.endswith(b"\n"), f"a line was cut: {out[-300:]}")
            expect(rows(os.path.join(place, "store")) == whole.rows, "the rows are others now")

        whole.in_turn(looks)


def a_drill(program, _folder):
    """A drill: the summary or nothing."""
    whole = Whole(program, ["drill", "--seed", "1", "--steps", "40"], b"")
    whole.in_turn(lambda _folder, out: expect(out == b"", f"{out} went out"))


def no_time(program, _folder):
    """Where the time of day can't be had either: no 507 goes out, and the status is 9 all the same."""
    words, text, statuses = ["pipe"], register("alice"), []

    def refuse(number, folder):
        out, status, err, orders = shim.run(program, words, text, folder, refuse_allocation=number, refuse_time=1)
        expect(out == b"" and (status, err) in ((9, LINE), (10, NO_TIME)), f"status {status}, {err}, {out}")
        expect(orders.times <= 1, f"asked for the time {orders.times} times")
        statuses.append(status)

    numbers = sample(Whole(program, words, text).count, most)
    failed = in_turn(refuse, numbers)
    expect(not failed, f"{len(failed)} of {len(numbers)}, the first: allocation {failed[:1]}")
    expect(9 in statuses, "memory never ran out")


def taken(server, text):
    """All that comes on a connection of its own until it ends."""
    with Client(server) as client:
        with contextlib.suppress(ConnectionResetError):
            client.send(text)
            while client.more():
                pass
        return client.rest


def served(program, folder):
    """`serve`: a connection that is refused memory ends behind whole answers; others are served; status 9."""
    store, count = os.path.join(folder, "store"), 80
    orders = Orders(os.path.join(folder, "orders"), moment=MOMENT)
    steps = ((1, b""), (0, b"GET /accounts HTTP/1.0\r\n\r\n"))
    kept, cut = ["first"], 0
    with serving(program, store, workers=2, connections=2 * count + 3, env=shim.environment(orders)) as server:
        # One on each worker, so that both have begun.
        with Client(server) as one, Client(server) as other:
            expect([client.ask(request("GET", "/phase"))[0] for client in (one, other)] == [200, 200], "the first two")
        before = orders.allocations
        expect(codes_of(beginnings(steps, taken(server, register("first") + steps[1][1]))) == [201, 200], "the third")
        each = orders.allocations - before
        for turn in range(count):
            name = f"user{turn}"
            orders.tell(refuse_allocation=orders.allocations + 1 + turn * each // count)
            out = taken(server, register(name) + steps[1][1])
            orders.tell(refuse_allocation=0)
            cut += without_ending(out) != out
            codes = codes_of(beginnings(steps, without_ending(out)))
            expect(codes in ([], [201], [201, 200]), f"connection {turn}: {out}")
            kept += [name] * (codes != [])
            found = json.loads(taken(server, steps[1][1]).partition(b"\r\n\r\n")[2])["accounts"]
            expect([account["name"] for account in found] == kept, f"connection {turn}: {found}, due {kept}")
        # Connections that were refused as they were taken count for nothing, so some are left.
        with contextlib.suppress(OSError):
            while server.process.poll() is None:
                taken(server, steps[1][1])
        out, status, err = server.ended()
        due = b"entries %d\n" % (len(kept) + 1)
        expect(cut > 0 and (out, status, err) == (due, 9, LINE), f"{cut}, {out}, {status}, {err}")
    expect([bytes(row[5]).decode() for row in rows(store) if row[1] == 1] == kept, "names in the file")
    print(f"    {count} of {each} allocations of a connection refused, one each; {cut} answers were 507", flush=True)


CHECKS = (every_route, a_cut, a_store, opened, a_drill, no_time, served)


def main():
    global shim, most
    words = sys.argv[1:]
    if "--all" in words:
        words.remove("--all")
        most = sys.maxsize
    checks, program = chosen(CHECKS, words)
    with tempfile.TemporaryDirectory() as folder:
        shim = shim_for(program, folder)
        run_all(checks, program)


if __name__ == "__main__":
    main()
