#!/usr/bin/env python3
# SPDX-License-Identifier: Apache-2.0 OR MIT
"""Tries confd on journals, files whose names end in `.cj`: what was answered is there, whatever happens,
in each copy too.

    python3 checks/journal.py [CHECK..] [PROGRAM]

PROGRAM is `confd` as `rt run` builds it (crates/confd/out/confd if none is named). CHECK is a name out of CHECKS or
CHECKS_BY_SHIM, all if none is named. Needs only Python 3, and `cc` for the checks that refuse calls of the system
(shim.py), which are left out if it is missing. What a file has is read by `journal_file.py`, which knows the format
from docs/STORE.md and judges rows on the small model. Prints a line a check, and last `N passed, M failed`; ends with
status 0 if none failed. Takes about a minute.
"""

import concurrent.futures
import contextlib
import errno
import itertools
import json
import os
import random
import re
import resource
import shutil
import signal
import stat
import subprocess
import sys
import tempfile
import threading
import time

from lib.appends import JOURNAL, NAMES, QUESTION, appends, each, registrations
from lib.checking import expect, run_all
from lib.conference import EVERY_ROUTE, text_of
from lib.database import rows as rows_of_database
from lib.journal_file import (
    EMPTY, NUMBERS, OPEN, TEXTS, Bad, Judged, NoJournal, Row, field, groups_of, rows_in, rows_of, spelled,
)  # fmt: skip
from lib.model_views import view_lines
from lib.program import LASTING, LONG, PASSING, TAKEN_AGAIN, ask, chosen, ended, line_of, read, said
from lib.server import SOON, Client, Server, serving
from lib.shim import AT_ONCE, FILES, MOMENT, Orders, Shim, cut_power
from lib.wire import answers, opening, register, request, submit

NO_JOURNAL = "the file is no journal"
BUSY = "another process has the file open"
FAILED, NO_ROOM, TOO_LARGE = (
    f"{os.strerror(number)} (os error {number})" for number in (errno.EIO, errno.ENOSPC, errno.EFBIG)
)
WORDS = ["pipe", "--store", "store.cj"]
KILLS, COPIES, WRITERS = 20, 50, 8
# Of how many first places of a journal each is written wrong, and what each byte is written as.
PLACES = 400
WRONG = (lambda byte: byte ^ 1, lambda byte: byte ^ 0x80, lambda byte: 0 if byte else 255)


def named(folder):
    return os.path.join(folder, "store.cj")


def write(path, content):
    """Makes a file of these bytes that its owner alone may read."""
    with open(path, "wb") as file:
        os.chmod(path, 0o600)
        file.write(content)


# ---- what stands in a file


names_in = JOURNAL.names


def bytes_of(program, folder):
    """A new journal has nine bytes, and a row the bytes that the page on stores says; no file stands beside it."""
    path = named(folder)
    expect(program.pipe(path, b"") == ([], 0) and read(path) == EMPTY, f"a new journal: {read(path)}")
    program.pipe(path, opening())
    content = read(path)
    rows = rows_of(content)
    expect(spelled(groups_of(content)) == content, "other bytes than those that the rows spell")
    expect([row[:3] for row in rows] == [(1, 1, 1), (2, 1, 0), (3, 1, 0)], f"{rows}")
    expect(os.listdir(folder) == ["store.cj"], f"{os.listdir(folder)}")


def every_route(program, folder):
    """A conference on every route is answered the same over a journal as over a database, and leaves the same rows."""
    found = {}
    for name in ("database", "store.cj"):
        out, status, _ = program.run(["pipe", "--store", os.path.join(folder, name)], text_of(EVERY_ROUTE))
        found[name] = re.sub(rb"\r\nDate: [^\r]*", b"", out), status
    expect(found["database"] == found["store.cj"], "other answers")
    due = rows_of_database(os.path.join(folder, "database"))
    rows = [
        (place, row.kind, row.maker, row.more, row.n1, row.b1, row.b2)
        for place, row in enumerate(rows_in(named(folder)))
    ]
    expect(rows == due and len(due) == sum(added for added, _ in EVERY_ROUTE), f"{len(rows)} rows, {len(due)} are due")


# ---- kills, copies and a second process


class Load:
    """Clients who revise a paper each, all the time, until the server is gone: what they sent,
    and what was answered."""

    def __init__(self, server, turn):
        self.server, self.turn, self.over = server, turn, threading.Event()
        self.sent, self.answered, self.wrong = [], [], []
        self.threads = [threading.Thread(target=self.write, args=(number,)) for number in range(WRITERS)]

    def __enter__(self):
        for thread in self.threads:
            thread.start()
        return self

    def __exit__(self, *_):
        self.over.set()
        for thread in self.threads:
            thread.join()

    def go_on(self):
        """Waits until something more was answered."""
        before, begun = len(self.answered), time.monotonic()
        while len(self.answered) == before and not self.wrong:
            expect(time.monotonic() - begun < SOON, "nothing is answered")
            time.sleep(0.001)

    def write(self, number):
        dice = random.Random(f"{self.turn} {number}")
        with contextlib.suppress(OSError), Client(self.server) as client:
            for count in itertools.count():
                if self.over.is_set():
                    return
                title, abstract = f"{self.turn} {number} {count}", "x" * dice.choice((0, 100, 5000))
                self.sent.append(title)
                answer = client.ask(
                    request("PUT", f"/papers/{number + 1}", f"w{number}", {"abstract": abstract, "title": title})
                )
                if answer is None:
                    return
                if answer[0] != 200:
                    self.wrong.append(answer)
                    return
                self.answered.append(title)


def begin(program, path):
    """A conference with as many papers as there are writers, each of another author."""
    text = opening() + b"".join(register(f"w{n}") + submit(f"w{n}", "None yet") for n in range(WRITERS))
    told, status = program.pipe(path, text)
    expect(status == 0 and all(code in (200, 201) for code, _ in told), f"status {status}, {told}")


def titles_in(rows):
    return [row.b1.decode() for row in rows if row.kind == 7]


def opens(program, path):
    """What confd tells of a file: each paper's title, by the rows that the file has."""
    rows = rows_in(path)
    last = {row.n1: row.b1.decode() for row in rows if row.kind in (5, 7)}
    told, status = program.pipe(path, b"".join(request("GET", f"/papers/{paper}", f"w{paper - 1}") for paper in last))
    expect(status == 0, f"opened with status {status}")
    for paper, (code, content) in zip(last, told, strict=True):
        expect(
            code == 200 and f'"title":"{last[paper]}"'.encode() in content, f"paper {paper}: {code} {content[-200:]}"
        )
    return rows


def killed(program, folder):
    """Killed at random moments while eight clients write: all that was answered is there,
    and at most one command more of each."""
    path, dice, due = named(folder), random.Random(7), []
    begin(program, path)
    for turn in range(KILLS):
        server = Server(program, path, workers=WRITERS)
        try:
            with Load(server, turn) as load:
                load.go_on()
                time.sleep(dice.random() / 5)
                server.process.send_signal(signal.SIGKILL)
                server.process.wait()
        finally:
            server.stop()
        expect(not load.wrong and load.answered, f"answers {load.wrong[:1]}, {len(load.answered)} good ones")
        titles = titles_in(opens(program, path))
        expect(titles[: len(due)] == due, f"kill {turn}: what stood there before has changed")
        new = titles[len(due) :]
        lost = set(load.answered) - set(new)
        expect(not lost, f"kill {turn}: {len(lost)} answered commands are gone: {sorted(lost)[:3]}")
        expect(set(new) <= set(load.sent) and len(set(new)) == len(new), f"kill {turn}: more than was sent")
        due = titles
    print(f"    {KILLS} kills, {len(due):,} commands", flush=True)


def copies(program, folder):
    """Copies made by cp while eight clients write: each opens as a beginning of the history,
    with all that was answered before."""
    path, made = named(folder), []
    begin(program, path)
    with serving(program, path, workers=WRITERS) as server, Load(server, 0) as load:
        for number in range(COPIES):
            load.go_on()
            before = list(load.answered)
            copy = os.path.join(folder, f"copy{number}.cj")
            subprocess.run(["cp", path, copy], check=True)
            made.append((copy, before))
    expect(not load.wrong, f"{load.wrong[:1]}")
    rows = opens(program, path)
    expect(set(load.answered) <= set(titles_in(rows)), "what was answered isn't in the store")
    for copy, before in made:
        found = opens(program, copy)
        expect(found == rows[: len(found)] and not found[-1].more, f"{copy}: no beginning of the history")
        lost = set(before) - set(titles_in(found))
        expect(not lost, f"{copy}: {len(lost)} of {len(before)} answered commands aren't in it")
    print(f"    {COPIES} copies while {len(load.answered):,} commands were answered", flush=True)


def held_by_another(program, folder):
    """While confd runs, a second confd is refused the file; it may be read, and is let go at the end."""
    path = named(folder)
    with program.begin(path) as child:
        answer = ask(child, register("alice"))
        expect(answer is not None and answer[0] == 201, f"a registration was answered {answer}")
        for words in (["pipe", "--store", path], ["view", "--store", path, "--user", "alice"]):
            came = program.run(words, request("GET", "/phase"))
            expect(came == (b"", 6, line_of(path, BUSY)), f"the second confd: {came}")
        expect(names_in(path) == ["alice"], f"{names_in(path)}")
        child.stdin.close()
        expect(child.wait(timeout=LONG) == 0, "the first confd did not end well")
    expect(program.pipe(path, b"")[1] == 0, "opened behind it")


def modes(program, folder):
    """A journal that is made is its owner's alone; one that others may read is left so, with a line."""
    path = named(folder)

    def mode():
        return stat.S_IMODE(os.stat(path).st_mode)

    old = os.umask(0)
    try:
        _, status, line = program.run(["pipe", "--store", path], opening())
        expect((status, line, mode()) == (0, b"", 0o600), f"status {status}, {line!r}, mode {mode():o}")
    finally:
        os.umask(old)
    for given in (0o644, 0o640, 0o604):
        os.chmod(path, given)
        out, status, line = program.run(["pipe", "--store", path], request("GET", "/phase"))
        due = line_of(path, "others on this machine may read this file")
        expect((status, line, mode()) == (0, due, given), f"mode {given:o}: {status}, {line!r}, then {mode():o}")
        expect(answers(out)[0][0] == 200, f"{out!r}")


# ---- what is no journal, and what is no history's


def refused(program, path, status, reason):
    """A file that isn't taken, and stays byte for byte as it is."""
    before = read(path)
    came = program.run(["pipe", "--store", path], request("GET", "/phase"))
    expect(came == (b"", status, line_of(path, reason)), f"{came}, due {status} {reason!r}")
    expect(read(path) == before, "the file was changed")


def no_journals(program, folder):
    """What is no journal is refused with status 6 and its line, and stays as it is:
    a text, a database, a journal that is cut."""
    path, database, whole = named(folder), os.path.join(folder, "database"), os.path.join(folder, "whole.cj")
    for name in (database, whole):
        program.pipe(name, opening())
    content = read(whole)
    ends = {len(spelled(groups_of(content)[:count])) - 1 for count in range(3)}
    tried = [
        b"no journal, but long enough to be read as one\n" * 100,
        read(database),
        b"\0",
        b"CONFDJ02\0",
        content[:-1] + b"\1",
    ]
    tried += [content[:length] for length in range(1, len(content)) if length - 1 not in ends]
    tried += [content[:length] + b"\1" for length in ends] + [
        EMPTY[:8] + OPEN + field(b"no row") + b"\0"
    ]
    for wrong in tried:
        write(path, wrong)
        refused(program, path, 6, NO_JOURNAL)
    other = os.path.join(folder, "other")
    write(other, content)
    _, status, line = program.run(["pipe", "--store", other])
    expect(
        status == 6 and b": file is not a database" in line and read(other) == content,
        f"by another name: {status}, {line}",
    )
    os.mkdir(os.path.join(folder, "folder.cj"))
    for name, reason in (
        ("folder.cj", "it is no file"),
        ("no/folder.cj", f"{os.strerror(errno.ENOENT)} (os error {errno.ENOENT})"),
    ):
        name = os.path.join(folder, name)
        came = program.run(["pipe", "--store", name])
        expect(came == (b"", 6, line_of(name, reason)), f"{name}: {came}")


def unread(program, folder):
    """What stands behind the closed gate is not read, whatever it is and whatever closes it;
    the next command is written over it."""
    path, due = named(folder), None
    program.pipe(path, opening())
    content = read(path)
    for number, rest in enumerate(
        (b"\0", b"\2", b"\xff", b"\0" + content, b"\0\1" + b"\0" * 7, b"\x80" + b"\1" * 4000)
    ):
        write(path, content[:-1] + rest)
        told, status = program.pipe(path, request("GET", "/accounts") + register("bob"))
        expect(status == 0 and (due is None or told == due), f"{number}: status {status}, {told}")
        due = told
        expect(names_in(path) == ["alice", "bob"] and program.pipe(path, b"")[1] == 0, f"{number}: {names_in(path)}")


def row(kind, **fields):
    return Row(
        **{
            **dict.fromkeys(NUMBERS, 0),
            **dict.fromkeys(TEXTS, b""),
            "kind": kind,
            "maker": 1,
            **fields,
        }
    )


def small():
    """A small history's groups."""
    chair = [row(1, n1=1, more=1, at=MOMENT, b1=b"alice", b2=bytes(range(32))), row(2, n1=1, n2=2, at=MOMENT)]
    paper = [row(5, maker=2, more=1, n1=1, b1=b"Proofs", b2=b"We prove."), row(6, maker=2, n1=1, n2=1)]
    phase = row(3, n1=1, at=MOMENT + 1, num=7, mark=bytes(range(100, 132)))
    return [chair, [phase], [row(1, maker=2, n1=2, b1=b"bob", b2=bytes(32))], paper]


def bad_rows(program, folder):
    """A row of no history is refused with status 3, its number and its kind;
    so is the last one where its command goes on."""
    path, (chair, phase, bob, paper) = named(folder), small()
    for groups, at in (
        ([phase], 0), ([chair, phase, phase], 3), ([chair, phase, bob, paper, [row(9, n1=2)]], 6), ([chair[:1]], 0),
        ([chair, phase, bob, paper[:1]], 4), ([chair, [row(23)]], 2), ([chair, [row(3, n1=1, more=1)]], 2),
    ):  # fmt: skip
        write(path, spelled(groups))
        kind = [row for group in groups for row in group][at].kind
        refused(program, path, 3, f"row {at}, of kind {kind}, is bad or ends inside a command")
        # How rows are told apart by groups of the file is nothing that a history knows.
        write(path, spelled([[row] for group in groups for row in group]))
        refused(program, path, 3, f"row {at}, of kind {kind}, is bad or ends inside a command")


def as_judged(program, path, content):
    """Opens a file of these bytes, and compares with the reader and the model: what it is, by one word."""
    write(path, content)
    try:
        rows = rows_of(content)
        judged = Judged(rows)
    except NoJournal:
        refused(program, path, 6, NO_JOURNAL)
        return "no journal"
    except Bad as bad:
        at = bad.args[0]
        refused(program, path, 3, f"row {at}, of kind {rows[at].kind}, is bad or ends inside a command")
        return "bad"
    model = judged.model
    told, status = program.pipe(path, request("GET", "/accounts") + request("GET", "/phase"))
    due = [model.ask("-", "GET", path) for path in ("/accounts", "/phase")]
    expect((status, [(code, text.decode()) for code, text in told]) == (0, due), f"status {status}, {told}, due {due}")
    for _, name in model.users():
        out, status, _ = program.run(["view", "--store", path, "--user", name])
        lines = [json.loads(line) for line in out.splitlines()]
        due = [json.loads(line) for line in view_lines(model, name)]
        for line in due:
            if "digest" in line:
                line["digest"] = judged.digests[line["name"]]
        expect((status, lines) == (0, due), f"the view of {name}: status {status}, {lines}, due {due}")
    expect(read(path) == content, "the file was changed")
    return "a history" if rows else "empty"


def wrong_bytes(program, folder):
    """One wrong byte at each of the first 400 places: no journal, cut there, bad at a row, or another legal history,
    as is due."""
    content = spelled(small())
    whole = len(rows_of(content))
    expect(as_judged(program, named(folder), content) == "a history" and len(content) > PLACES, f"{len(content)} bytes")

    def tried(place):
        found = []
        for change in WRONG:
            wrong = bytearray(content)
            wrong[place] = change(wrong[place])
            try:
                kind = as_judged(program, os.path.join(folder, f"{place}.cj"), bytes(wrong))
            except AssertionError as error:
                return [f"place {place}, {content[place]} to {wrong[place]}: {error}"]
            is_cut = kind == "empty" or (kind == "a history" and len(rows_of(bytes(wrong))) < whole)
            found.append("cut" if is_cut else kind)
        return found

    with concurrent.futures.ThreadPoolExecutor(AT_ONCE) as pool:
        found = [kind for kinds in pool.map(tried, range(PLACES)) for kind in kinds]
    kinds = ("no journal", "cut", "bad", "a history")
    wrong = [kind for kind in found if kind not in kinds]
    expect(not wrong, f"{len(wrong)} of {len(found)}, the first: {wrong[:1]}")
    expect(all(kind in found for kind in kinds), "a kind that never came")
    print("    " + ", ".join(f"{kind} {found.count(kind)}" for kind in kinds), flush=True)


# ---- a disk that is full


def full_disk(program, folder):
    """A file that may grow no further, and then may: 503 and a line, then a line where commands go on;
    what was answered is there."""
    path = named(folder)
    program.pipe(path, opening())

    def survive():
        signal.signal(signal.SIGXFSZ, signal.SIG_IGN)

    with program.begin(path, stderr=subprocess.PIPE, preexec_fn=survive) as child:
        for turn in range(2):
            # There is room for a part of the next append.
            resource.prlimit(child.pid, resource.RLIMIT_FSIZE, (os.path.getsize(path) + 20, resource.RLIM_INFINITY))
            for n in range(3):
                answer = ask(child, register(f"refused{n}"))
                expect(answer == (503, b'{"error":"keeper_fault"}'), f"while it is full: {answer}")
            line = said(child)
            expect(line == PASSING.format(TOO_LARGE), f"while it is full: {line!r}")
            expect(ask(child, request("GET", "/phase"))[0] == 200, "a read while it is full")
            resource.prlimit(child.pid, resource.RLIMIT_FSIZE, (resource.RLIM_INFINITY, resource.RLIM_INFINITY))
            for n in range(3):
                answer = ask(child, register(f"taken{turn}-{n}"))
                expect(answer is not None and answer[0] == 201, f"when there is room: {answer}")
            line = said(child)
            expect(line == TAKEN_AGAIN, f"when there is room: {line!r}")
        status, rest = ended(child)
        expect((status, rest) == (0, ""), f"status {status}, {rest!r}")
    due = ["alice"] + [f"taken{turn}-{n}" for turn in range(2) for n in range(3)]
    expect(names_in(path) == due and program.pipe(path, b"")[1] == 0, f"{names_in(path)}")


# ---- calls of the system that fail, one a run


def counted(program, words, text, name, folder, **numbers):
    """How many calls of this name a run makes where none fails, and what it wrote."""
    out, status, err, orders = shim.run(program, words, text, folder, **numbers)
    expect((status, err) == (0, b""), f"where nothing fails: {status}, {err}")
    return getattr(orders, name), out


def syncs(program, folder):
    """A command is synced twice. Each sync fails, once or from then on: 503 until a restart, told so;
    what was answered is kept."""
    count, _ = counted(program, WORDS, registrations(), "syncs", folder)
    expect(count >= 2 * len(NAMES), f"{count} syncs in {len(NAMES)} commands")

    def fail(number, room):
        once = number <= count
        orders = {"refuse_sync": number if once else number - count, "lasts": 0 if once else 1, "error": errno.EIO}
        out, status, err, _ = shim.run(program, WORDS, registrations(), room, **orders)
        appends(JOURNAL, program, room, out, status, err, goes_on=False)

    each(2 * count, fail)


def opened_in_vain(program, room, content, **orders):
    """The journal of these bytes, none where it is missing, isn't opened: status 6 and its line, and it stays."""
    if content is not None:
        write(named(room), content)
    out, status, err, _ = shim.run(program, WORDS, QUESTION, room, **orders)
    expect((out, status, err) == (b"", 6, line_of("store.cj", FAILED)), f"{out[:80]}, status {status}, {err}")
    expect(read(named(room)) == (content or b""), "other bytes than before")


def openings(program, folder):
    """Where the file or its folder can't be synced, or its pages can't be let go, at any start: status 6 and its line,
    and the file stays; the next start tries anew."""
    program.pipe(named(folder), opening())
    content = read(named(folder))
    for there in (None, b"", content):
        for orders in ({"refuse_sync": 1}, {"refuse_sync": 2}, {"refuse_advice": 1}):
            with tempfile.TemporaryDirectory() as room:
                opened_in_vain(program, room, there, error=errno.EIO, **orders)
                count, _ = counted(program, WORDS, QUESTION, "syncs", room)
                expect(count == 3, f"{there}: {count} syncs at the next start")
                expect(counted(program, WORDS, QUESTION, "advices", room)[0] == 1, "advice")


def put_there(program, folder):
    """A journal that was just put at its name, of which the disk has nothing yet, is opened and given a command, and
    the power is cut: all of it is there."""
    program.pipe(named(folder), opening())
    content = read(named(folder))
    with tempfile.TemporaryDirectory() as room:
        media = os.path.join(room, "media")
        os.mkdir(media)
        write(named(room), content)
        out, status, err, _ = shim.run(program, WORDS, register("bob"), room, media)
        expect((status, [code for code, _ in answers(out)]) == (0, [201]), f"status {status}, {err}")
        cut_power(room, media)
        expect(os.path.exists(named(room)), "the file is gone")
        expect(names_in(named(room)) == ["alice", "bob"], f"{names_in(named(room))}")


LEFT = "; a part of a new journal is left: remove the file ahead of the next start"


def not_made(program, room, reason, **orders):
    """A journal can't be made: status 6 and its line, and no byte stays, or, where the cut is refused too, the line
    says what to do."""
    path, is_left = named(room), "refuse_truncate" in orders
    out, status, err, _ = shim.run(program, WORDS, QUESTION, room, **orders)
    due = line_of("store.cj", reason + LEFT if is_left else reason)
    expect((out, status, err) == (b"", 6, due), f"{orders}: {out[:80]}, status {status}, {err}, due {due}")
    if is_left:
        os.remove(path)
    else:
        expect(read(path) == b"", f"{orders}: {read(path)} stays")
    expect(program.pipe(path, b"") == ([], 0) and read(path) == EMPTY, f"{orders}: at the next start: {read(path)}")


def half_made(program, folder):
    """A journal that is made: the write is refused, cut short, or made all the same; the sync is refused; and the cut
    to nothing too. No byte of it stays, or the line says what to do; the next start makes it."""
    no_room, failed = {"error": errno.ENOSPC, "scope": FILES}, {"error": errno.EIO}
    tried = [(NO_ROOM, {"refuse_write": 1, **no_room}), (NO_ROOM, {"refuse_write": 1, "made": 1, **no_room})]
    tried += [(NO_ROOM, {"refuse_write": 2, "most_write": size, **no_room}) for size in range(1, len(EMPTY))]
    tried += [(FAILED, {"refuse_sync": 3, "lasts": lasts, **failed}) for lasts in (0, 1)]
    for reason, orders in tried:
        for cut in ({}, {"refuse_truncate": 1}):
            with tempfile.TemporaryDirectory() as room:
                not_made(program, room, reason, **orders, **cut)
        # One that was there, which keeps its mode.
        with tempfile.TemporaryDirectory() as room:
            write(named(room), b"")
            os.chmod(named(room), 0o620)
            not_made(program, room, reason, **orders)
            expect(stat.S_IMODE(os.stat(named(room)).st_mode) == 0o620, f"{orders}: the mode is another")

    # A file that may have five bytes.
    def limit():
        signal.signal(signal.SIGXFSZ, signal.SIG_IGN)
        resource.setrlimit(resource.RLIMIT_FSIZE, (5, resource.RLIM_INFINITY))

    path = named(folder)
    came = program.run(["pipe", "--store", path], QUESTION, preexec_fn=limit)
    expect(came == (b"", 6, line_of(path, TOO_LARGE)), f"{came}")
    expect(read(path) == b"" and program.pipe(path, b"") == ([], 0), f"{read(path)}")


def writes(program, folder):
    """Each write fails once for want of room, and is made all the same or isn't: 503 for that command, told so;
    the next is taken."""
    count, _ = counted(program, WORDS, registrations(), "writes", folder, scope=FILES)

    def fail(number, room):
        made = int(number > count)
        orders = {"refuse_write": number - made * count, "error": errno.ENOSPC, "scope": FILES, "made": made}
        out, status, err, _ = shim.run(program, WORDS, registrations(), room, **orders)
        appends(JOURNAL, program, room, out, status, err, goes_on=True, may_be_left=bool(made))

    each(2 * count, fail)


def reads(program, folder):
    """Each read of a journal that is opened fails: status 6 and its line, and the file stays;
    one that a signal broke off is read again."""
    program.pipe(named(folder), registrations())
    content = read(named(folder))
    count, whole = counted(program, WORDS, QUESTION, "reads", folder, scope=FILES)

    def fail(number, room):
        is_broken_off = number > count
        write(named(room), content)
        orders = {
            "refuse_read": number - is_broken_off * count,
            "error": errno.EINTR if is_broken_off else errno.EIO,
            "scope": FILES,
        }
        out, status, err, _ = shim.run(program, WORDS, QUESTION, room, **orders)
        due = (0, whole, b"") if is_broken_off else (6, b"", line_of("store.cj", FAILED))
        expect((status, out, err) in (due, (0, whole, b"")), f"status {status}, {err}, {out[:80]}")
        expect(read(named(room)) == content, "the file was changed")

    each(2 * count, fail)
    out, status, err, orders = shim.run(
        program, WORDS, QUESTION, folder, refuse_read=2, lasts=1, error=errno.EINTR, scope=FILES
    )
    expect(
        (out, status, err) == (b"", 6, line_of("store.cj", f"{os.strerror(errno.EINTR)} (os error {errno.EINTR})")),
        f"{status}, {err}",
    )
    expect(orders.reads < 100, f"{orders.reads} reads")


def ends(program, folder):
    """Reads of a journal that is opened find its end too soon, as where it is cut meanwhile, or one of them does, as
    where it is written anew: status 6 and its line."""
    # The last row ends in zeros, as a payload does that is filled with nothing.
    program.pipe(named(folder), opening())
    content, few = read(named(folder)), {"scope": FILES, "most_read": 4}
    expect(content.endswith(bytes(8)), "the journal ends in other bytes than zeros")
    count, whole = counted(program, WORDS, QUESTION, "reads", folder, **few)

    def cut(number, room, lasts):
        write(named(room), content)
        came = shim.run(program, WORDS, QUESTION, room, refuse_read=number, lasts=lasts, ended=1, **few)[:3]
        due = (b"", 6, line_of("store.cj", NO_JOURNAL)) if number < count else (whole, 0, b"")
        expect(came == due, f"read {number} of {count}: {came}")
        expect(read(named(room)) == content, "the file was changed")

    each(count, lambda number, room: cut(number, room, lasts=1))
    each(count, lambda number, room: cut(number, room, lasts=0))


def short(program, folder):
    """Reads and writes of a journal that move a few bytes: the same answers, and the same bytes in the file."""
    due, _ = counted(program, WORDS, registrations(), "writes", folder), read(named(folder))
    content = read(named(folder))
    for orders in (
        {"most_write": 1}, {"most_write": 7}, {"most_read": 1, "scope": FILES},
        {"most_read": 100, "most_write": 100, "scope": FILES},
    ):  # fmt: skip
        with tempfile.TemporaryDirectory() as room:
            _, out = counted(program, WORDS, registrations(), "writes", room, **orders)
            expect(out == due[1] and read(named(room)) == content, f"{orders}: other answers, or other bytes")
            _, told = counted(program, WORDS, QUESTION, "reads", room, **orders)
            expect(len(answers(told)[0][1]) > 100, f"{orders}: {told}")


def told_of_a_sync(program, folder):
    """A failed sync is told once, and each command is refused from then on;
    started again, confd says what the file has."""
    path = named(folder)
    program.pipe(path, opening())
    orders = Orders(os.path.join(folder, "orders"))
    with program.begin(path, stderr=subprocess.PIPE, env=shim.environment(orders)) as child:
        expect(ask(child, register("before"))[0] == 201, "before")
        orders.tell(refuse_sync=orders.syncs + 2, error=errno.EIO)
        for name in ("refused", "after"):
            answer = ask(child, register(name))
            expect(answer == (503, b'{"error":"keeper_fault"}'), f"{name}: {answer}")
        expect(ask(child, request("GET", "/phase"))[0] == 200, "a read")
        expect(said(child) == LASTING.format(FAILED), "the line")
        expect(ended(child) == (0, ""), "the end")
    names = names_in(path)
    expect(names in (["alice", "before"], ["alice", "before", "refused"]), f"{names}")
    told, status = program.pipe(path, register("again") + QUESTION)
    expect((status, told[0][0]) == (0, 201) and names_in(path) == names + ["again"], f"{status}, {told}")


CHECKS = (
    bytes_of, every_route, killed, copies, held_by_another, modes, no_journals, unread, bad_rows, wrong_bytes,
    full_disk,
)  # fmt: skip

# Those that refuse calls of the system, by what cc builds.
CHECKS_BY_SHIM = (syncs, openings, put_there, half_made, writes, reads, ends, short, told_of_a_sync)
shim = None


def main():
    global shim
    checks, program = chosen(CHECKS + CHECKS_BY_SHIM, sys.argv[1:])
    with tempfile.TemporaryDirectory() as folder:
        shim = Shim(folder) if shutil.which("cc") is not None else None
        if shim is None or not shim.holds(program):
            print(
                "left out, since no shim can stand before the program: "
                f"{', '.join(check.__name__ for check in CHECKS_BY_SHIM)}"
            )
            checks = tuple(check for check in checks if check not in CHECKS_BY_SHIM)
        run_all(checks, program)


if __name__ == "__main__":
    main()
