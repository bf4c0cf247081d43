#!/usr/bin/env python3
# SPDX-License-Identifier: Apache-2.0 OR MIT
"""Tries deploy/confd@.service: how much it shuts off, and that confd does its work within it.

    python3 checks/unit.py [PROGRAM]

PROGRAM is `confd` as `rt run` builds it (crates/confd/out/confd where none is named). The unit's exposure is what
`systemd-analyze security` says; confd runs under its filters (confined.py), and by a systemd of this check's own
(own_systemd.py), which needs root. What isn't there on this machine is told in a line, and what needs it is left out.
Prints a line a check, and last `N passed, M failed`; ends with status 0 where none failed. Takes half a minute.
"""

import contextlib
import os
import shutil
import socket
import subprocess
import sys

from lib import confined, own_systemd
from lib.checking import expect, left_out, run_all
from lib.places import TOP
from lib.program import Program, program_named
from lib.server import Client, ask_once, free_port, serving
from lib.wire import opening, register, request, submit, upload

UNIT = os.path.join(TOP, "deploy", "confd@.service")
# The most that `systemd-analyze security` may say, ten times over.
EXPOSURE = 20
# The two kinds of stores, by the names that the unit's users give them.
STORES = "confd.cj", "confd.store"
CONTENT = os.urandom(100_000)


def exposure(_program, _folder):
    """systemd-analyze security: at most 2.0."""
    words = ["security", "--offline=true", "--no-pager", f"--threshold={EXPOSURE}", UNIT]
    done = subprocess.run(["systemd-analyze", *words], capture_output=True, text=True, check=False)
    expect(done.returncode == 0, f"{done.stdout[-200:]} {done.stderr}")


def judges_files():
    """Whether systemd-analyze is there, and takes a unit that isn't installed."""
    with contextlib.suppress(FileNotFoundError):
        done = subprocess.run(["systemd-analyze", "--help"], capture_output=True, text=True, check=False)
        return "--offline" in done.stdout
    return False


# ---- what is asked of a server


def ask_all(server):
    """A chair, a paper and a content: five requests, each accepted."""
    with Client(server) as client:
        client.send(opening() + register("erin") + submit("erin", "Proofs") + upload("erin", 1, CONTENT))
        codes = [client.answer()[0] for _ in range(5)]
    expect(codes == [201, 200, 201, 201, 200], f"answered {codes}")


def expect_all(server):
    """What ask_all had accepted is there."""
    code, _, content = ask_once(server, request("GET", "/papers/1/content", "erin"))
    expect((code, content == CONTENT) == (200, True), f"the content: {code}")


# ---- under the unit's filters


def confined_program(program, folder):
    """The program, under the filters of the unit's own lines."""
    path = os.path.join(folder, "confined")
    with open(path, "w", encoding="utf-8") as file:
        file.write(f'#!/bin/sh\nexec {sys.executable} {confined.__file__} {UNIT} {program.path} "$@"\n')
    os.chmod(path, 0o755)
    return Program(path)


def under_its_filters(program, folder):
    """Under the unit's filters confd takes commands, starts again after a kill, and reads a copy, of both stores."""
    inside = confined_program(program, folder)
    for name in STORES:
        store, copy = os.path.join(folder, name), os.path.join(folder, f"copy-of-{name}")
        with serving(inside, store, workers=64) as server:
            with open(f"/proc/{server.process.pid}/status", encoding="utf-8") as file:
                expect("Seccomp:\t2\n" in file.read(), "there is no filter")
            ask_all(server)
        # It was killed with its log beside it, where it has one.
        with serving(inside, store, workers=64) as server:
            expect_all(server)
            if name.endswith(".cj"):
                shutil.copy(store, copy)
        if not name.endswith(".cj"):
            for end in "", "-wal":
                shutil.copy(store + end, copy + end)
        views = [inside.run(["view", "--store", path, "--user", "erin"]) for path in (store, copy)]
        expect(views[0] == views[1] and views[0][1] == 0, f"{name}: the views differ: {views}")


# What a program tries that has no business in a server of files, with what it is told within the unit.
TRIALS = {
    "socket.socket(socket.AF_UNIX)": "EAFNOSUPPORT",
    "socket.socket(socket.AF_PACKET, socket.SOCK_RAW)": "EAFNOSUPPORT",
    "mmap.mmap(-1, 4096, prot=mmap.PROT_WRITE | mmap.PROT_EXEC)": "EPERM",
    "os.chown('trial', 0, 0)": "EPERM",
    "os.chmod('trial', 0o4755)": "EPERM",
    "os.sched_setscheduler(0, os.SCHED_FIFO, os.sched_param(1))": "EPERM",
    "os.nice(-1)": "EPERM",
    "os.memfd_create('trial')": "EPERM",
}
TRY = """
import errno, mmap, os, socket, sys
for trial in sys.argv[1:]:
    try:
        eval(trial)
        print("done")
    except OSError as error:
        print(errno.errorcode[error.errno])
"""


def what_they_refuse(_program, folder):
    """The unit's filters refuse other sockets, memory that is written and run, changed owners, and what else is
    privileged."""
    with open(os.path.join(folder, "trial"), "w", encoding="utf-8"):
        pass
    words = [sys.executable, confined.__file__, UNIT, sys.executable, "-c", TRY, *TRIALS]
    done = subprocess.run(words, capture_output=True, text=True, check=True, cwd=folder)
    expect(done.stdout.split() == list(TRIALS.values()), f"{done.stdout} {done.stderr}")


# ---- by a systemd


class Conference:
    """An instance of the unit: its files, and its port on this machine."""

    def __init__(self, own, name, store=None):
        self.own, self.unit, self.name = own, f"confd@{name}", name
        self.port = free_port()
        lines = [f"LISTEN=127.0.0.1:{self.port}"] + ([f"STORE=/var/lib/confd/{name}/{store}"] if store else [])
        with open(own.path("etc", "confd", f"{name}.env"), "w", encoding="utf-8") as file:
            file.write("\n".join(lines) + "\n")
        self.new = own.path("etc", "confd", f"{name}.new")
        self.folder = f"/var/lib/confd/{name}"
        self.store = f"{self.folder}/{store or 'confd.cj'}"

    def say_new(self):
        with open(self.new, "w", encoding="utf-8"):
            pass

    def start(self):
        return self.own.run("systemctl", "start", self.unit)[0]

    def state(self):
        return self.own.shown(self.unit, "ActiveState")

    def is_served(self):
        with contextlib.suppress(OSError):
            socket.create_connection(("127.0.0.1", self.port)).close()
            return True
        return False

    def expect_served(self):
        expect(own_systemd.has_come(self.is_served), f"{self.unit} serves nobody: {self.state()}, {self.said()}")

    def begin(self):
        """It is new, and starts."""
        self.say_new()
        expect(self.start() == 0, self.said())
        self.expect_served()

    def process(self):
        return int(self.own.shown(self.unit, "MainPID"))

    def kill(self, name="KILL"):
        self.own.run("kill", f"-{name}", str(self.process()))

    def restarts(self):
        return int(self.own.shown(self.unit, "NRestarts"))

    def said(self):
        with open(self.own.path("said"), encoding="utf-8") as file:
            return file.read()

    def is_there(self):
        return self.own.run("test", "-e", self.store)[0] == 0

    def expect_failed(self, why):
        """It ended, and stays so: not a second later either, when it would start again."""
        expect(own_systemd.has_come(lambda: self.state() == "failed"), f"{why}: {self.state()}")
        expect(not own_systemd.has_come(lambda: self.state() != "failed", 2), f"{why}: it was started again")


def within(check):
    """The check, of an own systemd that knows the unit and has the program."""

    def checked(program, folder):
        with own_systemd.started(folder, [UNIT]) as own:
            shutil.copy(program.path, own.path("bin", "confd"))
            os.mkdir(own.path("etc", "confd"))
            changed(own, "StandardError=append:" + own_systemd.ROOM + "/said")
            check(own)

    checked.__doc__, checked.__name__ = check.__doc__, check.__name__
    return checked


def changed(own, line):
    """A line more in the unit's part Service."""
    folder = own.path("units", "confd@.service.d")
    os.makedirs(folder, exist_ok=True)
    with open(os.path.join(folder, f"{len(os.listdir(folder))}.conf"), "w", encoding="utf-8") as file:
        file.write(f"[Service]\n{line}\n")
    expect(own.run("systemctl", "daemon-reload")[0] == 0, "daemon-reload")


@within
def at_work(own):
    """By systemd, with a journal and with a database: a new conference, a kill, a restart, and all is there;
    the word that it is new is gone."""
    for name, store in (("review", None), ("other", "confd.store")):
        one = Conference(own, name, store)
        one.begin()
        expect(own_systemd.has_come(lambda: not os.path.exists(one.new)), "the word that it is new is still there")
        ask_all(one)
        one.kill()
        expect(own_systemd.has_come(lambda: one.restarts() == 1), "it wasn't started again")
        one.expect_served()
        expect_all(one)
        expect(own.run("systemctl", "restart", one.unit)[0] == 0, one.said())
        one.expect_served()
        expect_all(one)


@within
def shut_in(own):
    """By systemd: no capability, a filter, and a user of its own for each conference, who sees no other's folder."""
    users = []
    for name in ("review", "other"):
        one = Conference(own, name)
        one.begin()
        _, told = own.run("cat", f"/proc/{one.process()}/status")
        status = dict(line.split(":\t", 1) for line in told.splitlines() if ":\t" in line)
        expect(int(status["CapEff"], 16) == int(status["CapBnd"], 16) == 0, f"capabilities {status['CapBnd']}")
        expect((status["NoNewPrivs"], status["Seccomp"]) == ("1", "2"), f"{status['NoNewPrivs']} {status['Seccomp']}")
        users.append(status["Uid"].split()[0])
        _, folders = own.run("ls", f"/proc/{one.process()}/root/var/lib/private/confd")
        expect(folders.split() == [name], f"{name} sees {folders.split()}")
        expect(own.run("stat", "-L", "-c", "%a", one.folder, one.store)[1].split() == ["700", "600"], "modes")
    expect(len(set(users)) == 2 and "0" not in users, f"the users {users}")


@within
def lost(own):
    """By systemd: where a store is missing or empty nothing is served and nothing made, at the first start and at a
    later one, and a line says what to do; a copy that is put back is served."""
    one = Conference(own, "review")
    expect(one.start() != 0, "it was started without a store")
    one.expect_failed("there is no store")
    told = "is missing or empty, and nothing is served. Put a copy back; if the conference is new: touch "
    expect(one.said() == f"confd: {one.store} {told}/etc/confd/review.new\n", one.said())
    expect(not one.is_there(), "it made a store")
    one.begin()
    ask_all(one)
    own.run("cp", one.store, f"{own_systemd.ROOM}/copy.cj")
    own.run("rm", one.store)
    one.kill()
    one.expect_failed("the store was lost")
    own.run("touch", one.store)
    own.run("chown", f"--reference={one.folder}/", one.store)
    expect(one.start() != 0, "it was started with an empty store")
    expect(own.run("test", "-s", one.store)[0] == 1, "it made a store of an empty file")
    own.run("cp", f"{own_systemd.ROOM}/copy.cj", one.store)
    own.run("chown", f"--reference={one.folder}/", one.store)
    expect(one.start() == 0, one.said())
    one.expect_served()
    expect_all(one)


@within
def moved(own):
    """By systemd: on another machine, a copy laid into a folder that root makes is served."""
    one = Conference(own, "review")
    one.begin()
    ask_all(one)
    own.run("systemctl", "stop", one.unit)
    own.run("sh", "-c", f"mv {one.store} {own_systemd.ROOM}/copy.cj && rm -rf /var/lib/confd /var/lib/private/confd")
    own.run("mkdir", "-p", one.folder)
    own.run("cp", f"{own_systemd.ROOM}/copy.cj", one.store)
    expect(one.start() == 0, one.said())
    one.expect_served()
    expect_all(one)


@within
def which_ends(own):
    """By systemd: it is started again after a day, a connection too many, a signal or an address that is held, and
    not after a bad store or refused words."""
    one = Conference(own, "review")
    one.begin()
    ask_all(one)
    own.run("systemctl", "stop", one.unit)
    changed(own, "RuntimeMaxSec=1s")
    expect(one.start() == 0, one.said())
    expect(own_systemd.has_come(lambda: one.restarts() >= 2), "after its day")
    changed(own, "RuntimeMaxSec=infinity")
    own.run("systemctl", "stop", one.unit)
    with socket.create_server(("127.0.0.1", one.port)):
        one.start()
        expect(own_systemd.has_come(lambda: one.restarts() >= 2), "after the address was held")
    one.expect_served()
    for name in ("TERM", "SEGV"):
        before = one.restarts()
        one.kill(name)
        expect(own_systemd.has_come(lambda: one.restarts() == before + 1), f"after SIG{name}")
        one.expect_served()
    own.run("systemctl", "stop", one.unit)
    store = own.path(f"/var/lib/private/confd/{one.name}/confd.cj")
    with open(store, "r+b") as file:
        whole = file.read()
        # The kind of the first row, behind the magic, a gate and a length.
        file.seek(24)
        file.write(b"\xff")
    one.start()
    one.expect_failed("its store is bad")
    expect(one.said().endswith("row 0, of kind 255, is bad or ends inside a command\n"), one.said())
    with open(store, "r+b") as file:
        file.write(whole)
    with open(own.path("etc", "confd", "review.env"), "w", encoding="utf-8") as file:
        file.write("LISTEN=--none\n")
    one.start()
    one.expect_failed("its words are refused")


def main():
    program = program_named(sys.argv[1:])
    checks = left_out([exposure], None if judges_files() else "systemd-analyze that judges files (systemd 250)")
    checks += left_out([under_its_filters, what_they_refuse], confined.is_missing())
    checks += left_out([at_work, shut_in, lost, moved, which_ends], own_systemd.is_missing())
    run_all(checks, program)


if __name__ == "__main__":
    main()
