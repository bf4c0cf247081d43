# SPDX-License-Identifier: Apache-2.0 OR MIT
"""`confd` as a process: its runs by `pipe`, what it says on standard error, and which program a script is to try."""

import contextlib
import os
import sqlite3
import subprocess
import sys

from .places import CONFD
from .wire import answers

# Past so many seconds a run hangs.
LONG = 120


class Program:
    """A program to be tried, by its path."""

    def __init__(self, path):
        self.path = path

    def run(self, words, text=b"", **more):
        """What a run with these words over these bytes wrote, and its status."""
        done = subprocess.run(
            [self.path, *words], input=text, stdout=subprocess.PIPE, stderr=subprocess.PIPE, timeout=LONG, **more
        )
        return done.stdout, done.returncode, done.stderr

    def pipe(self, store, text, **more):
        out, status, _ = self.run(["pipe", "--store", store], text, **more)
        return answers(out), status

    @contextlib.contextmanager
    def begin(self, store, stderr=subprocess.DEVNULL, **more):
        """A run whose input stays open; killed at the end, where it runs still."""
        child = subprocess.Popen(
            [self.path, "pipe", "--store", store], stdin=subprocess.PIPE, stdout=subprocess.PIPE, stderr=stderr, **more
        )
        try:
            yield child
        finally:
            child.kill()
            child.wait()
            with contextlib.suppress(BrokenPipeError):
                child.stdin.close()
            child.stdout.close()
            if child.stderr is not None:
                child.stderr.close()


def said(child):
    """The next line on standard error."""
    return child.stderr.readline().decode()


def ended(child):
    """The status of a run whose input ends now, and what else it said on standard error."""
    child.stdin.close()
    status = child.wait(timeout=LONG)
    return status, child.stderr.read().decode()


def ask(child, text):
    """Sends one request, and waits for its answer."""
    child.stdin.write(text)
    child.stdin.flush()
    out = b""
    while not answers(out):
        piece = os.read(child.stdout.fileno(), 65536)
        if not piece:
            return None
        out += piece
    return answers(out)[0]


def read(path):
    with open(path, "rb") as file:
        return file.read()


# What standard error is told of appends, and of the clock.
PASSING = "confd: commands are refused (503): {}; they are taken again as soon as one can be kept\n"
LASTING = "confd: commands are refused (503): {}; confd has to be started again, to see what the disk has\n"
TAKEN_AGAIN = "confd: commands are taken again\n"
NO_TIME = b"confd: the clock could not be read\n"


def line_of(store, reason):
    """The line on standard error that gives this reason."""
    return f"confd: {store}: {reason}\n".encode()


def program_named(words):
    """The program that the words name, else the one that `rt run` built."""
    path = words[0] if words else CONFD
    if not os.path.exists(path):
        sys.exit(f"{path}: build it first, with `rt run` in crates/confd")
    if sqlite3.sqlite_version_info < (3, 37):
        sys.exit(f"SQLite {sqlite3.sqlite_version} is too old for these tables: 3.37 is wanted")
    return Program(os.path.abspath(path))


def chosen(checks, words):
    """The checks that the words name, all where they name none, and the program."""
    names = {check.__name__ for check in checks}
    named = [check for check in checks if check.__name__ in words]
    return named or checks, program_named([word for word in words if word not in names])
