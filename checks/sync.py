#!/usr/bin/env python3
# SPDX-License-Identifier: Apache-2.0 OR MIT
"""Lets each sync, write and read of `confd pipe` fail in turn, and looks at what went out and what the file has.

    python3 checks/sync.py [CHECK..] [PROGRAM]

PROGRAM is `confd` as `rt run` builds it (crates/confd/out/confd where none is named); CHECK is a name out of CHECKS,
all where none is told. Needs Python 3, and `cc` for checks/lib/shim.c, which lets the calls fail; without a `cc` it
ends well with a line that says so. Prints a line a check, and last `N passed, M failed`; ends with status 0 where none
failed. Takes about half a minute.
"""

import errno
import itertools
import os
import sys
import tempfile

from lib.appends import DATABASE, JOURNAL, NAMES, QUESTION, appends, each, registrations, told_names
from lib.checking import expect, run_all
from lib.conference import CUT, beginnings, codes_of, text_of
from lib.database import rows
from lib.program import chosen
from lib.shim import FILES, NO_FILES, cut_power, shim_for
from lib.wire import answers, register


LINE = b"confd: the input ended inside a request\n"
WORDS = ["pipe", "--store", "store"]
shim = None


def counted(program, words, text, name, **numbers):
    """How many calls of this name a run makes where none fails, and what it wrote."""
    with tempfile.TemporaryDirectory() as folder:
        out, status, err, orders = shim.run(program, words, text, folder, **numbers)
        expect(err == b"" or status == 1, f"where nothing fails: {err}")
        return getattr(orders, name), out, status


# Of how many bytes a page of the system's memory is taken to be, and how many commands are given once confd was started
# again.
PAGES, GIVEN_AGAIN = (1, 512, 4096), (1, 4)


def syncs(program, _folder):
    """Each sync fails, once or from then on: 503 until a restart, and told so; what was answered is kept."""
    count, _, _ = counted(program, WORDS, registrations(), "syncs")

    def fail(number, folder):
        once = number <= count
        orders = {"refuse_sync": number if once else number - count, "lasts": 0 if once else 1, "error": errno.EIO}
        out, status, err, _ = shim.run(program, WORDS, registrations(), folder, **orders)
        appends(DATABASE, program, folder, out, status, err, goes_on=False)

    each(2 * count, fail)


def taken(names, out):
    """Of these names those whose registrations were answered 201, or 409 since they are there."""
    found = answers(out)
    expect(len(found) == len(names) and all(code in (201, 409, 503) for code, _ in found), f"{found}")
    return [name for name, (code, _) in zip(names, found) if code != 503]


def failed_and_cut(kind, program, folder, number, page, many):
    """Sync `number` fails; confd is started again and given `many` of the commands that are missing; the power is cut.

    Each command that was answered is there, and nothing else.
    """
    media = os.path.join(folder, "media")
    os.mkdir(media)
    words, below = ["pipe", "--store", kind.name], {"media": media, "page": page, "error": errno.EIO}
    names = NAMES[:6]
    out, status, _, _ = shim.run(
        program, words, b"".join(map(register, names)), folder, refuse_sync=number, **below
    )
    expect(status in (0, 6), f"status {status}")
    kept = taken(names, out) if status == 0 else []
    again = [name for name in NAMES if name not in kept][:many]
    out, status, err, _ = shim.run(program, words, b"".join(map(register, again)), folder, **below)
    expect(status == 0 and taken(again, out) == again, f"started again: status {status}, {err}, {out[-80:]}")
    cut_power(folder, media)
    now = told_names(kind, program, folder)
    expect(now == kept + again, f"behind the cut there are {now}; {kept} were taken, then {again}")


def lost_pages(program, _folder):
    """A failed sync leaves what was written in memory alone, as Linux does; started again, confd goes on, and the power
    is cut: what was answered is there, in journals and in databases."""
    for kind in (JOURNAL, DATABASE):
        count, _, _ = counted(program, ["pipe", "--store", kind.name], b"".join(map(register, NAMES[:6])), "syncs")
        runs = list(itertools.product(range(1, count + 1), PAGES, GIVEN_AGAIN))
        each(len(runs), lambda at, folder: failed_and_cut(kind, program, folder, *runs[at - 1]))


def full(program, _folder):
    """Each write to the store fails once for want of room: 503 for that command, told so;
    the next is taken, or none until a restart."""
    count, _, _ = counted(program, WORDS, registrations(), "writes", scope=FILES)

    def fail(number, folder):
        orders = {"refuse_write": number, "error": errno.ENOSPC, "scope": FILES}
        out, status, err, _ = shim.run(program, WORDS, registrations(), folder, **orders)
        appends(DATABASE, program, folder, out, status, err, goes_on=True)

    each(count, fail)


def opening_reads(program, folder):
    """Each read of a store that is opened fails: status 6 and its line, or the store is as it was; the rows stay."""
    store = os.path.join(folder, "store")
    program.pipe(store, registrations())
    due = rows(store)
    words = ["pipe", "--store", store]
    count, whole, _ = counted(program, words, QUESTION, "reads", scope=FILES)

    def fail(number, other):
        copy = os.path.join(other, "store")
        for end in ("", "-wal"):
            if os.path.exists(store + end):
                with open(store + end, "rb") as old, open(copy + end, "wb") as new:
                    new.write(old.read())
                os.chmod(copy + end, 0o600)
        orders = {"refuse_read": number, "error": errno.EIO, "scope": FILES}
        out, status, err, _ = shim.run(program, WORDS, QUESTION, other, **orders)
        expect((status, out) == (6, b"") or (status, out) == (0, whole), f"status {status}, {out[:80]}")
        expect(status == 0 or err.startswith(b"confd: store: "), f"{err}")
        expect(rows(copy) == due, "the rows are others now")

    each(count, fail)


def cut_reads(program, _folder):
    """Each read of the input fails: status 4, and the answers to what was whole by then."""
    count, whole, status = counted(program, ["pipe"], text_of(CUT), "reads", scope=NO_FILES, most_read=16)
    ends = beginnings(CUT, whole)
    expect((status, codes_of(ends)) == (1, [200, 201]), f"status {status}")

    def fail(number, folder):
        out, status, err, _ = shim.run(
            program, ["pipe"], text_of(CUT), folder, refuse_read=number, most_read=16, scope=NO_FILES, error=errno.EIO
        )
        expect((status, err) == (4, b"confd: the input could not be read\n"), f"status {status}, {err}")
        sent = 16 * (number - 1)
        due = sum(len(text_of(CUT[: behind + 1])) <= sent for behind in range(2))
        expect(out == ends[due], f"{out} behind {sent} bytes")

    each(count, fail)


def cut_writes(program, _folder):
    """Each write of the output fails: status 5, and a beginning of what is due."""
    count, whole, _ = counted(program, ["pipe"], text_of(CUT), "writes", scope=NO_FILES, most_write=16)

    def fail(number, folder):
        out, status, err, _ = shim.run(
            program, ["pipe"], text_of(CUT), folder, refuse_write=number, most_write=16, scope=NO_FILES, error=errno.EIO
        )
        if out == whole:
            # Past the output it was a write to standard error, whose line is then cut or left out.
            expect(status == 1 and err in (b"", LINE[: len(err)]), f"status {status}, {err}")
            return
        expect((status, err) == (5, b"confd: the output could not be written\n"), f"status {status}, {err}")
        expect(out == whole[: len(out)], f"{out} is no beginning")

    each(count, fail)


def short(program, _folder):
    """Reads of the input and writes of output and store that move a few bytes: the same answers, status and rows."""
    with tempfile.TemporaryDirectory() as folder:
        out, status, _, _ = shim.run(program, WORDS, registrations(), folder)
        due = (out, status, rows(os.path.join(folder, "store")))
    for orders in (
        {"most_read": 1, "scope": NO_FILES}, {"most_write": 1}, {"most_write": 7}, {"most_write": 1000},
        {"most_read": 100, "most_write": 100, "scope": NO_FILES},
    ):  # fmt: skip
        with tempfile.TemporaryDirectory() as folder:
            out, status, err, _ = shim.run(program, WORDS, registrations(), folder, **orders)
            expect((out, status, err) == (*due[:2], b""), f"{orders}: status {status}, {err}, {len(out)} bytes")
            expect(rows(os.path.join(folder, "store")) == due[2], f"{orders}: the rows are others")


CHECKS = (syncs, lost_pages, full, opening_reads, cut_reads, cut_writes, short)


def main():
    global shim
    checks, program = chosen(CHECKS, sys.argv[1:])
    with tempfile.TemporaryDirectory() as folder:
        shim = shim_for(program, folder)
        run_all(checks, program)


if __name__ == "__main__":
    main()
