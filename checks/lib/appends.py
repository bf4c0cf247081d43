# SPDX-License-Identifier: Apache-2.0 OR MIT
"""Registrations while one call of the system fails: what is answered, what is told, and what the store has then."""

import collections
import errno
import json
import os

from .checking import expect
from .database import rows
from .journal_file import rows_in
from .program import LASTING, PASSING, TAKEN_AGAIN
from .shim import in_turn
from .wire import answers, register, request

NAMES = [f"user{number}" for number in range(12)]
QUESTION = request("GET", "/accounts")


def each(count, act):
    """Has each call fail in turn."""
    failed = in_turn(act, range(1, count + 1))
    expect(count > 0 and not failed, f"{len(failed)} of {count}, the first: call {failed[:1]}")
    print(f"    {count} calls failed, one a run", flush=True)


def names_in(store):
    return [bytes(row[5]).decode() for row in rows(store) if row[1] == 1]


# A kind of store: what its file is named here, how the names in it are read, and what is said where a call fails, and
# where there is no room.
Kind = collections.namedtuple("Kind", "name names failed no_room")
DATABASE = Kind("store", names_in, "disk I/O error", "database or disk is full")
JOURNAL = Kind(
    "store.cj",
    lambda path: [row.b1.decode() for row in rows_in(path) if row.kind == 1],
    *(f"{os.strerror(number)} (os error {number})" for number in (errno.EIO, errno.ENOSPC)),
)


def told_names(kind, program, folder):
    """What a run says of the store that another left: the names, in their order."""
    found, status = program.pipe(os.path.join(folder, kind.name), QUESTION)
    expect(status == 0, f"opened again with status {status}")
    return [account["name"] for account in json.loads(found[0][1])["accounts"]]


def registrations():
    """A registration and a question in turn."""
    return b"".join(register(name) + QUESTION for name in NAMES)


def appends(kind, program, folder, out, status, err, goes_on, may_be_left=False):
    """A run of `registrations` in which a call on the store failed: the names that were answered 201, and what is left.

    `goes_on`: whether what failed passes, so that later ones are taken again. The last write of an append to a database
    is the exception: where that fails it isn't known what the file has, so the store is closed as it is by a failed
    sync. `may_be_left`: whether a command that was refused last may be in the file all the same, though later ones
    would have been taken.
    """
    lines = err.decode().splitlines(keepends=True)
    reason = kind.failed
    if goes_on and lines[:1] == [LASTING.format(kind.no_room)]:
        goes_on, reason = False, kind.no_room
    if status == 6:
        expect(out == b"" and len(lines) == 1, f"status 6: {out[:80]}, {lines}")
        expect(lines[0].startswith(f"confd: {kind.name}: "), f"status 6: {lines}")
        expect(told_names(kind, program, folder) == [], "names in a store that could not be made")
        return
    expect(status == 0, f"status {status}, {lines}")
    found = answers(out)
    expect(len(found) == 2 * len(NAMES), f"{len(found)} answers")
    codes, kept = [code for code, _ in found[::2]], []
    for name, (code, content), (asked, accounts) in zip(NAMES, found[::2], found[1::2]):
        if code == 201:
            kept.append(name)
            expect(json.loads(content) == {"user": len(kept)}, f"{name}: {content}")
        else:
            expect((code, content) == (503, b'{"error":"keeper_fault"}'), f"{name}: {code} {content}")
        shown = [account["name"] for account in json.loads(accounts)["accounts"]]
        expect(asked == 200 and shown == kept, f"behind {name}: {asked}, {shown}, due {kept}")
    first = codes.index(503) if 503 in codes else len(codes)
    if goes_on:
        expect(codes.count(503) <= 1, f"one call failed, and the answers are {codes}")
        full = PASSING.format(kind.no_room)
        due = ([full] if first < len(codes) else []) + ([TAKEN_AGAIN] if first < len(codes) - 1 else [])
    else:
        expect(codes == [201] * first + [503] * (len(codes) - first), f"{codes}")
        due = [LASTING.format(reason)] if first < len(codes) else []
    expect(lines[: len(due)] == due, f"standard error has {lines}, due {due}")
    # What is left over tells that the store was not shut well.
    rest = lines[len(due) :]
    expect(len(rest) <= 1 and all(f"{kind.name}: " in line for line in rest), f"standard error has {lines}")
    now = told_names(kind, program, folder)
    lost = NAMES[first : first + 1] if not goes_on or (may_be_left and first == len(NAMES) - 1) else []
    expect(now in (kept, kept + lost), f"the store has {now}, due {kept}, and perhaps {lost}")
    expect(kind.names(os.path.join(folder, kind.name)) == now, "the rows are others than the program tells")
