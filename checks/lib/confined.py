#!/usr/bin/env python3
# SPDX-License-Identifier: Apache-2.0 OR MIT
"""Runs a program under the system call filters that a unit's lines tell, as systemd does, where systemd doesn't run.

    python3 checks/lib/confined.py UNIT COMMAND..

systemd makes seccomp filters of some lines of UNIT (FILTERS, and SystemCallFilter with SystemCallErrorNumber). They are
read from the file itself, by the meaning that systemd.exec(5) gives them; what its other lines do is left to checks of
systemd. Needs libseccomp.so.2, which Debian's apt needs too, and systemd-analyze, which tells the groups of calls. Ends
as COMMAND does; with a message if the filters can't be made. unit.py uses it.
"""

import collections
import ctypes
import errno
import os
import re
import shutil
import socket
import subprocess
import sys

LIBRARY = "libseccomp.so.2"
# Of seccomp.h.
ALLOW = 0x7FFF0000
NOT_EQUAL, EQUAL, GREATER, MASKED = 1, 4, 6, 7
# Of the headers sched.h, sys/mman.h, sys/shm.h, sys/stat.h and sys/personality.h.
NAMESPACES = (0x00000080, 0x00020000, 0x02000000, 0x04000000, 0x08000000, 0x10000000, 0x20000000, 0x40000000)
WRITE, EXECUTE, SHARED_EXECUTE = 2, 4, 0o100000
SET_BITS = (0o4000, 0o2000)
QUERY_PERSONALITY, CREATE = 0xFFFFFFFF, 0o100
# Past it no address family has a number.
FAMILIES = 64
TIMESHARED = 0, 3, 5


class Compared(ctypes.Structure):
    """One argument of a call, and what it is compared with (scmp_arg_cmp)."""

    _fields_ = [("place", ctypes.c_uint), ("how", ctypes.c_int), ("a", ctypes.c_uint64), ("b", ctypes.c_uint64)]


def refused(error):
    """The action that makes a call fail with an error."""
    return 0x00050000 | error


def has_bits(place, bits):
    return Compared(place, MASKED, bits, bits)


class Filter:
    """One filter: what becomes of calls, and of all others."""

    def __init__(self, library, otherwise=ALLOW):
        self.library, self.context = library, library.seccomp_init(otherwise)

    def add(self, action, name, *compared):
        """A call whose arguments are so; one that this machine doesn't have is left out."""
        number = self.library.seccomp_syscall_resolve_name(name.encode())
        if number < 0:
            return
        row = (Compared * len(compared))(*compared)
        if self.library.seccomp_rule_add_array(self.context, action, number, len(compared), row) != 0:
            sys.exit(f"{name}: libseccomp takes no such rule")

    def load(self):
        if self.library.seccomp_load(self.context) != 0:
            sys.exit("the filter couldn't be loaded")


def opened_library():
    library = ctypes.CDLL(LIBRARY)
    library.seccomp_init.restype = ctypes.c_void_p
    library.seccomp_load.argtypes = [ctypes.c_void_p]
    library.seccomp_rule_add_array.argtypes = [
        ctypes.c_void_p, ctypes.c_uint32, ctypes.c_int, ctypes.c_uint, ctypes.POINTER(Compared)]  # fmt: skip
    return library


# ---- what a unit says


def settings(unit):
    """The values of each key of the unit's part Service, in order."""
    told, part = collections.defaultdict(list), None
    with open(unit, encoding="utf-8") as file:
        for line in file:
            if line.startswith("["):
                part = line.strip()
            found = re.fullmatch(r"([A-Za-z]+)=(.*)\n", line)
            if found and part == "[Service]":
                told[found.group(1)].append(found.group(2))
    return told


def groups():
    """The groups of calls by their names, each with what is in it, as this machine's systemd has them."""
    told, group = {}, None
    done = subprocess.run(["systemd-analyze", "syscall-filter"], capture_output=True, text=True, check=True)
    for line in done.stdout.splitlines():
        word = line.strip()
        if line.startswith("@"):
            group = told.setdefault(word, [])
        elif word and not word.startswith("#") and group is not None:
            group.append(word)
    return told


def calls_of(words, known):
    """The calls that names and groups stand for."""
    found = set()
    for word in words:
        found |= calls_of(known[word], known) if word.startswith("@") else {word}
    return found


def allowed(lines, known):
    """The calls that lines SystemCallFilter= leave, the first of which lists what is allowed."""
    left = calls_of(["@default"], known)
    for line in lines:
        if line.startswith("~"):
            left -= calls_of(line[1:].split(), known)
        else:
            left |= calls_of(line.split(), known)
    return left


# ---- one filter for each line


def without_families(library, value):
    """RestrictAddressFamilies=: only sockets of these families."""
    named = {getattr(socket, word) for word in value.split()}
    made = Filter(library)
    for family in set(range(FAMILIES)) - named:
        made.add(refused(errno.EAFNOSUPPORT), "socket", Compared(0, EQUAL, family))
    made.add(refused(errno.EAFNOSUPPORT), "socket", Compared(0, GREATER, FAMILIES - 1))
    return made


def without_new_code(library, _):
    """MemoryDenyWriteExecute=: no memory is both written and run."""
    made = Filter(library)
    made.add(refused(errno.EPERM), "mmap", has_bits(2, WRITE | EXECUTE))
    for name in ("mprotect", "pkey_mprotect"):
        made.add(refused(errno.EPERM), name, has_bits(2, EXECUTE))
    made.add(refused(errno.EPERM), "shmat", has_bits(2, SHARED_EXECUTE))
    return made


def without_namespaces(library, _):
    """RestrictNamespaces=: none is made or entered; clone3, whose flags no filter reads, isn't there."""
    made = Filter(library)
    made.add(refused(errno.ENOSYS), "clone3")
    made.add(refused(errno.EPERM), "setns")
    for bits in NAMESPACES:
        for name in ("unshare", "clone"):
            made.add(refused(errno.EPERM), name, has_bits(0, bits))
    return made


def without_realtime(library, _):
    """RestrictRealtime=: no policy but those that share the processors."""
    made = Filter(library)
    for policy in set(range(8)) - set(TIMESHARED):
        made.add(refused(errno.EPERM), "sched_setscheduler", Compared(1, EQUAL, policy))
    made.add(refused(errno.EPERM), "sched_setscheduler", Compared(1, GREATER, 7))
    return made


def without_set_bits(library, _):
    """RestrictSUIDSGID=: no file is made that runs as its owner or its group."""
    made = Filter(library)
    modes = {"chmod": 1, "fchmod": 1, "fchmodat": 2, "mkdir": 1, "mkdirat": 2, "mknod": 1, "mknodat": 2, "creat": 1}
    for bit in SET_BITS:
        for name, place in modes.items():
            made.add(refused(errno.EPERM), name, has_bits(place, bit))
        for name, flags in (("open", 1), ("openat", 2)):
            made.add(refused(errno.EPERM), name, has_bits(flags, CREATE), has_bits(flags + 1, bit))
    return made


def without_personalities(library, _):
    """LockPersonality=: the one that it has stays."""
    made = Filter(library)
    made.add(refused(errno.EPERM), "personality", Compared(0, NOT_EQUAL, QUERY_PERSONALITY))
    return made


FILTERS = {
    "RestrictAddressFamilies": without_families,
    "MemoryDenyWriteExecute": without_new_code,
    "RestrictNamespaces": without_namespaces,
    "RestrictRealtime": without_realtime,
    "RestrictSUIDSGID": without_set_bits,
    "LockPersonality": without_personalities,
}


def filters(library, unit):
    """The filters of a unit; that of all calls comes last, since loading one takes a call."""
    told = settings(unit)
    for key, make in FILTERS.items():
        if told[key] and told[key][-1] != "no":
            yield make(library, told[key][-1])
    if told["SystemCallFilter"]:
        error = getattr(errno, told["SystemCallErrorNumber"][-1])
        made = Filter(library, refused(error))
        for name in allowed(told["SystemCallFilter"], groups()):
            made.add(ALLOW, name)
        yield made


def is_missing():
    """What isn't there that this needs; none where all is."""
    if shutil.which("systemd-analyze") is None:
        return "systemd-analyze"
    try:
        opened_library()
    except OSError:
        return LIBRARY
    return None


def main():
    unit, *command = sys.argv[1:]
    for made in list(filters(opened_library(), unit)):
        made.load()
    os.execvp(command[0], command)


if __name__ == "__main__":
    main()
