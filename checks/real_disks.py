#!/usr/bin/env python3
# SPDX-License-Identifier: Apache-2.0 OR MIT
"""Runs confd on real file systems over a disk that refuses a write, starts it again, goes on, and cuts the power.

    /usr/bin/python3 checks/real_disks.py [FILE SYSTEM..] [PROGRAM]

PROGRAM is `confd` as `rt run` builds it (crates/confd/out/confd if none is named), and FILE SYSTEM ext4, xfs or btrfs,
all if none is named. Needs root, /dev/fuse, loop devices and Debian's Python with the packages that `checks/packages.sh
disks` installs, so `.ci/run` leaves it out. The disk is a file that a process of this script lends by FUSE. It answers
EIO to one write after those of the first command. The power is cut by a copy of what that file then has. Each of these
writes is refused in turn. Prints a line a file system, with what became of the runs; ends with status 0 if no answered
command was lost.
"""

import collections
import contextlib
import errno
import itertools
import multiprocessing
import os
import shutil
import stat
import subprocess
import sys
import tempfile
import time

from lib.checking import expect
from lib.places import TOP
from lib.program import Program
from lib.wire import answers, opening, register, submit


# Of each file system the size of its disk in MiB, how it is made, and how it is mounted.
SYSTEMS = {
    "ext4": (64, ["mkfs.ext4", "-q", "-F"], "errors=continue"),
    "xfs": (320, ["mkfs.xfs", "-q", "-f"], "defaults"),
    "btrfs": (160, ["mkfs.btrfs", "-q", "-f", "-m", "single"], "defaults"),
}
# So that several commands fill more than a page.
LONG = "x" * 3000


def lend(image, folder, refused, counted):
    """Lends the file `image` as a file in this folder, until that is unmounted. While `refused` isn't 0 writes are
    counted, and the one of that number is answered EIO."""
    from fusepy import FUSE, FuseOSError, Operations

    class Disk(Operations):
        def __init__(self):
            self.file = os.open(image, os.O_RDWR)

        def getattr(self, path, handle=None):
            kind = stat.S_IFDIR | 0o700 if path == "/" else stat.S_IFREG | 0o600
            return {"st_mode": kind, "st_nlink": 1, "st_size": os.fstat(self.file).st_size}

        def readdir(self, path, handle):
            return [".", "..", "disk"]

        def open(self, path, flags):
            return 0

        def read(self, path, size, at, handle):
            return os.pread(self.file, size, at)

        def write(self, path, content, at, handle):
            if refused.value > 0:
                counted.value += 1
                if counted.value == refused.value:
                    raise FuseOSError(errno.EIO)
            return os.pwrite(self.file, content, at)

        def fsync(self, path, only_data, handle):
            return 0

    FUSE(Disk(), folder, foreground=True, nothreads=True, direct_io=True)


def call(*words):
    done = subprocess.run(words, stdout=subprocess.PIPE, stderr=subprocess.PIPE, timeout=60)
    if done.returncode != 0:
        raise OSError(f"{' '.join(words)}: {done.stderr.decode().strip()}")
    return done.stdout.decode().strip()


@contextlib.contextmanager
def lent_disk(image, room):
    """The image as a disk that refuses a write: its file, and the two numbers of `lend`."""
    folder = os.path.join(room, "lent")
    os.mkdir(folder)
    refused, counted = multiprocessing.Value("i", 0), multiprocessing.Value("i", 0)
    lender = multiprocessing.Process(target=lend, args=(image, folder, refused, counted), daemon=True)
    lender.start()
    try:
        begun = time.monotonic()
        while not os.path.ismount(folder):
            expect(lender.is_alive() and time.monotonic() - begun < 10, "nothing is lent")
            time.sleep(0.05)
        yield os.path.join(folder, "disk"), refused, counted
    finally:
        call("fusermount", "-u", folder)
        lender.join(10)


@contextlib.contextmanager
def mounted(file, folder, options):
    """A file as a disk, mounted on a folder: the path of the store on it."""
    os.mkdir(folder)
    device = call("losetup", "-f", "--show", file)
    try:
        call("mount", "-o", options, device, folder)
        try:
            yield os.path.join(folder, "store.cj")
        finally:
            call("umount", folder)
    finally:
        call("losetup", "-d", device)


def taken(program, store, acts):
    """Which of these commands were answered 201, and whether the store was opened."""
    out, status, _ = program.run(["pipe", "--store", store], b"".join(acts.values()))
    return [act for act, (code, _) in zip(acts, answers(out)) if code == 201], status == 0


def tried(program, system, made, room, number):
    """A run in which write `number` is refused: what became of it, and which answered commands are lost."""
    options = SYSTEMS[system][2]
    image, cut = os.path.join(room, "image"), os.path.join(room, "cut")
    shutil.copyfile(made, image)
    with lent_disk(image, room) as (disk, refused, counted):
        with mounted(disk, os.path.join(room, "mounted"), options) as store:
            program.pipe(store, opening() + submit("alice", "Before", LONG))
            call("sync", "-f", store)
            refused.value = number
            first = {"bob": register("bob"), "Refused": submit("alice", "Refused", LONG)}
            kept, _ = taken(program, store, first)
            if counted.value < number:
                return "not reached", []
            again = {"Again": submit("alice", "Again", LONG), "carol": register("carol")}
            more, is_opened = taken(program, store, again)
            refused.value = 0
            shutil.copyfile(image, cut)
    with mounted(cut, os.path.join(room, "behind"), options) as store:
        out, _, _ = program.run(["view", "--store", store, "--user", "alice"])
    lost = [act for act in kept + more if f'"{act}"' not in out.decode()]
    return "went on" if is_opened else "weren't opened again", lost


def whole(program, system, folder):
    """Each write of a run on this file system is refused in turn. Whether nothing was lost."""
    size, making, _ = SYSTEMS[system]
    made = os.path.join(folder, f"{system}.img")
    with open(made, "wb") as file:
        file.truncate(size << 20)
    call(*making, made)
    fates, losses = collections.Counter(), 0
    for number in itertools.count(1):
        with tempfile.TemporaryDirectory(dir=folder) as room:
            fate, lost = tried(program, system, made, room, number)
        if fate == "not reached":
            break
        fates[fate] += 1
        losses += bool(lost)
    became = ", ".join(f"{many} {fate}" for fate, many in sorted(fates.items()))
    print(f"{system}: {number - 1} runs, of which {became}; {losses} lost answered commands", flush=True)
    return losses == 0


def main():
    words = sys.argv[1:]
    systems = [word for word in words if word in SYSTEMS] or list(SYSTEMS)
    paths = [word for word in words if word not in SYSTEMS]
    program = Program(os.path.abspath(paths[0] if paths else os.path.join(TOP, "crates/confd/out/confd")))
    with tempfile.TemporaryDirectory() as folder:
        sys.exit(0 if all([whole(program, system, folder) for system in systems]) else 1)


if __name__ == "__main__":
    main()
