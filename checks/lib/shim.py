# SPDX-License-Identifier: Apache-2.0 OR MIT
"""The shim of shim.c, built and told what to do: what checks need that refuse calls, cut them short or turn the clock.

Needs `cc`, and a program that takes the C library that is loaded. If either is missing, the checks are left out, with a
line that says so.
"""

import concurrent.futures
import contextlib
import mmap
import os
import shutil
import struct
import subprocess
import sys
import tempfile

HERE = os.path.dirname(os.path.abspath(__file__))
# As in shim.c, each a number of 64 bits.
FIELDS = (
    "allocations", "allocated", "reads", "writes", "syncs", "times",
    "refuse_allocation", "refuse_read", "refuse_write", "refuse_sync", "refuse_time", "lasts", "error",
    "most_read", "most_write", "speed", "ahead", "moment", "scope", "made", "ended",
    "truncates", "advices", "refuse_truncate", "refuse_advice", "page",
)  # fmt: skip
# What `scope` may be: which descriptors reads and writes are counted on.
EVERYWHERE, FILES, SOCKETS, NO_FILES = range(4)
# What the disk has of a file begins with its length and whether it has the name, and ends in as many bytes as a file
# may have, behind a byte for each that says whether it was changed.
MEDIUM, MOST = "=QQ", 1 << 20
# A moment, and its date (RFC 9110, section 5.6.7).
MOMENT, DATE = 784_111_777, "Sun, 06 Nov 1994 08:49:37 GMT"
# Runs at once.
AT_ONCE = os.cpu_count() or 1


class Orders:
    """What a process is told, and what it counts, in a file that both have at hand."""

    def __init__(self, path, **numbers):
        # A file of its own, also where one of that name stands: another process may still have that one at hand.
        with contextlib.suppress(FileNotFoundError):
            os.remove(path)
        with open(path, "xb") as file:
            file.write(bytes(8 * len(FIELDS)))
        self.path = path
        with open(path, "r+b") as file:
            self.place = mmap.mmap(file.fileno(), 0)
        self.tell(**numbers)

    def tell(self, **numbers):
        for name, number in numbers.items():
            struct.pack_into("=Q", self.place, 8 * FIELDS.index(name), number % 2**64)

    def __getattr__(self, name):
        return struct.unpack_from("=Q", self.place, 8 * FIELDS.index(name))[0]

    def close(self):
        self.place.close()


class Shim:
    """The shim, built into a folder."""

    def __init__(self, folder):
        self.folder = folder
        self.library = os.path.join(folder, "shim.so")
        compile = ["cc", "-O2", "-Wall", "-Wextra", "-Werror", "-shared", "-fPIC", "-o", self.library]
        subprocess.run([*compile, os.path.join(HERE, "shim.c")], check=True)

    def environment(self, orders, media=None):
        """The environment of a process under these orders, which keeps in the folder `media` what the disk has."""
        kept = {} if media is None else {"SHIM_MEDIA": media}
        return {**os.environ, "LD_PRELOAD": self.library, "SHIM_ORDERS": orders.path, **kept}

    def run(self, program, words, text, folder, media=None, **numbers):
        """A run under such orders: what it wrote, its status, its standard error, and the orders with their counts.

        The time of day stands still, so that two runs write the same.
        """
        orders = Orders(os.path.join(folder, "orders"), **{"moment": MOMENT, **numbers})
        out, status, err = program.run(words, text, env=self.environment(orders, media), cwd=folder)
        return out, status, err, orders

    def holds(self, program):
        """Whether a program meets the shim at all: one that was linked whole doesn't."""
        with tempfile.TemporaryDirectory() as folder:
            orders = self.run(program, ["pipe"], b"", folder)[3]
            return orders.allocations > 0


def cut_power(folder, media):
    """The power is cut and comes back: each file is what the disk has of it, and gone where the disk has no name of
    it."""
    for name in os.listdir(media):
        path = os.path.join(folder, name)
        with open(os.path.join(media, name), "r+b") as medium:
            length, is_named = struct.unpack(MEDIUM, medium.read(struct.calcsize(MEDIUM)))
            medium.write(bytes(MOST))
            content = medium.read(length)
        if not is_named:
            os.remove(path)
        elif name != "orders":
            with open(path, "wb") as file:
                file.write(content)


def shim_for(program, folder):
    """The shim; ends well, with a line, where none can be had."""
    if shutil.which("cc") is None:
        print("left out: there is no cc to build checks/lib/shim.c with")
        sys.exit(0)
    shim = Shim(folder)
    if not shim.holds(program):
        print("left out: the program doesn't load the C library, so nothing stands between the two")
        sys.exit(0)
    return shim


def in_turn(act, numbers):
    """Calls the act with each number and a folder of its own, several at once; what failed, by number."""

    def tried(number):
        with tempfile.TemporaryDirectory() as folder:
            try:
                act(number, folder)
            except (AssertionError, subprocess.TimeoutExpired) as error:
                return number, str(error)
        return None

    with concurrent.futures.ThreadPoolExecutor(AT_ONCE) as pool:
        return [failure for failure in pool.map(tried, numbers) if failure is not None]


def sample(count, most):
    """The numbers from 1 to `count`, or `most` of them, evenly: the first and the last among them."""
    if count <= most:
        return list(range(1, count + 1))
    return sorted({1 + place * (count - 1) // (most - 1) for place in range(most)})
