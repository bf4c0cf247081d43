# SPDX-License-Identifier: Apache-2.0 OR MIT
"""A systemd of this check's own, in namespaces of its own, which knows no unit but those that it is handed.

No script of its own: unit.py uses it. Needs root, util-linux, systemd, and the control
groups of version 2; is_missing tells what isn't there. It has this machine's files and network, but folders of its own
in place of /etc, /run, /tmp, /var/lib, /var/log, /var/tmp and /usr/local/bin, so it meets and leaves nothing there.
"""

import contextlib
import os
import re
import shutil
import signal
import subprocess
import time

SYSTEMD = "/lib/systemd/systemd"
# Of this machine's own /etc; without a unit of their own these targets would be pulled in with all of this machine's.
KEPT = ("group", "hosts", "ld.so.cache", "nsswitch.conf", "passwd")
TARGETS = ("basic", "default", "multi-user", "network", "shutdown", "sysinit", "time-sync")
# What it finds around it: ROOM is the folder that it shares with its maker.
ROOM = "/run/room"
AROUND = f"""
set -e
mount --make-rprivate /
mount -t proc proc /proc
umount -R /sys
mount -t sysfs sysfs /sys
mount -t cgroup2 cgroup2 /sys/fs/cgroup
mount -t tmpfs -o mode=755 tmpfs /run
mkdir {ROOM}
mount --bind "$1" {ROOM}
for place in /var/lib /var/log; do mount -t tmpfs -o mode=755 tmpfs $place; done
for place in /tmp /var/tmp; do mount -t tmpfs -o mode=1777 tmpfs $place; done
mount --bind {ROOM}/etc /etc
mount --bind {ROOM}/bin /usr/local/bin
mkdir -m 700 /var/lib/private
export container=check SYSTEMD_UNIT_PATH={ROOM}/units SYSTEMD_GENERATOR_PATH={ROOM}/none
export SYSTEMD_ENVIRONMENT_GENERATOR_PATH={ROOM}/none
exec {SYSTEMD} --system --log-target=null --show-status=no
"""
# All of it ends with the one who began it.
UNSHARE = "setpriv --pdeathsig KILL unshare --cgroup --pid --mount --uts --ipc --fork --kill-child".split()
# For how many seconds it is waited for.
LONG = 30


def control_groups():
    """Where the control groups of version 2 are mounted."""
    with open("/proc/mounts", encoding="utf-8") as file:
        found = re.search(r"^\S+ (\S+) cgroup2 rw\b", file.read(), re.MULTILINE)
    return found and found.group(1)


def is_missing():
    """What isn't there that this needs; none where all is."""
    for word in ("unshare", "nsenter", "setpriv", "systemctl"):
        if shutil.which(word) is None:
            return word
    if not os.path.exists(SYSTEMD):
        return SYSTEMD
    if os.geteuid() != 0:
        return "root"
    if not control_groups():
        return "control groups of version 2"
    tried = subprocess.run([*UNSHARE, "mount", "-t", "tmpfs", "tmpfs", "/run"], capture_output=True, check=False)
    return None if tried.returncode == 0 else "right to make namespaces"


def has_come(condition, seconds=LONG):
    """Whether this holds within so many seconds."""
    until = time.monotonic() + seconds
    while not condition():
        if time.monotonic() > until:
            return False
        time.sleep(0.2)
    return True


class Systemd:
    """It runs from `started` to its end; `folder` is its room, which has etc, bin and units."""

    def __init__(self, folder, leader, first):
        self.folder, self.leader, self.first = folder, leader, first

    def path(self, *names):
        """The path of a file in its room, or, given a path from the root, of that file as it sees it."""
        if os.path.isabs(names[0]):
            return f"/proc/{self.first}/root{names[0]}"
        return os.path.join(self.folder, *names)

    def run(self, *words):
        """A command among its processes: its status and what it wrote."""
        enter = ["nsenter", "--target", str(self.first), "--mount", "--pid", "--uts", "--ipc", "--cgroup"]
        done = subprocess.run([*enter, *words], capture_output=True, text=True, timeout=LONG, check=False)
        return done.returncode, done.stdout + done.stderr

    def shown(self, unit, key):
        """A property of a unit."""
        return self.run("systemctl", "show", "--property", key, "--value", unit)[1].strip()

    def is_up(self):
        return self.run("systemctl", "is-system-running")[1].strip() in ("running", "degraded")


def made_room(folder, units):
    """The folders etc, bin and units, with these unit files."""
    for name in ("etc", "bin", "units"):
        os.mkdir(os.path.join(folder, name))
    for name in KEPT:
        with contextlib.suppress(FileNotFoundError):
            shutil.copy(os.path.join("/etc", name), os.path.join(folder, "etc", name))
    for name in TARGETS:
        with open(os.path.join(folder, "units", f"{name}.target"), "w", encoding="utf-8") as file:
            file.write("[Unit]\nDefaultDependencies=no\n")
    for unit in units:
        shutil.copy(unit, os.path.join(folder, "units"))


@contextlib.contextmanager
def control_group():
    """A control group of its own, which is taken away with all that is below it."""
    place = os.path.join(control_groups(), f"confd-check-{os.getpid()}")
    os.mkdir(place)
    try:
        yield place
    finally:
        has_come(lambda: "populated 0" in read(os.path.join(place, "cgroup.events")))
        for folder, _, _ in os.walk(place, topdown=False):
            os.rmdir(folder)


def read(path):
    with open(path, encoding="utf-8") as file:
        return file.read()


@contextlib.contextmanager
def started(folder, units):
    """The systemd, once it is up; all its processes are killed at the end."""
    os.chmod(folder, 0o755)
    made_room(folder, units)
    with control_group() as group:

        def join():
            with open(os.path.join(group, "cgroup.procs"), "w", encoding="utf-8") as file:
                file.write("0")

        leader = subprocess.Popen(
            [*UNSHARE, "sh", "-c", AROUND, "sh", folder],
            preexec_fn=join, stdin=subprocess.DEVNULL, stdout=subprocess.DEVNULL)  # fmt: skip
        children = f"/proc/{leader.pid}/task/{leader.pid}/children"
        try:
            if not has_come(lambda: read(children).split()):
                raise AssertionError("unshare began nothing")
            own = Systemd(folder, leader, int(read(children).split()[0]))
            if not has_come(lambda: leader.poll() is not None or own.is_up()) or leader.poll() is not None:
                raise AssertionError("systemd didn't come up")
            yield own
        finally:
            with contextlib.suppress(OSError, IndexError):
                os.kill(int(read(children).split()[0]), signal.SIGKILL)
            leader.kill()
            leader.wait()
