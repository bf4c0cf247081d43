#!/usr/bin/env python3
# SPDX-License-Identifier: Apache-2.0 OR MIT
"""Measures what the gate costs. It runs a command such as `rt ci`, and adds up the processor time of all that it
starts, crate by crate, in five parts. These are the crates' own proofs; their tests; the edits that have to be refused;
builds of the programs; and running them and the tests. A build is Rattle's back end, clang and Rattle's own compiler,
and linking. Prints a table in Markdown.

    bench/gate_time.py rt ci               from nothing, as `rt ci --anew` where the kit keeps what passed
    bench/gate_time.py --pid 1234          joins a run that is under way

The sum of all is exact: the kernel adds a process's time to its parent's when it ends. Its crate is looked up in /proc
every quarter of a second. What ran between the last look at a process and its end has a line of its own. If the script
is stopped (SIGTERM, or Control-C) it prints what it saw by then.
"""
import ctypes
import os
import resource
import signal
import subprocess
import sys
import time

TICKS = os.sysconf("SC_CLK_TCK")
PARTS = ("proofs", "tests", "edits", "builds", "runs")
ELSE = ("", "rt itself and all else")
PR_SET_CHILD_SUBREAPER = 36


class Process:
    """What was last seen of a process: whose it is, and its seconds, its own and those of its children that ended."""

    def __init__(self):
        self.parent = self.label = None
        self.own = self.ended = 0.0


def read(path):
    """The bytes of a file of /proc; none where the process is gone."""
    try:
        with open(path, "rb") as file:
            return file.read()
    except OSError:
        return b""


def stats():
    """Every process: its number with when it started, which no other shares, its parent's number, and its seconds."""
    found = {}
    for name in os.listdir("/proc"):
        if name.isdigit():
            fields = read(f"/proc/{name}/stat").rpartition(b")")[2].split()
            if len(fields) > 19:
                own, ended = (sum(map(int, fields[at : at + 2])) / TICKS for at in (11, 13))
                found[int(name)] = ((int(name), fields[19]), int(fields[1]), own, ended)
    return found


def label(pid, inherited):
    """The crate and the part that a process works for: by its words, else its parent's; None where it is about to end,
    since its words are gone then."""
    line = read(f"/proc/{pid}/cmdline")
    if not line:
        return None
    words = [word.decode(errors="replace") for word in line.split(b"\0")]
    try:
        folder = os.readlink(f"/proc/{pid}/cwd")
    except OSError:
        folder = ""
    tool = os.path.basename(words[0])
    if tool == "rattle" and "--crate-name" in words:
        crate = words[words.index("--crate-name") + 1]
        if os.path.basename(folder).startswith("rt-edit-"):
            return crate, "edits"
        if "--crate-checked" in words:
            return crate, "builds"
        return crate, "tests" if "--test" in words else "proofs"
    if tool == "rattle-link":
        return os.path.basename(folder), "builds"
    if tool in ("clang", "ld.lld", "llvm-ar", "rattle-x64"):
        return inherited[0], "builds"
    for word in words:
        if "/rt-run-" in word and "/bin/" in word:
            return os.path.basename(word).removesuffix("_tests"), "runs"
    return inherited


def look(joined, seen):
    """Notes what the joined process, else each child of this one, and all below has used so far, and whose it is."""
    found = stats()
    below = {}
    for pid, (_, parent, _, _) in found.items():
        below.setdefault(parent, []).append(pid)
    first = below.get(os.getpid(), []) if joined is None else [joined] if joined in found else []
    waiting = [(pid, None, ELSE) for pid in first]
    while waiting:
        pid, parent, inherited = waiting.pop()
        key, _, own, ended = found[pid]
        process = seen.setdefault(key, Process())
        process.parent = process.parent or parent
        process.label = label(pid, inherited) or process.label or inherited
        process.own, process.ended = own, ended
        waiting += [(child, key, process.label) for child in below.get(pid, [])]
    return {found[pid][0] for pid in found}


def sums(seen, alive):
    """The seconds of each label. Of a process's children that ended, what no look has seen is its own label's."""
    gone = {}
    for key, process in seen.items():
        if key not in alive:
            gone[process.parent] = gone.get(process.parent, 0.0) + process.own + process.ended
    told = {}
    for key, process in seen.items():
        unseen = max(process.ended - gone.get(key, 0.0), 0.0)
        told[process.label] = told.get(process.label, 0.0) + process.own + unseen
    return told


def table(told, total):
    """The sums in minutes, a line a crate."""
    rest = told.pop(ELSE, 0.0)
    lines = ["| crate | " + " | ".join(PARTS) + " |", "|---" * (len(PARTS) + 1) + "|"]
    for crate in sorted({crate for crate, _ in told}):
        lines.append(f"| {crate} | " + " | ".join(f"{told.get((crate, part), 0.0) / 60:.1f}" for part in PARTS) + " |")
    whole = [sum(seconds for (_, part), seconds in told.items() if part == wanted) / 60 for wanted in PARTS]
    lines.append("| all, processor minutes | " + " | ".join(f"{minutes:.1f}" for minutes in whole) + " |")
    seen = sum(whole) + rest / 60
    lines += ["", f"{ELSE[1]}: {rest / 60:.1f}", f"between two looks: {max(total / 60 - seen, 0.0):.1f}"]
    lines.append(f"together: {max(total / 60, seen):.1f} processor minutes")
    return "\n".join(lines)


def used_by_children():
    """The seconds of all that this script started and that ended."""
    used = resource.getrusage(resource.RUSAGE_CHILDREN)
    return used.ru_utime + used.ru_stime


def reap():
    """Takes the time of what lost its parent and ended: it is this script's child then."""
    time.sleep(1)
    try:
        while os.waitpid(-1, os.WNOHANG)[0]:
            pass
    except ChildProcessError:
        pass


def main():
    words = sys.argv[1:]
    if not words:
        sys.exit(__doc__)
    seen, alive, joined, run = {}, set(), None, None
    if words[0] == "--pid":
        joined = int(words[1])
        goes_on = lambda: os.path.exists(f"/proc/{joined}")
    else:
        ctypes.CDLL(None).prctl(PR_SET_CHILD_SUBREAPER, 1, 0, 0, 0)
        run = subprocess.Popen(words)
        goes_on = lambda: run.poll() is None
    signal.signal(signal.SIGTERM, signal.default_int_handler)
    began = time.time()
    try:
        while goes_on():
            alive = look(joined, seen)
            time.sleep(0.25)
    except KeyboardInterrupt:
        print("stopped before its end")
    took = time.time() - began
    reap()
    print(table(sums(seen, alive), used_by_children()))
    print(f"by the clock: {took / 60:.1f} minutes", flush=True)
    if run is not None:
        sys.exit(run.poll())


if __name__ == "__main__":
    main()
