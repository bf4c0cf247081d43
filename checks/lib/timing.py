# SPDX-License-Identifier: Apache-2.0 OR MIT
"""What bench/ measures with: the machine's line, and the seconds of runs of `confd pipe`."""

import os
import platform
import re
import subprocess
import sys
import time

# Of so many runs the least counts, where no script says otherwise.
RUNS = 5


def machine():
    """The day, and what machine this is."""
    with open("/proc/cpuinfo", encoding="utf-8") as file:
        model = re.search(r"^model name\s*: (.*)", file.read(), re.M)
    name = model.group(1) if model else platform.machine()
    return f"{time.strftime('%Y-%m-%d')}, {os.cpu_count()} processors, {name}, Linux {platform.release()}"


def seconds(program, text, *words):
    """The seconds that one run of `confd pipe`, with these further words, takes over these bytes."""
    began = time.perf_counter()
    done = subprocess.run([program, "pipe", *words], input=text, stdout=subprocess.DEVNULL, stderr=subprocess.PIPE)
    spent = time.perf_counter() - began
    if done.returncode != 0:
        sys.exit(f"{program} pipe ended with {done.returncode}: {done.stderr.decode()}")
    return spent


def least(program, text, runs=RUNS):
    return min(seconds(program, text) for _ in range(runs))


def timed(act, runs=1):
    """The least of the seconds that an act takes."""
    found = []
    for _ in range(runs):
        began = time.perf_counter()
        act()
        found.append(time.perf_counter() - began)
    return min(found)


def peak_memory(pid):
    """The most memory that a process has had, in bytes."""
    with open(f"/proc/{pid}/status", encoding="ascii") as status:
        found = re.search(r"^VmHWM:\s*(\d+) kB", status.read(), re.M)
    return int(found.group(1)) * 1024 if found else 0
