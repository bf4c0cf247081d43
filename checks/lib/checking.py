# SPDX-License-Identifier: Apache-2.0 OR MIT
"""How a script of checks/ runs its checks: functions of a program and a folder, whose docs are the lines it prints."""

import shutil
import sys
import tempfile


def expect(held, what):
    """Fails the check where this doesn't hold."""
    if not held:
        raise AssertionError(what)


def run_all(checks, program):
    """Runs each check in a folder of its own, prints a line for each and how many passed, and ends with the status."""
    passed = failed = 0
    for check in checks:
        title = " ".join(check.__doc__.split())
        with tempfile.TemporaryDirectory() as folder:
            try:
                check(program, folder)
            except Exception as error:
                failed += 1
                print(f"FAILED: {title}\n    {type(error).__name__}: {error}", flush=True)
            else:
                passed += 1
                print(f"ok: {title}", flush=True)
    print(f"{passed} passed, {failed} failed")
    sys.exit(1 if failed else 0)


def left_out(checks, missing):
    """The checks, where nothing is missing that they need; else none, which is told in a line."""
    if missing is None:
        return tuple(checks)
    print(f"left out, since there is no {missing}: {', '.join(check.__name__ for check in checks)}")
    return ()


def with_shim(checks):
    """The checks, where cc is there to build what they need; else none, which is told in a line."""
    return left_out(checks, None if shutil.which("cc") else "cc")
