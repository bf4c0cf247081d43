#!/usr/bin/env python3
# SPDX-License-Identifier: Apache-2.0 OR MIT
"""Tries the examples of docs/EXTENDING.md: each diff of checks/extending still applies.

    python3 checks/extending.py [NAME..]           whether each would apply, as `git apply` says
    python3 checks/extending.py --build [NAME..]   applies each in a copy of the commit, and runs the cases that it
                                                   touches there, by `rt try` of conformance, which proves nothing;
                                                   and the client's tests of its operations, if it touches the client

NAME is a diff without its ending, such as `term`; all are taken where none is named. What an example touches may have
moved: aim its diff anew. Git is needed; with --build the toolchain too, Debian's python3-pytest and what the client
needs (checks/packages.sh), and some minutes for each. Ends with status 0 where all apply, and with --build where all
cases come out as due and the tests pass.
"""

import re
import subprocess
import sys
import tempfile

from lib.places import TOP

FOLDER = TOP / "checks/extending"


def applies(diff):
    """Why the diff doesn't apply; nothing where it does."""
    done = subprocess.run(["git", "apply", "--check", diff], cwd=TOP, capture_output=True, text=True, check=False)
    return done.stderr.strip()


def fits_client(folder):
    """Whether the client in this copy has a method for each operation of docs/openapi.json, and no other."""
    done = subprocess.run(["/usr/bin/python3", "-m", "pytest", "-q", "-p", "no:cacheprovider",
                           "tests/test_operations.py"], cwd=f"{folder}/client", capture_output=True, text=True,
                          check=False)
    print(done.stdout[-2_000:] + done.stderr[-2_000:])
    return done.returncode == 0


def runs(diff):
    """Whether the cases that the diff touches come out as due in a copy with it applied, and the client fits."""
    cases = sorted(set(re.findall(r"^\+\+\+ b/crates/conformance/data/(\S+)", diff.read_text(), re.M)))
    data = [word for case in cases for word in ("--data", f"{case}=data/{case}")]
    with tempfile.TemporaryDirectory() as folder:
        subprocess.run(["git", "clone", "--quiet", TOP, folder], check=True)
        subprocess.run(["git", "apply", diff], cwd=folder, check=True)
        done = subprocess.run(["rt", "try", "--steps", "100000", "--seconds", "900", *data], check=False,
                              cwd=f"{folder}/crates/conformance", capture_output=True, text=True)
        fits = "+++ b/client/" not in diff.read_text() or fits_client(folder)
    print(done.stdout[-2_000:] + done.stderr[-2_000:])
    return fits and "answers, 0 cases not as due" in done.stdout


def main():
    builds, names = sys.argv[1:2] == ["--build"], [word for word in sys.argv[1:] if word != "--build"]
    diffs = [FOLDER / f"{name}.diff" for name in names] if names else sorted(FOLDER.glob("*.diff"))
    wrong = 0
    for diff in diffs:
        why = applies(diff)
        if not why and builds and not runs(diff):
            why = "its cases come out otherwise, or the client doesn't fit"
        if why:
            wrong += 1
            print(f"{diff.relative_to(TOP)}: {why}")
    print(f"{len(diffs)} examples, {wrong} wrong")
    return 1 if wrong else 0


if __name__ == "__main__":
    sys.exit(main())
