#!/usr/bin/env python3
# SPDX-License-Identifier: Apache-2.0 OR MIT
"""Tries deploy/package.sh: a package of Debian's that is made, unpacked, and whose program runs.

    python3 checks/package.py [PROGRAM]

PROGRAM is `confd` as `rt run` builds it (crates/confd/out/confd if none is named). Needs Debian's dpkg-dev and
binutils; for the manual page man-db, and mandoc for a second reader of it. What isn't there on this machine is told in
a line, and what needs it is left out. Prints a line a check, and last `N passed, M failed`; ends with status 0 if none
failed. Takes some seconds.
"""

import functools
import os
import re
import shutil
import subprocess
import sys
import tempfile

from lib.checking import expect, run_all
from lib.places import TOP
from lib.program import Program, program_named, read
from lib.wire import answers, opening


SCRIPT = os.path.join(TOP, "deploy", "package.sh")
# What is unpacked, and which file of the repository it is, if it is one.
FILES = {
    "usr/bin/confd": None,
    "usr/lib/systemd/system/confd@.service": "deploy/confd@.service",
    "usr/share/confd/move_store.py": "deploy/move_store.py",
    "usr/share/confd/store_formats.py": "deploy/store_formats.py",
    "usr/share/doc/confd/examples/nginx.conf": "deploy/nginx.conf",
    "usr/share/doc/confd/CHAIR.md": "docs/CHAIR.md",
    "usr/share/doc/confd/pictures/phases.svg": "docs/pictures/phases.svg",
    "usr/share/doc/confd/CHANGELOG.md": "CHANGELOG.md",
    "usr/share/doc/confd/copyright": None,
    "usr/share/man/man1/confd.1.gz": None,
}
# Where the package is that all checks share.
KEPT = tempfile.TemporaryDirectory()
# So wide, an item and what is told of it are on one line or two.
WIDE = {"MANWIDTH": "1000", "LC_ALL": "C.UTF-8"}


def version():
    with open(os.path.join(TOP, "VERSION"), encoding="utf-8") as file:
        return file.read().strip()


def said(*words, **more):
    """What a command that ends well says on standard output; standard error has to stay empty."""
    done = subprocess.run(words, capture_output=True, text=True, check=False, **more)
    expect((done.returncode, done.stderr) == (0, ""), f"{words[0]}: status {done.returncode}, {done.stderr}")
    return done.stdout


def made(program, folder):
    """A package of this program."""
    return said(SCRIPT, "--program", program.path, folder).strip()


@functools.cache
def package_of(program):
    """The package of this program that all checks share."""
    return made(program, KEPT.name)


def unpacked(program, folder):
    """The folder into which the package of this program was unpacked."""
    root = os.path.join(folder, "root")
    said("dpkg-deb", "-x", package_of(program), root)
    return root


def its_files(program, folder):
    """The package has the program, the unit, nginx's example, the page, the licence and the script that moves stores;
    its name and its version are those of the file VERSION."""
    package = package_of(program)
    arch = said("dpkg", "--print-architecture").strip()
    expect(os.path.basename(package) == f"confd_{version()}_{arch}.deb", package)
    told = said("dpkg-deb", "--field", package, "Package", "Version", "Architecture", "Depends")
    lines = dict(line.split(": ", 1) for line in told.splitlines())
    due = {"Package": "confd", "Version": version(), "Architecture": arch}
    expect({key: lines[key] for key in due} == due and "libc6" in lines["Depends"], f"{lines}")
    root = unpacked(program, folder)
    for name, source in FILES.items():
        original = program.path if name == "usr/bin/confd" else source and os.path.join(TOP, source)
        expect(os.path.isfile(os.path.join(root, name)), f"no {name}")
        expect(original is None or read(os.path.join(root, name)) == read(original), f"{name} is another")
    licence = read(os.path.join(root, "usr/share/doc/confd/copyright")).decode()
    expect("License: Apache-2.0 or Expat" in licence and "WITHOUT WARRANTY OF ANY KIND" in licence, licence)


def twice(program, folder):
    """Made twice it is the same, byte by byte."""
    expect(read(made(program, folder)) == read(package_of(program)), "two packages of one program differ")


def runs(program, folder):
    """The program of the package serves, and the script in it moves its store."""
    root = unpacked(program, folder)
    inside = Program(os.path.join(root, "usr/bin/confd"))
    store, other = os.path.join(folder, "one.cj"), os.path.join(folder, "one.store")
    out, status, _ = inside.run(["pipe", "--store", store], opening())
    expect(status == 0 and [code for code, _ in answers(out)] == [201, 200], f"status {status}, {out}")
    script = os.path.join(root, "usr/share/confd/move_store.py")
    told = said(sys.executable, script, "--confd", inside.path, store, other)
    expect(told.startswith(f"{other}: 3 rows and 1 users"), told)


def page(program, folder):
    """man renders the page without a warning; it has each command, option, status and message of RUNNING."""
    path = os.path.join(unpacked(program, folder), "usr/share/man/man1/confd.1.gz")
    text = said("man", "--warnings", "-l", path, env={**os.environ, **WIDE})
    lines = {line.strip() for line in text.splitlines()}
    expect(f"confd {version()}" in text, "the page doesn't say the version")
    for name, head, column in (
        ("RUNNING", "|words|what it does|", 1), ("RUNNING", "|option|what it says|", 1),
        ("RUNNING", "|standard error|what to do|", 1), ("RUNNING", "|status|meaning|standard error|what to do|", 1),
    ):  # fmt: skip
        rows = read(os.path.join(TOP, "docs", f"{name}.md")).decode().split(head + "\n")[1].split("\n\n")[0]
        for row in rows.splitlines()[1:]:
            item = row.split("|")[column].replace("`", "")
            expect(any(re.match(re.escape(item) + r"(\s|$)", line) for line in lines), f"the page has no {item!r}")


def lint(program, folder):
    """mandoc has no warning for the page."""
    path = os.path.join(unpacked(program, folder), "usr/share/man/man1/confd.1.gz")
    said("mandoc", "-Tlint", "-Wwarning", path)


def with_tools(check, *tools):
    """The check, if these are there; else none, which is told in a line."""
    missing = [tool for tool in tools if shutil.which(tool) is None]
    if not missing:
        return [check]
    print(f"left out, since there is no {missing[0]}: {check.__name__}")
    return []


def main():
    program = program_named(sys.argv[1:])
    maker = "dpkg-deb", "dpkg-shlibdeps", "objdump"
    checks = [one for check in (its_files, twice, runs) for one in with_tools(check, *maker)]
    run_all(checks + with_tools(page, *maker, "man", "groff") + with_tools(lint, *maker, "mandoc"), program)


if __name__ == "__main__":
    main()
