# SPDX-License-Identifier: Apache-2.0 OR MIT
"""Who the caller is: a name and a secret. A secret is never part of a command line, which others can see."""

from __future__ import annotations

import os
import re
import secrets
import stat
import string
from dataclasses import dataclass, field
from pathlib import Path

from confd_client.errors import BadFile

NAME = re.compile(r"[a-z0-9-]{1,32}")
"""A name that can be registered."""
SECRET = re.compile(r"[A-Za-z0-9_~+-]{16,64}")
"""A secret that can be registered."""


@dataclass(frozen=True)
class Credentials:
    """A user's name and secret. The secret isn't part of what is printed of it."""

    name: str
    secret: str = field(repr=False)

    def __post_init__(self) -> None:
        """Raises ValueError for what can't be a name or a secret, without the secret."""
        if not NAME.fullmatch(self.name):
            raise ValueError(f"{self.name!r} is no name, which has 1 to 32 characters of a to z, 0 to 9 and -")
        if not SECRET.fullmatch(self.secret):
            raise ValueError("the secret is none, which has 16 to 64 characters of A to Z, a to z, 0 to 9, _, ~, + "
                             "and -")

    def field(self) -> str:
        """The value of the field Authorization (RFC 6750, section 2.1)."""
        return f"Bearer {self.name}.{self.secret}"


def made_up_secret() -> str:
    """A new secret of 40 characters, from the system's random numbers."""
    letters = string.ascii_letters + string.digits
    return "".join(secrets.choice(letters) for _ in range(40))


def read_secret_file(path: Path, name: str | None = None) -> Credentials:
    """The credentials that a file has: one line, `NAME.SECRET`, or the secret alone where the name is given.

    Raises `BadFile` where the file can't be read, isn't a file of the caller's own that they alone may read (mode 0600
    or 0400), has anything else, or has another name.
    """
    try:
        with open(path, encoding="utf-8") as file:
            found = os.fstat(file.fileno())
            if not stat.S_ISREG(found.st_mode):
                raise BadFile(path, "isn't a regular file")
            if found.st_uid != os.geteuid():
                raise BadFile(path, "belongs to another user")
            if found.st_mode & 0o077:
                raise BadFile(path, f"others may read or write it: chmod 600 {path}")
            text = file.read(1024).strip()
    except (OSError, UnicodeDecodeError) as cause:
        raise BadFile(path, getattr(cause, "strerror", None) or "isn't text") from cause
    named, dot, secret = text.rpartition(".")
    if dot and name is not None and named != name:
        raise BadFile(path, f"has the secret of {named!r}, not of {name!r}")
    if not dot and name is None:
        raise BadFile(path, "has a secret without a name: write NAME.SECRET, or say whose it is")
    try:
        return Credentials(named if dot else str(name), secret)
    except ValueError as cause:
        raise BadFile(path, str(cause)) from cause


def write_secret_file(path: Path, credentials: Credentials) -> None:
    """Makes a file that `read_secret_file` reads, for its owner alone. Raises `BadFile` where there is one already."""
    try:
        path.parent.mkdir(parents=True, exist_ok=True, mode=0o700)
        descriptor = os.open(path, os.O_WRONLY | os.O_CREAT | os.O_EXCL, 0o600)
    except OSError as cause:
        raise BadFile(path, cause.strerror or "can't be made") from cause
    with os.fdopen(descriptor, "w", encoding="utf-8") as file:
        file.write(f"{credentials.name}.{credentials.secret}\n")
        file.flush()
        os.fsync(file.fileno())
