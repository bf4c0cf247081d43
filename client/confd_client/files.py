# SPDX-License-Identifier: Apache-2.0 OR MIT
"""Files that a command writes: whole or not at all, for their owner alone, and never over another's.

Whatever the system refuses is a `BadFile` that names the file.
"""

from __future__ import annotations

import contextlib
import os
import pathlib
import shutil
import tempfile
from collections.abc import Iterator

from confd_client.errors import BadFile

FILE_MODE, FOLDER_MODE = 0o600, 0o700
"""The modes of what is written: papers, reviews and letters are their owner's alone."""


class FileTaken(BadFile):
    """A file or a folder stands already where one would be written; it is left as it is."""

    def __init__(self, path: pathlib.Path) -> None:
        super().__init__(path, "is there already, and is left as it is")


@contextlib.contextmanager
def _told(path: pathlib.Path) -> Iterator[None]:
    """What the system refuses, as a `BadFile` of this path."""
    try:
        yield
    except OSError as cause:
        raise BadFile(path, cause.strerror or "can't be written") from cause


def folder_for(path: pathlib.Path) -> pathlib.Path:
    """The folder, which is made where it isn't there."""
    with _told(path):
        path.mkdir(parents=True, exist_ok=True, mode=FOLDER_MODE)
    return path


def write_new(path: pathlib.Path, content: bytes) -> bool:
    """Writes a file that isn't there yet: whole, or not at all where the program ends before.

    Returns whether it was written; false where it is there with just this content. Raises `FileTaken` where it is
    there with another.
    """
    with _told(path):
        handle, name = tempfile.mkstemp(prefix=f".{path.name}.", dir=path.parent)
        try:
            with os.fdopen(handle, "wb") as file:
                file.write(content)
                file.flush()
                os.fsync(file.fileno())
            # A link and no renaming, which would write over what is there.
            os.link(name, path)
        except FileExistsError as cause:
            if path.is_file() and path.read_bytes() == content:
                return False
            raise FileTaken(path) from cause
        finally:
            os.unlink(name)
    return True


@contextlib.contextmanager
def new_folder(path: pathlib.Path) -> Iterator[pathlib.Path]:
    """A folder to fill, which gets its name where all that is done in it went well, and else goes.

    Raises `FileTaken` where something stands at `path` that is no empty folder, ahead of all else.
    """
    with _told(path):
        if path.is_symlink() or (path.exists() and not (path.is_dir() and not any(path.iterdir()))):
            raise FileTaken(path)
        path.parent.mkdir(parents=True, exist_ok=True)
        room = pathlib.Path(tempfile.mkdtemp(prefix=f".{path.name}.", dir=path.parent))
    try:
        yield room
        with _told(path):
            os.rename(room, path)
    finally:
        shutil.rmtree(room, ignore_errors=True)


def create(path: pathlib.Path, content: bytes) -> None:
    """Writes a file in a folder that `new_folder` gave."""
    with _told(path):
        path.parent.mkdir(mode=FOLDER_MODE, parents=True, exist_ok=True)
        handle = os.open(path, os.O_WRONLY | os.O_CREAT | os.O_EXCL, FILE_MODE)
        with os.fdopen(handle, "wb") as file:
            file.write(content)


def suffix_of(content: bytes) -> str:
    """How the name of a paper's content ends: `.pdf` where it begins as a PDF does (ISO 32000), else `.bin`.

    What an author uploaded is never given a name by which a browser or a shell would run it.
    """
    return ".pdf" if content.startswith(b"%PDF-") else ".bin"
