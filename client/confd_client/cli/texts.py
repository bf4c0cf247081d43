# SPDX-License-Identifier: Apache-2.0 OR MIT
"""Texts and contents that users hand in as files, and their bounds (docs/openapi.json)."""

from __future__ import annotations

import sys
from pathlib import Path

import click

from confd_client.errors import BadFile
from confd_client.forms import LAST_PAPER, tidied
from confd_client.transport import LARGEST_BODY

TITLE_BYTES, ABSTRACT_BYTES, COMMENT_BYTES = 200, 5_000, 10_000
"""The most bytes of a title, an abstract, and a comment or a response."""
PAPER = click.IntRange(1, LAST_PAPER)
"""A paper's number on the command line."""
FILE = click.Path(path_type=Path, allow_dash=True, dir_okay=False)
"""A file on the command line; `-` is standard input."""
FOLDER = click.Path(path_type=Path, file_okay=False)
"""A folder on the command line."""


def read_file(path: Path, most: int) -> bytes:
    """The bytes of a file, or of standard input for `-`. Raises `BadFile` where it can't be read or has more bytes."""
    try:
        if str(path) == "-":
            content = sys.stdin.buffer.read(most + 1)
        else:
            with open(path, "rb") as file:
                content = file.read(most + 1)
    except OSError as cause:
        raise BadFile(path, cause.strerror or "can't be read") from cause
    if len(content) > most:
        raise BadFile(path, f"has more than {most:,} bytes")
    return content


def read_text(path: Path, most: int, least: int = 0) -> str:
    """The text of a file, as `forms.tidied` leaves it. Raises `BadFile` where it isn't UTF-8 or has another size."""
    content = read_file(path, LARGEST_BODY)
    try:
        text = tidied(content.decode("utf-8-sig"))
    except UnicodeDecodeError as cause:
        raise BadFile(path, "isn't UTF-8", content.count(b"\n", 0, cause.start) + 1) from cause
    size = len(text.encode())
    if not least <= size <= most:
        raise BadFile(path, f"has {size:,} bytes of text; from {least:,} to {most:,} are taken")
    return text


def checked_title(title: str) -> str:
    """A title that the server takes. Raises `click.UsageError` for another."""
    size = len(title.encode("utf-8", "surrogatepass"))
    if not 1 <= size <= TITLE_BYTES or any(ord(each) < 0x20 or ord(each) == 0x7F for each in title):
        raise click.UsageError(f"a title has 1 to {TITLE_BYTES} bytes and no control characters")
    return title
