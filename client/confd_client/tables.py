# SPDX-License-Identifier: Apache-2.0 OR MIT
"""Files of comma-separated values that users hand in and get."""

from __future__ import annotations

import contextlib
import csv
import io
import os
import sys
from collections.abc import Iterable, Sequence
from dataclasses import dataclass
from pathlib import Path

from confd_client.errors import BadFile
from confd_client.files import FILE_MODE


@dataclass(frozen=True)
class Line:
    """One line of a file: its number, from 1, and its value in each column, without blanks at its ends."""

    path: Path
    number: int
    values: dict[str, str]

    def __getitem__(self, column: str) -> str:
        return self.values[column]

    def wrong(self, what: str) -> BadFile:
        """The error that something is wrong with this line."""
        return BadFile(self.path, what, self.number)

    def whole(self, column: str, least: int, most: int) -> int:
        """The whole number in a column. Raises `BadFile` where it is none, or out of range."""
        text = self.values[column]
        try:
            value = int(text)
        except ValueError:
            raise self.wrong(f"{column}: {text!r} is no whole number") from None
        if not least <= value <= most:
            raise self.wrong(f"{column}: {value} isn't from {least} to {most}")
        return value

    def one_of(self, column: str, choices: Sequence[str]) -> str:
        """The word in a column. Raises `BadFile` where it is none of these."""
        text = self.values[column]
        if text not in choices:
            raise self.wrong(f"{column}: {text!r} is none of {', '.join(choices)}")
        return text


def read_table(path: Path, columns: Sequence[str], optional: Sequence[str] = ()) -> list[Line]:
    """The lines of a file whose first line names its columns, in any order; other columns are left out.

    An optional column that isn't there is empty, and so is what a short line leaves out. Empty lines are skipped. `-`
    stands for standard input. Raises `BadFile` for a file that can't be read, isn't UTF-8, lacks a column, names one
    twice, or has a line with more fields than the first.
    """
    lines = []
    reader = csv.reader(io.StringIO(read_text(path), newline=""))
    try:
        header = [name.strip() for name in next(reader, [])]
        missing = [name for name in columns if name not in header]
        if missing or len(set(header)) < len(header):
            raise BadFile(path, f"the first line has to name the columns {', '.join(columns)}, each once, with commas "
                                f"between them; it is {','.join(header)!r:.100}", 1)
        for fields in reader:
            if len(fields) > len(header):
                raise BadFile(path, f"has {len(fields)} fields under {len(header)} columns", reader.line_num)
            if fields:
                found = dict(zip(header, (text.strip() for text in fields), strict=False))
                lines.append(Line(path, reader.line_num, {name: found.get(name, "") for name in (*columns, *optional)}))
    except csv.Error as cause:
        raise BadFile(path, f"isn't CSV: {cause}", reader.line_num) from cause
    return lines


def read_text(path: Path) -> str:
    """What a file has, or standard input where it is `-`, without a byte order mark. Raises `BadFile` where it can't be
    read or isn't UTF-8."""
    try:
        return (sys.stdin.buffer.read() if str(path) == "-" else path.read_bytes()).decode("utf-8-sig")
    except UnicodeDecodeError as cause:
        raise BadFile(path, "isn't UTF-8") from cause
    except OSError as cause:
        raise BadFile(path, cause.strerror or "can't be read") from cause


def _for_its_owner(path: str, flags: int) -> int:
    """Opens a file, which only its owner may read if it is made by that."""
    return os.open(path, flags, FILE_MODE)


def write_table(path: Path, columns: Sequence[str], rows: Iterable[Sequence[object]]) -> None:
    """Makes a file with these columns, for its owner alone, or writes one anew; `-` stands for standard output. Raises
    `BadFile` where that fails."""
    try:
        with contextlib.ExitStack() as stack:
            file = sys.stdout if str(path) == "-" else stack.enter_context(
                open(path, "w", encoding="utf-8", newline="", opener=_for_its_owner))
            written = csv.writer(file, lineterminator="\n")
            written.writerow(columns)
            written.writerows(rows)
    except BrokenPipeError:
        raise
    except OSError as cause:
        raise BadFile(path, cause.strerror or "can't be written") from cause
