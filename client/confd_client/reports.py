# SPDX-License-Identifier: Apache-2.0 OR MIT
"""The reports, which the server answers as plain text with columns of fixed widths (docs/API.md, section 7).

Titles have no control characters below U+0020 and no U+007F, so a line feed ends a line; other characters that Python
counts as ends of lines may stand in them.
"""

from __future__ import annotations

from collections.abc import Callable
from typing import TypeVar

from confd_client.answers import Decision, DecisionLine, LoadLine, Mark, PaperLine, ScoreLine
from confd_client.errors import Unexpected

T = TypeVar("T")


def _lines(content: bytes, has_count: bool, parse: Callable[[str], T]) -> tuple[T, ...]:
    """What each line says, the last line left out where it counts them. Raises `Unexpected` for another form."""
    try:
        *lines, end = content.decode().split("\n")
        if end or (has_count and not lines):
            raise ValueError
        return tuple(parse(line) for line in (lines[:-1] if has_count else lines))
    except ValueError as cause:
        raise Unexpected("an answer that is no report of this kind") from cause


def paper_lines(content: bytes) -> tuple[PaperLine, ...]:
    """The lines of the report `papers`."""
    return _lines(content, True, lambda line: PaperLine(int(line[:4]), Mark(line[5]), line[7:]))


def score_lines(content: bytes) -> tuple[ScoreLine, ...]:
    """The lines of the report `scores`."""
    return _lines(content, False, lambda line: ScoreLine(int(line[:4]), int(line[5:7]), float(line[8:12]), line[13:]))


def load_lines(content: bytes) -> tuple[LoadLine, ...]:
    """The lines of the report `load`."""

    def parse(line: str) -> LoadLine:
        primary, secondary, pc, done = (int(line[place:place + 4]) for place in (33, 38, 43, 48))
        return LoadLine(line[:32].rstrip(" "), primary, secondary, pc, done)

    return _lines(content, False, parse)


def decision_lines(content: bytes) -> tuple[DecisionLine, ...]:
    """The lines of the report `decisions`."""
    return _lines(content, True, lambda line: DecisionLine(int(line[:4]), Decision(line[5:11].rstrip(" ")), line[12:]))
