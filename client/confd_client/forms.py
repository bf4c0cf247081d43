# SPDX-License-Identifier: Apache-2.0 OR MIT
"""Review forms as text files: a reviewer writes one in any editor, and it is checked before it is sent.

The layout follows the offline forms of HotCRP (its manual, "Offline reviewing"): a line that begins with ``==*==`` is
a heading, one that begins with ``==-==`` is a comment, and ``==+==`` begins and ends the form. A line of the
reviewer's own that begins with ``==`` is written with a backslash in front; `render` and `parse` add and remove it.

Three things of a text aren't kept by a form: blank lines at its beginning and its end, spaces at the end of its last
line, and the difference between the line ends LF, CR LF and CR. `tidied` is what is left, and what is sent.
"""

from __future__ import annotations

import re
from collections.abc import Sequence
from dataclasses import dataclass
from typing import NoReturn

from confd_client.errors import BadFile

LEAST_GRADE, GREATEST_GRADE = 1, 5
"""The bounds of a score and of a confidence (docs/openapi.json, `Grade`)."""
TEXT_BYTES = 20_000
"""The most bytes of a text in UTF-8 (`ReviewText`)."""
LAST_PAPER = 9_999
"""The greatest number that a paper may have (`PaperNumber`)."""

_EDGE = "==+=="
_HEADING = "==*=="
_COMMENT = "==-=="
_TITLE = f"{_EDGE} confd review form"
_END = f"{_EDGE} end of the form"

_PAPER = "Paper"
_SCORE = "Score"
_CONFIDENCE = "Confidence"
_TO_AUTHORS = "To the authors"
_TO_COMMITTEE = "To the committee"
_HEADINGS = (_PAPER, _SCORE, _CONFIDENCE, _TO_AUTHORS, _TO_COMMITTEE)

_ESCAPED = re.compile(r"\\+==")
_NUMBER = re.compile(r"[1-9][0-9]{0,3}")


@dataclass(frozen=True)
class ReviewForm:
    """What a reviewer writes of one paper; each field as PUT `/papers/{p}/review` takes it."""

    paper: int
    score: int
    confidence: int
    to_authors: str
    to_pc: str


@dataclass(frozen=True)
class Problem:
    """One thing that is wrong with a form.

    `line` is counted from 1. `name` is one of `not_text`, `no_form`, `form_twice`, `stray_text`, `unknown_heading`,
    `heading_twice`, `no_heading`, `no_paper`, `bad_paper`, `no_score`, `bad_score`, `no_confidence`,
    `bad_confidence`, `long_text` and `unescaped`.
    """

    line: int
    name: str
    message: str

    def __str__(self) -> str:
        return f"line {self.line}: {self.name}: {self.message}"


class FormError(BadFile):
    """A form that can't be sent, with all that is wrong with it, by line; `line` is the first."""

    def __init__(self, path: object, problems: Sequence[Problem]) -> None:
        self.problems = tuple(sorted(problems, key=lambda problem: problem.line))
        first, *more = self.problems
        told = [f"{first.name}: {first.message}", *(f"{path}, {problem}" for problem in more)]
        super().__init__(path, "\n".join(told), first.line)

    def listed(self) -> list[dict[str, object]]:
        """Each problem, for scripts."""
        return [{"path": self.path, "line": each.line, "name": each.name, "message": each.message}
                for each in self.problems]

    def details(self) -> dict[str, object]:
        """With each problem."""
        return super().details() | {"problems": self.listed()}


@dataclass(frozen=True)
class _Section:
    """The lines below one heading, without its comments; `line` is that of the heading."""

    line: int
    lines: tuple[tuple[int, str], ...]


def tidied(text: str) -> str:
    """A text as a form keeps it: line ends are LF, and no blank stands at the end, nor a blank line in front."""
    lines = text.replace("\r\n", "\n").replace("\r", "\n").split("\n")
    while lines and not lines[0].strip(" \t"):
        del lines[0]
    while lines and not lines[-1].strip(" \t"):
        del lines[-1]
    return "\n".join(lines).rstrip(" \t")


def render(
    paper: int,
    title: str = "",
    label: str | None = None,
    review: ReviewForm | None = None,
    until: str | None = None,
) -> str:
    """A form for a paper: filled with `review` where there is one, else empty.

    `title`, the reviewer's `label` and the deadline `until` stand in comments, where they are known.
    """
    about = [f"Paper {paper}: {_one_line(title)}" if title else f"Paper {paper}"]
    if label is not None:
        about.append(f"You review it as reviewer {label}.")
    if until is not None:
        about.append(f"Reviews are due by {until}.")
    grades = f"A whole number from {LEAST_GRADE} to {GREATEST_GRADE}"
    bound = f"At most {TEXT_BYTES:,} bytes of UTF-8; it may be empty."
    parts = [
        _TITLE,
        *_comments(
            "Write below the headings, then send the form: confd-client review FILE",
            f"Lines that begin with {_COMMENT} are comments and aren't sent. Put a \\ in front",
            "of a line of your own that begins with ==",
        ),
        *_section(_PAPER, about, str(paper)),
        *_section(_SCORE, [f"{grades}: how good the paper is."], str(review.score) if review else ""),
        *_section(_CONFIDENCE, [f"{grades}: how sure you are."], str(review.confidence) if review else ""),
        *_section(_TO_AUTHORS, ["The authors and the committee read this.", bound],
                  review.to_authors if review else ""),
        *_section(_TO_COMMITTEE, ["Only the committee reads this.", bound], review.to_pc if review else ""),
        "",
        _END,
    ]
    return "\n".join(parts) + "\n"


def parse(content: bytes, path: object = "the form") -> ReviewForm:
    """Reads the form that a file has.

    Raises `FormError`, which names the file by `path`, with every problem that it has: those of its headings, else
    those of what stands below them. Nothing is guessed.
    """
    problems: list[Problem] = []
    try:
        sections = _sections(_text(content))
    except _Unreadable as found:
        raise FormError(path, found.problems) from found
    paper = _grade(sections[_PAPER], "paper", 1, LAST_PAPER, problems)
    score = _grade(sections[_SCORE], "score", LEAST_GRADE, GREATEST_GRADE, problems)
    confidence = _grade(sections[_CONFIDENCE], "confidence", LEAST_GRADE, GREATEST_GRADE, problems)
    to_authors = _written(sections[_TO_AUTHORS], _TO_AUTHORS, problems)
    to_pc = _written(sections[_TO_COMMITTEE], _TO_COMMITTEE, problems)
    if problems:
        raise FormError(path, problems)
    return ReviewForm(paper, score, confidence, to_authors, to_pc)


def _one_line(text: str) -> str:
    """A text without line ends, those of Unicode among them."""
    return " ".join(text.splitlines())


def _comments(*lines: str) -> list[str]:
    return [f"{_COMMENT} {line}" for line in lines]


def _section(heading: str, about: list[str], body: str) -> list[str]:
    text = tidied(body)
    lines = text.split("\n") if text else []
    escaped = [f"\\{line}" if line.startswith("==") or _ESCAPED.match(line) else line for line in lines]
    return ["", f"{_HEADING} {heading}", *_comments(*about), "", *escaped]


class _Unreadable(Exception):
    """A form whose parts can't be told."""

    def __init__(self, problems: Sequence[Problem]) -> None:
        super().__init__()
        self.problems = problems


def _fail(line: int, name: str, message: str) -> NoReturn:
    raise _Unreadable([Problem(line, name, message)])


def _text(content: bytes) -> str:
    """The characters of a file; a byte order mark, which some editors put there, is left out."""
    try:
        text = content.decode("utf-8-sig")
    except UnicodeDecodeError as error:
        line = content.count(b"\n", 0, error.start) + 1
        _fail(line, "not_text", "these bytes are no UTF-8; save the file as UTF-8")
    return text.replace("\r\n", "\n").replace("\r", "\n")


def _sections(text: str) -> dict[str, _Section]:
    """What stands below each heading. Raises `_Unreadable` where a heading is missing, unknown or there twice."""
    problems: list[Problem] = []
    found: dict[str, tuple[int, list[tuple[int, str]]]] = {}
    here: list[tuple[int, str]] | None = None
    begun = False
    number = 0
    for number, line in enumerate(text.split("\n"), start=1):
        if line.startswith(_COMMENT):
            continue
        if line.startswith(_EDGE):
            if begun and line.rstrip() != _END:
                problems.append(Problem(number, "form_twice", "a second form begins; a file has one"))
            begun, here = True, None
        elif line.startswith(_HEADING):
            here = _begin(number, line[len(_HEADING):].strip(), found, problems)
        elif here is not None:
            here.append((number, line))
        elif line.strip():
            problems.append(Problem(number, "stray_text", "this is under no heading"))
    if not begun and not found:
        _fail(1, "no_form", f"a form begins with the line {_TITLE}")
    for heading in _HEADINGS:
        if heading not in found:
            problems.append(Problem(number, "no_heading", f"the heading {_HEADING} {heading} is missing"))
    if problems:
        raise _Unreadable(problems)
    return {heading: _Section(line, tuple(lines)) for heading, (line, lines) in found.items()}


def _begin(
    number: int,
    heading: str,
    found: dict[str, tuple[int, list[tuple[int, str]]]],
    problems: list[Problem],
) -> list[tuple[int, str]]:
    """Begins a section at a heading; what stands below one that is wrong is collected too, and dropped."""
    below: list[tuple[int, str]] = []
    if heading not in _HEADINGS:
        problems.append(Problem(number, "unknown_heading", f"no heading of a form is {heading!r}"))
    elif heading in found:
        problems.append(Problem(number, "heading_twice", f"{heading} is there twice"))
    else:
        found[heading] = (number, below)
    return below


def _grade(section: _Section, name: str, least: int, greatest: int, problems: list[Problem]) -> int:
    """The one whole number of a section; 0 where there is none, which is then a problem."""
    written = [(number, line.strip()) for number, line in section.lines if line.strip()]
    if not written:
        problems.append(Problem(section.line, f"no_{name}", f"write a whole number from {least} to {greatest} below"))
        return 0
    number, text = written[0]
    if len(written) == 1 and _NUMBER.fullmatch(text) and least <= int(text) <= greatest:
        return int(text)
    if len(written) > 1:
        number, text = written[1]
    problems.append(Problem(number, f"bad_{name}", f"one whole number from {least} to {greatest}, not {text[:40]!r}"))
    return 0


def _written(section: _Section, heading: str, problems: list[Problem]) -> str:
    """The text of a section, with the backslashes off that `render` put in front."""
    lines = []
    for number, line in section.lines:
        if line.startswith("=="):
            problems.append(Problem(number, "unescaped", "put a \\ in front of a line that begins with =="))
        lines.append(line[1:] if _ESCAPED.match(line) else line)
    text = tidied("\n".join(lines))
    size = len(text.encode())
    if size > TEXT_BYTES:
        problems.append(Problem(section.line, "long_text", f"{heading} has {size:,} bytes of at most {TEXT_BYTES:,}"))
    return text
