# SPDX-License-Identifier: Apache-2.0 OR MIT
"""What confd answers, as values: a dataclass for each form of answer.

Names of classes and fields are those of docs/openapi.json where it has one. A field whose key the caller isn't told is
None: of a page, a review or a comment that says nothing about what is there.
"""

from __future__ import annotations

import dataclasses
import datetime
import enum
import functools
import typing
from dataclasses import dataclass
from types import UnionType
from typing import Any, TypeVar

from confd_client.errors import Unexpected

T = TypeVar("T")


class Role(enum.StrEnum):
    """What a user is to the conference. A chair is a member."""

    ACCOUNT = "account"
    MEMBER = "member"
    CHAIR = "chair"


class Mode(enum.StrEnum):
    """Who sees names: OPEN both sides; BLIND authors don't see reviewers; ANONYMOUS nor do members but chairs."""

    OPEN = "open"
    BLIND = "blind"
    ANONYMOUS = "anonymous"


class Phase(enum.StrEnum):
    """The phases of a conference, in their order."""

    SETUP = "setup"
    SUBMISSION = "submission"
    BIDDING = "bidding"
    REVIEWING = "reviewing"
    RESPONSE = "response"
    DISCUSSION = "discussion"
    NOTIFICATION = "notification"
    CLOSED = "closed"

    @property
    def place(self) -> int:
        """The phase's place in the order, from 0. Phases themselves compare as texts do, so compare places."""
        return list(Phase).index(self)


class Kind(enum.StrEnum):
    """As what a reviewer is assigned."""

    PRIMARY = "primary"
    SECONDARY = "secondary"
    PC = "pc"


class Decision(enum.StrEnum):
    """The last decision on a paper; NONE where there is none."""

    ACCEPT = "accept"
    REJECT = "reject"
    NONE = "none"


@dataclass(frozen=True)
class Account:
    """One line of `accounts`: everyone who is registered, by number."""

    name: str
    role: Role
    user: int


@dataclass(frozen=True)
class Me:
    """What the caller is to the conference: papers of their own, in conflict with, to review, and invited to.

    `bytes` is how many bytes the caller has uploaded, `comments` how many comments they have written.
    """

    assigned: tuple[int, ...]
    bytes: int
    comments: int
    conflicts: tuple[int, ...]
    invited: tuple[int, ...]
    name: str
    papers: tuple[int, ...]
    role: Role
    user: int


@dataclass(frozen=True)
class Membership:
    """A user and the role that they have from now on."""

    name: str
    role: Role


@dataclass(frozen=True)
class Conference:
    """The mode, how many papers were submitted, and the phase."""

    mode: Mode
    papers: int
    phase: Phase


@dataclass(frozen=True)
class Deadline:
    """A phase's deadline, in UTC; None where it was taken away."""

    phase: Phase
    until: datetime.datetime | None


@dataclass(frozen=True)
class BidOf:
    """The last bid of a member for a paper, -20 to 20."""

    bid: int
    user: str


@dataclass(frozen=True)
class Reviewer:
    """Who reviews a paper, by label; `done` is whether there is a form under the label."""

    label: str
    kind: Kind | None = None
    user: str | None = None
    done: bool | None = None


@dataclass(frozen=True)
class Page:
    """A paper's page; a field is None where the caller isn't told it."""

    paper: int
    abstract: str | None = None
    authors: tuple[str, ...] | None = None
    bid: int | None = None
    bids: tuple[BidOf, ...] | None = None
    conflict: bool | None = None
    conflicts: tuple[str, ...] | None = None
    decision: Decision | None = None
    declared: tuple[str, ...] | None = None
    label: str | None = None
    reviewers: tuple[Reviewer, ...] | None = None
    tags: tuple[str, ...] | None = None
    title: str | None = None
    versions: tuple[int, ...] | None = None
    withdrawn: bool | None = None


@dataclass(frozen=True)
class Review:
    """One form of a review, as far as the caller may read it."""

    confidence: int
    label: str
    score: int
    to_authors: str
    to_pc: str | None = None
    user: str | None = None
    version: int | None = None


@dataclass(frozen=True)
class Comment:
    """One comment on a paper, `n` from 1, with whoever wrote it as far as the caller is told."""

    n: int
    text: str
    label: str | None = None
    user: str | None = None


@dataclass(frozen=True)
class FoundPaper:
    """A paper that a search found."""

    paper: int
    title: str


@dataclass(frozen=True)
class Found:
    """What a search found; `papers` is None where the count alone was asked for."""

    count: int
    papers: tuple[FoundPaper, ...] | None = None


@dataclass(frozen=True)
class AcceptedPaper:
    """A paper of the public list, with its authors and its last title."""

    authors: tuple[str, ...]
    paper: int
    title: str


class Mark(enum.StrEnum):
    """How a paper stands in the report of papers: withdrawn, else in conflict with the caller, else neither."""

    WITHDRAWN = "W"
    CONFLICT = "C"
    CLEAR = "-"


@dataclass(frozen=True)
class PaperLine:
    """A line of the report `papers`."""

    paper: int
    mark: Mark
    title: str


@dataclass(frozen=True)
class ScoreLine:
    """A line of the report `scores`: how many labels have a form, and the mean of their scores, to two decimals."""

    paper: int
    forms: int
    mean: float
    title: str


@dataclass(frozen=True)
class LoadLine:
    """A line of the report `load`: to how many papers a member is assigned, by kind, and how many have a form."""

    name: str
    primary: int
    secondary: int
    pc: int
    done: int

    @property
    def assigned(self) -> int:
        """To how many papers the member is assigned, as whatever kind."""
        return self.primary + self.secondary + self.pc


@dataclass(frozen=True)
class DecisionLine:
    """A line of the report `decisions`."""

    paper: int
    decision: Decision
    title: str


@dataclass(frozen=True)
class Head:
    """What HEAD is answered: the head of GET's answer. A refusal is told by its status alone, without a name."""

    status: int
    length: int
    content_type: str


@functools.cache
def _fields(cls: typing.Hashable) -> dict[str, tuple[Any, bool]]:
    """The fields of a dataclass: of each its type, and whether it may be left out."""
    hints = typing.get_type_hints(cls)
    return {field.name: (hints[field.name], field.default is not dataclasses.MISSING)
            for field in dataclasses.fields(typing.cast(type, cls))}


def _moment(text: str) -> datetime.datetime:
    """The time of an answer's text, which is in UTC."""
    return datetime.datetime.strptime(text, "%Y-%m-%dT%H:%M:%SZ").replace(tzinfo=datetime.UTC)


def _value(hint: Any, told: Any) -> Any:
    """A value of the type that a field has."""
    origin = typing.get_origin(hint)
    if origin is UnionType:
        kinds = typing.get_args(hint)
        return None if told is None else _value(kinds[0], told)
    if origin is tuple:
        if not isinstance(told, list):
            raise TypeError
        return tuple(_value(typing.get_args(hint)[0], each) for each in told)
    if dataclasses.is_dataclass(hint):
        return _record(typing.cast(type, hint), told)
    if hint is datetime.datetime:
        return _moment(told)
    if issubclass(hint, enum.Enum):
        return hint(told)
    if not isinstance(told, hint) or (isinstance(told, bool) and hint is int):
        raise TypeError
    return told


def _record(cls: type[T], told: Any) -> T:
    if not isinstance(told, dict):
        raise TypeError
    values = {}
    for name, (hint, may_miss) in _fields(typing.cast(type, cls)).items():
        if name in told:
            values[name] = _value(hint, told[name])
        elif not may_miss:
            raise KeyError(name)
    return cls(**values)


def read(cls: type[T], told: object) -> T:
    """A value of a dataclass of this module from what an answer's JSON is; keys that it doesn't know are left out.

    Raises `Unexpected` where the JSON isn't of that form.
    """
    try:
        return _record(cls, told)
    except (KeyError, TypeError, ValueError) as cause:
        raise Unexpected(f"an answer that is no {cls.__name__}: {told!r:.200}") from cause


def as_json(value: object) -> Any:
    """What a value of this module is as JSON: as the server spells it, without the fields that weren't told.

    Mappings, sequences and dataclasses are taken too, of whatever module; what else JSON has stays as it is.
    """
    if dataclasses.is_dataclass(value):
        pairs = ((field.name, getattr(value, field.name)) for field in dataclasses.fields(value))
        return {name: as_json(each) for name, each in pairs if each is not None}
    if isinstance(value, datetime.datetime):
        return value.astimezone(datetime.UTC).strftime("%Y-%m-%dT%H:%M:%SZ")
    if isinstance(value, enum.Enum):
        return value.value
    if isinstance(value, dict):
        return {str(key): as_json(each) for key, each in value.items()}
    if isinstance(value, (list, tuple)):
        return [as_json(each) for each in value]
    return value
