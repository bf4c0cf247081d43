# SPDX-License-Identifier: Apache-2.0 OR MIT
"""What may go wrong, as exceptions.

`Refusal` and its subclasses are the server's refusals, one class for each error of docs/API.md, section 3, named as the
error is: `wrong_phase` is `WrongPhase`. Their docstrings say when the server answers so, and `str()` says it too.
`Unanswered` and `Unexpected` are what else can happen to a request; `BadFile` is for files that the caller hands in.
"""

from __future__ import annotations

import re


def _snake(name: str) -> str:
    return re.sub(r"(?<!^)([A-Z])", r"_\1", name).lower()


class ClientError(Exception):
    """Any failure that this package tells by itself."""

    def details(self) -> dict[str, object]:
        """What is known of the failure, for scripts: the name of the error, a message, and what else the class has."""
        return {"error": _snake(type(self).__name__), "message": str(self)}


class Unanswered(ClientError):
    """No whole answer came in time. A command may have been accepted or not.

    `number` is the command's number: the same call with it sends the command again, and it acts once. It is None for
    reads and registrations.
    """

    def __init__(self, what: str, cause: str, number: int | None = None) -> None:
        told = f"; it may have been accepted: send it again by the number {number}" if number is not None else ""
        super().__init__(f"{what} wasn't answered: {cause}{told}")
        self.number = number

    def details(self) -> dict[str, object]:
        """With the number."""
        return super().details() | {"number": self.number}


class Unexpected(ClientError):
    """What came is no answer of confd's: another server answered, or another version."""


class BadFile(ClientError):
    """A file that was handed in isn't what is needed; `line` is where, from 1, if that is known."""

    def __init__(self, path: object, what: str, line: int | None = None) -> None:
        super().__init__(f"{path}{f', line {line}' if line is not None else ''}: {what}")
        self.path, self.line, self.what = str(path), line, what

    def details(self) -> dict[str, object]:
        """With the file and the line."""
        return super().details() | {"path": self.path, "line": self.line}


class Refusal(ClientError):
    """The server refused a request, by the error `name` with the status `status`; nothing was changed.

    Of a bulk `row` is the first row that breaks a rule, from 1, and `rule` is that rule; of a search or a plan `place`
    is the byte at which it goes wrong. `what` is the request, as `PUT /papers/3/bid`, and `sent` how often it was sent.
    """

    name = "refused"
    sent = 1

    def __init__(self, status: int, *, what: str = "", row: int | None = None, rule: str | None = None,
                 place: int | None = None) -> None:
        self.status, self.what, self.row, self.rule, self.place = status, what, row, rule, place
        super().__init__(self._told())

    def __init_subclass__(cls) -> None:
        cls.name = _snake(cls.__name__)

    def details(self) -> dict[str, object]:
        """With the status, and with row, rule and place."""
        return super().details() | {"status": self.status, "row": self.row, "rule": self.rule, "place": self.place}

    def _told(self) -> str:
        told = f"{self.name}: {self.meaning()}"
        if self.row is not None:
            told = f"{self.name}: row {self.row} breaks the rule {self.rule}: {meaning_of(self.rule or '')}"
        if self.place is not None:
            told += f" (at byte {self.place})"
        return f"{self.what}: {told}" if self.what else told

    @classmethod
    def meaning(cls) -> str:
        """What the error means, in one sentence without its full stop."""
        return (cls.__doc__ or "").strip().partition("\n")[0].rstrip(".")


class AlreadyAssigned(Refusal):
    """The user reviews the paper already."""


class AlreadyInvited(Refusal):
    """The user is invited already."""


class AlreadyNamed(Refusal):
    """The user has that role already, or a greater one."""


class AlreadyResponded(Refusal):
    """The paper has a response already, and one is all that it may have."""


class AuthorConflict(Refusal):
    """The user is an author of the paper, and stays in conflict with it."""


class BadAction(Refusal):
    """The action of the row is none of the eight."""


class BadBody(Refusal):
    """The body or the tag isn't what is needed; the server doesn't say what is wrong."""


class BadHttp(Refusal):
    """The head of the request isn't HTTP/1.0 or HTTP/1.1."""


class BadLength(Refusal):
    """The request's Content-Length is no length."""


class BadNumber(Refusal):
    """The Command-Number isn't 1 to 18 digits, the first not 0."""


class BadQuery(Refusal):
    """The search can't be read from that byte on, or the plan's two numbers are none."""


class BadTag(Refusal):
    """The tag of the row is none."""


class BulkRow(Refusal):
    """The row `row` breaks the rule `rule`; nothing of the file was done."""


class BulkSelf(Refusal):
    """The row declares a conflict of the caller's own, which has to be declared by itself."""


class Conflict(Refusal):
    """The caller is in conflict with the paper."""


class FullAccounts(Refusal):
    """The server has as many accounts as it takes."""


class FullPapers(Refusal):
    """The server has as many papers as it takes."""


class HasReview(Refusal):
    """The reviewer has written a form, and stays."""


class HeadTooLarge(Refusal):
    """The head of the request is too large."""


class IsMember(Refusal):
    """The user is on the committee, and needs no invitation."""


class KeeperFault(Refusal):
    """The server couldn't store the command, as on a full disk."""


class LabelsSpent(Refusal):
    """The paper has given all of its 26 labels."""


class LastChair(Refusal):
    """The user is the only chair: name another chair first."""


class Late(Refusal):
    """The deadline of the phase is past."""


class LengthRequired(Refusal):
    """The request has no Content-Length."""


class NameTaken(Refusal):
    """The name is registered already."""


class NoContent(Refusal):
    """There is no such content for the caller."""


class NoHost(Refusal):
    """The request doesn't name its host once."""


class NoMemory(Refusal):
    """The server is out of memory."""


class NoPaper(Refusal):
    """No paper has that number."""


class NoPlan(Refusal):
    """The members can't fill all places: ask for fewer, or for a greater load."""


class NoResponse(Refusal):
    """The authors haven't responded."""


class NoRoute(Refusal):
    """The server doesn't have that path."""


class NoUser(Refusal):
    """Nobody is registered by that name."""


class NotAMember(Refusal):
    """The user is neither on the committee, nor invited where that would do."""


class NotAssigned(Refusal):
    """The user doesn't review the paper."""


class NotAuthor(Refusal):
    """The caller is no author of the paper."""


class NotChair(Refusal):
    """The caller is no chair."""


class NotInvited(Refusal):
    """The user isn't invited."""


class NotMember(Refusal):
    """The caller isn't on the committee."""


class NotReviewer(Refusal):
    """The caller doesn't review the paper."""


class NumberUsed(Refusal):
    """Another command of the caller's has that number."""


class PlanTooLarge(Refusal):
    """The server doesn't plan as much at once."""


class QuotaBytes(Refusal):
    """The caller has uploaded as many bytes as one user may: have another author upload."""


class QuotaComments(Refusal):
    """The caller has written as many comments as one user may."""


class QuotaPapers(Refusal):
    """The caller has submitted as many papers as one user may: have a co-author submit."""


class StillAssigned(Refusal):
    """The user reviews the paper: take them off it first."""


class TargetConflict(Refusal):
    """The user is in conflict with the paper."""


class TooLarge(Refusal):
    """The body has more than 4,194,304 bytes."""


class Unauthorized(Refusal):
    """The server doesn't know the caller by that name and secret."""


class Withdrawn(Refusal):
    """The paper is withdrawn."""


class WrongMethod(Refusal):
    """The path doesn't take that method."""


class WrongPhase(Refusal):
    """The conference isn't in a phase for that."""


REFUSALS: dict[str, type[Refusal]] = {cls.name: cls for cls in Refusal.__subclasses__()}
"""The class of each error, by the error's name."""


def meaning_of(name: str) -> str:
    """What an error means, by its name; the name itself where there is no such error."""
    return REFUSALS[name].meaning() if name in REFUSALS else name


def refusal(status: int, told: object, what: str) -> Refusal:
    """The exception for a refusal, whose JSON is `told`. Raises `Unexpected` where that is no refusal of confd's."""
    if not isinstance(told, dict) or told.get("error") not in REFUSALS:
        if told is None:
            raise Unexpected(f"{what}: the status {status}, and not from confd: a server in between, such as nginx, "
                             "refused it, or the address is another server's")
        raise Unexpected(f"{what}: the status {status} with what is no error of confd's: {told!r:.200}")
    row, rule, place = told.get("row"), told.get("rule"), told.get("place")
    return REFUSALS[told["error"]](status, what=what, row=row, rule=rule, place=place)
