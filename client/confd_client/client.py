# SPDX-License-Identifier: Apache-2.0 OR MIT
"""`Client`: confd's operations as methods."""

from __future__ import annotations

import datetime
import json
from collections.abc import Mapping, Sequence
from pathlib import Path
from types import TracebackType
from typing import Any, Self

from confd_client import bulks, reports
from confd_client.answers import (
    AcceptedPaper, Account, Comment, Conference, Deadline, Decision, DecisionLine, Found, Head, Kind, LoadLine, Me,
    Membership, Mode, Page, PaperLine, Phase, Review, Role, ScoreLine, as_json, read)
from confd_client.bulks import Row
from confd_client.credentials import Credentials
from confd_client.errors import NameTaken, Unauthorized, Unexpected
from confd_client.transport import Answer, Request, Sending, Transport, Waiting, segment

PATIENCE = 300.0


class Client:
    """One user at one conference. It has a method for each operation of docs/openapi.json, by its name in lower case
    with underscores: `setPhase` is `set_phase`. Those that begin with `head_` are HEAD of the same path.

    Each command carries a Command-Number of its own and is sent again, by that number, after a lost connection and
    after the statuses 502, 503, 504 and 507, with growing pauses, until it is answered: so it acts once. Reads are sent
    again as well. Every command takes `number`, to send one again that an `Unanswered` told of.

    Every method raises the subclass of `Refusal` that the server answers, `Unanswered` once `patience` seconds are over
    without a whole answer, and `Unexpected` where what answers isn't confd. Sizes and ranges of what is handed in are
    the server's to judge; only bodies of more than 4 MiB aren't sent (`TooLarge`). A method asks one request, except
    `register`. It isn't for several threads at once: give each a client of its own.

    `url` is https, or http to this machine: else ValueError. Without `credentials` only what needs no login is
    answered. `on_wait` is told before each pause why it comes and how long it is. `ca_file` has the certificates that
    are trusted, instead of the system's.
    """

    def __init__(self, url: str, credentials: Credentials | None = None, *, patience: float = PATIENCE,
                 on_wait: Waiting | None = None, ca_file: Path | None = None) -> None:
        self.credentials = credentials
        self._transport = Transport(url, credentials, patience=patience, on_wait=on_wait, ca_file=ca_file)

    def __enter__(self) -> Self:
        return self

    def __exit__(self, kind: type[BaseException] | None, error: BaseException | None,
                 trace: TracebackType | None) -> None:
        self.close()

    def close(self) -> None:
        """Closes the connections; the next request opens one again."""
        self._transport.close()

    # ---- accounts and the committee

    def register(self, name: str, secret: str) -> int:
        """Makes an account, and tells the user's number. The first account becomes a chair.

        Registrations have no number. Where one was lost and is then `name_taken`, it was this one if the name has this
        secret: that is looked up.
        """
        try:
            answer = self._transport.read(_json_request("POST", "/register", {"name": name, "secret": secret}))
        except NameTaken as taken:
            mine = self._registered(name, secret) if taken.sent > 1 else None
            if mine is None:
                raise
            return mine
        return _number(answer, "user")

    def _registered(self, name: str, secret: str) -> int | None:
        """The number of the user by that name and secret, where there is one."""
        with Client(self._transport.url, Credentials(name, secret), patience=self._transport.patience,
                    on_wait=self._transport.on_wait, ca_file=self._transport.ca_file) as other:
            try:
                return other.me().user
            except Unauthorized:
                return None

    def accounts(self) -> tuple[Account, ...]:
        """Everyone who is registered, by number. Needs no login."""
        return tuple(read(Account, each) for each in self._list("/accounts", "accounts"))

    def head_accounts(self) -> Head:
        """HEAD of `accounts`."""
        return self._head("/accounts")

    def me(self) -> Me:
        """What the caller is to the conference."""
        return read(Me, self._get("/me").json())

    def head_me(self) -> Head:
        """HEAD of `me`."""
        return self._head("/me")

    def appoint(self, name: str, role: Role | str, *, number: int | None = None) -> Membership:
        """Makes a user a member of the committee, or a chair. For chairs."""
        return read(Membership, self._send("POST", "/members", {"name": name, "role": role}, number).json())

    def dismiss(self, name: str, *, number: int | None = None) -> Membership:
        """Dismisses a member or a chair. For chairs."""
        return read(Membership, self._send("DELETE", f"/members/{segment(name)}", None, number).json())

    # ---- the conference

    def set_mode(self, mode: Mode | str, *, number: int | None = None) -> Mode:
        """Sets who sees the names of authors and reviewers. For chairs, in setup."""
        return Mode(_text(self._send("POST", "/mode", {"mode": mode}, number), "mode"))

    def phase(self) -> Conference:
        """The phase, the mode, and how many papers were submitted. Needs no login."""
        return read(Conference, self._get("/phase").json())

    def set_phase(self, phase: Phase | str, *, number: int | None = None) -> Phase:
        """Moves the conference to its next phase, for good. For chairs."""
        return Phase(_text(self._send("POST", "/phase", {"phase": phase}, number), "phase"))

    def head_phase(self) -> Head:
        """HEAD of `phase`."""
        return self._head("/phase")

    def deadlines(self) -> tuple[Deadline, ...]:
        """The phases that have a deadline, in their order. Needs no login."""
        return tuple(read(Deadline, each) for each in self._list("/deadlines", "deadlines"))

    def set_deadline(self, phase: Phase | str, until: datetime.datetime | None, *,
                     number: int | None = None) -> Deadline:
        """Sets the deadline of a phase, to the second, or takes it away. For chairs.

        Raises ValueError for a time without a time zone.
        """
        if until is not None and until.tzinfo is None:
            raise ValueError("a deadline needs a time zone")
        return read(Deadline, self._send("POST", "/deadlines", {"phase": phase, "until": until}, number).json())

    def head_deadlines(self) -> Head:
        """HEAD of `deadlines`."""
        return self._head("/deadlines")

    def accepted(self) -> tuple[AcceptedPaper, ...]:
        """The accepted papers, by number; none before the notification. Needs no login."""
        return tuple(read(AcceptedPaper, each) for each in self._list("/accepted", "papers"))

    def head_accepted(self) -> Head:
        """HEAD of `accepted`."""
        return self._head("/accepted")

    # ---- papers

    def submit(self, title: str, abstract: str, authors: Sequence[str] = (), *, number: int | None = None) -> int:
        """Submits a paper with the caller as its first author and these others; tells its number."""
        body = {"title": title, "abstract": abstract, "authors": list(authors)}
        return _number(self._send("POST", "/papers", body, number), "paper")

    def page(self, paper: int) -> Page:
        """A paper's page, with what the caller may be told."""
        return read(Page, self._get(f"/papers/{paper}").json())

    def revise(self, paper: int, title: str, abstract: str, *, number: int | None = None) -> int:
        """Gives a paper another title and another abstract. For its authors. Tells the paper's number."""
        return _number(self._send("PUT", f"/papers/{paper}", {"title": title, "abstract": abstract}, number), "paper")

    def withdraw(self, paper: int, *, number: int | None = None) -> int:
        """Withdraws a paper, for good. For its authors. Tells the paper's number."""
        return _number(self._send("DELETE", f"/papers/{paper}", None, number), "paper")

    def head_page(self, paper: int) -> Head:
        """HEAD of `page`."""
        return self._head(f"/papers/{paper}")

    def content(self, paper: int) -> bytes:
        """The last version of a paper's content."""
        return self._get(f"/papers/{paper}/content").content

    def upload(self, paper: int, content: bytes, *, number: int | None = None, on_sent: Sending | None = None) -> int:
        """Uploads a version of a paper's content, of at most 4,194,304 bytes; tells the version's number. `on_sent` is
        told how many bytes are on their way."""
        request = Request("PUT", f"/papers/{paper}/content", {}, content, "application/octet-stream", on_sent)
        return _number(self._transport.command(request, number), "version")

    def head_content(self, paper: int) -> Head:
        """HEAD of `content`."""
        return self._head(f"/papers/{paper}/content")

    def content_of_version(self, paper: int, version: int) -> bytes:
        """A version of a paper's content. Its authors may read every one, others the last."""
        return self._get(f"/papers/{paper}/content/{version}").content

    def head_content_of_version(self, paper: int, version: int) -> Head:
        """HEAD of `content_of_version`."""
        return self._head(f"/papers/{paper}/content/{version}")

    # ---- who reads and reviews

    def declare(self, paper: int, user: str, on: bool = True, *, number: int | None = None) -> int:
        """Declares that a user is in conflict with a paper, or no longer. Tells the paper's number."""
        return _number(self._send("POST", f"/papers/{paper}/conflicts", {"on": on, "user": user}, number), "paper")

    def bid(self, paper: int, bid: int, *, number: int | None = None) -> int:
        """Says how much the caller wants to review a paper, from -20 to 20; tells the bid."""
        return _number(self._send("PUT", f"/papers/{paper}/bid", {"bid": bid}, number), "bid")

    def assign(self, paper: int, user: str, kind: Kind | str = Kind.PC, *, number: int | None = None) -> str:
        """Assigns a reviewer to a paper; tells the reviewer's label. For chairs."""
        return _text(self._send("POST", f"/papers/{paper}/reviewers", {"kind": kind, "user": user}, number), "label")

    def unassign(self, paper: int, user: str, *, number: int | None = None) -> int:
        """Takes a reviewer off a paper. For chairs. Tells the paper's number."""
        return _number(self._send("DELETE", f"/papers/{paper}/reviewers/{segment(user)}", None, number), "paper")

    def invite(self, paper: int, user: str, *, number: int | None = None) -> int:
        """Invites a user who is no member to review a paper. For chairs. Tells the paper's number."""
        return _number(self._send("POST", f"/papers/{paper}/externals", {"user": user}, number), "paper")

    def uninvite(self, paper: int, user: str, *, number: int | None = None) -> int:
        """Takes an invitation back. For chairs. Tells the paper's number."""
        return _number(self._send("DELETE", f"/papers/{paper}/externals/{segment(user)}", None, number), "paper")

    def bulk(self, rows: Sequence[Row], *, number: int | None = None) -> int:
        """Does what each row asks for, all of them or none; tells how many there are. For chairs.

        At most 512 rows: more are `BadBody`. They go as they stand; `bulks.shuffled` and `bulks.pieces` prepare them.
        """
        return _number(self._send_text("POST", "/assign", bulks.bulk_text(rows), number), "rows")

    def plan(self, per_paper: int, load: int) -> tuple[Row, ...]:
        """Whom to assign besides, so that the bids have the greatest sum: to each paper so many more members, to each
        member at most so many papers. For chairs."""
        return bulks.plan_rows(self._get("/plan", {"per_paper": str(per_paper), "load": str(load)}).content)

    def head_plan(self, per_paper: int, load: int) -> Head:
        """HEAD of `plan`."""
        return self._head("/plan", {"per_paper": str(per_paper), "load": str(load)})

    # ---- reviews and what is said of a paper

    def review(self, paper: int, score: int, confidence: int, to_authors: str, to_pc: str, *,
               number: int | None = None) -> int:
        """Writes a form of the caller's review of a paper; tells its version. Score and confidence are from 1 to 5."""
        body = {"score": score, "confidence": confidence, "to_authors": to_authors, "to_pc": to_pc}
        return _number(self._send("PUT", f"/papers/{paper}/review", body, number), "version")

    def reviews(self, paper: int) -> tuple[Review, ...]:
        """The reviews of a paper that the caller may read, by label, those of a label by version."""
        return tuple(read(Review, each) for each in self._list(f"/papers/{paper}/reviews", "reviews"))

    def head_reviews(self, paper: int) -> Head:
        """HEAD of `reviews`."""
        return self._head(f"/papers/{paper}/reviews")

    def response(self, paper: int) -> str:
        """What a paper's authors responded to its reviews."""
        return _text(self._get(f"/papers/{paper}/response"), "text")

    def respond(self, paper: int, text: str, *, number: int | None = None) -> int:
        """Responds to a paper's reviews, once for all its authors. Tells the paper's number."""
        return _number(self._send("PUT", f"/papers/{paper}/response", {"text": text}, number), "paper")

    def head_response(self, paper: int) -> Head:
        """HEAD of `response`."""
        return self._head(f"/papers/{paper}/response")

    def comments(self, paper: int) -> tuple[Comment, ...]:
        """The comments on a paper, by number."""
        return tuple(read(Comment, each) for each in self._list(f"/papers/{paper}/comments", "comments"))

    def comment(self, paper: int, text: str, *, number: int | None = None) -> int:
        """Comments on a paper; tells the comment's number."""
        return _number(self._send("POST", f"/papers/{paper}/comments", {"text": text}, number), "comment")

    def head_comments(self, paper: int) -> Head:
        """HEAD of `comments`."""
        return self._head(f"/papers/{paper}/comments")

    def tag(self, paper: int, tag: str, *, number: int | None = None) -> int:
        """Puts a tag on a paper: for all members as it is, after `~` for the caller, after `~~` for chairs."""
        return _number(self._send("PUT", f"/papers/{paper}/tags/{segment(tag)}", None, number), "paper")

    def untag(self, paper: int, tag: str, *, number: int | None = None) -> int:
        """Takes a tag off a paper. Tells the paper's number."""
        return _number(self._send("DELETE", f"/papers/{paper}/tags/{segment(tag)}", None, number), "paper")

    def decide(self, paper: int, decision: Decision | str, *, number: int | None = None) -> int:
        """Decides on a paper, `accept` or `reject`. For chairs. Tells the paper's number."""
        return _number(self._send("PUT", f"/papers/{paper}/decision", {"decision": decision}, number), "paper")

    # ---- searches and reports

    def search(self, query: str, *, count_only: bool = False) -> Found:
        """The papers of which a search holds (docs/API.md, section 6), or only how many there are."""
        only = {"only": "count"} if count_only else {}
        return read(Found, self._get("/search", {"q": query, **only}).json())

    def head_search(self, query: str, *, count_only: bool = False) -> Head:
        """HEAD of `search`."""
        only = {"only": "count"} if count_only else {}
        return self._head("/search", {"q": query, **only})

    def papers_report(self) -> tuple[PaperLine, ...]:
        """All papers. For members, from the bidding."""
        return reports.paper_lines(self._get("/reports/papers").content)

    def head_papers_report(self) -> Head:
        """HEAD of `papers_report`."""
        return self._head("/reports/papers")

    def scores_report(self) -> tuple[ScoreLine, ...]:
        """The papers that have a form, with the mean of their scores. For members, from the discussion."""
        return reports.score_lines(self._get("/reports/scores").content)

    def head_scores_report(self) -> Head:
        """HEAD of `scores_report`."""
        return self._head("/reports/scores")

    def load_report(self) -> tuple[LoadLine, ...]:
        """What each member has to review, without externals and papers with which the caller is in conflict. For
        chairs, from the bidding."""
        return reports.load_lines(self._get("/reports/load").content)

    def head_load_report(self) -> Head:
        """HEAD of `load_report`."""
        return self._head("/reports/load")

    def decisions_report(self) -> tuple[DecisionLine, ...]:
        """The decisions on papers that aren't withdrawn and with which the caller isn't in conflict. For members, from
        the discussion."""
        return reports.decision_lines(self._get("/reports/decisions").content)

    def head_decisions_report(self) -> Head:
        """HEAD of `decisions_report`."""
        return self._head("/reports/decisions")

    def letter(self, paper: int) -> str:
        """What an author needs of a paper: its title, the decision, the reviews. For its authors, from the
        notification."""
        try:
            return self._get(f"/reports/letter/{paper}").content.decode()
        except UnicodeDecodeError as cause:
            raise Unexpected("a letter that isn't UTF-8") from cause

    def head_letter(self, paper: int) -> Head:
        """HEAD of `letter`."""
        return self._head(f"/reports/letter/{paper}")

    # ---- how they are asked

    def _get(self, path: str, query: Mapping[str, str] | None = None) -> Answer:
        return self._transport.read(Request("GET", path, query or {}, None, None))

    def _list(self, path: str, key: str) -> list[Any]:
        """The list that an answer has under a key."""
        told = self._get(path).json()
        if not isinstance(told, dict) or not isinstance(told.get(key), list):
            raise Unexpected(f"GET {path}: an answer without {key}")
        return list(told[key])

    def _head(self, path: str, query: Mapping[str, str] | None = None) -> Head:
        answer = self._transport.read(Request("HEAD", path, query or {}, None, None))
        return Head(answer.status, answer.length, answer.content_type)

    def _send(self, method: str, path: str, body: Mapping[str, object] | None, number: int | None) -> Answer:
        return self._transport.command(_json_request(method, path, body), number)

    def _send_text(self, method: str, path: str, text: bytes, number: int | None) -> Answer:
        return self._transport.command(Request(method, path, {}, text, "text/csv; charset=utf-8"), number)


def _json_request(method: str, path: str, body: Mapping[str, object] | None) -> Request:
    """A request with a JSON body; `until: None` has to be there, so what is None stays."""
    if body is None:
        return Request(method, path, {}, None, None)
    text = json.dumps({key: as_json(value) for key, value in body.items()}).encode()
    return Request(method, path, {}, text, "application/json")


def _number(answer: Answer, key: str) -> int:
    told = answer.json()
    value = told.get(key) if isinstance(told, dict) else None
    if not isinstance(value, int):
        raise Unexpected(f"an answer without the number {key}")
    return value


def _text(answer: Answer, key: str) -> str:
    told = answer.json()
    value = told.get(key) if isinstance(told, dict) else None
    if not isinstance(value, str):
        raise Unexpected(f"an answer without the text {key}")
    return value
