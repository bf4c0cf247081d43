# SPDX-License-Identifier: Apache-2.0 OR MIT
"""Letters to authors, composed by a chair: what the server would answer each author by GET `/reports/letter/{p}`.

A letter is made of four things and no others: a paper's number, its title, the last decision, and of the last form
under each label its letter, its two grades and its text to the authors. What is for the committee, names of
reviewers, tags, comments and bids aren't handed to what composes it. Names aren't in it in the open mode either,
where authors read them by themselves.
"""

from __future__ import annotations

import email.message
import email.policy
import email.utils
import mailbox
import pathlib
import re
import time
from collections.abc import Iterable, Mapping, Sequence
from dataclasses import dataclass

from confd_client.answers import Decision, Page, Review
from confd_client.tables import read_table

NOWHERE = "confd.invalid"
"""The domain of addresses that no mailer delivers (RFC 2606), for accounts whose address nobody gave."""
_ATOM = r"[A-Za-z0-9!#$%&'*+/=?^_`{|}~-]+"
_ADDRESS = re.compile(rf"{_ATOM}(\.{_ATOM})*@[A-Za-z0-9-]+(\.[A-Za-z0-9-]+)*")


@dataclass(frozen=True)
class ReviewToAuthors:
    """Of one label, what its paper's authors may be told."""

    label: str
    score: int
    confidence: int
    to_authors: str


@dataclass(frozen=True)
class Letter:
    """What the authors of one paper are told, and who they are."""

    paper: int
    title: str
    decision: Decision
    authors: tuple[str, ...]
    text: str


def to_authors(reviews: Iterable[Review]) -> tuple[ReviewToAuthors, ...]:
    """Of the forms that a chair reads the last one under each label, by label, without what authors aren't told."""
    last: dict[str, Review] = {}
    for review in reviews:
        before = last.get(review.label)
        if before is None or (review.version or 0) > (before.version or 0):
            last[review.label] = review
    return tuple(ReviewToAuthors(label, last[label].score, last[label].confidence, last[label].to_authors)
                 for label in sorted(last))


def text_of(paper: int, title: str, decision: Decision, reviews: Sequence[ReviewToAuthors]) -> str:
    """A letter's text: that of GET `/reports/letter/{p}`, byte for byte where the mode isn't open (API.md, section 7).
    """
    parts = [f"Paper {paper}: {title}\nDecision: {decision.value}\n"]
    parts += (f"\nReview {each.label}\nScore {each.score}, confidence {each.confidence}\n{each.to_authors}\n"
              for each in reviews)
    return "".join(parts)


def compose(page: Page, reviews: Iterable[Review]) -> Letter:
    """The letter about a paper whose page and reviews an unconflicted chair was told.

    Raises `ValueError` where the page lacks its title, its decision or its authors: such a chair is told all three
    from the notification on.
    """
    if page.conflict is not False or page.title is None or page.decision is None or page.authors is None:
        raise ValueError(f"of paper {page.paper} too little is told for a letter")
    text = text_of(page.paper, page.title, page.decision, to_authors(reviews))
    return Letter(page.paper, page.title, page.decision, page.authors, text)


# ---- addresses


def read_addresses(path: pathlib.Path) -> dict[str, str]:
    """The address of each account, from a file with the columns `name` and `email`. Raises `BadFile`."""
    found: dict[str, str] = {}
    for line in read_table(path, ["name", "email"]):
        if not is_address(line["email"]):
            raise line.wrong(f"{line['email']!r} is no address")
        if found.setdefault(line["name"], line["email"]) != line["email"]:
            raise line.wrong(f"{line['name']} has two addresses")
    return found


def is_address(text: str) -> bool:
    """Whether a text is one plain address (RFC 5322, dot-atoms, in ASCII): no list, no comment, no quoted part."""
    return _ADDRESS.fullmatch(text) is not None


def without_address(letters: Iterable[Letter], addresses: Mapping[str, str]) -> list[str]:
    """The authors, by name, whom the addresses lack."""
    return sorted({author for letter in letters for author in letter.authors} - set(addresses))


# ---- messages


@dataclass(frozen=True)
class Mail:
    """What all letters have in common as messages.

    `sender` is an address; `conference` begins each subject; `openings` has the text in front of the letter by the
    decision. Where `addresses` is None each author's address is one that no mailer delivers.
    """

    sender: str
    conference: str
    openings: Mapping[Decision, str]
    addresses: Mapping[str, str] | None


def message(letter: Letter, mail: Mail, moment: float) -> email.message.EmailMessage:
    """A letter as a message (RFC 5322) to all authors of its paper; its subject doesn't tell the decision."""
    addresses = mail.addresses
    found = email.message.EmailMessage(policy=email.policy.default.clone(max_line_length=78))
    found["From"] = mail.sender
    found["To"] = ", ".join(addresses[author] if addresses is not None else f"{author}@{NOWHERE}"
                            for author in letter.authors)
    subject = f"{mail.conference}: paper {letter.paper}: {letter.title}"
    found["Subject"] = " ".join(subject.split())
    found["Date"] = email.utils.formatdate(moment)
    opening = mail.openings.get(letter.decision, "").strip()
    found.set_content(f"{opening}\n\n{letter.text}" if opening else letter.text, cte="quoted-printable")
    # A line that begins so would get a > in front in a mailbox file, and the text wouldn't be the letter's any more.
    found.set_payload(re.sub("^From ", "=46rom ", str(found.get_payload()), flags=re.MULTILINE))
    return found


def write_mbox(path: pathlib.Path, letters: Iterable[Letter], mail: Mail, moment: float) -> None:
    """Writes the letters as one mailbox file (RFC 4155), a message each."""
    box = mailbox.mbox(path, create=True)
    try:
        for letter in letters:
            entry = mailbox.mboxMessage(message(letter, mail, moment))
            entry.set_from("confd-client", time.gmtime(moment))
            box.add(entry)
        box.flush()
    finally:
        box.close()
