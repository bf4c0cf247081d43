# SPDX-License-Identifier: Apache-2.0 OR MIT
"""Letters: they tell authors what the server tells them, and nothing else."""

from __future__ import annotations

import dataclasses
import email
import email.message
import email.policy
import mailbox
import stat
from pathlib import Path

import pytest

from confd_client import Client, Decision, Page, Review
from confd_client.letters import Mail, compose, is_address, message, to_authors
from tests.conftest import Server

SECRETS = ("for the committee alone", "hot", "between us", "bob", "dave", "fay", "kim")
"""What no letter may have: texts to the committee, tags, comments, and names of reviewers and chairs."""


def conference(server: Server, mode: str = "blind") -> Client:
    """alice and kim are chairs; erin submits 1 to 4, kim 5; 1 is accepted, 2 rejected, 3 withdrawn, 4 undecided."""
    alice = server.committee("bob", "dave", "fay")
    server.client("kim")
    alice.appoint("kim", "chair")
    alice.set_mode(mode)
    erin = server.client("erin")
    server.client("gus")
    server.go_to("submission")
    for title in ("Proofs\u2028Bcc: all@example.org", "Types é", "Terms", "Sorts"):
        erin.submit(title, "", ["gus"])
    server.client("kim").submit("Kinds", "")
    erin.withdraw(3)
    server.go_to("reviewing")
    for paper, name in ((1, "fay"), (1, "bob"), (1, "dave"), (2, "bob"), (5, "bob")):
        alice.assign(paper, name) if paper != 5 else alice.assign(5, name)
        alice.tag(paper, "hot")
    alice.assign(1, "alice")
    for paper, name, text in ((1, "bob", "Old text."), (1, "bob", "From here on é.\nGood.\n"), (2, "bob", ""),
                              (5, "bob", "So-so."), (1, "dave", "x" * 2_000)):
        server.client(name).review(paper, 4, 3, text, "for the committee alone")
    server.go_to("discussion")
    server.client("dave").review(1, 2, 5, ".\nLater.", "for the committee alone")
    server.client("bob").comment(1, "between us")
    alice.tag(1, "~~hot")
    alice.decide(1, "reject")
    alice.decide(1, "accept")
    alice.decide(2, "reject")
    alice.decide(5, "accept")
    return alice


def messages(path: Path) -> list[email.message.EmailMessage]:
    box = mailbox.mbox(path, create=False)
    found = [email.message_from_bytes(box.get_bytes(key), policy=email.policy.default) for key in box.keys()]
    box.close()
    assert all(isinstance(each, email.message.EmailMessage) for each in found)
    return found  # type: ignore[return-value]


def body(found: email.message.EmailMessage) -> str:
    text = found.get_content()
    assert isinstance(text, str)
    return text


@pytest.mark.parametrize("mode", ["blind", "anonymous", "open"])
def test_letters_are_those_that_the_server_gives_the_authors(server: Server, tmp_path: Path, mode: str) -> None:
    conference(server, mode)
    out = tmp_path / "letters"
    assert server.call("alice", "letters", out).status == 1, "the discussion goes on"
    assert not out.exists()
    server.go_to("notification")
    done = server.call("alice", "--json", "letters", out)
    assert done.json() == {"folder": str(out), "letters": [1, 2, 5],
                           "left": {"conflict": [], "undecided": [4], "withdrawn": [3]}}
    assert done.status == 1 and sorted(each.name for each in out.iterdir()) == [
        "letters.mbox", "paper-1.txt", "paper-2.txt", "paper-5.txt"]
    assert stat.S_IMODE(out.stat().st_mode) == 0o700
    mails = messages(out / "letters.mbox")
    for paper, author, mail in zip((1, 2, 5), ("gus", "erin", "kim"), mails, strict=True):
        told = server.client(author).letter(paper)
        if mode == "open":
            told = told.replace(" by bob\n", "\n").replace(" by dave\n", "\n")
        written = (out / f"paper-{paper}.txt").read_bytes().decode()
        assert written == told and body(mail) == told
        whole = written + mail.as_string()
        if paper == 5:
            whole = whole.replace("kim@confd.invalid", "")
        assert not [secret for secret in SECRETS if secret in whole]
    assert mails[0]["To"] == "erin@confd.invalid, gus@confd.invalid"
    assert mails[0]["Subject"] == "confd: paper 1: Proofs Bcc: all@example.org" and mails[0]["Bcc"] is None
    assert mails[1]["Subject"] == "confd: paper 2: Types é"
    assert "From here on é.\nGood.\n\n" in body(mails[0]) and "Old text" not in body(mails[0])


def test_letters_about_papers_in_conflict_are_left_to_another_chair(server: Server, tmp_path: Path) -> None:
    conference(server)
    server.go_to("closed")
    done = server.call("kim", "letters", tmp_path / "kim")
    assert done.status == 1, done
    assert "No letter: 5. You are in conflict" in done.err and "No letter: 4. They have" in done.err
    assert not (tmp_path / "kim" / "paper-5.txt").exists() and len(messages(tmp_path / "kim" / "letters.mbox")) == 2
    assert "not_chair" in server.call("bob", "letters", tmp_path / "bob").err and not (tmp_path / "bob").exists()
    done = server.call("alice", "--json", "letters", tmp_path / "five", "--papers", "5")
    assert done.status == 0 and done.json()["letters"] == [5]
    before = (tmp_path / "kim" / "letters.mbox").read_bytes()
    done = server.call("alice", "letters", tmp_path / "kim")
    assert done.status == 4 and (tmp_path / "kim" / "letters.mbox").read_bytes() == before


def test_letters_go_to_the_addresses_and_begin_as_told(server: Server, tmp_path: Path) -> None:
    conference(server)
    server.go_to("notification")
    addresses, accepted = tmp_path / "addresses.csv", tmp_path / "accepted.txt"
    addresses.write_text("name,email\nerin,erin@example.org\n")
    accepted.write_text("Congratulations!\n")
    words = ["letters", tmp_path / "out", "--addresses", addresses, "--accepted", accepted]
    words += ["--conference", "Conf\n2027"]
    assert server.call("alice", *words).status == 2
    words += ["--from", "chairs@example.org"]
    done = server.call("alice", *words)
    assert done.status == 4 and "has no address of gus, kim" in done.err and not (tmp_path / "out").exists()
    addresses.write_text("name,email\nerin,erin@example.org\ngus,gus@example.org\nkim,k@example.org\nbob,b@c.org\n")
    assert server.call("alice", *words).status == 1
    first, second, _ = messages(tmp_path / "out" / "letters.mbox")
    assert first["To"] == "erin@example.org, gus@example.org" and first["From"] == "chairs@example.org"
    assert first["Subject"].startswith("Conf 2027: paper 1: ")
    assert body(first).startswith("Congratulations!\n\nPaper 1: ") and body(second).startswith("Paper 2: ")
    for line, says in (("erin,erin", "'erin' is no address"), ("erin,a@b.c\nerin,d@b.c", "erin has two addresses"),
                       ("erin,a@b.c d@b.c", "is no address")):
        addresses.write_text(f"name,email\n{line}\n")
        done = server.call("alice", "letters", tmp_path / "no", "--addresses", addresses, "--from", "a@b.c")
        assert done.status == 4 and says in done.err
    assert server.call("alice", "letters", tmp_path / "no", "--from", "a b@c").status == 2


def test_nothing_but_what_authors_may_be_told_goes_into_a_letter() -> None:
    """Whatever else a page and a review hold, the letter stays the same."""
    reviews = [Review(3, "B", 2, "Fair.", "PC", "bob", 1), Review(3, "A", 4, "Old.", "PC", "dave", 1),
               Review(2, "A", 5, "New.", "PC", "dave", 2)]
    page = Page(paper=7, authors=("erin",), conflict=False, decision=Decision.ACCEPT, title="Proofs")
    text = ("Paper 7: Proofs\nDecision: accept\n\nReview A\nScore 5, confidence 2\nNew.\n\n"
            "Review B\nScore 2, confidence 3\nFair.\n")
    assert compose(page, reviews).text == text
    bare = [dataclasses.replace(each, to_pc=None, user=None) for each in reviews]
    more = dataclasses.replace(page, abstract="a", bid=3, conflicts=("fay",), declared=("fay",), label="C",
                               tags=("hot", "~~late"), versions=(1,), withdrawn=False)
    assert compose(more, reversed(bare)).text == text and len(to_authors(reviews)) == 2
    for lacking in ("title", "decision", "authors", "conflict"):
        with pytest.raises(ValueError, match="too little"):
            compose(dataclasses.replace(page, **{lacking: None}), reviews)
    with pytest.raises(ValueError, match="too little"):
        compose(dataclasses.replace(page, conflict=True), reviews)


def test_a_message_keeps_each_line_of_its_letter() -> None:
    page = Page(paper=7, authors=("erin",), conflict=False, decision=Decision.ACCEPT, title="P " * 99)
    told = "From me\n>From you\n.\n\n  blanks  \n=41 é\u2028\t\n" + "long " * 400
    letter = compose(page, [Review(3, "A", 2, told)])
    found = message(letter, Mail("a@b.c", "Conf", {}, None), 0.0)
    again = email.message_from_bytes(found.as_bytes(), policy=email.policy.default)
    assert isinstance(again, email.message.EmailMessage) and body(again) == letter.text
    assert max(len(line) for line in found.as_bytes().split(b"\n")) < 100
    assert found["Date"] == "Thu, 01 Jan 1970 00:00:00 -0000"


def test_an_address_is_one_address() -> None:
    good = ("a@b", "first.last+tag@example.org", "o'neill@x-y.example")
    bad = ("", "a", "a@", "@b", "a b@c", "a@b, c@d", "a@b\nBcc: c@d", "<a@b>", "a@b@c", "a..b@c", "\u00e9@b", "a@b.")
    assert all(map(is_address, good)) and not any(map(is_address, bad))
