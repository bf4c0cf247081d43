# SPDX-License-Identifier: Apache-2.0 OR MIT
"""The commands of members and authors, asked of a server."""

from __future__ import annotations

import csv
import io
import os
import pty
import re
import stat
import subprocess
import sys
from collections.abc import Sequence
from pathlib import Path

import pytest

from confd_client import Client, Phase
from tests.conftest import ROOT, Server

PDF = b"%PDF-1.7\n" + bytes(range(256)) * 40


def two_papers(server: Server) -> None:
    """bob and dave are members; erin submits paper 1 with gus, dave paper 2."""
    server.committee("bob", "dave")
    server.client("erin"), server.client("gus")
    server.go_to("submission")
    server.client("erin").submit("Proofs, [bold]again", "We prove.", ["gus"])
    server.client("dave").submit("=Types", "")
    server.client("erin").upload(1, PDF)


# ---- authors


def test_an_author_submits_revises_and_uploads(server: Server, tmp_path: Path) -> None:
    server.committee("bob")
    server.client("erin"), server.client("gus")
    server.go_to("submission")
    abstract, content = tmp_path / "abstract.txt", tmp_path / "paper.pdf"
    abstract.write_bytes(b"\xef\xbb\xbf\r\nWe prove\r\nit.\r\n\r\n")
    content.write_bytes(PDF)
    words = ["submit", "--title", "Proofs", "--abstract", abstract, "--author", "gus", "--content", content]
    done = server.call("erin", *words)
    assert (done.status, done.out) == (0, "paper 1\n"), done.err
    page = server.client("erin").page(1)
    assert (page.title, page.abstract, page.authors) == ("Proofs", "We prove\nit.", ("erin", "gus"))
    assert server.client("gus").content(1) == PDF
    assert server.call("gus", "--json", "upload", 1, content).json() == {"paper": 1, "version": 2}
    assert server.call("erin", "revise", 1, "--title", "Proofs, again").status == 0
    page = server.client("erin").page(1)
    assert (page.title, page.abstract) == ("Proofs, again", "We prove\nit.")
    assert server.call("erin", "revise", 1).status == 2
    assert server.call("bob", "revise", 1, "--title", "Mine").status == 1
    assert server.call("erin", "withdraw", 1).status == 2, "nobody to ask"
    assert server.call("erin", "withdraw", 1, "--yes").status == 0
    assert server.client("erin").page(1).withdrawn


@pytest.mark.parametrize(("words", "says"), [
    (["--title", ""], "a title has 1 to 200 bytes"), (["--title", "a\nb"], "a title has 1 to 200 bytes"),
    (["--title", "é" * 101], "a title has 1 to 200 bytes"), ([], "Missing option"),
])
def test_a_title_that_none_would_take_is_refused_here(server: Server, words: list[str], says: str) -> None:
    server.client("alice")
    done = server.call("alice", "submit", *words)
    assert done.status == 2 and says in done.err


def test_files_that_are_too_long_or_no_text_are_refused_here(server: Server, tmp_path: Path) -> None:
    server.client("alice")
    server.go_to("submission")
    long, latin, large = tmp_path / "long", tmp_path / "latin", tmp_path / "large"
    long.write_text("a" * 5_001)
    latin.write_bytes(b"one\ncaf\xe9\n")
    large.write_bytes(bytes(4_194_305))
    assert "5,001 bytes" in server.call("alice", "submit", "--title", "T", "--abstract", long).err
    assert f"{latin}, line 2: isn't UTF-8" in server.call("alice", "submit", "--title", "T", "--abstract", latin).err
    done = server.call("alice", "submit", "--title", "T", "--content", large)
    assert done.status == 4 and "more than 4,194,304 bytes" in done.err
    assert server.client("alice").phase().papers == 0
    assert server.call("alice", "upload", 1, tmp_path / "none").status == 4


def test_a_content_that_is_refused_leaves_the_paper(
        server: Server, tmp_path: Path, monkeypatch: pytest.MonkeyPatch) -> None:
    alice = server.client("alice")
    server.go_to("submission")
    content = tmp_path / "paper"
    content.write_bytes(b"x")
    submit = Client.submit

    def last_paper(client: Client, title: str, abstract: str, authors: Sequence[str] = ()) -> int:
        found = submit(client, title, abstract, authors)
        alice.set_phase("bidding")
        return found

    monkeypatch.setattr(Client, "submit", last_paper)
    done = server.call("alice", "submit", "--title", "T", "--content", content)
    assert done.status == 1 and done.out == "paper 1\n" and "wrong_phase" in done.err


def test_an_author_reads_the_reviews_responds_and_reads_the_letter(server: Server, tmp_path: Path) -> None:
    two_papers(server)
    alice = server.client("alice")
    server.go_to("reviewing")
    alice.assign(1, "bob")
    server.client("bob").review(1, 4, 3, "Good.", "A secret.")
    assert server.call("erin", "letter").status == 1
    server.go_to("response")
    done = server.call("erin", "--json", "papers")
    assert done.json()["own"][0]["missing"] == ["response"]
    shown = server.call("erin", "reviews", 1)
    assert "Good." in shown.out and "secret" not in shown.out and "bob" not in shown.out
    text = tmp_path / "response.txt"
    text.write_text("Thanks.\n")
    assert server.call("gus", "respond", 1, text, "--yes").status == 0
    assert "already_responded" in server.call("erin", "respond", 1, text, "--yes").err
    assert server.call("erin", "--json", "papers").json()["own"][0]["missing"] == []
    server.go_to("notification")
    letter = server.call("gus", "letter")
    assert letter.out.startswith("Paper 1: Proofs, [bold]again\nDecision: none\n\nReview A\nScore 4, confidence 3\nGo")
    assert letter.out == server.client("gus").letter(1)
    assert server.call("gus", "--json", "letter", 1).json() == {"1": letter.out}


# ---- bids


def test_bids_are_printed_filled_in_and_given(server: Server, tmp_path: Path) -> None:
    two_papers(server)
    server.go_to("bidding")
    printed = server.call("bob", "bids", "--mine").out
    rows = list(csv.reader(io.StringIO(printed)))
    assert rows == [["paper", "bid", "title"], ["1", "0", "Proofs, [bold]again"], ["2", "0", "=Types"]]
    path = tmp_path / "bids.csv"
    path.write_text(printed.replace("\n1,0,", "\n1,-7,"))
    done = server.call("bob", "--json", "bids", path)
    assert done.json() == {"given": [1], "same": [2], "refused": []}
    assert server.call("bob", "--json", "bids", path).json()["given"] == []
    assert [(each.bid, each.user) for each in server.client("alice").page(1).bids or ()] == [(-7, "bob")]


def test_bids_are_checked_before_any_is_given(server: Server, tmp_path: Path) -> None:
    two_papers(server)
    server.go_to("bidding")
    path = tmp_path / "bids.csv"
    for line, says in (("2,21", "21 isn't from -20 to 20"), ("2,much", "'much' is no whole number"),
                       ("0,1", "0 isn't from 1"), ("1,4", "paper 1 has a bid in line 2 already")):
        path.write_text(f"paper,bid\n1,3\n{line}\n")
        done = server.call("bob", "bids", path)
        assert done.status == 4 and f"{path}, line 3" in done.err and says in done.err, done
    assert server.client("bob").page(1).bid == 0
    assert server.call("bob", "bids").status == server.call("bob", "bids", path, "--mine").status == 2


def test_bids_that_are_refused_are_named_and_the_others_given(server: Server, tmp_path: Path) -> None:
    two_papers(server)
    path = tmp_path / "bids.csv"
    path.write_text("bid,paper\n3,2\n4,1\n5,9\n")
    assert "wrong_phase" in server.call("dave", "bids", path).err
    server.go_to("bidding")
    done = server.call("dave", "--json", "bids", path)
    assert done.status == 1
    assert done.json() == {"given": [1], "same": [], "refused": [
        {"line": 2, "paper": 2, "error": "conflict"}, {"line": 4, "paper": 9, "error": "no_paper"}]}


# ---- what a member has to do


def test_a_member_sees_what_is_missing(server: Server) -> None:
    two_papers(server)
    alice, hal = server.client("alice"), server.client("hal")
    server.go_to("bidding")
    assert hal.me().papers == ()
    alice.assign(1, "bob"), alice.assign(2, "bob"), alice.assign(1, "dave")
    assert [each["state"] for each in server.call("bob", "--json", "papers").json()["review"]] == ["to come", "to come"]
    server.go_to("reviewing")
    server.client("bob").review(2, 1, 1, "", ""), server.client("bob").review(2, 2, 1, "", "")
    found = server.call("bob", "--json", "papers").json()
    assert found["review"] == [
        {"paper": 1, "title": "Proofs, [bold]again", "label": "A", "forms": 0, "state": "missing", "version": 1},
        {"paper": 2, "title": "=Types", "label": "A", "forms": 2, "state": "done"}]
    shown = server.call("bob", "papers").out
    assert "1 missing" in shown and "Proofs, [bold]again" in shown and "done, 2 versions" in shown
    server.client("dave").declare(1, "dave")
    states = server.call("dave", "--json", "papers").json()
    assert states["review"][0]["state"] == "conflict" and states["own"][0]["paper"] == 2
    assert "Nothing is yours" in server.call("alice", "papers").out
    alice.invite(1, "hal")
    assert server.call("hal", "--json", "papers").json()["review"] == [
        {"paper": 1, "title": "Proofs, [bold]again", "forms": 0, "state": "invited", "version": 1}]
    server.go_to("closed")
    assert server.call("bob", "--json", "papers").json()["review"][0]["state"] == "not written"


def test_contents_become_files_and_nothing_is_overwritten(server: Server, tmp_path: Path) -> None:
    two_papers(server)
    server.client("dave").upload(2, b"<script>alert(1)</script>")
    server.go_to("bidding")
    server.client("alice").assign(1, "bob")
    folder = tmp_path / "papers"
    done = server.call("bob", "--json", "fetch", "--into", folder)
    assert done.json() == [{"paper": 1, "path": str(folder / "paper-1-v1.pdf"), "new": True}]
    path = folder / "paper-1-v1.pdf"
    assert path.read_bytes() == PDF and stat.S_IMODE(path.stat().st_mode) == 0o600
    assert server.call("bob", "--json", "fetch", "--into", folder).json()[0]["new"] is False
    assert server.call("bob", "fetch", "--all", "--into", folder).status == 0
    assert sorted(each.name for each in folder.iterdir()) == ["paper-1-v1.pdf", "paper-2-v1.bin"]
    path.write_text("Another's notes.")
    done = server.call("bob", "fetch", 1, "--into", folder)
    assert done.status == 4 and "is there already" in done.err and path.read_text() == "Another's notes."
    assert server.call("dave", "fetch", 2, 1, "--version", 1).status == 2
    assert server.call("dave", "fetch", 1, "--into", tmp_path).status == 0


def test_comments_are_shown_and_added(server: Server, tmp_path: Path) -> None:
    two_papers(server)
    server.go_to("discussion", response=False)
    text = tmp_path / "comment.txt"
    text.write_text("Accept?\nI\x1b[2J would.\n")
    assert server.call("bob", "--json", "comments", 1, "--add", text).json() == {"paper": 1, "comment": 1}
    shown = server.call("alice", "comments", 1).out
    assert shown == "comment 1 by bob\n  Accept?\n  I\ufffd[2J would.\n"
    assert server.call("alice", "--json", "comments", 1).json() == [
        {"n": 1, "text": "Accept?\nI\x1b[2J would.", "user": "bob"}]
    assert server.call("dave", "comments", 2).status == 1
    assert server.call("bob", "comments", 2).out == "no comment\n"
    text.write_text("")
    assert server.call("bob", "comments", 1, "--add", text).status == 4


def test_an_upload_tells_how_much_is_on_its_way(server: Server) -> None:
    two_papers(server)
    seen: list[int] = []
    content = bytes(300_000)
    assert server.client("erin").upload(1, content, on_sent=seen.append) == 2
    assert seen == sorted(seen) and seen[-1] == len(content) and len(seen) > 5
    assert server.client("erin").upload(1, b"", on_sent=seen.append) == 3
    assert server.client("erin").content(1) == b""
    assert server.client("erin").phase().phase is Phase.SUBMISSION


def test_each_command_has_help_with_examples(server: Server) -> None:
    for name in ("bids", "papers", "fetch", "form", "review", "reviews", "comments", "submit", "revise", "upload",
                 "withdraw", "respond", "letter", "letters", "export"):
        done = server.call("alice", name, "--help")
        assert done.status == 0 and re.search(r"Examples:\n +confd-client|\| confd-client", done.out), name


def test_a_terminal_shows_how_an_upload_goes(server: Server, tmp_path: Path) -> None:
    two_papers(server)
    path = tmp_path / "paper.pdf"
    path.write_bytes(PDF)
    ours, theirs = pty.openpty()
    words = ["--url", server.url, "--secret-file", str(server.secret_file("erin")), "upload", "1", str(path)]
    done = subprocess.run([sys.executable, "-m", "confd_client", *words], cwd=ROOT / "client", stdin=subprocess.DEVNULL,
                          stdout=subprocess.PIPE, stderr=theirs, timeout=60, env={**os.environ, "TERM": "xterm"})
    shown = os.read(ours, 65_536).decode()
    os.close(ours)
    os.close(theirs)
    assert done.stdout == b"paper 1: version 2\n" and "Upload" in shown and "kB" in shown


def test_what_the_system_refuses_is_told_by_its_file(server: Server, tmp_path: Path) -> None:
    two_papers(server)
    server.go_to("bidding")
    server.client("alice").assign(1, "bob")
    taken = tmp_path / "taken"
    taken.write_text("")
    below = taken / "below"
    for words in (("fetch", "--into", below), ("form", "--into", below), ("export", below), ("export", taken)):
        done = server.call("bob", *words)
        assert done.status == 4 and str(taken) in done.err, done
