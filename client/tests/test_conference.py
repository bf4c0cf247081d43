# SPDX-License-Identifier: Apache-2.0 OR MIT
"""A whole conference by the command line alone, as scripts would: 300 accounts, 42 members, 120 papers of 300 KB.

Each step is a call with `--json`, and what it tells is compared with what the conference was given.
"""

from __future__ import annotations

import hashlib
import json
import random
from collections import Counter
from pathlib import Path
from typing import Any

import pytest

from confd_client import Client, forms
from tests.conftest import Done, Server

ACCOUNTS, MEMBERS, PAPERS, CONTENT = 300, 42, 120, 300_000
PER_PAPER, LOAD = 5, 16
CHAIR, SECOND = "user001", "user002"
NAMES = [f"user{number:03}" for number in range(1, ACCOUNTS + 1)]
COMMITTEE = NAMES[:MEMBERS]
AUTHORS = NAMES[MEMBERS:MEMBERS + PAPERS]
COAUTHORS = NAMES[MEMBERS + PAPERS:MEMBERS + 2 * PAPERS]
# The paper with which the first chair is in conflict, those that are withdrawn, and those without all their reviews.
OF_THE_CHAIR, WITHDRAWN, SHORT = 7, (11, 12), (20, 30, 40)


def content_of(paper: int) -> bytes:
    """A paper of its own bytes."""
    seed = hashlib.sha256(str(paper).encode()).digest()
    return b"%PDF-" + (seed * (CONTENT // len(seed) + 1))[:CONTENT - 5]


def score_of(paper: int) -> int:
    """What all reviewers of a paper give it."""
    return paper % 5 + 1


def decision_of(paper: int) -> str:
    """What becomes of a paper."""
    return "accept" if score_of(paper) >= 4 else "reject"


class Script:
    """Calls of the command line, each of which has to end well."""

    def __init__(self, server: Server, folder: Path) -> None:
        self.server, self.folder = server, folder

    def file(self, name: str, content: str | bytes) -> Path:
        """A file in the script's folder."""
        path = self.folder / name
        path.parent.mkdir(parents=True, exist_ok=True)
        path.write_bytes(content.encode() if isinstance(content, str) else content)
        return path

    def try_by(self, name: str, *words: object) -> Done:
        """A call, however it ends."""
        return self.server.call(name, "--json", *words)

    def by(self, name: str, *words: object) -> Any:
        """What a call tells."""
        done = self.try_by(name, *words)
        assert done.status == 0, (name, words, done)
        return done.json()


@pytest.fixture
def script(server: Server, tmp_path: Path) -> Script:
    """A script against a server."""
    return Script(server, tmp_path / "script")


def test_a_conference_from_start_to_end(script: Script) -> None:
    """From 300 registrations to what everyone may read at the close."""
    in_setup(script)
    in_submission(script)
    in_bidding(script)
    in_reviewing(script)
    in_response(script)
    in_discussion(script)
    in_notification(script)


def in_setup(script: Script) -> None:
    """Accounts, the committee, the mode, deadlines."""
    for number, name in enumerate(NAMES, 1):
        assert script.by(name, "register", name)["user"] == number
    rows = "".join(f"{name},{'chair' if name in (CHAIR, SECOND) else 'member'}\n" for name in COMMITTEE)
    told = script.by(CHAIR, "committee", script.file("committee.csv", "name,role\n" + rows))
    assert (len(told["changed"]), told["unchanged"]) == (MEMBERS - 1, 1)
    script.by(CHAIR, "mode", "anonymous")
    script.by(CHAIR, "deadline", "submission", "2127-01-31T23:59:59-12:00")
    script.by(CHAIR, "phase", "submission", "--yes")


def in_submission(script: Script) -> None:
    """Papers of two authors each, with their contents."""
    for paper, (author, coauthor) in enumerate(zip(AUTHORS, COAUTHORS, strict=True), 1):
        told = script.by(author, "submit", "--title", f"Paper {paper}", "--author", coauthor, "--abstract",
                         script.file("abstract.txt", f"We prove {paper}."), "--content",
                         script.file("paper.pdf", content_of(paper)))
        assert told == {"paper": paper, "version": 1}
    script.by(COAUTHORS[0], "revise", 1, "--title", "Paper 1, again")
    for paper in WITHDRAWN:
        script.by(AUTHORS[paper - 1], "withdraw", paper, "--yes")
    own = script.file("own.csv", f"paper,user\n{OF_THE_CHAIR},{CHAIR}\n")
    assert script.by(AUTHORS[OF_THE_CHAIR - 1], "conflicts", own) == {"rows": 1, "refused": []}
    told = script.by(CHAIR, "phase", "bidding", "--yes")
    assert f"the {PAPERS} that there are" in told["left"][0]


def in_bidding(script: Script) -> None:
    """Conflicts, bids, a plan past the server's size, and its assignment in two pieces."""
    chance = random.Random(1)
    active = [paper for paper in range(1, PAPERS + 1) if paper not in (*WITHDRAWN, OF_THE_CHAIR)]
    clashes = {(paper, chance.choice(COMMITTEE[2:])) for paper in active}
    rows = "".join(f"{paper},{name}\n" for paper, name in sorted(clashes))
    told = script.by(SECOND, "conflicts", script.file("conflicts.csv", "paper,user\n" + rows))
    assert told == {"rows": len(clashes), "refused": []}
    bids: dict[tuple[int, str], int] = {}
    for name in COMMITTEE[1:]:
        mine = {paper: chance.randint(-20, 20) for paper in chance.sample(active, 30) if (paper, name) not in clashes}
        path = script.file("bids.csv", "paper,bid\n" + "".join(f"{paper},{bid}\n" for paper, bid in mine.items()))
        assert script.by(name, "bids", path)["refused"] == []
        bids |= {(paper, name): bid for paper, bid in mine.items()}
    assert script.by(CHAIR, "status")["without_bids"] == [CHAIR]
    path = script.folder / "plan.csv"
    told = script.by(CHAIR, "plan", "--per-paper", PER_PAPER, "--load", LOAD, "--output", path)
    pairs = {(row["paper"], row["user"]) for row in told["rows"]}
    assert told["by"] == "this program" and len(pairs) == PER_PAPER * len(active)
    assert told["sum"] == sum(bids.get(pair, 0) for pair in pairs) > 0
    assert Counter(paper for paper, _ in pairs) == dict.fromkeys(active, PER_PAPER)
    assert max(Counter(user for _, user in pairs).values()) <= LOAD and not pairs & clashes
    assert script.by(CHAIR, "assign", path) == {"rows": len(pairs), "pieces": 2}
    others = "".join(f"{OF_THE_CHAIR},pcreview,{name}\n" for name in COMMITTEE[10:15])
    script.by(SECOND, "assign", script.file("others.csv", "paper,action,user\n" + others))
    told = script.by(CHAIR, "status")
    assert {(each["paper"], each["user"]) for each in told["missing"]} == pairs
    assert (told["withdrawn"], told["in_conflict"], told["without_reviewers"]) == (list(WITHDRAWN), [OF_THE_CHAIR], [])
    script.by(CHAIR, "phase", "reviewing", "--yes")


def in_reviewing(script: Script) -> None:
    """Forms, filled in and sent; three reviews stay missing, which the chair is told."""
    for name in COMMITTEE:
        mine = [each for each in script.by(name, "papers")["review"] if each["state"] == "missing"]
        made = script.by(name, "form", "--into", script.folder / name)
        assert [form["paper"] for form in made] == [each["paper"] for each in mine]
        paths = []
        for each in mine:
            paper, label = each["paper"], each["label"]
            if paper in SHORT and label == "A":
                continue
            to_authors = f"On {paper} by {label}.\n\n== fine =="
            form = forms.ReviewForm(paper, score_of(paper), 3, to_authors, f"Only us: {paper}")
            paths.append(script.file(f"{name}/review-{paper}.txt", forms.render(paper, review=form)))
        if paths:
            assert [sent["version"] for sent in script.by(name, "review", *paths)] == [1] * len(paths)
    told = script.by(CHAIR, "status")
    assert sorted(each["paper"] for each in told["missing"]) == list(SHORT)
    told = script.by(CHAIR, "phase", "response", "--yes")
    assert "3 reviews missing, of the papers 20, 30, 40" in told["left"][0]


def in_response(script: Script) -> None:
    """Some authors respond."""
    for paper in (1, 2, 3):
        author = AUTHORS[paper - 1]
        told = script.by(author, "reviews", paper)
        assert [each["label"] for each in told["reviews"]] == list("ABCDE")
        assert all("to_pc" not in each and "user" not in each for each in told["reviews"])
        script.by(author, "respond", paper, script.file("response.txt", f"Thanks for {paper}."), "--yes")
    script.by(CHAIR, "phase", "discussion", "--yes")


def in_discussion(script: Script) -> None:
    """Contents, comments, exports, decisions; the paper of the chair's conflict is the other chair's."""
    name = COMMITTEE[5]
    mine = [each["paper"] for each in script.by(name, "papers")["review"]]
    script.by(name, "fetch", "--into", script.folder / "papers")
    for paper in mine:
        found, = (script.folder / "papers").glob(f"paper-{paper}[.-]*")
        assert found.read_bytes() == content_of(paper)
    script.by(name, "comments", mine[0], "--add", script.file("comment.txt", "Accept?"))
    assert [each["text"] for each in script.by(CHAIR, "comments", mine[0])] == ["Accept?"]
    told = script.by(CHAIR, "export", script.folder / "export")
    assert told["papers"] == PAPERS
    rows = "".join(f"{paper},{decision_of(paper)}\n" for paper in range(1, PAPERS + 1)
                   if paper not in (*WITHDRAWN, OF_THE_CHAIR, 99))
    told = script.by(CHAIR, "decide", script.file("decisions.csv", "paper,decision\n" + rows))
    assert (len(told["decided"]), told["undecided"]) == (PAPERS - 4, [99])
    other = script.file("other.csv", f"paper,decision\n{OF_THE_CHAIR},accept\n")
    assert script.try_by(CHAIR, "decide", other).status == 1
    assert script.by(SECOND, "decide", other)["decided"] == [OF_THE_CHAIR]
    told = script.by(CHAIR, "phase", "notification", "--yes")
    left = "\n".join(told["left"])
    assert "1 paper would stay undecided, for good: 99" in left
    assert f"another chair has to tell whether they are decided: {OF_THE_CHAIR}" in left


def in_notification(script: Script) -> None:
    """Letters to all authors, which are what the server tells them; at the close everyone reads what is accepted."""
    done = script.try_by(CHAIR, "letters", script.folder / "letters")
    assert done.status == 1 and json.loads(done.out)["left"] == {
        "conflict": [OF_THE_CHAIR], "undecided": [99], "withdrawn": list(WITHDRAWN)}
    for paper in (1, 20, 120):
        letter = (script.folder / "letters" / f"paper-{paper}.txt").read_text()
        assert letter == script.by(AUTHORS[paper - 1], "letter", paper)[str(paper)]
        assert f"Decision: {decision_of(paper)}" in letter and "Only us" not in letter
        assert not any(name in letter for name in COMMITTEE)
    script.by(CHAIR, "phase", "closed", "--yes")
    accepted = [paper for paper in range(1, PAPERS + 1) if paper not in (*WITHDRAWN, 99)
                and (decision_of(paper) == "accept" or paper == OF_THE_CHAIR)]
    with Client(script.server.url) as nobody:
        assert [each.paper for each in nobody.accepted()] == accepted
        assert nobody.content(accepted[0]) == content_of(accepted[0])
