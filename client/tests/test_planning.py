# SPDX-License-Identifier: Apache-2.0 OR MIT
"""Plans: the server's and those that are made here, for the same sum and what only the latter can."""

from __future__ import annotations

import itertools
import random
from collections import Counter
from pathlib import Path

import pytest

from confd_client import BidOf, Client, Page, Reviewer, Row
from confd_client.errors import NoPlan, PlanTooLarge
from confd_client.planning import Wanted, best_pairs, labels_left, own_plan
from confd_client.survey import clear_papers, pages_of
from tests.conftest import Server


def made_up(server: Server, seed: int) -> Client:
    """A chair's client, in the bidding of a conference that is made up from a number."""
    chance = random.Random(seed)
    members = [f"member{number}" for number in range(chance.randint(4, 6))]
    alice = server.committee(*members)
    authors = [server.client(name) for name in ("erin", *members)]
    server.go_to("submission")
    papers = range(1, chance.randint(2, 6) + 1)
    for paper in papers:
        chance.choice(authors).submit(f"Paper {paper}", "")
    server.go_to("bidding")
    for paper in papers:
        for name in (*members, "alice"):
            if chance.random() < 0.1:
                alice.declare(paper, name)
        for name in ("alice", *members):
            client = server.client(name)
            if chance.random() < 0.6 and not client.page(paper).conflict:
                client.bid(paper, chance.randint(-20, 20))
    for paper in clear_papers(alice.papers_report()):
        page = alice.page(paper)
        free = [name for name in ("alice", *members)
                if name not in (*(page.conflicts or ()), *(page.authors or ()))]
        for name in chance.sample(free, min(len(free), chance.choice([0, 0, 0, 1, 2]))):
            alice.assign(paper, name)
            if chance.random() < 0.3:
                alice.unassign(paper, name)
    return alice


def sum_of(rows: list[Row], pages: dict[int, Page]) -> int:
    """The sum of the bids of what is assigned."""
    bids = {(page.paper, bid.user): bid.bid for page in pages.values() for bid in page.bids or ()}
    return sum(bids.get((int(row.paper), row.user), 0) for row in rows)


@pytest.mark.parametrize("seed", range(8))
def test_the_same_sum_as_the_servers(server: Server, seed: int) -> None:
    """For all numbers of reviewers and loads; and no plan exactly where the server has none."""
    alice = made_up(server, seed)
    members = [account.name for account in alice.accounts() if account.role != "account"]
    pages = pages_of(alice, clear_papers(alice.papers_report()))
    plans = 0
    for per_paper, load in itertools.product(range(1, 5), range(1, 7)):
        try:
            theirs = list(alice.plan(per_paper, load))
        except NoPlan:
            with pytest.raises(NoPlan):
                own_plan(pages, pages, members, Wanted(per_paper, load))
            continue
        plans += 1
        ours, total = own_plan(pages, pages, members, Wanted(per_paper, load))
        assert total == sum_of(ours, pages) == sum_of(theirs, pages)
        assert len(ours) == len(theirs) == len(set(ours))
        assert max(Counter(row.user for row in ours).values(), default=0) <= load
        if per_paper == 1 and load == 6:
            assert alice.bulk(ours) == len(ours)
            pages = pages_of(alice, pages)
    assert plans > 0


def page(paper: int, reviewers: str = "", out: str = "", **bids: int) -> Page:
    """A page with these bids, reviewers (each a name of one letter) and conflicts."""
    labels = zip("ABCDE", reviewers, strict=False)
    return Page(paper, reviewers=tuple(Reviewer(label, user=user) for label, user in labels), conflicts=tuple(out),
                authors=(), bids=tuple(BidOf(bid, user) for user, bid in bids.items()))


def planned(pages: list[Page], members: str, wanted: Wanted) -> set[tuple[int, str]]:
    """The pairs of a plan."""
    rows, _ = own_plan({page.paper: page for page in pages}, [page.paper for page in pages], list(members), wanted)
    return {(int(row.paper), row.user) for row in rows}


def test_a_load_that_members_have_already() -> None:
    """It counts only where it is to."""
    pages = [page(1, "a", b=1), page(2, "a", a=20, b=-20), page(3, a=20)]
    assert planned(pages[2:] + pages[:1], "ab", Wanted(1, 1)) == {(3, "a"), (1, "b")}
    assert planned(pages, "abc", Wanted(1, 2, counts_assigned=True)) >= {(1, "b"), (2, "c")}
    with pytest.raises(NoPlan):
        planned(pages, "ab", Wanted(1, 2, counts_assigned=True))


def test_papers_that_cannot_be_filled_are_named() -> None:
    """Those that too few may review."""
    with pytest.raises(NoPlan, match="papers 2, 3"):
        planned([page(1), page(2, "ab"), page(3, out="b")], "ab", Wanted(2, 9))


def test_labels_that_are_spent() -> None:
    """A paper whose labels don't suffice is left out."""
    late = Page(2, reviewers=(Reviewer("Y", user="z"),), authors=(), conflicts=(), bids=())
    assert (labels_left(page(1)), labels_left(page(1, "ab")), labels_left(late)) == (26, 24, 1)
    assert planned([page(1), late], "ab", Wanted(2, 9)) == {(1, "a"), (1, "b")}
    assert planned([page(1), late], "a", Wanted(1, 9)) == {(1, "a"), (2, "a")}


def test_no_papers_and_no_members() -> None:
    """Nothing to plan is an empty plan; nobody to assign is none."""
    assert best_pairs({}, [], 3, {"a": 1}) == []
    assert planned([], "ab", Wanted(1, 1)) == set()
    with pytest.raises(NoPlan):
        planned([page(1)], "", Wanted(1, 1))


def test_the_command(server: Server, tmp_path: Path) -> None:
    """The server's plan where it can, else one of our own; what `assign` then takes."""
    alice = server.committee("bob", "carol", "dave")
    server.go_to("submission")
    for number in range(1, 5):
        server.client("erin").submit(f"Paper {number}", "")
    server.go_to("bidding")
    for name, bid in (("bob", 5), ("carol", 3), ("dave", -4)):
        for paper in range(1, 5):
            server.client(name).bid(paper, bid)
    alice.tag(4, "hot")
    path = tmp_path / "plan.csv"
    done = server.call("alice", "plan", "--per-paper", 1, "--load", 2, "-o", path)
    assert done.status == 0 and "by the server" in done.err
    theirs = path.read_text()
    assert theirs.splitlines()[0] == "paper,action,user,tag" and len(theirs.splitlines()) == 5
    assert path.stat().st_mode & 0o777 == 0o600
    told = server.call("alice", "--json", "plan", "--per-paper", 1, "--load", 2, "--own").json()
    assert (told["sum"], told["by"], len(told["rows"])) == (2 * 5 + 2 * 3, "this program", 4)
    told = server.call("alice", "--json", "plan", "--per-paper", 1, "--load", 2, "--leave-out", "bob").json()
    assert told["sum"] == 2 * 3 + 0
    told = server.call("alice", "--json", "plan", "--per-paper", 1, "--load", 9, "--papers", "1-2,4", "--query", "#hot")
    assert told.json()["rows"] == [{"paper": 4, "action": "pcreview", "user": "bob"}]
    assert server.call("alice", "assign", path).status == 0
    told = server.call("alice", "--json", "plan", "--per-paper", 1, "--load", 2, "--count-assigned").json()
    assert {row["user"] for row in told["rows"]} == {"alice", "dave"}
    for words in (["--leave-out", "zoe"], ["--papers", "x"], ["--load", "0"]):
        assert server.call("alice", "plan", "--per-paper", 1, "--load", 2, *words).status == 2
    done = server.call("alice", "--json", "plan", "--per-paper", 4, "--load", 1)
    assert done.status == 1 and '"error": "no_plan"' in done.err
    assert server.call("bob", "plan", "--per-paper", 1, "--load", 2).status == 1


def test_past_the_servers_size(server: Server, monkeypatch: pytest.MonkeyPatch) -> None:
    """The server says that it is too large, and the plan is made here; of many papers, too."""
    alice = server.committee("bob")
    server.go_to("submission")
    server.client("erin").submit("Proofs", "")
    server.go_to("bidding")

    def too_large(*_: object) -> None:
        raise PlanTooLarge(409)

    monkeypatch.setattr(Client, "plan", too_large)
    done = server.call("alice", "plan", "--per-paper", 2, "--load", 1)
    assert done.status == 0 and done.out == "paper,action,user,tag\n1,pcreview,alice,\n1,pcreview,bob,\n"
    assert alice.page(1).reviewers == ()


def test_a_large_conference() -> None:
    """A thousand papers and two hundred members, each paper by three who bid highest."""
    chance = random.Random(7)
    names = [f"m{number}" for number in range(200)]
    pages = {paper: Page(paper, authors=(), conflicts=(), reviewers=(), bids=tuple(
        BidOf(20, name) for name in chance.sample(names, 8))) for paper in range(1, 1001)}
    rows, total = own_plan(pages, pages, names, Wanted(3, 20))
    assert len(rows) == 3000 and total == 3000 * 20
    assert set(Counter(row.paper for row in rows).values()) == {3}
    assert max(Counter(row.user for row in rows).values()) <= 20
