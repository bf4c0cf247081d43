# SPDX-License-Identifier: Apache-2.0 OR MIT
"""`assign`: large files, an order by chance, and what happens when it is broken off. Nothing is done twice or lost."""

from __future__ import annotations

import io
import json
import signal
import subprocess
import sys
import threading
import time
from collections.abc import Callable
from pathlib import Path

import pytest

from confd_client import Client
from tests.conftest import ROOT, Server
from tests.gateways import gateway, relay

MEMBERS = [f"member{number:02}" for number in range(20)]


def bidding(server: Server, papers: int) -> Client:
    """A chair's client, in the bidding of so many papers."""
    alice = server.committee(*MEMBERS)
    server.go_to("submission")
    for number in range(papers):
        server.client(f"erin{number // 20}").submit(f"Paper {number}", "")
    server.go_to("bidding")
    return alice


def plan_of(path: Path, papers: int, per_paper: int) -> Path:
    """A file that assigns so many members to each paper, in the order of their registration."""
    lines = [f"{paper},pcreview,{MEMBERS[(paper + place) % 20]},\n" for paper in range(1, papers + 1)
             for place in range(per_paper)]
    path.write_text("paper,action,user,tag\n" + "".join(lines))
    return path


def reviewers(alice: Client, papers: int) -> dict[int, list[tuple[str, str | None]]]:
    """Who reviews each paper, by label."""
    return {paper: [(each.label, each.user) for each in alice.page(paper).reviewers or ()]
            for paper in range(1, papers + 1)}


def assert_all_once(alice: Client, papers: int, per_paper: int) -> None:
    """Each paper has the members of `plan_of`, under the first labels."""
    for paper, told in reviewers(alice, papers).items():
        assert [label for label, _ in told] == list("ABCDEFGHIJKLMNOP"[:per_paper])
        assert {user for _, user in told} == {MEMBERS[(paper + place) % 20] for place in range(per_paper)}


def test_a_large_plan_goes_in_pieces(server: Server, tmp_path: Path) -> None:
    """Of at most 512 rows, and labels don't follow the order of the file."""
    alice = bidding(server, 40)
    path = plan_of(tmp_path / "plan.csv", 40, 16)
    assert server.call("alice", "--json", "assign", path).json() == {"rows": 640, "pieces": 2}
    assert_all_once(alice, 40, 16)
    in_order = sum([user for _, user in told] == [MEMBERS[(paper + place) % 20] for place in range(16)]
                   for paper, told in reviewers(alice, 40).items())
    assert in_order == 0
    assert not list(tmp_path.glob("plan.csv.*"))


def test_a_row_that_is_refused(server: Server, tmp_path: Path) -> None:
    """It is told by its line; what wasn't done is in another file, which is mended and assigned."""
    alice = bidding(server, 40)
    alice.declare(40, MEMBERS[1])
    path = plan_of(tmp_path / "plan.csv", 39, 14)
    with path.open("a") as file:
        file.write(f"40,primary,{MEMBERS[0]},\n40,primary,{MEMBERS[1]},\n")
    done = server.call("alice", "--json", "assign", path)
    assert done.status == 1
    told = json.loads(done.err)
    assert (told["error"], told["rule"], told["line"]) == ("row_refused", "target_conflict", 549)
    rest = tmp_path / "plan.csv.rest"
    left = rest.read_text().splitlines()
    assert rest.stat().st_mode & 0o777 == 0o600
    assert left[0] == "paper,action,user,tag" and len(left) - 1 + told["done"] == 548 and told["done"] > 0
    rest.write_text("\n".join(left[:-1]))
    assert server.call("alice", "assign", rest).status == 0
    assert_all_once(alice, 39, 14)
    assert alice.page(40).reviewers is not None and len(alice.page(40).reviewers or ()) == 1
    assert [each.name for each in tmp_path.glob("plan.csv.*")] == ["plan.csv.rest"]


def test_from_standard_input(server: Server, monkeypatch: pytest.MonkeyPatch) -> None:
    """Nothing is kept then."""
    alice = bidding(server, 1)
    monkeypatch.setattr("sys.stdin", io.TextIOWrapper(io.BytesIO(b"paper,action,tag\n1,tag,hot\n")))
    assert server.call("alice", "--json", "assign", "-").json() == {"rows": 1, "pieces": 1}
    assert alice.page(1).tags == ("hot",)


@pytest.mark.parametrize("before", [[], ["pass"]], ids=["first", "second"])
def test_an_answer_that_is_lost_for_long(server: Server, tmp_path: Path, before: list[str | int]) -> None:
    """The program gives up, and goes on where it was when it is called again: what was done isn't done twice."""
    alice = bidding(server, 40)
    path = plan_of(tmp_path / "plan.csv", 40, 16)
    with gateway(server, *before, "lose", *["drop"] * 50) as between:
        words = [sys.executable, "-m", "confd_client", "--url", between.url, "--secret-file",
                 str(server.secret_file("alice")), "--patience", "0.5", "assign", str(path)]
        done = subprocess.run(words, capture_output=True, text=True, cwd=ROOT / "client", timeout=60)
        assert done.returncode == 3, done
        sent = tmp_path / "plan.csv.sent"
        assert sent.exists() and sent.stat().st_mode & 0o777 == 0o600
        between.plan.clear()
        plan_of(path, 40, 15)
        assert server.call("alice", "assign", path, url=between.url).status == 4
        plan_of(path, 40, 16)
        assert server.call("bob", "assign", path, url=between.url).status == 4
        assert server.call("alice", "--json", "assign", path, url=between.url).json() == {"rows": 640, "pieces": 2}
        assert len({seen.number for seen in between.seen if seen.path == "/assign"}) == 2
    assert_all_once(alice, 40, 16)
    assert not sent.exists()


def killed_while(act: Callable[[], None], kill: Callable[[], None], times: int) -> None:
    """Does something while something else is killed so many times."""
    done = threading.Event()

    def go() -> None:
        for _ in range(times):
            if done.wait(0.15):
                return
            kill()

    killer = threading.Thread(target=go)
    killer.start()
    act()
    done.set()
    killer.join()


def test_a_server_that_is_killed_meanwhile(server: Server, tmp_path: Path, monkeypatch: pytest.MonkeyPatch) -> None:
    """And connections that are cut: nothing twice, nothing lost."""
    monkeypatch.setattr("confd_client.bulks.LARGEST_BULK", 16)
    monkeypatch.setattr("confd_client.bulks.pieces.__defaults__", (16,))
    alice = bidding(server, 40)
    path = plan_of(tmp_path / "plan.csv", 40, 16)

    def kill() -> None:
        server.kill()
        time.sleep(0.1)
        server.start()

    with relay(server, seed=3, longest=2500) as between:
        def act() -> None:
            done = server.call("alice", "--json", "assign", path, url=between.url)
            assert done.status == 0 and done.json() == {"rows": 640, "pieces": 40}, done

        killed_while(act, kill, 6)
        assert between.cuts > 0
    assert_all_once(alice, 40, 16)


def test_a_program_that_is_killed(server: Server, tmp_path: Path) -> None:
    """Called until it ends well, it has done all once."""
    alice = bidding(server, 40)
    path = plan_of(tmp_path / "plan.csv", 40, 16)
    words = [sys.executable, "-c",
             "from confd_client import bulks; bulks.pieces.__defaults__ = (16,);"
             "from confd_client.cli import main; main()",
             "--url", server.url, "--secret-file", str(server.secret_file("alice")), "assign", str(path)]
    statuses: list[int] = []
    while 0 not in statuses:
        process = subprocess.Popen(words, cwd=ROOT / "client", stdout=subprocess.PIPE, stderr=subprocess.STDOUT)
        with process:
            if len(statuses) < 4:
                deadline = time.monotonic() + 20
                while time.monotonic() < deadline and process.poll() is None:
                    told = json.loads(kept) if (kept := text_of(tmp_path / "plan.csv.sent")) else {"pieces": []}
                    if sum(piece["done"] for piece in told["pieces"]) > 8 * len(statuses):
                        process.send_signal(signal.SIGKILL)
                        break
                    time.sleep(0.002)
            statuses.append(process.wait(timeout=60))
        assert len(statuses) < 10
    assert statuses[0] == -signal.SIGKILL
    assert_all_once(alice, 40, 16)


def text_of(path: Path) -> str:
    """What a file has; nothing where it isn't there."""
    try:
        return path.read_text()
    except FileNotFoundError:
        return ""
