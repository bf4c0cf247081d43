# SPDX-License-Identifier: Apache-2.0 OR MIT
"""Exports: all that the caller is shown, and nothing that runs."""

from __future__ import annotations

import csv
import io
import json
import random
import re
import stat
from html.parser import HTMLParser
from pathlib import Path

import pytest

from confd_client import export
from confd_client.export import safe_cell
from tests.conftest import Server

MEMBERS = ("bob", "dave", "fay", "hal")
SCRIPT = "<script>document.title = 'run'</script>"
PAPERS = 12


def conference(server: Server, seed: int = 1) -> None:
    """alice and four members judge twelve papers, whose titles and reviews try to be more than texts."""
    chance = random.Random(seed)
    alice = server.committee(*MEMBERS)
    erin = server.client("erin")
    server.go_to("submission")
    for number in range(1, PAPERS):
        erin.submit(f"Paper {SCRIPT} & \"{number}\"" if number % 3 == 0 else f"=HYPERLINK({number})", "{{ 7 * 7 }}")
    server.client("bob").submit("Bob's own", "")
    erin.upload(1, b"%PDF-1.7 one")
    erin.upload(1, b"%PDF-1.7 two")
    erin.upload(2, SCRIPT.encode())
    erin.withdraw(3)
    server.go_to("bidding")
    for name in MEMBERS:
        for number in range(1, PAPERS + 1):
            if number != 3 and (name, number) != ("bob", PAPERS):
                server.client(name).bid(number, chance.randrange(-20, 21))
    server.go_to("reviewing")
    for number in range(1, PAPERS):
        for name in chance.sample(MEMBERS, 3):
            if number != 3:
                alice.assign(number, name)
                if number < PAPERS - 2:
                    server.client(name).review(number, chance.randrange(1, 6), 3, SCRIPT, "to the committee")


def discussed(server: Server) -> None:
    """The same, up to the discussion, with comments, tags and decisions."""
    conference(server)
    server.go_to("discussion")
    alice = server.client("alice")
    server.client("bob").comment(1, SCRIPT)
    alice.tag(1, "~~late")
    for number in (1, 2, 4, 5):
        alice.decide(number, "accept" if number % 2 else "reject")


def rows(path: Path) -> list[dict[str, str]]:
    return list(csv.DictReader(io.StringIO(path.read_text(encoding="utf-8"), newline="")))


def test_an_export_has_what_a_chair_is_shown(server: Server, tmp_path: Path) -> None:
    discussed(server)
    out = tmp_path / "out"
    done = server.call("alice", "--json", "export", out)
    assert done.status == 0, done.err
    assert done.json() == {"folder": str(out), "papers": PAPERS, "contents": 2}
    assert (out / "contents/paper-1-v2.pdf").read_bytes() == b"%PDF-1.7 two"
    assert (out / "contents/paper-2-v1.bin").read_bytes() == SCRIPT.encode()
    told = json.loads((out / "conference.json").read_text(encoding="utf-8"))
    alice = server.client("alice")
    for number, paper in enumerate(told["papers"], start=1):
        assert paper["page"] == json.loads(alice._get(f"/papers/{number}").content)
        assert paper["reviews"] == json.loads(alice._get(f"/papers/{number}/reviews").content)["reviews"]
        assert paper["refused"] == {"response": "no_response"}
    assert told["papers"][0]["comments"] == [{"n": 1, "text": SCRIPT, "user": "bob"}]
    assert [each["bid"] for each in rows(out / "csv/bids.csv")] == [
        str(each.bid) for number in range(1, PAPERS + 1) for each in alice.page(number).bids or ()]
    papers = rows(out / "csv/papers.csv")
    assert papers[0]["title"] == "'=HYPERLINK(1)" and papers[0]["contents"] == "contents/paper-1-v2.pdf"
    assert papers[2]["withdrawn"] == "yes" and papers[0]["tags"] == "~~late" and papers[0]["decision"] == "accept"
    assert len(rows(out / "csv/reviews.csv")) == 24 and len(rows(out / "csv/load.csv")) == 5
    assert all(stat.S_IMODE(each.stat().st_mode) & 0o077 == 0 for each in [out, *out.rglob("*")])
    assert [each.name for each in tmp_path.iterdir() if each.name.startswith(".")] == []


def test_an_export_has_no_more_than_its_caller_is_shown(server: Server, tmp_path: Path) -> None:
    conference(server)
    for name in ("erin", "bob"):
        assert server.call(name, "export", tmp_path / name).status == 0
        text = "".join(path.read_text(errors="replace") for path in (tmp_path / name).rglob("*") if path.is_file())
        assert "to the committee" not in text or name == "bob"
        told = json.loads((tmp_path / name / "conference.json").read_text())
        assert all("bids" not in paper["page"] and "reviewers" not in paper["page"] for paper in told["papers"])
        assert "load" not in told["reports"]
    erin = json.loads((tmp_path / "erin/conference.json").read_text())
    assert [paper["page"]["paper"] for paper in erin["papers"]] == list(range(1, PAPERS))
    assert all(paper["refused"] == {"reviews": "wrong_phase", "response": "no_response", "comments": "not_member",
                                    "letter": "wrong_phase"} for paper in erin["papers"])
    assert erin["papers"][0]["contents"] == ["contents/paper-1-v1.pdf", "contents/paper-1-v2.pdf"]
    bob = json.loads((tmp_path / "bob/conference.json").read_text())
    own = [review for paper in bob["papers"] for review in paper.get("reviews", ())]
    assert own and all("user" not in review for review in own)
    assert bob["papers"][-1]["refused"]["comments"] == "conflict"
    assert "nothing of it: scores, bids, load" in (tmp_path / "erin/overview.html").read_text()


def test_an_export_takes_no_folder_that_is_there(server: Server, tmp_path: Path) -> None:
    server.client("alice")
    out = tmp_path / "out"
    out.mkdir()
    assert server.call("alice", "export", out).status == 0
    before = (out / "conference.json").read_bytes()
    done = server.call("alice", "export", out)
    assert done.status == 4 and "is there already" in done.err and (out / "conference.json").read_bytes() == before


def test_an_export_that_is_broken_off_leaves_nothing(
        server: Server, tmp_path: Path, monkeypatch: pytest.MonkeyPatch) -> None:
    server.client("alice")

    def broken(*_: object) -> None:
        raise KeyboardInterrupt

    monkeypatch.setattr(export, "write", broken)
    with pytest.raises(KeyboardInterrupt):
        export_by(server, tmp_path / "out")
    assert [each.name for each in tmp_path.iterdir() if "out" in each.name] == []


def export_by(server: Server, out: Path) -> None:
    """Exports as alice; click tells a broken off run by a status of its own."""
    if server.call("alice", "export", out).status == 130:
        raise KeyboardInterrupt


class Tags(HTMLParser):
    """Collects the elements of a page, and what they may load."""

    def __init__(self) -> None:
        super().__init__()
        self.names: list[str] = []
        self.links: list[str] = []

    def handle_starttag(self, tag: str, attrs: list[tuple[str, str | None]]) -> None:
        self.names.append(tag)
        self.links += [value or "" for name, value in attrs if name in ("src", "href", "action", "data", "srcset")]
        assert not [name for name, _ in attrs if name.startswith("on") or name == "style"]


def test_the_overview_needs_no_network_and_runs_nothing_of_others(server: Server, tmp_path: Path) -> None:
    discussed(server)
    assert server.call("alice", "export", tmp_path / "out").status == 0
    text = (tmp_path / "out/overview.html").read_text(encoding="utf-8")
    tags = Tags()
    tags.feed(text)
    assert tags.names.count("script") == 1 and tags.names.count("style") == 1 and tags.names.count("table") == 3
    assert tags.names.count("svg") >= 4 and set(tags.links) == {"contents/paper-1-v2.pdf", "contents/paper-2-v1.bin"}
    assert SCRIPT not in text and "&lt;script&gt;document.title" in text and "{{ 7 * 7 }}" not in text
    assert re.search(r"default-src &#39;none&#39;; script-src &#39;sha256-[\w+/=]+&#39;; style-src", text)
    assert "http" not in re.sub(r'http-equiv="Content-Security-Policy"', "", text)


def test_a_cell_is_no_formula() -> None:
    cases = (("=1+1", "'=1+1"), ("@x", "'@x"), ("-x", "'-x"), ("+x", "'+x"), ("\t=x", "'\t=x"), ("x", "x"), (-5, -5))
    assert all(safe_cell(value) == cell for value, cell in cases) and safe_cell("") == "" and safe_cell(None) is None
