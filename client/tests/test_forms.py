# SPDX-License-Identifier: Apache-2.0 OR MIT
"""Review forms: what they keep, what is wrong with them, and how they are made and sent."""

from __future__ import annotations

import json
import random
import stat
from pathlib import Path

import pytest

from confd_client import forms
from confd_client.forms import FormError, ReviewForm, parse, render, tidied
from tests.conftest import Server

FILLED = ReviewForm(7, 4, 3, "Good.\n\n== Details\n==*== Score\n\\== so", "ok")


def problems(content: bytes) -> list[tuple[int, str]]:
    with pytest.raises(FormError) as caught:
        parse(content, "f.txt")
    return [(each.line, each.name) for each in caught.value.problems]


def test_a_form_keeps_a_review() -> None:
    text = render(7, "Proofs", "B", FILLED, "2027-01-31 12:00:00 UTC")
    assert parse(text.encode()) == FILLED
    assert "\n\\== Details\n" in text and "\n\\\\== so\n" in text
    assert "==-== Paper 7: Proofs\n" in text and "reviewer B" in text and "due by 2027-01-31" in text


def test_a_form_keeps_any_text_but_for_blank_edges() -> None:
    chance = random.Random(1)
    pieces = ["==", "=", "\\", "==*==", "==-==", "==+==", "a", " ", "\t", "\n", "\n", "é", "#", "\r", "\r\n", "\u2028",
              "\x0c", "\x00"]
    for _ in range(5_000):
        text, other = ("".join(chance.choices(pieces, k=chance.randrange(12))) for _ in range(2))
        form = ReviewForm(chance.randrange(1, 10_000), chance.randrange(1, 6), chance.randrange(1, 6), text, other)
        kept = ReviewForm(form.paper, form.score, form.confidence, tidied(text), tidied(other))
        title = "".join(chance.choices(pieces, k=5))
        assert parse(render(form.paper, title, "A", form).encode()) == kept
        assert parse(render(form.paper, title, "A", kept).replace("\n", "\r\n").encode("utf-8-sig")) == kept


def test_an_empty_form_lacks_its_grades() -> None:
    text = render(7, "Proofs")
    assert problems(text.encode()) == [(text[:text.index("==*== Score")].count("\n") + 1, "no_score"),
                                       (text[:text.index("==*== Confidence")].count("\n") + 1, "no_confidence")]


FORM = render(7, "", None, FILLED)


@pytest.mark.parametrize(("content", "names"), [
    (b"", ["no_form"]), (b"Dear chairs,\n", ["no_form"]), (b"\xff\xfe=\x00", ["not_text"]),
    (FORM.replace("\n4\n", "\n6\n").encode(), ["bad_score"]),
    (FORM.replace("\n4\n", "\n0\n").encode(), ["bad_score"]),
    (FORM.replace("\n4\n", "\nfour\n").encode(), ["bad_score"]),
    (FORM.replace("\n4\n", "\n4.0\n").encode(), ["bad_score"]),
    (FORM.replace("\n4\n", "\n4\n5\n").encode(), ["bad_score"]),
    (FORM.replace("\n4\n", "\n\u0664\n").encode(), ["bad_score"]),
    (FORM.replace("\n3\n", "\n-3\n").encode(), ["bad_confidence"]),
    (FORM.replace("\n7\n", "\n\n").encode(), ["no_paper"]),
    (FORM.replace("\n7\n", "\n10000\n").encode(), ["bad_paper"]),
    (FORM.replace("==*== Score", "==*== Skore").encode(), ["unknown_heading", "no_heading"]),
    (FORM.replace("==*== Confidence", "==*== Score").encode(), ["heading_twice", "no_heading"]),
    (FORM.replace("\\== Details", "== Details").encode(), ["unescaped"]),
    (FORM.replace("\nok\n", "\n" + "é" * 10_001 + "\n").encode(), ["long_text"]),
    ((FORM + "P.S.\n").encode(), ["stray_text"]), ((FORM + FORM).encode(), ["form_twice"] + ["heading_twice"] * 5),
])
def test_what_is_wrong_with_a_form_has_a_name(content: bytes, names: list[str]) -> None:
    assert [name for _, name in problems(content)] == names


def test_what_is_wrong_is_told_by_its_line() -> None:
    text = FORM.replace("\n4\n", "\nfour\n").replace("\n3\n", "\n9\n")
    lines = text.split("\n")
    assert problems(text.encode()) == [(lines.index("four") + 1, "bad_score"), (lines.index("9") + 1, "bad_confidence")]
    with pytest.raises(FormError, match=rf"^f.txt, line {lines.index('four') + 1}: bad_score: .*\nf.txt, line "):
        parse(text.encode(), "f.txt")
    assert problems(b"==+==\n\xe9\n")[0] == (2, "not_text")


def test_the_longest_text_is_taken() -> None:
    form = ReviewForm(1, 1, 5, "é" * 10_000, "x" * forms.TEXT_BYTES)
    assert parse(render(1, "", None, form).encode()) == form


# ---- made and sent


def reviewing(server: Server) -> None:
    """bob reviews papers 1 and 2 of erin's, dave paper 1."""
    alice = server.committee("bob", "dave")
    server.client("erin")
    server.go_to("submission")
    for title in ("Proofs", "Types"):
        server.client("erin").submit(title, "")
    server.go_to("reviewing")
    for paper, name in ((1, "dave"), (1, "bob"), (2, "bob")):
        alice.assign(paper, name)


def fill(path: Path, score: int, text: str) -> None:
    """Writes into a form as an editor would: below the comments of three headings."""
    sections = path.read_text().split("==*== ")
    for place, section in enumerate(sections):
        heading = section.partition("\n")[0]
        value = {"Score": str(score), "Confidence": "3", "To the authors": text}.get(heading)
        if value is not None:
            sections[place] = f"{section.partition(chr(10) * 2)[0]}\n\n{value}\n\n"
    path.write_text("==*== ".join(sections))


def test_forms_are_made_filled_in_and_sent(server: Server, tmp_path: Path) -> None:
    reviewing(server)
    folder = tmp_path / "forms"
    assert server.call("bob", "form", "--into", folder).status == 0
    one, two = folder / "review-1.txt", folder / "review-2.txt"
    assert stat.S_IMODE(one.stat().st_mode) == 0o600 and "You review it as reviewer B." in one.read_text()
    done = server.call("bob", "review", one, two)
    assert done.status == 4 and done.err.count("no_score") == 2 and f"{two}, line" in done.err
    told = json.loads(server.call("bob", "--json", "review", one, two).err)
    assert [(each["path"], each["name"]) for each in told["problems"]] == [
        (str(path), name) for path in (one, two) for name in ("no_score", "no_confidence")]
    told = json.loads(server.call("bob", "--json", "review", one).err)
    lines = one.read_text().split("\n")
    assert told["error"] == "form_error" and [each["line"] for each in told["problems"]] == [
        lines.index("==*== Score") + 1, lines.index("==*== Confidence") + 1]
    fill(one, 4, "Good.")
    fill(two, 2, "Fair.")
    assert server.call("bob", "review", "--check", one, two).out == "2 forms can be sent\n"
    assert server.client("bob").reviews(1) == ()
    done = server.call("bob", "--json", "review", one, two)
    assert [(each["paper"], each["version"]) for each in done.json()] == [(1, 1), (2, 1)]
    fill(two, 3, "Fair, now.\n")
    done = server.call("bob", "review", one, two)
    assert done.out == "1 review sent\n" and "as it was, and not sent" in done.err and "version 2" in done.err
    found = server.client("bob").reviews(2)
    assert [(each.score, each.confidence, each.to_authors, each.to_pc) for each in found] == [
        (2, 3, "Fair.", ""), (3, 3, "Fair, now.", "")]


def test_a_form_that_is_there_is_left_as_it_is(server: Server, tmp_path: Path) -> None:
    reviewing(server)
    path = tmp_path / "review-1.txt"
    path.write_text("Mine.")
    done = server.call("bob", "--json", "form", "--into", tmp_path)
    assert done.status == 1 and path.read_text() == "Mine."
    assert done.json() == [{"paper": 1, "error": "file_taken"}, {"paper": 2, "path": str(tmp_path / "review-2.txt")}]
    assert server.call("bob", "--json", "form", 9, "--into", tmp_path).status == 1
    assert server.call("alice", "--json", "form", 1, "--into", tmp_path).json() == [
        {"paper": 1, "error": "not_reviewer"}]


def test_a_form_of_a_review_has_it(server: Server, tmp_path: Path) -> None:
    reviewing(server)
    bob = server.client("bob")
    bob.review(1, 5, 1, "== First", "old")
    bob.review(1, 4, 2, "== Second\r\n\r\n", "new\n== so")
    server.client("dave").review(1, 1, 1, "Not bob's.", "")
    for phase in ("reviewing", "discussion"):
        server.go_to(phase)
        folder = tmp_path / phase
        assert server.call("bob", "form", 1, "--into", folder).status == 0
        path = folder / "review-1.txt"
        assert parse(path.read_bytes()) == ReviewForm(1, 4, 2, "== Second", "new\n== so")
        assert server.call("bob", "--json", "review", path).json() == [{"path": str(path), "paper": 1}]
    assert len(server.client("bob").reviews(1)) == 2


def test_reviews_that_are_refused_are_named_and_the_others_sent(server: Server, tmp_path: Path) -> None:
    reviewing(server)
    paths = []
    for paper in (1, 2, 9):
        paths.append(tmp_path / f"{paper}.txt")
        paths[-1].write_text(render(paper, "", None, ReviewForm(paper, 3, 3, "Fair.", "")))
    done = server.call("dave", "--json", "review", *paths)
    assert done.status == 1
    assert [(each["paper"], each.get("version"), each.get("error")) for each in done.json()] == [
        (1, 1, None), (2, None, "not_reviewer"), (9, None, "no_paper")]
    again = tmp_path / "again.txt"
    again.write_text(render(1, "", None, ReviewForm(1, 3, 3, "Good.", "")))
    done = server.call("dave", "review", paths[0], again)
    assert done.status == 4 and "is of paper 1, as" in done.err
    server.go_to("response")
    assert server.call("dave", "review", again).status == 1
