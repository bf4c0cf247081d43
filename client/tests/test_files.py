# SPDX-License-Identifier: Apache-2.0 OR MIT
"""Files that users hand in: tables, rows of bulks, secrets."""

from __future__ import annotations

import os
import random
from pathlib import Path

import pytest

from confd_client import BadFile, Credentials, read_secret_file
from confd_client.bulks import Row, bulk_text, pieces, plan_rows, shuffled
from confd_client.cli.plan import paper_numbers
from confd_client.cli.posting import read_rows
from confd_client.credentials import NAME, SECRET, made_up_secret, write_secret_file
from confd_client.errors import Unexpected
from confd_client.tables import read_table, write_table


def test_a_table(tmp_path: Path) -> None:
    """Columns in any order, others beside them, blanks, quotes, a byte order mark, lines that are empty or short."""
    path = tmp_path / "table.csv"
    path.write_bytes('\ufeffrole, name ,note\r\nmember, bob ,"x, ""y""\r\nz"\r\n\r\nchair,alice\r\n'.encode())
    lines = read_table(path, ("name", "role"), ("note", "more"))
    assert [(line.number, line.values) for line in lines] == [
        (3, {"name": "bob", "role": "member", "note": 'x, "y"\r\nz', "more": ""}),
        (5, {"name": "alice", "role": "chair", "note": "", "more": ""})]


@pytest.mark.parametrize(("text", "line"), [
    (b"", 1), (b"name\nbob\n", 1), (b"name,role,name\n", 1), (b"name,role\nbob,member,x\n", 2),
    (b"name,role\n\xff,x\n", None)])
def test_what_is_no_table(tmp_path: Path, text: bytes, line: int | None) -> None:
    """No header, a column that is missing or there twice, too many fields, other bytes than UTF-8."""
    path = tmp_path / "table.csv"
    path.write_bytes(text)
    with pytest.raises(BadFile) as raised:
        read_table(path, ("name", "role"))
    assert raised.value.line == line and str(path) in str(raised.value)


def test_a_table_that_is_not_there(tmp_path: Path) -> None:
    """It is named."""
    with pytest.raises(BadFile, match="No such file"):
        read_table(tmp_path / "table.csv", ("name",))
    with pytest.raises(BadFile):
        write_table(tmp_path / "nowhere" / "table.csv", ("name",), [])


def test_a_table_comes_back(tmp_path: Path) -> None:
    """What is written is read."""
    path = tmp_path / "table.csv"
    write_table(path, ("name", "note"), [("bob", 'a "b", c\nd'), ("erin", "")])
    assert [line.values for line in read_table(path, ("name", "note"))] == [
        {"name": "bob", "note": 'a "b", c\nd'}, {"name": "erin", "note": ""}]


def test_numbers_and_words_of_a_table(tmp_path: Path) -> None:
    """In their range, else the line is told."""
    path = tmp_path / "table.csv"
    path.write_text("paper,decision\n7,accept\nx,maybe\n")
    fine, wrong = read_table(path, ("paper", "decision"))
    assert (fine.whole("paper", 1, 9), fine.one_of("decision", ["accept"])) == (7, "accept")
    with pytest.raises(BadFile, match="8 to 9"):
        fine.whole("paper", 8, 9)
    with pytest.raises(BadFile, match="line 3"):
        wrong.whole("paper", 1, 9)
    with pytest.raises(BadFile, match="line 3"):
        wrong.one_of("decision", ["accept"])


def test_columns_that_are_not_there(tmp_path: Path) -> None:
    """What the first line says is told, such as one with other separators."""
    path = tmp_path / "table.csv"
    path.write_text("paper;decision\n7;accept\n")
    with pytest.raises(BadFile, match="line 1: .*commas.* 'paper;decision'"):
        read_table(path, ("paper", "decision"))


def test_a_bulk_is_what_the_api_shows() -> None:
    """The file of docs/API.md, section 8."""
    rows = [Row("1", "primary", "bob"), Row("2", "secondary", "bob"), Row("1", "tag", tag="hot"),
            Row("2", "pcreview", "dave")]
    text = b"paper,action,user,tag\n1,primary,bob,\n2,secondary,bob,\n1,tag,,hot\n2,pcreview,dave,\n"
    assert bulk_text(rows) == text
    assert list(plan_rows(text)) == rows
    assert bulk_text([]) == b"paper,action,user,tag\n"
    for wrong in (b"", b"paper,action,user\n", b"paper,action,user,tag\n1,2,3\n", b"\xff"):
        with pytest.raises(Unexpected):
            plan_rows(wrong)


def test_shuffled_rows_mean_the_same() -> None:
    """All rows are there; of each paper only runs of rows that assign change their order; and they do change it."""
    rows = [Row("1", "primary", name) for name in "abcdefgh"]
    rows += [Row("2", "clearreview", "a"), Row("2", "primary", "a"), Row("2", "conflict", "b")]
    rows += [Row("1", "pcreview", "i")]
    orders = set()
    for seed in range(50):
        told = shuffled(rows, random.Random(seed))
        assert sorted(told, key=repr) == sorted(rows, key=repr)
        assert [row for row in told if row.paper == "2"] == rows[8:11]
        assert {row.user for row in told[:9]} == set("abcdefghi")
        orders.add(tuple(row.user for row in told[:9]))
    assert len(orders) > 40
    first = [order.index("a") for order in orders]
    assert set(first) == set(range(9))


@pytest.mark.parametrize("sizes", [[], [1], [511, 1], [512], [513], [26] * 40, [1000, 3, 600], [300, 300, 300]])
def test_pieces(sizes: list[int]) -> None:
    """At most 512 rows each, in order, none lost, and no paper cut that fits."""
    rows = [Row(str(paper), "tag", tag=f"t{place}") for paper, size in enumerate(sizes, 1) for place in range(size)]
    told = list(pieces(rows))
    assert [row for piece in told for row in piece] == rows
    assert all(0 < len(piece) <= 512 for piece in told)
    for paper, size in enumerate(sizes, 1):
        if size <= 512 and all(each <= 512 for each in sizes):
            assert len([piece for piece in told if any(row.paper == str(paper) for row in piece)]) == 1


@pytest.mark.parametrize("row", ["x,primary,bob,", "01,primary,bob,", "1,sing,bob,", "1,primary,Bob,", "1,primary,,",
                                 "1,tag,,HOT", "1,tag,,~~~x", "10000,tag,,hot"])
def test_rows_that_no_server_takes(tmp_path: Path, row: str) -> None:
    """They are told by their line, before anything is sent."""
    path = tmp_path / "rows.csv"
    path.write_text(f"paper,action,user,tag\n1,tag,,hot\n{row}\n")
    with pytest.raises(BadFile) as raised:
        read_rows(path)
    assert raised.value.line == 3


def test_numbers_of_papers() -> None:
    """Ranges and single ones."""
    assert paper_numbers("1-3, 7,5-6,2") == [1, 2, 3, 5, 6, 7]
    for wrong in ("", "1-", "0", "a", "1,,2", "12345"):
        with pytest.raises(ValueError, match="neither"):
            paper_numbers(wrong)


def test_a_secret_file(tmp_path: Path) -> None:
    """It is made for its owner alone, and read; with the name, or the secret alone."""
    path = tmp_path / "folder" / "secret"
    credentials = Credentials("alice", "alice-secret-000001")
    write_secret_file(path, credentials)
    assert path.stat().st_mode & 0o777 == 0o600
    assert read_secret_file(path) == read_secret_file(path, "alice") == credentials
    with pytest.raises(BadFile):
        write_secret_file(path, credentials)
    path.write_text("alice-secret-000001\n")
    assert read_secret_file(path, "alice") == credentials
    assert "secret-000001" not in repr(credentials)


@pytest.mark.parametrize(("text", "name"), [
    ("alice-secret-000001", None), ("alice.alice-secret-000001", "bob"), ("short", "alice"), ("", "alice"),
    ("Alice.alice-secret-000001", None), ("a.b.alice-secret-000001", None), ("x" * 2000, "alice")])
def test_what_is_no_secret_file(tmp_path: Path, text: str, name: str | None) -> None:
    """No name, another's, no secret; what it has isn't repeated."""
    path = tmp_path / "secret"
    path.write_text(text)
    path.chmod(0o600)
    with pytest.raises(BadFile) as raised:
        read_secret_file(path, name)
    assert "secret-000001" not in str(raised.value)


@pytest.mark.parametrize("mode", [0o640, 0o604, 0o660, 0o620, 0o601, 0o777])
def test_a_secret_file_that_others_may_read(tmp_path: Path, mode: int) -> None:
    """It isn't taken, whatever it has."""
    path = tmp_path / "secret"
    path.write_text("alice.alice-secret-000001")
    path.chmod(mode)
    with pytest.raises(BadFile, match="chmod 600"):
        read_secret_file(path)


def test_a_secret_file_of_another_kind(tmp_path: Path) -> None:
    """A folder, nothing, a file of another user's."""
    with pytest.raises(BadFile):
        read_secret_file(tmp_path)
    with pytest.raises(BadFile):
        read_secret_file(tmp_path / "none")
    with pytest.raises(BadFile, match="regular"):
        read_secret_file(Path("/dev/null"))
    if os.geteuid() == 0:
        path = tmp_path / "secret"
        path.write_text("alice.alice-secret-000001")
        path.chmod(0o600)
        os.chown(path, 65534, 65534)
        with pytest.raises(BadFile, match="another user"):
            read_secret_file(path)


def test_secrets_that_are_made_up() -> None:
    """They can be registered, and differ."""
    told = {made_up_secret() for _ in range(100)}
    assert len(told) == 100 and all(SECRET.fullmatch(each) for each in told)
    assert NAME.fullmatch("a-1") and not NAME.fullmatch("A")
