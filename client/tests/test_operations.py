# SPDX-License-Identifier: Apache-2.0 OR MIT
"""The library beside docs/openapi.json and docs/API.md, both ways: methods, requests, answers, errors."""

from __future__ import annotations

import dataclasses
import datetime
import json
import re
from dataclasses import dataclass, field
from typing import Any

import pytest
import requests

from confd_client import Client, Credentials, answers, as_json, errors
from confd_client.bulks import Row
from tests.conftest import ROOT, secret_of

DOCUMENT: dict[str, Any] = json.loads((ROOT / "docs/openapi.json").read_text(encoding="utf-8"))
NOT_OPERATIONS = {"close", "credentials"}
UNTIL = datetime.datetime(1994, 11, 6, 9, 49, 37, tzinfo=datetime.timezone(datetime.timedelta(hours=1)))
VALUES = {"p": "1", "v": "2", "u": "carol", "t": "~~late"}
# How each method is called, so that it sends the example of the request that the document has.
CALLS: dict[str, tuple[Any, ...]] = {
    "register": ("alice", "alice-secret-000001"),
    "appoint": ("bob", "member"),
    "dismiss": ("carol",),
    "set_mode": ("anonymous",),
    "set_phase": ("submission",),
    "set_deadline": ("submission", UNTIL),
    "submit": ("Proofs", "", ["bob", "gus"]),
    "revise": (1, "Proofs, again", ""),
    "upload": (1, b"%PDF"),
    "content_of_version": (1, 2),
    "declare": (1, "dave"),
    "bid": (1, 5),
    "assign": (1, "bob", "primary"),
    "unassign": (1, "carol"),
    "invite": (1, "erin"),
    "uninvite": (1, "carol"),
    "review": (1, 4, 3, "Good.", "ok"),
    "respond": (1, "Thanks."),
    "comment": (1, "x"),
    "tag": (1, "~~late"),
    "untag": (1, "~~late"),
    "decide": (1, "accept"),
    "bulk": ([Row("1", "primary", "bob"), Row("2", "secondary", "bob"), Row("1", "tag", tag="hot"),
              Row("2", "pcreview", "dave")],),
    "plan": (3, 2),
    "search": ("#hot OR re:carol",),
}


@dataclass(frozen=True)
class Operation:
    """An operation of the document."""

    method: str
    path: str
    told: dict[str, Any] = field(hash=False)

    @property
    def name(self) -> str:
        """Its name as a method's."""
        return re.sub(r"([A-Z])", r"_\1", self.told["operationId"]).lower()

    @property
    def call(self) -> tuple[Any, ...]:
        """What its method is called with."""
        name = self.name.removeprefix("head_")
        return CALLS.get(name, (1,) if "{p}" in self.path else ())

    @property
    def parameters(self) -> list[dict[str, Any]]:
        """Its parameters in query and header."""
        return [resolved(each) for each in self.told.get("parameters", [])]

    @property
    def answer(self) -> tuple[int, str, Any]:
        """The status and type of its success, and an example of it."""
        status, told = next(each for each in self.told["responses"].items() if each[0].startswith("2"))
        for content_type, media in resolved(told).get("content", {}).items():
            examples = [each["value"] for each in media.get("examples", {}).values()]
            return int(status), content_type, media.get("example", examples[0] if examples else "%PDF")
        return int(status), "application/json", ""


def resolved(told: dict[str, Any]) -> dict[str, Any]:
    """What a reference refers to."""
    while "$ref" in told:
        target: Any = DOCUMENT
        for part in told["$ref"].removeprefix("#/").split("/"):
            target = target[part]
        told = target
    return told


OPERATIONS = [Operation(method.upper(), path, told) for path, methods in DOCUMENT["paths"].items()
              for method, told in methods.items() if method != "parameters"]


def test_there_is_a_method_for_each_operation_and_no_other() -> None:
    """The names of operations and methods are the same."""
    methods = {name for name in dir(Client) if not name.startswith("_")} - NOT_OPERATIONS
    assert methods == {operation.name for operation in OPERATIONS}
    assert len(OPERATIONS) == len({operation.name for operation in OPERATIONS})


def named(operation: Operation) -> str:
    """The name of a test of an operation."""
    return operation.name


@dataclass
class Sent:
    """A request as `requests` was handed it."""

    method: str
    url: str
    query: dict[str, str]
    body: bytes | None
    headers: dict[str, str]


def called(operation: Operation, monkeypatch: pytest.MonkeyPatch) -> tuple[Sent, Any]:
    """What an operation's method sends, and what it makes of the document's example of an answer."""
    sent: list[Sent] = []
    status, content_type, example = operation.answer

    def send(_: requests.Session, method: str, url: str, **more: Any) -> requests.Response:
        sent.append(Sent(method, url, more["params"], more["data"], more["headers"]))
        told = requests.Response()
        told.status_code = status
        content = b"" if method == "HEAD" else (
            example.encode() if isinstance(example, str) else json.dumps(example).encode())
        told._content = content
        told.headers["Content-Type"] = content_type
        told.headers["Content-Length"] = str(len(content))
        return told

    monkeypatch.setattr(requests.Session, "request", send)
    with Client("http://127.0.0.1:1", Credentials("alice", secret_of("alice"))) as client:
        result = getattr(client, operation.name)(*operation.call)
    assert len(sent) == 1
    return sent[0], result


@pytest.mark.parametrize("operation", OPERATIONS, ids=named)
def test_a_method_sends_what_its_operation_asks(operation: Operation, monkeypatch: pytest.MonkeyPatch) -> None:
    """Method, path, query and body are the operation's, and a number is there where it takes one."""
    sent, _ = called(operation, monkeypatch)
    path = re.sub(r"\{(\w)\}", lambda found: VALUES[found[1]], operation.path)
    assert (sent.method, sent.url) == (operation.method, f"http://127.0.0.1:1{path}")
    wanted = {each["name"] for each in operation.parameters if each["in"] == "query" and each.get("required")}
    assert set(sent.query) == wanted
    takes_number = any(each["name"] == "Command-Number" for each in operation.parameters)
    assert ("Command-Number" in sent.headers) == takes_number
    if takes_number:
        assert re.fullmatch("[1-9][0-9]{0,17}", sent.headers["Command-Number"])
    if "requestBody" not in operation.told:
        assert sent.body is None
        return
    (body_type, media), = operation.told["requestBody"]["content"].items()
    assert sent.body is not None and sent.headers["Content-Type"].partition(";")[0] == body_type
    if body_type == "application/json":
        assert json.loads(sent.body) == media["example"]
    else:
        assert sent.body.decode() == media.get("example", "%PDF")


def keys(told: object) -> set[str]:
    """All keys of a JSON value, at whatever depth."""
    if isinstance(told, dict):
        return set(told) | {key for each in told.values() for key in keys(each)}
    if isinstance(told, list):
        return {key for each in told for key in keys(each)}
    return set()


@pytest.mark.parametrize("operation", OPERATIONS, ids=named)
def test_a_method_tells_the_whole_answer(operation: Operation, monkeypatch: pytest.MonkeyPatch) -> None:
    """What a method makes of the document's example has all that the example has."""
    _, result = called(operation, monkeypatch)
    _, content_type, example = operation.answer
    told = as_json(result)
    if operation.method == "HEAD":
        assert (result.status, result.length) == (200, 0)
    elif operation.name == "plan":
        assert [(row.paper, row.action, row.user, row.tag) for row in result] == [
            ("1", "pcreview", "dave", ""), ("2", "pcreview", "bob", "")]
    elif operation.name.endswith("_report"):
        assert [each.name if hasattr(each, "name") else each.title for each in result][0] in example
    elif content_type != "application/json":
        assert result in (example, example.encode())
    elif isinstance(told, (int, str)):
        assert [told] == list(example.values())
    else:
        assert told == (example if isinstance(told, dict) else next(iter(example.values())))


@pytest.mark.parametrize(("cls", "schema"), [
    (answers.Page, "Page"), (answers.Reviewer, "Reviewer"), (answers.Review, "Review"), (answers.Comment, "Comment")])
def test_a_class_has_the_fields_of_its_schema(cls: type, schema: str) -> None:
    """Fields and properties are the same, and so are those that are always there."""
    told = DOCUMENT["components"]["schemas"][schema]
    fields = {each.name: each.default is dataclasses.MISSING for each in dataclasses.fields(cls)}
    assert set(fields) == set(told["properties"])
    assert {name for name, required in fields.items() if required} == set(told["required"])


@pytest.mark.parametrize(("cls", "schema"), [
    (answers.Role, "Role"), (answers.Mode, "Mode"), (answers.Phase, "Phase"), (answers.Kind, "Kind")])
def test_an_enumeration_has_the_values_of_its_schema(cls: Any, schema: str) -> None:
    """In their order."""
    assert [each.value for each in cls] == DOCUMENT["components"]["schemas"][schema]["enum"]


def errors_of_the_page() -> dict[str, int]:
    """The errors of docs/API.md, section 3, with their statuses."""
    page = (ROOT / "docs/API.md").read_text(encoding="utf-8")
    table = page[page.index("## 3. Errors"):page.index("### Sent again")]
    return {name: int(status) for name, status in re.findall(r"^\|`(\w+)`\|(\d{3})\|", table, re.MULTILINE)}


def errors_of_the_document() -> set[str]:
    """The errors that docs/openapi.json lists anywhere."""
    names: set[str] = set(DOCUMENT["x-errors-of-all"])
    for operation in OPERATIONS:
        names |= set(operation.told.get("x-errors", []))
    return names | set(DOCUMENT["components"]["schemas"]["BulkRow"]["properties"]["rule"]["enum"])


def test_there_is_an_exception_for_each_error_and_no_other() -> None:
    """By the page and by the document."""
    assert set(errors.REFUSALS) == set(errors_of_the_page())
    assert set(errors.REFUSALS) >= errors_of_the_document()
    assert all(cls.meaning() for cls in errors.REFUSALS.values())


@pytest.mark.parametrize(("name", "status"), errors_of_the_page().items())
def test_a_refusal_is_raised_by_its_name(name: str, status: int) -> None:
    """With row, rule and place where the answer has them."""
    told: dict[str, Any] = {"error": name}
    told |= {"row": 4, "rule": "target_conflict"} if name == "bulk_row" else {}
    told |= {"place": 9} if name == "bad_query" else {}
    raised = errors.refusal(status, told, "GET /me")
    assert type(raised) is errors.REFUSALS[name] and raised.name == name and raised.status == status
    assert (raised.row, raised.rule, raised.place) == (told.get("row"), told.get("rule"), told.get("place"))
    assert name in str(raised)
    assert raised.details()["error"] == name


@pytest.mark.parametrize("told", [None, [], {}, {"error": "unheard_of"}, "<html>"])
def test_what_is_no_refusal_of_confds_is_unexpected(told: object) -> None:
    """Such as a page of a gateway's."""
    with pytest.raises(errors.Unexpected):
        errors.refusal(413, told, "GET /me")


@pytest.mark.parametrize(("cls", "told"), [
    (answers.Me, {}), (answers.Me, []), (answers.Conference, {"mode": "blind", "papers": "3", "phase": "setup"}),
    (answers.Conference, {"mode": "blind", "papers": True, "phase": "setup"}),
    (answers.Conference, {"mode": "dim", "papers": 3, "phase": "setup"}),
    (answers.Deadline, {"phase": "setup", "until": "soon"}), (answers.Page, {"paper": 1, "authors": "erin"})])
def test_an_answer_of_another_form_is_unexpected(cls: type, told: object) -> None:
    """A key that is missing, another type, another word."""
    with pytest.raises(errors.Unexpected):
        answers.read(cls, told)
