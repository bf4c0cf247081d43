#!/usr/bin/env python3
# SPDX-License-Identifier: Apache-2.0 OR MIT
"""Compares docs/openapi.json with what the cases of crates/conformance/data send, and with what is due there.

    python3 checks/openapi.py [WORD..]   the document in itself, and case files with a WORD in their name; none: all
    python3 checks/openapi.py --lay      lays the document out anew

The document has to be valid by OpenAPI 3.1 and by JSON Schema 2020-12, with every reference led somewhere, and the
names of errors in one order. Each request that is answered 2xx or by a rule has to fit it, by path, method, login,
parameters and body. One that is refused for its body, its number or its query string has not to fit, except for
searches and times, whose grammars no schema tells. Each answer has to fit it, by status, fields, type and content. What
comes has to be declared. If all files are read, each status and each error that is declared has to come, and each
example.

Needs python3-jsonschema (Debian), in the python that runs this or in /usr/bin/python3; where neither has it, it says
so and ends with status 0. Prints a line for each thing that is wrong, and last how many requests and answers were
compared; ends with status 0 where nothing is wrong. Takes some 10 seconds of a processor.
"""
import decimal
import json
import os
import re
import sys
import urllib.parse

from lib.cases import HEADLESS, exchanges
from lib.openapi_document import FILE, Document, examples, laid, wrong_in_itself
from lib.places import TOP


SYSTEM = "/usr/bin/python3"
try:
    import jsonschema  # noqa: F401
except ImportError:
    if os.path.exists(SYSTEM) and os.path.realpath(sys.executable) != os.path.realpath(SYSTEM):
        os.execv(SYSTEM, [SYSTEM] + sys.argv)
    print("python3-jsonschema isn't there: docs/openapi.json is compared with nothing")
    sys.exit(0)


DATA = TOP / "crates/conformance/data"
# What is said by a segment of the path that is none of its kind. A tag is told by bad_body.
UNKNOWN = {"p": "no_paper", "v": "no_content", "u": "no_user"}
# What is refused by these has not to fit.
MISFIT = {"bad_number", "bad_body", "bad_query"}
# What no case shows: memory doesn't run out in one, since what runs out then is the machine's.
UNSHOWN = {"no_memory"}
# Nor what other rules leave no room for: a withdrawn paper has no reviewers, since it is withdrawn before the bidding,
# and assigning somebody to it is refused.
UNREACHED = {("PUT /papers/{p}/review", "withdrawn")}
DEEPEST = 127


# ---- values as they are written

def read_json(content):
    """What a body says, if it can be read: numbers with a fraction or an exponent stay apart from whole ones."""
    def whole(text):
        return decimal.Decimal(text) if text == "-0" or not -(2**63) <= int(text) < 2**64 else int(text)

    def fraction(text):
        if abs(float(text)) == float("inf"):
            raise ValueError(text)
        return decimal.Decimal(text)

    def constant(text):
        raise ValueError(text)

    text = content.decode("utf-8")
    if text.count("[") + text.count("{") > DEEPEST and deepest(text) > DEEPEST:
        raise ValueError("too deep")
    value = json.loads(text, parse_int=whole, parse_float=fraction, parse_constant=constant)
    if "\\u" in text and has_half(json.loads(text)):
        raise ValueError("half of a surrogate pair")
    return value


def deepest(text):
    """How many lists and objects stand in each other at most; texts in quotation marks aside."""
    depth = most = 0
    for mark in re.sub(r'"(\\.|[^"\\])*"', "", text):
        depth += (mark in "[{") - (mark in "]}")
        most = max(most, depth)
    return most


def has_half(value):
    """Whether a text has half of a surrogate pair."""
    return re.search("[\ud800-\udfff]", json.dumps(value, ensure_ascii=False)) is not None


def value_of(schema, text):
    """The value that a parameter or a field writes: a whole number in decimal, or the text itself."""
    is_number = schema.get("type") == "integer" and re.fullmatch(r"0|[1-9][0-9]*", text)
    return int(text) if is_number else text


# ---- one request, one answer

class Compared:
    """The document beside what comes: what is wrong, what has come, and how much was compared."""

    def __init__(self, document):
        self.document, self.wrong = document, {}
        self.requests = self.answers = 0
        self.seen, self.contents, self.bodies = set(), {}, {}
        self.elsewhere = set()
        self.known, self.done = {}, set()

    def say(self, where, what):
        self.wrong.setdefault(what, where)

    def misfit(self, schema, value, key):
        """As the document's, remembered by a key."""
        key = (id(schema), key)
        if key not in self.known:
            self.known[key] = self.document.misfit(schema, value)
        return self.known[key]

    def exchange(self, where, request, answer):
        """A request and its answer, where they aren't those of an earlier line."""
        told = (request.method, request.target, *request.fields, request.body) if request else ()
        key = (told, answer.status, *answer.fields.values(), answer.content, answer.is_head)
        self.answers += 1
        self.requests += request is not None and not answer.closes()
        if key not in self.done:
            self.done.add(key)
            self.compare(where, request, answer)

    def compare(self, where, request, answer):
        """A request and its answer: the operation is that of GET /phase if what came has no method."""
        path, names, method = "/phase", {}, "HEAD" if answer.is_head else "GET"
        if request:
            path, names = self.document.route(request.target.split("?")[0])
            method = request.method
        operation = self.document.operation(method, path)
        what = f"{method} {path}"
        response = self.response(where, what, path, operation, answer)
        if response is None:
            return
        self.answer(where, what, path, response, answer)
        if request and operation and not answer.closes():
            self.request(where, what, path, operation, names, request, answer)

    def response(self, where, what, path, operation, answer):
        """What the document has of an answer's status; of paths and methods that it hasn't, what it has of those."""
        told = operation["responses"] if operation else self.document.whole["x-answers-elsewhere"]
        due = None if operation or answer.closes() else "405" if path else "404"
        if answer.status not in told or due not in (None, answer.status):
            self.say(where, f"{what}: {answer.status} isn't declared")
            return None
        if not operation:
            self.elsewhere.add(("another method" if path else "another path", json.loads(answer.content)["error"]))
        if due == "405":
            told_methods = ", ".join(sorted(key.upper() for key in self.document.paths[path] if key != "parameters"))
            allow = answer.fields.get("Allow")
            if allow != told_methods:
                self.say(where, f"{what}: Allow is {allow} and the document's methods are {told_methods}")
        return self.document.at(told[answer.status])

    # ---- an answer

    def answer(self, where, what, path, response, answer):
        self.fields(where, what, response, answer)
        media = response.get("content", {})
        if answer.is_head:
            get = self.document.operation("GET", path) or {"responses": self.document.whole["x-answers-elsewhere"]}
            media = self.document.at(get["responses"].get(answer.status, {})).get("content", {})
        kind = answer.fields["Content-Type"]
        if kind not in media:
            self.say(where, f"{what}: {answer.status} has no content of {kind}")
            return
        value = answer.content
        if kind == "application/json":
            value = json.loads(value)
            self.seen.add((what, answer.status, value.get("error") if answer.status >= "400" else None))
        else:
            self.seen.add((what, answer.status, None))
        if kind.startswith("text/"):
            value = value.decode()
        if "schema" in media[kind]:
            why = self.misfit(media[kind]["schema"], value, answer.content)
            if why:
                self.say(where, f"{what}: the content of {answer.status} doesn't fit: {why}")
        self.contents.setdefault(id(response), set()).add(answer.content)

    def fields(self, where, what, response, answer):
        told = {name: self.document.at(header) for name, header in response.get("headers", {}).items()}
        for name, header in told.items():
            if name not in answer.fields:
                if header.get("required"):
                    self.say(where, f"{what}: {answer.status} has no field {name}")
                continue
            value = answer.fields[name]
            why = self.misfit(header["schema"], value_of(header["schema"], value), value)
            if why:
                self.say(where, f"{what}: the field {name} of {answer.status} doesn't fit: {why}")
        for name in answer.fields:
            if name not in told and name not in ("Content-Type", "Content-Length"):
                self.say(where, f"{what}: {answer.status} has the field {name}, which isn't declared")

    # ---- a request

    def request(self, where, what, path, operation, names, request, answer):
        """What is answered 2xx or by a rule has to fit; what is refused for its number or its body has not to."""
        error = json.loads(answer.content).get("error") if answer.status >= "400" else None
        misfits = {
            "unauthorized": self.login_misfit(operation, request),
            "bad_number": self.number_misfit(path, operation, request),
            "bad_body": self.body_misfit(operation, request),
            **self.path_misfits(path, operation, names),
        }
        if any(parameter["in"] == "query" for parameter in self.document.parameters(path, operation)):
            misfits["bad_query"] = self.query_misfit(path, operation, request)
        get = self.document.paths[path].get("get", operation) if request.method == "HEAD" else operation
        order = get["x-errors"]
        for name, why in misfits.items():
            is_told = error in order and name in order and order.index(error) <= order.index(name)
            if why and not is_told:
                shown = error or answer.status
                self.say(where, f"{what}: answered {shown}, and its request doesn't fit ({name}): {why}")
        if error in MISFIT and not misfits[error] and not self.is_untold(path, error, request):
            self.say(where, f"{what}: answered {error}, and its request fits")
        if operation.get("requestBody"):
            self.bodies.setdefault(what, set()).add(request.body)

    def is_untold(self, path, error, request):
        """Whether a search or a time was refused, of whose grammars the document's schemas don't speak."""
        is_time = path == "/deadlines" and error == "bad_body" and isinstance(read_json(request.body)["until"], str)
        return is_time or (path == "/search" and error == "bad_query")

    def login_misfit(self, operation, request):
        """Whether a login is wanted that isn't there in its form."""
        if operation.get("security", self.document.whole["security"]) != [{"bearer": []}]:
            return None
        token = self.document.components["securitySchemes"]["bearer"]["x-pattern"].strip("^$")
        told = request.values("authorization")
        return None if len(told) == 1 and re.fullmatch(f"(?i:bearer) +({token})", told[0]) else f"the login {told}"

    def number_misfit(self, path, operation, request):
        told = request.values("command-number")
        for parameter in self.document.parameters(path, operation):
            if parameter["in"] == "header" and told:
                return "two numbers" if len(told) > 1 else self.misfit(parameter["schema"], told[0], told[0])
        return None

    def path_misfits(self, path, operation, names):
        """By the error that tells it, what stands in the path and isn't of its kind."""
        told = {}
        for parameter in self.document.parameters(path, operation):
            if parameter["in"] == "path":
                text = names[parameter["name"]]
                value = value_of(self.document.at(parameter["schema"]), text)
                told[UNKNOWN.get(parameter["name"], "bad_body")] = self.misfit(parameter["schema"], value, text)
        return {name: why for name, why in told.items() if why or name == "bad_body"}

    def query_misfit(self, path, operation, request):
        pairs = urllib.parse.parse_qsl(request.target.partition("?")[2], keep_blank_values=True)
        for parameter in self.document.parameters(path, operation):
            values = [value for name, value in pairs if name == parameter["name"]]
            if parameter.get("required") and not values and parameter["in"] == "query":
                return f"no {parameter['name']}"
            if values:
                why = self.misfit(parameter["schema"], value_of(parameter["schema"], values[0]), values[0])
                if why:
                    return why
        return None

    def body_misfit(self, operation, request):
        media = operation.get("requestBody", {}).get("content", {})
        for kind, told in media.items():
            if "schema" not in told:
                continue
            key = (id(told), request.body)
            if key not in self.known:
                self.known[key] = self.read_misfit(kind, told["schema"], request.body)
            return self.known[key]
        return None

    def read_misfit(self, kind, schema, body):
        try:
            value = read_json(body) if kind == "application/json" else body.decode("utf-8")
        except (ValueError, RecursionError) as error:
            return f"it can't be read: {str(error)[:60]}"
        return self.document.misfit(schema, value)

    # ---- what is declared and doesn't come

    def unseen(self):
        """The statuses and errors of an operation that no case shows; what comes of any request is looked for once."""
        anywhere = set(self.document.whole["x-errors-of-all"])
        shown = {error for _, _, error in self.seen}
        yield from (f"no case shows {name}" for name in sorted(anywhere - shown))
        statuses = {seen[:2] for seen in self.seen}
        for what, path, operation in self.document.operations():
            refusals = self.document.refusals(operation)
            for status in operation["responses"]:
                for name in refusals.get(status, []):
                    is_due = (what, name) not in UNREACHED
                    if name not in anywhere | UNSHOWN and ((what, status, name) in self.seen) != is_due:
                        yield f"{what}: {'no' if is_due else 'a'} case shows {status} {name}"
                if status not in refusals and (what, status) not in statuses and not self.is_any(path, status):
                    yield f"{what}: no case shows {status}"

    def unseen_elsewhere(self):
        """The errors that no case shows of another method, or of another path."""
        names = set(self.document.whole["x-errors-of-all"]) - set(HEADLESS)
        for kind, other in (("another method", "no_route"), ("another path", "wrong_method")):
            shown = {error for where, error in self.elsewhere if where == kind}
            yield from (f"no case shows {name} of {kind}" for name in sorted((names - {other}) ^ shown))

    def is_any(self, path, status):
        """Whether a status of HEAD is one that GET has for bytes that are no request, or for want of memory, alone."""
        get = self.document.refusals(self.document.paths[path].get("get", {"responses": {}}))
        return status in get and set(get[status]) <= set(self.document.whole["x-errors-of-all"]) | UNSHOWN

    def unseen_examples(self):
        """Examples of bodies and of contents that no case has."""
        for what, _, operation in self.document.operations():
            for media in operation.get("requestBody", {}).get("content", {}).values():
                if not self.has_all(examples(media), self.bodies.get(what, ())):
                    yield f"{what}: no case sends the example of its body"
            for status, response in operation["responses"].items():
                if "$ref" not in response and not self.has_examples(response):
                    yield f"{what}: no case has the example of its {status}"
        for name, response in self.document.components["responses"].items():
            if not self.has_examples(response):
                yield f"no case has the example of the response {name}"

    def has_examples(self, response):
        unshown = [{"error": name} for name in UNSHOWN]
        told = [example for media in response.get("content", {}).values() for example in examples(media)]
        return self.has_all([value for value in told if value not in unshown], self.contents.get(id(response), ()))

    def has_all(self, told, contents):
        """Whether each value is one of the contents, as JSON or as a text."""
        return all(value in [as_value(content, value) for content in contents] for value in told)


def as_value(content, like):
    """A content as what it is compared with: a text, or what JSON says."""
    try:
        return content.decode() if isinstance(like, str) else json.loads(content)
    except ValueError:
        return None


def main():
    text = FILE.read_text()
    if sys.argv[1:] == ["--lay"]:
        FILE.write_text(laid(json.loads(text)) + "\n")
        return 0
    words, document = sys.argv[1:], Document(text)
    wrong, compared = wrong_in_itself(document, text), Compared(document)
    for path in () if wrong else sorted(DATA.glob("*.case")):
        if words and not any(word in path.name for word in words):
            continue
        for line, request, answer in exchanges(path):
            compared.exchange(f"{path.name}:{line}", request, answer)
    wrong += [f"{where}: {what}" for what, where in compared.wrong.items()]
    if not words and not wrong:
        wrong += [*compared.unseen(), *compared.unseen_elsewhere(), *compared.unseen_examples()]
    counted = f"{compared.requests} requests and {compared.answers} answers compared, {len(wrong)} wrong"
    print("\n".join(wrong + [counted]))
    return 1 if wrong else 0


if __name__ == "__main__":
    sys.exit(main())
