#!/usr/bin/env python3
# SPDX-License-Identifier: Apache-2.0 OR MIT
"""Asks the small model of `model.py` what the cases of crates/conformance/data send, and compares its answers with
those that are due there. So a second source, which no program answered, says what a case expects.

    checks/replay.py           all case files
    checks/replay.py WORD..    those with a WORD in their name

A case is left out if it begins with a store's rows, if something fails in it, or if it has no conference. What is
refused for its head, its path or its body is left out too, since the model knows nothing of these. Prints a line for
each answer that the model gives otherwise, and last how many were compared and how many cases were left out. Ends with
status 0 if all are alike. Needs only Python 3. Takes some 15 seconds of a processor.
"""
import email.utils
import json
import re
import sys

from lib.cases import CLOSING, cases, exchanges_in
from lib.model import Conference, secret_of
from lib.places import TOP


DATA = TOP / "crates/conformance/data"
# What a request is refused for before any rule is asked.
UNASKED = {b'{"error":"%s"}' % name.encode()
           for name in (*CLOSING, "no_route", "wrong_method", "bad_body", "bad_number")}
# Ten thousand accounts, for which the model is too slow.
LONG = {"limits.case"}
TOKEN = re.compile(r"(?i:bearer) +([a-z0-9]+\.[^ ]+)")


def is_of_model(lines):
    """Whether the model can follow a case: a conference that begins without a row, and in which no call fails."""
    return all(line == "!whole" or not line.startswith(("@", "!", "$ confd drill", "$ confd view", "|"))
               for _, line in lines)


def caller(request):
    """Who asks, as the model names callers."""
    told = [TOKEN.fullmatch(value) for value in request.values("authorization")]
    return told[0][1] if len(told) == 1 and told[0] else "-"


def body_of(request):
    """A request's body as the model takes it: a text, or what JSON says; what is neither is refused unread."""
    text = request.body.decode("utf-8", "surrogateescape")
    if request.target.endswith("/content") or request.target.startswith("/assign"):
        return text
    try:
        return json.loads(text)
    except ValueError:
        return None


def is_asked(request, answer):
    """Whether a rule answers, or what is there: what is wrong with a head, a path, a body or a plan's sizes, the model
    isn't told."""
    is_search = request is not None and request.target.startswith("/search")
    return answer.content not in UNASKED and (is_search or not answer.content.startswith(b'{"error":"bad_query"'))


def moment_of(answer):
    return int(email.utils.parsedate_to_datetime(answer.fields["Date"]).timestamp())


def compared(lines):
    """The answers of a case that the model was asked for: of each its line, what is due, and what the model says."""
    conference = Conference()
    for number, request, answer in sorted(exchanges_in(lines), key=lambda it: it[0]):
        if request is None or not is_asked(request, answer):
            continue
        body = body_of(request)
        if request.target == "/register" and body["secret"] != secret_of(body["name"]):
            return  # the model knows everybody by that secret
        conference.now = moment_of(answer)
        code, content = conference.ask(caller(request), request.method, request.target, body,
                                       request.values("command-number"))
        said = re.sub("^(bytes|text): ", "", content)
        yield number, (int(answer.status), answer.content), (code, said.encode("utf-8", "surrogateescape"))


def main():
    words = sys.argv[1:]
    count = left = other = 0
    for path in sorted(DATA.glob("*.case")):
        if path.name in LONG or words and not any(word in path.name for word in words):
            continue
        for lines in cases(path):
            if not is_of_model(lines):
                left += 1
                continue
            for number, due, said in compared(lines):
                count += 1
                if due != said:
                    other += 1
                    print(f"{path.name}:{number}: due {due}, the model says {said}")
    print(f"{count:,} answers compared, {other} otherwise; {left} cases left out")
    sys.exit(other > 0)


if __name__ == "__main__":
    main()
