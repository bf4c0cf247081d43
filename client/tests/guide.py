# SPDX-License-Identifier: Apache-2.0 OR MIT
"""Runs docs/CLIENT.md: each command of it as it is typed, against a server, and what others do meanwhile.

A block ```console has lines `NAME$ COMMAND`, and below each what it prints, on either stream. A line `...` of what is
printed stands for any lines, and ` ...` at the end of one for any text. Each user has a folder and a home of their own.
A comment `<!-- meanwhile: NAME -->` is where the function NAME of MEANWHILE does what the page tells of the others.

    python3 -m tests.guide [--write]        in client/: prints what each command prints, and whether the page says so;
                                            with --write puts it into the page where that says otherwise

Nothing that the page shows may be by chance: bids, scores and sizes come from seeds.
"""

from __future__ import annotations

import contextlib
import csv
import doctest
import os
import random
import re
import subprocess
import sys
import tempfile
from collections.abc import Callable, Iterator
from dataclasses import dataclass, field
from pathlib import Path

from confd_client import Client, Credentials, Decision
from confd_client.credentials import read_secret_file, write_secret_file
from tests.conftest import ROOT, Server, secret_of

PAGE = ROOT / "docs/CLIENT.md"
PAPERS, MEMBERS, ACCOUNTS = 120, 42, 300
CONTENT_BYTES = 3_000
TOPICS = ("proof", "type", "order", "logic", "kernel", "memory", "lock", "trace", "model", "term", "rule", "store")
CHAIRS = ("alice", "carol")
NAMED = (*CHAIRS, "bob", "dave")
"""The members whom the page names; the others have numbers."""
AUTHORS = {50: "bob", 60: "alice"}
"""Members who submit papers, by these."""
MISSING = {7: "B", 70: "A"}
"""The reviews that nobody writes: the labels, by papers."""


@dataclass(frozen=True)
class Step:
    """One command, who types it, what it should print, and in which line of the page it stands; or a `meanwhile`."""

    line: int
    user: str
    command: str
    expected: str


def steps(text: str) -> Iterator[Step]:
    """The commands of the page, in their order."""
    is_console = False
    user, command, start = "", "", 0
    printed: list[str] = []
    for number, line in enumerate(text.split("\n"), start=1):
        found = re.fullmatch(r"<!-- meanwhile: (\w+) -->", line)
        if found:
            yield Step(number, "", found[1], "")
        prompt = re.match(r"([a-z0-9-]+)\$ (.*)", line) if is_console else None
        if command and (prompt or line == "```"):
            yield Step(start, user, command, "".join(f"{each}\n" for each in printed))
            command, printed = "", []
        if line.startswith("```"):
            is_console = line == "```console"
        elif prompt:
            user, command, start = prompt[1], prompt[2], number
        elif command.endswith("\\"):
            command += f"\n{line}"
        elif command:
            printed.append(line)


def agrees(expected: str, told: str) -> bool:
    """Whether a command printed what the page says. Blanks at the ends of lines don't count."""
    want = re.sub(r"(?m)^\.\.\.$\n", "...", expected)
    return doctest.OutputChecker().check_output(want, told, doctest.ELLIPSIS)


@dataclass
class Conference:
    """The conference of the page, in a folder."""

    server: Server
    folder: Path
    chance: random.Random = field(default_factory=lambda: random.Random(1))

    def home(self, user: str) -> Path:
        """The folder of a user, which is their home."""
        path = self.folder / user
        path.mkdir(exist_ok=True)
        return path

    def type(self, user: str, command: str) -> str:
        """What a command prints that a user types."""
        home = self.home(user)
        start = self.folder / "bin/confd-client"
        if not start.exists():
            start.parent.mkdir()
            start.write_text(f"#!/bin/sh\nPYTHONPATH={ROOT / 'client'} exec {sys.executable} -m confd_client \"$@\"\n")
            start.chmod(0o755)
        environment = {
            "PATH": f"{start.parent}:{os.environ['PATH']}", "HOME": str(home), "CONFD_URL": self.server.url,
            "PYTHONUNBUFFERED": "1", "PYTHONDONTWRITEBYTECODE": "1", "LANG": "C.UTF-8"}
        told = subprocess.run(["sh", "-c", command], cwd=home, env=environment, stdin=subprocess.DEVNULL,
                              stdout=subprocess.PIPE, stderr=subprocess.STDOUT, text=True, timeout=300)
        text = told.stdout.replace(str(home), f"/home/{user}").replace(self.server.url, "http://127.0.0.1:8080")
        return re.sub(r"(?m)[ \t]+$", "", text)

    @contextlib.contextmanager
    def as_user(self, name: str) -> Iterator[Client]:
        """A client of a user, whose connection is closed behind it: the server has few workers."""
        path = self.home(name) / ".config/confd/secret"
        credentials = read_secret_file(path) if path.exists() else Credentials(name, secret_of(name))
        with Client(self.server.url, credentials, patience=60) as client:
            yield client

    def members(self) -> list[str]:
        """Everyone on the committee."""
        return [*NAMED, *(f"member-{number}" for number in range(len(NAMED) + 1, MEMBERS + 1))]

    def authors(self) -> list[str]:
        """Everyone else."""
        return ["erin", "gus", *(f"author-{number}" for number in range(3, ACCOUNTS - MEMBERS + 1))]

    def bidders(self) -> list[str]:
        """The members who bid behind the page's back; two never do."""
        return [name for name in self.members() if name not in ("bob", "member-41", "member-42")]


def accounts(conference: Conference) -> None:
    """Everyone registers who hasn't yet; alice has the committee in a file."""
    client = Client(conference.server.url, patience=60)
    known = {each.name for each in client.accounts()}
    for name in [*conference.members(), *conference.authors()]:
        if name not in known:
            client.register(name, secret_of(name))
            write_secret_file(conference.home(name) / ".config/confd/secret", Credentials(name, secret_of(name)))
    client.close()
    with open(conference.home("alice") / "committee.csv", "w", newline="") as file:
        written = csv.writer(file, lineterminator="\n")
        written.writerow(("name", "role"))
        written.writerows((name, "chair" if name in CHAIRS else "member") for name in conference.members())


def drafts(conference: Conference) -> None:
    """erin writes a paper."""
    home = conference.home("erin")
    (home / "abstract.txt").write_text("We prove that a lock is fair.\n")
    (home / "fair.pdf").write_bytes(b"%PDF-1.7\n" + random.Random(2).randbytes(CONTENT_BYTES))


def submissions(conference: Conference) -> None:
    """The other papers come in, with up to two more authors each; two members submit as well."""
    chance, authors = conference.chance, conference.authors()
    for number in range(2, PAPERS + 1):
        first = AUTHORS.get(number, authors[number])
        others = chance.sample(authors[2:], chance.randrange(3))
        with conference.as_user(first) as client:
            paper = client.submit(" ".join(chance.sample(TOPICS, 3)).capitalize(), "We prove it.", others)
            assert paper == number
            client.upload(paper, b"%PDF-1.7\n" + chance.randbytes(CONTENT_BYTES))
    with open(conference.home("alice") / "conflicts.csv", "w", newline="") as file:
        written = csv.writer(file, lineterminator="\n")
        written.writerow(("paper", "user"))
        written.writerows((paper, conference.members()[7 + paper % 30]) for paper in range(3, PAPERS, 6))


def bids(conference: Conference) -> None:
    """All members bid but for three."""
    chance = conference.chance
    for name in conference.bidders():
        with conference.as_user(name) as client:
            for paper in sorted(chance.sample(range(1, PAPERS + 1), 24)):
                if client.page(paper).conflict is False:
                    client.bid(paper, max(-20, min(20, round(chance.gauss(4, 7)))))


def filled(conference: Conference) -> None:
    """bob fills in his bids."""
    path = conference.home("bob") / "bids.csv"
    lines = path.read_text().splitlines()
    for place in range(1, len(lines), 5):
        paper, _, title = lines[place].split(",", 2)
        lines[place] = f"{paper},{place % 12 + 3},{title}"
    path.write_text("\n".join(lines) + "\n")


def grade(paper: int, label: str) -> int:
    """The score that a reviewer gives a paper, unless it is bob."""
    by_label = random.Random(paper * 100 + ord(label)).gauss(0, 0.7)
    return max(1, min(5, round(random.Random(paper).gauss(3, 1) + by_label)))


def reviews(conference: Conference) -> None:
    """All reviews are written but for bob's, and two. What a review says goes by its paper and its label, since it is
    by chance which of a paper's reviewers has which label."""
    for name in conference.members():
        with conference.as_user(name) as client:
            for paper in client.me().assigned if name != "bob" else ():
                label = client.page(paper).label or ""
                if MISSING.get(paper) != label:
                    client.review(paper, grade(paper, label), 2 + ord(label) % 4, f"Review {label} of paper {paper}.",
                                  "Accept?")


def bobs_forms(conference: Conference) -> None:
    """bob fills in all of his forms, but in the first he forgets the confidence."""
    for place, path in enumerate(sorted((conference.home("bob") / "forms").iterdir())):
        sections = path.read_text().split("==*== ")
        for index, section in enumerate(sections):
            heading = section.partition("\n")[0]
            value = {"Score": "4", "Confidence": "3" if place else "", "To the authors": "Good.",
                     "To the committee": "Let's talk."}.get(heading)
            if value is not None:
                comments = section.partition("\n\n")[0]
                sections[index] = f"{comments}\n\n{value}\n\n"
        path.write_text("==*== ".join(sections))


def mended(conference: Conference) -> None:
    """bob writes the confidence that he forgot."""
    for path in sorted((conference.home("bob") / "forms").iterdir())[:1]:
        text = path.read_text()
        before, heading, after = text.partition("==*== Confidence\n")
        comments, _, rest = after.partition("\n\n")
        path.write_text(f"{before}{heading}{comments}\n\n3\n{rest}")


def responses(conference: Conference) -> None:
    """Most authors respond; erin writes her response."""
    (conference.home("erin") / "response.txt").write_text("Thank you. Proof 3 is new.\n")
    authors = conference.authors()
    for number in range(2, PAPERS + 1):
        if number % 4 and number not in AUTHORS:
            with conference.as_user(authors[number]) as client:
                client.respond(number, "Thank you.")


def discussion(conference: Conference) -> None:
    """Members comment; alice has a text for accepted papers, and a file of decisions: by the mean scores as they would
    be without bob's, whose labels are by chance."""
    home = conference.home("alice")
    (home / "accepted.txt").write_text("We are glad to accept your paper. Please send the final version by May 1.\n")
    with conference.as_user("alice") as client:
        lines = client.scores_report()
        reviewers = {line.paper: [each.user for each in client.page(line.paper).reviewers or ()] for line in lines[:40]}
    for paper, names in reviewers.items():
        with conference.as_user(str(names[0])) as client:
            client.comment(paper, "I would accept it.")
    with open(home / "decisions.csv", "w", newline="") as file:
        written = csv.writer(file, lineterminator="\n")
        written.writerow(("paper", "decision"))
        written.writerows((line.paper, Decision.ACCEPT if sum(grade(line.paper, label) for label in "ABC") > 10
                           else Decision.REJECT) for line in lines)


def addresses(conference: Conference) -> None:
    """alice has everyone's address in a file."""
    with open(conference.home("alice") / "addresses.csv", "w", newline="") as file:
        written = csv.writer(file, lineterminator="\n")
        written.writerow(("name", "email"))
        written.writerows((name, f"{name}@example.org") for name in [*conference.members(), *conference.authors()])


MEANWHILE: dict[str, Callable[[Conference], None]] = {each.__name__: each for each in (
    accounts, drafts, submissions, bids, filled, reviews, bobs_forms, mended, responses, discussion, addresses)}


def run(conference: Conference, page: str) -> Iterator[tuple[Step, str]]:
    """Does all steps of the page, and tells what each command printed."""
    for step in steps(page):
        if step.user:
            yield step, conference.type(step.user, step.command)
        else:
            MEANWHILE[step.command](conference)


def rewritten(page: str, told: dict[int, str]) -> str:
    """The page with what the commands in these lines print."""
    lines = page.split("\n")
    for step in sorted(steps(page), key=lambda step: -step.line):
        if step.line in told:
            first = step.line + step.command.count("\n")
            lines[first:first + step.expected.count("\n")] = told[step.line].splitlines()
    return "\n".join(lines)


def main() -> None:
    """Prints what each command of the page prints, and writes it into the page if that is asked for."""
    page = PAGE.read_text(encoding="utf-8")
    otherwise: dict[int, str] = {}
    with tempfile.TemporaryDirectory() as folder:
        server = Server(Path(folder))
        server.start()
        try:
            for step, told in run(Conference(server, Path(folder)), page):
                if not agrees(step.expected, told):
                    otherwise[step.line] = told
                mark = "   <<< OTHERWISE" if step.line in otherwise else ""
                print(f"{step.user}$ {step.command}{mark}\n{told}", end="", flush=True)
        finally:
            server.kill()
    if "--write" in sys.argv:
        PAGE.write_text(rewritten(page, otherwise), encoding="utf-8")


if __name__ == "__main__":
    main()
