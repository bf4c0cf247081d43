# SPDX-License-Identifier: Apache-2.0 OR MIT
"""A whole conference by the client's library, of 26 users at once; what they read is compared with what they sent.

Needs the Debian package python3-requests.
"""

import concurrent.futures
import datetime
import random
import sys
import time

from .checking import expect
from .model import secret_of
from .places import TOP

sys.path.append(str(TOP / "client"))
from confd_client import Client, Credentials  # noqa: E402
from confd_client.transport import Transport  # noqa: E402

CHAIRS, MEMBERS = ["alice", "bob"], [f"member-{number}" for number in range(8)]
COMMITTEE, AUTHORS = CHAIRS + MEMBERS, [f"author-{number}" for number in range(16)]
# How many reviewers a paper has, how many papers a reviewer has at most, and how often each member comments.
PER_PAPER, LOAD, COMMENTS = 3, 8, 12
# The seconds for which a command is sent again, and the longest pause between.
PATIENCE, PAUSE = 180, 0.5


class Recorded(Transport):
    """The client's own transport, which notes each command that was accepted, and its answer, by its number."""

    def __init__(self, url, login, certificate):
        super().__init__(url, login, patience=PATIENCE, on_wait=None, ca_file=certificate,
                         sleep=lambda pause: time.sleep(min(pause, PAUSE)))  # fmt: skip
        self.acknowledged, self.sendings = {}, 0

    def _by_number(self, request, number):
        answer = super()._by_number(request, number)
        expect(number not in self.acknowledged, f"the number {number} is taken twice")
        self.acknowledged[number] = request, (answer.status, answer.content.decode())
        self.sendings += answer.sent
        return answer


class User(Client):
    """A user of one conference."""

    def __init__(self, name, url, certificate):
        login = Credentials(name, secret_of(name))
        super().__init__(url, login, patience=PATIENCE, ca_file=certificate)
        self._transport = Recorded(url, login, certificate)
        self.name, self.acknowledged, self.number = name, self._transport.acknowledged, None
        self.random = random.Random(name)

    def sendings(self):
        return self._transport.sendings

    def sign_up(self):
        self.number = self.register(self.name, secret_of(self.name))


def texts(user, what):
    """A text that nobody else has, as long in each round."""
    return f"{what} by {user.name}: {user.random.randbytes(400).hex()}"


class Conference:
    """One conference, from the first registration to the close."""

    def __init__(self, url, certificate):
        self.users = {name: User(name, url, certificate) for name in COMMITTEE + AUTHORS}
        self.alice = self.users["alice"]
        # each paper's last content, by number; whom its author declared; what anybody read of comments
        self.contents, self.declared, self.read = {}, {}, {}

    def close(self):
        for user in self.users.values():
            user.close()

    def all_at_once(self, act, names):
        """Has each of these users act in a thread of their own."""
        with concurrent.futures.ThreadPoolExecutor(len(names)) as pool:
            for future in [pool.submit(act, self.users[name]) for name in names]:
                future.result()

    def run(self):
        self.alice.sign_up()
        self.all_at_once(User.sign_up, (COMMITTEE + AUTHORS)[1:])
        for name in COMMITTEE[1:]:
            self.alice.appoint(name, "chair" if name in CHAIRS else "member")
        self.alice.set_mode("anonymous")
        self.alice.set_deadline("submission", datetime.datetime(2127, 1, 31, tzinfo=datetime.timezone.utc))
        self.phase("submission", self.submit, AUTHORS)
        self.phase("bidding", self.bid, COMMITTEE)
        self.alice.bulk(self.alice.plan(PER_PAPER, LOAD))
        self.phase("reviewing", self.review, COMMITTEE)
        self.phase("response", self.respond, AUTHORS)
        self.phase("discussion", self.discuss, COMMITTEE)
        for paper in self.open_papers():
            self.alice.decide(paper, "accept" if paper % 2 else "reject")
        self.phase("notification", self.look_at_letter, AUTHORS)
        self.phase("closed", self.look_at_accepted, COMMITTEE + AUTHORS)

    def phase(self, phase, act, names):
        self.alice.set_phase(phase)
        self.all_at_once(act, names)

    def open_papers(self, user=None):
        """The papers that weren't withdrawn and with which this user isn't in conflict."""
        return [paper for paper, name in sorted(self.declared.items()) if user is None or name != user.name]

    def submit(self, author):
        other = AUTHORS[AUTHORS.index(author.name) - 1]
        paper = author.submit(f"Paper of {author.name}", texts(author, "abstract"), [other])
        for version in (1, 2, 3):
            content = author.random.randbytes(20_000 * version if author.name != AUTHORS[0] else 400_000).hex().encode()
            expect(author.upload(paper, content) == version, f"version {version} of paper {paper}")
        author.revise(paper, f"Paper of {author.name}, again", texts(author, "abstract"))
        name = author.random.choice(MEMBERS)
        author.declare(paper, name)
        expect(author.content(paper) == content, f"the content of paper {paper}")
        expect(author.page(paper).title.endswith("again"), f"the title of paper {paper}")
        if author.name == AUTHORS[-1]:
            author.withdraw(paper)
        else:
            self.contents[paper], self.declared[paper] = content, name

    def bid(self, member):
        for paper in self.open_papers(member):
            bid = member.random.randint(-20, 20)
            expect(member.bid(paper, bid) == bid, f"the bid on paper {paper}")
            member.tag(paper, "~mine" if paper % 2 else "hot")
            expect(member.page(paper).bid == bid, f"the bid of {member.name} on paper {paper}")

    def review(self, member):
        for paper in member.me().assigned:
            for version in (1, 2):
                said = texts(member, f"version {version}")
                expect(member.review(paper, paper % 5 + 1, 3, said, "To us.") == version, f"review of {paper}")
            expect(member.reviews(paper)[-1].to_authors == said, f"the review of paper {paper} by {member.name}")

    def respond(self, author):
        for paper in author.me().papers:
            if paper in self.declared and author.page(paper).authors[0] == author.name:
                author.respond(paper, said := texts(author, "response"))
                expect(author.response(paper) == said, f"the response to paper {paper}")

    def discuss(self, member):
        for turn in range(COMMENTS):
            paper = member.random.choice(self.open_papers(member))
            number = member.comment(paper, said := texts(member, f"comment {turn}"))
            told = {comment.n: comment.text for comment in member.comments(paper)}
            expect(told.get(number) == said, f"comment {number} on paper {paper}")
            for n, text in told.items():
                expect(self.read.setdefault((paper, n), text) == text, f"comment {n} on paper {paper} is another")

    def look_at_letter(self, author):
        for paper in author.me().papers:
            if paper in self.declared:
                expect(f"Decision: {'accept' if paper % 2 else 'reject'}" in author.letter(paper), f"letter {paper}")

    def look_at_accepted(self, user):
        due = [paper for paper in self.open_papers() if paper % 2]
        expect([each.paper for each in user.accepted()] == due, f"the accepted papers, to {user.name}")
        expect(user.content(due[0]) == self.contents[due[0]], f"the content of paper {due[0]}")
