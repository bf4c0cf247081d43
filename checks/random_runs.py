#!/usr/bin/env python3
# SPDX-License-Identifier: Apache-2.0 OR MIT
"""Random conferences, against a small model of the server.

    checks/random_runs.py [RUNS] [SEED]        20 runs from seed 1 where none are given

Each run makes up a conference of nine users from its seed and sends a few hundred requests to `confd pipe` with a
store. They are every command and query by every kind of caller, in and out of its phase, most of them refused. Many
have numbers, and some of these come again. Each answer, and then what `confd view` prints for each user, has to be what
`model.py` gives, which is written from the pages of docs/ and knows no tables. The clock is stopped, by the shim of
`shim.c`, and is turned now and then, to the second of a deadline, one after it and one ahead of it. The store is opened
again then. If there is no `cc` to build the shim with, or the program doesn't meet it, the clock is the system's, and
deadlines are days from it. An entry's moment has to be the date of the answer by which its command was accepted, and
each date the clock's. Ends with status 0 if all of it is, and else tells the seed, the request, what came and what was
due.
"""
import datetime
import os
import random
import shutil
import subprocess
import sys
import tempfile
import time
import urllib.parse

from lib.model import PHASES, Conference, secret_of
from lib.model_views import view_lines
from lib.places import CONFD
from lib.program import Program
from lib.server import APART
from lib.shim import Orders, Shim
from lib.wire import asked, moment_of


NAMES = ["alice", "bob", "carol", "dave", "erin", "fay", "gus", "hal", "ivy"]
STRANGERS = ["zoe", "Bob!"]
DAY = 24 * 60 * 60
# The moments that a clock may tell, and a deadline may be; a shim's clock doesn't stand at 0.
FIRST, LAST, LAST_DEADLINE = 1, 253_402_300_799, 253_402_207_200


class Run:
    """The requests of one conference, with the answers that the model gives; the clock goes on from a moment where one
    is told."""

    def __init__(self, seed, begun=None):
        self.random = random.Random(seed)
        self.model = Conference()
        self.stands = begun is None
        self.model.now = begun or self.random.choice([self.random.randint(1, 2 * 10**9), FIRST, LAST])
        self.asked = []
        self.numbered = []  # the commands that were sent with a field Command-Number
        self.moments = []  # when each request comes
        self.added = []  # the places of the entries that each request added
        for name in NAMES:
            self.ask("-", "POST", "/register", {"name": name, "secret": secret_of(name)})
        for name in NAMES[1:]:
            role = self.random.choice(["account", "member", "member", "chair"])
            if role != "account":
                self.ask("alice", "POST", "/members", {"name": name, "role": role})
        if self.random.random() < 0.7:
            self.ask("alice", "POST", "/mode", {"mode": self.random.choice(["open", "blind", "anonymous"])})
        steps = {"setup": 5, "submission": 90, "bidding": 160, "reviewing": 80, "response": 70, "discussion": 130,
                 "notification": 60, "closed": 100}
        skipped = "response" if self.random.random() < 0.4 else None
        for phase in PHASES:
            if phase == skipped:
                continue
            if phase != "setup":
                self.ask(self.model.name_of(self.model.chairs()[0]), "POST", "/phase", {"phase": phase})
            for _ in range(self.random.randint(steps[phase] // 2, steps[phase])):
                if self.stands and self.random.random() < 0.05:
                    self.turn()
                self.step()

    def ask(self, who, method, path, body=None):
        """Asks by a number now and then, and then does it again, sooner or later."""
        fields = self.fields()
        if fields and method not in ("GET", "HEAD"):
            self.numbered.append((who, method, path, body, fields))
        self.send(who, method, path, body, fields)
        while self.numbered and self.random.random() < 0.1:
            who, method, path, body, fields = self.random.choice(
                self.numbered[-3:] + [self.random.choice(self.numbered)])
            if self.random.random() < 0.2:
                path += "?again"
            self.send(who if self.random.random() < 0.9 else self.random.choice(NAMES), method, path, body, fields)

    def fields(self):
        """The values of a request's fields Command-Number: none, or a number out of few, so that some are used; now and
        then what is none."""
        choose = self.random
        if choose.random() < 0.6:
            return []
        if choose.random() < 0.05:
            return choose.choice(
                [["0"], ["01"], [""], [" \t"], ["+7"], ["-7"], ["7", "7"], ["7", "8"], ["7 7"], ["1" * 19], ["x"]])
        number = choose.choice([choose.randint(1, 40)] * 9 + [10**18 - 1])
        return [choose.choice(["{}"] * 8 + [" {}", "{}\t ", "\t {} "]).format(number)]

    def send(self, who, method, path, body, fields):
        before = len(self.model.history)
        code, content = self.model.ask(who, method, path, body, fields)
        self.added.append(range(before, len(self.model.history)))
        self.moments.append(self.model.now)
        self.asked.append((who, method, path, body, fields, code, without(content) if method == "HEAD" else content))

    def turn(self):
        """Turns the clock: to a deadline, or a second from it; or on, or back."""
        until = self.model.deadline(self.model.phase) or self.model.now
        near = ([until - 1, until, until + 1, until + 1] * 2
                + [self.model.now + self.random.randint(-DAY, 3 * DAY), FIRST, LAST])
        self.model.now = min(max(self.random.choice(near), FIRST), LAST)

    def until(self):
        """The time of a deadline, mostly one to come; now and then none. Where the clock goes on, it is days from
        now."""
        choose, now = self.random, self.model.now
        if choose.random() < 0.2:
            return None
        near = [0, 0, -1, 1, 1, 60, DAY] if self.stands else [-DAY, DAY, 30 * DAY]
        moment = choose.choice([now + choose.choice(near)] * 4 + [1, LAST_DEADLINE])
        moment = min(max(moment, 1), LAST_DEADLINE)
        return told_at(moment, choose.choice([0, 0, 0, 60, -90, 14 * 60]), choose.choice(["T", "T", "t", " "]))

    def paper(self):
        """Mostly a paper that is there."""
        count = len(self.model.papers())
        if count == 0 or self.random.random() < 0.05:
            return self.random.choice([str(count + 1), "0", "01", "zoe", "10000"])
        return str(self.random.randint(1, count))

    def name(self):
        return self.random.choice(NAMES * 4 + STRANGERS)

    def outsider(self):
        """Mostly somebody who is on no committee."""
        return self.caller_of(lambda user: self.model.role_of(user) == "account", self.name())

    def guest(self, paper):
        """Mostly an external of the paper."""
        return self.caller_of(lambda user: paper.isdigit() and self.model.external(user, int(paper)), self.name())

    def caller_of(self, fits, other):
        fitting = [name for name in NAMES if fits(self.model.number_of(name))]
        return self.random.choice(fitting) if fitting and self.random.random() < 0.7 else other

    def caller(self, fits):
        """Mostly somebody of whom this holds, if there is anybody."""
        fitting = [name for name in NAMES if fits(self.model.number_of(name))]
        if fitting and self.random.random() < 0.6:
            return self.random.choice(fitting)
        return self.random.choice(NAMES * 6 + ["-"])

    def chair(self, paper=None):
        def fits(user):
            there = paper is not None and paper.isdigit()
            return self.model.role_of(user) == "chair" and not (there and self.model.conflicted(user, int(paper)))

        return self.caller(fits)

    def member(self, paper):
        def fits(user):
            return (self.model.role_of(user) != "account" and paper.isdigit()
                    and not self.model.conflicted(user, int(paper)))

        return self.caller(fits)

    def reader(self):
        """Anybody; the more often nobody, without a secret or with a wrong one, the more there is for nobody to
        read."""
        nobody = ["-", "-", f"{self.random.choice(NAMES)}.wrong-secret-000001"]
        return self.random.choice(NAMES * 6 + nobody * {"notification": 4, "closed": 24}.get(self.model.phase, 1))

    def author(self, paper):
        return self.caller(lambda user: paper.isdigit() and user in self.model.authors(int(paper)))

    def term(self):
        """A term of a search: each key with each of its values; now and then one that is none."""
        choose = self.random
        value = choose.choice(["pro", "Ove", '"a paper"', '"two\n"', "x", "übung", "ÜBUNG", "in"])
        terms = ([value, f"ti:{value}", f"ab:{value}"] * 2
                 + [f"{key}:{part}" for key in ("au", "re")
                    for part in (choose.choice(NAMES), choose.choice(NAMES)[1:3])] * 3)
        terms += [f"#{tag}" for tag in ("hot", "a-1", "~hot", "~mine", "~~hot", "~~chairs")]
        terms += ([f"dec:{word}" for word in ("accept", "reject", "none")] * 2
                  + [f"status:{word}" for word in ("active", "withdrawn", "accepted")] * 2)
        terms += [f"has:{word}"
                  for word in ("content", "review", "comment", "response", "decision", "conflict", "mine")] * 2
        return (choose.choice(terms) if choose.random() < 0.98
                else choose.choice(["dec:maybe", "re:", "AND", '"x', "has:mine:"]))

    def search(self, depth=3):
        """A search, mostly well formed."""
        choose = self.random
        if depth == 0 or choose.random() < 0.5:
            return self.term()
        parts = [self.search(depth - 1) for _ in range(choose.choice([1, 2, 2, 3]))]
        form = choose.choice(["({})", "({})", "-({})", "NOT ({})", "{}"])
        return form.format(choose.choice([" ", " ", " AND ", " OR ", " OR ", "  "]).join(parts)).replace(
            ") (", choose.choice([") (", ")("]))

    def rows(self):
        """The rows of a bulk, most of which may be accepted: a few on the same papers and users."""
        choose, told = self.random, ["paper,action,user,tag"]
        papers, names = [self.paper(), self.paper()], [self.name(), self.name(), choose.choice(NAMES)]
        actions = ["primary", "secondary", "pcreview", "clearreview",
                   "conflict", "clearconflict", "tag", "cleartag"] * 5 + ["frob"]
        for _ in range(choose.choice([0, 1, 1, 1, 2, 3, 5])):
            tag = choose.choice(["hot", "a-1", "~mine", "~~chairs", "#hot"])
            told.append(",".join([choose.choice(papers), choose.choice(actions), choose.choice(names), tag]))
        return "\n".join(told) + choose.choice(["", "\n"])

    def deeds(self):
        """What is asked for, as often as the phase suggests."""
        asked = ["page"] * 6 + ["reviews", "response", "comments"] * 3 + ["search"] * 6 + ["report"] * 4
        asked += ["me", "conflict", "content", "version", "member", "accounts", "phase", "back", "tag", "decide",
                  "accepted", "deadlines", "plan"]
        asked += ["deadline"] * (3 if self.model.late()[0] else 4) + ["dismiss", "invite", "uninvite", "respond"]
        if self.model.phase == "submission":
            return (asked + ["submit"] * 6 + ["upload", "revise", "conflict"] * 3
                    + ["withdraw", "bid", "assign", "unassign"])
        if self.model.phase == "bidding":
            return (asked + ["bid", "assign", "tag"] * 5 + ["unassign", "conflict", "bulk", "plan", "invite"] * 3
                    + ["submit", "upload", "revise", "withdraw", "review"])
        if self.model.phase == "response":
            return (asked + ["respond"] * 8 + ["reviews", "response"] * 5
                    + ["assign", "tag", "unassign", "conflict", "bulk"] * 2
                    + ["bid", "submit", "upload", "revise", "withdraw", "review", "comment", "decide"])
        if self.model.phase == "discussion":
            return (asked + ["review", "comment", "tag"] * 6 + ["decide"] * 10
                    + ["assign", "unassign", "conflict", "bulk"] * 2
                    + ["bid", "submit", "upload", "revise", "withdraw"])
        if self.model.is_from("notification"):
            asked += ["bid", "assign", "unassign", "review", "comment", "submit", "upload", "revise", "withdraw"]
            return asked + ["page", "content", "version"] * 9 + ["accepted", "bulk"] * 3 + ["report"] * 6
        return (asked + ["review"] * 8 + ["assign", "tag"] * 4
                + ["unassign", "conflict", "bulk", "invite", "member"] * 3
                + ["bid", "submit", "upload", "revise", "withdraw", "comment"])

    def step(self):
        choose, p = self.random, self.paper()
        anybody = choose.choice(NAMES * 6 + ["-"])
        texts = {"title": choose.choice(["Proofs", "Types", "A paper, \"quoted\"", "Übung"]),
                 "abstract": choose.choice(["", "We prove.", "Two\nlines.\t\\"])}
        deed = choose.choice(self.deeds())
        read = choose.choice(["GET", "GET", "GET", "HEAD"])
        if deed == "page":
            self.ask(self.caller_of(lambda user: p.isdigit() and self.model.external(user, int(p)), self.reader())
                     if choose.random() < 0.2 else self.reader(), read, f"/papers/{p}")
        elif deed == "me":
            self.ask(anybody, "GET", "/me")
        elif deed == "search":
            only = choose.choice(["", "", "", "&only=count", "&only=other", "&q=x"])
            self.ask(anybody, read, f"/search?{choose.choice(['q', 'q', 'q', 'q', 'p'])}"
                                    f"={urllib.parse.quote_plus(self.search())}{only}")
        elif deed == "bid":
            self.ask(anybody, "PUT", f"/papers/{p}/bid", {"bid": choose.randint(-20, 20)})
        elif deed == "assign":
            self.ask(self.chair(p), "POST", f"/papers/{p}/reviewers",
                     {"kind": choose.choice(["primary", "secondary", "pc"]),
                      "user": self.guest(p) if choose.random() < 0.3 else self.name()})
        elif deed == "invite":
            self.ask(self.chair(p), "POST", f"/papers/{p}/externals", {"user": self.outsider()})
        elif deed == "uninvite":
            invited = [name for name in NAMES if p.isdigit() and self.model.invited(self.model.number_of(name), int(p))]
            self.ask(self.chair(p), "DELETE",
                     f"/papers/{p}/externals/{choose.choice(invited * 2 + [choose.choice(NAMES + ['zoe'])])}")
        elif deed == "dismiss":
            self.ask(self.chair(), "DELETE", f"/members/{self.name()}")
        elif deed == "unassign":
            reviewers = [self.model.name_of(seat[1]) for seat in self.model.reviewers(int(p))] if p.isdigit() else []
            self.ask(self.chair(p), "DELETE",
                     f"/papers/{p}/reviewers/{choose.choice(reviewers + [choose.choice(NAMES + ['zoe'])])}")
        elif deed == "bulk":
            self.ask(self.chair(), "POST", "/assign", self.rows())
        elif deed == "plan":
            planned = f"per_paper={choose.choice([1, 1, 1, 2, 2, 3, 7])}&load={choose.choice([1, 2, 3, 5, 512])}"
            self.ask(choose.choice([anybody, self.chair(), self.chair()]), read, f"/plan?{planned}")
        elif deed == "report":
            report = choose.choice(["papers", "scores", "load", "decisions", f"letter/{p}", f"letter/{p}"])
            self.ask(self.author(p) if report.startswith("letter") else choose.choice([anybody, self.chair()]),
                     read, f"/reports/{report}")
        elif deed == "conflict":
            self.ask(self.chair(p), "POST", f"/papers/{p}/conflicts",
                     {"on": choose.random() < 0.6, "user": self.name()})
        elif deed == "submit":
            told = [self.name() for _ in range(choose.choice([0, 0, 0, 1, 3]))]
            self.ask(anybody, "POST", "/papers", {**texts, "authors": told})
        elif deed == "revise":
            self.ask(self.author(p), "PUT", f"/papers/{p}", texts)
        elif deed == "withdraw":
            self.ask(self.author(p), "DELETE", f"/papers/{p}")
        elif deed == "upload":
            self.ask(self.author(p), "PUT", f"/papers/{p}/content", "x" * choose.randint(0, 9))
        elif deed == "review":
            reviewer = self.caller(lambda user: p.isdigit() and self.model.ordinal_of(user, int(p)) is not None)
            form = {"score": choose.randint(1, 5), "confidence": choose.randint(1, 5),
                    "to_authors": choose.choice(["", "Good.", "Two\nlines."]), "to_pc": choose.choice(["", "ok"])}
            self.ask(reviewer, "PUT", f"/papers/{p}/review", form)
        elif deed == "respond":
            self.ask(self.author(p), "PUT", f"/papers/{p}/response", {"text": choose.choice(["x", "Thanks.", "Übung"])})
        elif deed == "response":
            self.ask(choose.choice([anybody, self.author(p), self.member(p)]), read, f"/papers/{p}/response")
        elif deed == "comment":
            self.ask(self.member(p), "POST", f"/papers/{p}/comments",
                     {"text": choose.choice(["x", "Shall we?", "Übung"])})
        elif deed == "tag":
            tag = choose.choice(["hot", "a-1", "~hot", "~mine", "~~hot", "~~chairs"])
            self.ask(self.member(p), choose.choice(["PUT", "PUT", "DELETE"]), f"/papers/{p}/tags/{tag}")
        elif deed == "decide":
            self.ask(self.chair(p), "PUT", f"/papers/{p}/decision",
                     {"decision": choose.choice(["accept", "accept", "reject"])})
        elif deed == "accepted":
            self.ask(self.reader(), read, "/accepted")
        elif deed == "reviews":
            self.ask(choose.choice([anybody, anybody, self.author(p)]), read, f"/papers/{p}/reviews")
        elif deed == "comments":
            self.ask(anybody, read, f"/papers/{p}/comments")
        elif deed == "content":
            self.ask(self.reader(), read, f"/papers/{p}/content")
        elif deed == "version":
            self.ask(self.reader(), read, f"/papers/{p}/content/{choose.choice(['1', '2', '3', '0', '01'])}")
        elif deed == "member":
            self.ask(self.chair(), "POST", "/members",
                     {"name": self.name(), "role": choose.choice(["member", "chair"])})
        elif deed == "accounts":
            self.ask(anybody, "GET", "/accounts")
        elif deed == "phase":
            self.ask(anybody, "GET", "/phase")
        elif deed == "deadlines":
            self.ask(anybody, read, "/deadlines")
        elif deed == "deadline":
            phase = self.model.phase if choose.random() < 0.6 else choose.choice(PHASES)
            phase = phase if phase in PHASES[1:6] else choose.choice(PHASES[1:6])
            self.ask(self.chair(), "POST", "/deadlines", {"phase": phase, "until": self.until()})
        else:
            self.ask(anybody, "POST", "/phase", {"phase": "setup"})


def told_at(moment, minutes, between):
    """The date and time of a moment at an offset from UTC; in UTC where the year has five digits there, or is ahead of
    1970."""
    if not DAY < moment < LAST - DAY:
        minutes = 0
    told = (datetime.datetime(1970, 1, 1) + datetime.timedelta(seconds=moment, minutes=minutes)).isoformat(between)
    sign, minutes = "+-"[minutes < 0], abs(minutes)
    return told + (f"{sign}{minutes // 60:02}:{minutes % 60:02}" if minutes else "Z" if between == "T" else "z")


def without(content):
    """What HEAD is answered where GET is answered this."""
    return f"{len(content.removeprefix('bytes: ').removeprefix('text: ').encode())} bytes"


def answers(text, methods):
    """The status and the content of each answer in these bytes, to requests of these methods, and the moment that its
    date tells."""
    told, moments = [], []
    for method in methods:
        if not text:
            break
        head, _, rest = text.partition(b"\r\n\r\n")
        lines = head.decode().split("\r\n")
        length = int(next(line.split(": ")[1] for line in lines if line.startswith("Content-Length")))
        moments.append(moment_of(lines[1].removeprefix("Date: ")))
        if method == "HEAD":
            told.append((int(lines[0].split()[1]), f"{length} bytes"))
            text = rest
            continue
        content = rest[:length].decode()
        if "Content-Type: application/octet-stream" in lines:
            content = "bytes: " + content
        if "Content-Type: text/plain; charset=utf-8" in lines:
            content = "text: " + content
        told.append((int(lines[0].split()[1]), content))
        text = rest[length:]
    return told if not text else told + [(0, f"{len(text)} bytes more")], moments


def piped(run, store, shim, room):
    """The answers to all requests, and the moments of their dates: one run of the program for each time that the clock
    is turned."""
    told, moments, first = [], [], 0
    while first < len(run.asked):
        last, stands = first, {}
        while last < len(run.asked) and run.moments[last] == run.moments[first]:
            last += 1
        if shim is not None:
            stands = {"env": shim.environment(Orders(os.path.join(room, "orders"), moment=run.moments[first]))}
        text = b"".join(asked(*one[:5]) for one in run.asked[first:last])
        child = subprocess.run([CONFD, "pipe", "--store", store], input=text, stdout=subprocess.PIPE, check=True,
                               **stands)
        more = answers(child.stdout, [one[1] for one in run.asked[first:last]])
        told, moments, first = told + more[0], moments + more[1], last
    return told, moments


def tried(seed, shim):
    """What is not as due in the run of this seed, if anything is, and how many answers and lines were compared."""
    begun = time.time()
    run = Run(seed, None if shim else int(begun))
    with tempfile.TemporaryDirectory(prefix="random-run-") as room:
        store = os.path.join(room, "store")
        told, moments = piped(run, store, shim, room)
        for one, answer in zip(run.asked, told):
            if one[5:] != answer:
                return f"{' '.join(str(part) for part in one[:5])}: came {answer}, due {one[5:]}", 0
        if len(told) != len(run.asked):
            return f"{len(told)} answers to {len(run.asked)} requests", 0
        if shim is not None and moments != run.moments:
            return f"the dates are those of {moments}, the clock's of {run.moments}", 0
        if shim is None and not all(begun - APART <= moment <= time.time() + APART for moment in moments):
            return f"the dates are from {min(moments)} to {max(moments)}, the run from {begun} to {time.time()}", 0
        run.model.moments = {place: moment for added, moment in zip(run.added, moments) for place in added}
        count = len(told)
        for name in NAMES:
            lines = subprocess.run([CONFD, "view", "--store", store, "--user", name], stdout=subprocess.PIPE,
                                   check=True).stdout.decode().splitlines()
            due = view_lines(run.model, name)
            if lines != due:
                unlike = next((pair for pair in zip(lines, due) if pair[0] != pair[1]),
                              (f"{len(lines)} lines", f"{len(due)}"))
                return f"the view of {name}: came {unlike[0]}, due {unlike[1]}", 0
            count += len(lines)
    return None, count


def main():
    runs = int(sys.argv[1]) if len(sys.argv) > 1 else 20
    first = int(sys.argv[2]) if len(sys.argv) > 2 else 1
    failed, compared = 0, 0
    with tempfile.TemporaryDirectory(prefix="random-run-") as folder:
        shim = Shim(folder) if shutil.which("cc") else None
        shim = shim if shim is not None and shim.holds(Program(CONFD)) else None
        for seed in range(first, first + runs):
            wrong, count = tried(seed, shim)
            compared += count
            if wrong:
                failed += 1
                print(f"seed {seed}: {wrong}")
    print(f"{runs - failed} runs passed, {failed} failed; {compared:,} answers and lines compared")
    sys.exit(failed > 0)


if __name__ == "__main__":
    main()
