# SPDX-License-Identifier: Apache-2.0 OR MIT
"""A small model of confd, written from docs/API.md, STORE.md and VIEWS.md and from nothing else.

A conference is a list of entries. Each answer, each rule and each line of a view is read off that list anew, with no
table beside it except the answers to commands that had a number. The lines of a view are made in `model_views.py`,
reports in `model_reports.py`. It is slow and short, and is compared with the program in `random_runs.py`, `drills.py`
and `retries.py`. It answers requests whose bodies are well formed; what is wrong with a body or a head is in cases. The
caller sets the moment of the request. In this file `u` and `v` are users' numbers, `p` is a paper's, and `t` is the
user that a command names. The number of an unauthenticated caller is None.
"""
import csv
import datetime
import hashlib
import io
import json
import re
import urllib.parse

from . import searches
from .best_plans import best_plan
from .model_reports import Reports

PHASES = ["setup", "submission", "bidding", "reviewing", "response", "discussion", "notification", "closed"]


def dump(x):
    return json.dumps(x, separators=(",", ":"), sort_keys=True, ensure_ascii=False)


def spelled(moment):
    """The date and time of a moment, in UTC."""
    return (datetime.datetime(1970, 1, 1) + datetime.timedelta(seconds=moment)).isoformat() + "Z"


def err(code, name):
    return code, dump({"error": name})


def content_of(body):
    """The bytes of a body: none, a text as it is, or an object."""
    return b"" if body is None else (body if isinstance(body, str) else dump(body)).encode("utf-8", "surrogateescape")


def secret_of(name):
    """The secret of a user in the cases, and in what this model is asked."""
    return f"{name}-secret-000001"


def mark_of(method, path, body):
    """What tells two commands of one number apart: the digest of method, path and body."""
    return hashlib.sha256(f"{method} {path}\n".encode() + content_of(body)).digest()


def number_told(fields):
    """The number of a command by the values of its fields Command-Number; None where they tell none."""
    value = fields[0].strip(" \t")
    return int(value) if len(fields) == 1 and re.fullmatch("[1-9][0-9]{0,17}", value) else None


CODE = {"no_user": 404, "no_paper": 404, "no_content": 404, "no_response": 404, "not_chair": 403, "not_member": 403,
        "not_author": 403, "conflict": 403, "not_reviewer": 403}


class Conference(Reports):
    def __init__(self):
        self.history = []  # (maker, kind, fields)
        self.moments = {}  # when an entry's request came, by the entry's place; 0 of those that a drill makes up
        self.numbers = {}  # the number of the command that added an entry, by the entry's place, where it had one
        # of an accepted command that added an entry the mark and the answer, by its caller and its number
        self.answered = {}
        self.now = 0  # when the request at hand came, in seconds since 1970

    # ---- facts
    def entries_of(self, kind):
        return [(m, f) for m, k, f in self.history if k == kind]

    @property
    def phase(self):
        ps = self.entries_of("phase")
        return ps[-1][1] if ps else "setup"

    @property
    def mode(self):
        ms = self.entries_of("mode")
        return ms[-1][1] if ms else "blind"

    def is_from(self, phase):
        return PHASES.index(self.phase) >= PHASES.index(phase)

    def may_follow(self, to):
        """Whether this phase may be opened now: the next, or the discussion where the response is skipped."""
        step = PHASES.index(to) - PHASES.index(self.phase)
        return step == 1 or (self.phase, to) == ("reviewing", "discussion")

    def opening(self, phase):
        """How many entries stand before the first that opens this phase; None where none does."""
        return next((i for i, (m, k, f) in enumerate(self.history) if (k, f) == ("phase", phase)), None)

    def deadline(self, phase):
        """The last that was set of a phase; 0 where there is none, or none any more."""
        return next((until for m, (of, until) in reversed(self.entries_of("deadline")) if of == phase), 0)

    def late(self):
        """The rule that the current phase has a deadline, and now is later."""
        return 0 < self.deadline(self.phase) < self.now, "late"

    def users(self):
        return [f for m, f in self.entries_of("registered")]

    def caller(self, who):
        """The user who calls: a name stands for her usual secret, a token `NAME.SECRET` for itself, '-' for none."""
        name, _, told = who.partition(".")
        return self.number_of(name) if told in ("", secret_of(name)) else None

    def number_of(self, name):
        for u, n in self.users():
            if n == name:
                return u
        return None

    def name_of(self, user):
        return self.users()[user - 1][1]

    def role_of(self, u):
        r = "account"
        for m, k, f in self.history:
            if k == "named" and f[0] == u:
                r = f[1]
            if k == "dismissed" and f == u:
                r = "account"
        return r

    def chairs(self):
        return [v for v, n in self.users() if self.role_of(v) == "chair"]

    def invited(self, u, p):
        """Whether the last that was said of the two is an invitation."""
        told = [k for m, k, f in self.history if k in ("invited", "uninvited") and f == (p, u)]
        return told[-1:] == ["invited"]

    def external(self, u, p):
        return self.role_of(u) == "account" and self.invited(u, p)

    def stranger(self, u, p):
        """Neither a member nor an external of the paper."""
        return self.role_of(u) == "account" and not self.external(u, p)

    def papers(self):
        return [f[0] for m, f in self.entries_of("submitted")]

    def authors(self, p):
        return ([m for m, f in self.entries_of("submitted") if f[0] == p]
                + [f[1] for m, f in self.entries_of("coauthor") if f[0] == p])

    def declared_on(self, u, p):
        on = False
        for m, (q, v, o) in self.entries_of("conflict"):
            if (q, v) == (p, u):
                on = o
        return on

    def conflicted(self, u, p):
        return u in self.authors(p) or self.declared_on(u, p)

    def ordinal_of(self, u, p):
        return next((f[3] for f in self.reviewers(p) if f[1] == u), None)

    def labels(self, p):
        return len([1 for m, f in self.entries_of("assigned") if f[0] == p])

    def reviewers(self, p):
        gone = [f[2] for m, f in self.entries_of("unassigned") if f[0] == p]
        return [f for m, f in self.entries_of("assigned") if f[0] == p and f[3] not in gone]

    def withdrawn(self, p):
        return any(f == p for m, f in self.entries_of("withdrawn"))

    def uploads(self, p):
        return [f for m, f in self.entries_of("uploaded") if f[0] == p]

    def last_texts(self, p):
        t = None
        for m, k, f in self.history:
            if k in ("submitted", "revised") and f[0] == p:
                t = f[1:]
        return t

    def bid_of(self, u, p):
        b = None
        for m, (q, v) in self.entries_of("bid"):
            if (m, q) == (u, p):
                b = v
        return b

    def forms(self, p, o, entries=None):
        """The forms under a label, each with its version, among these entries."""
        told = self.history if entries is None else entries
        return [f[2:] for m, k, f in told if k == "reviewed" and f[:2] == (p, o)]

    def forms_discussed(self, p, o):
        """Of a label the last form before the discussion, and all later ones."""
        at = self.opening("discussion")
        at = len(self.history) if at is None else at
        return self.forms(p, o, self.history[:at])[-1:] + self.forms(p, o, self.history[at:])

    def forms_for_authors(self, p, o):
        """Of a label the last form, and before the notification the last before the response, where that was opened."""
        if self.is_from("notification"):
            return self.forms(p, o)[-1:]
        at = self.opening("response")
        return [] if at is None else self.forms(p, o, self.history[:at])[-1:]

    def response(self, p):
        """What a paper's authors responded; None where they didn't."""
        return next((f[1] for m, f in self.entries_of("responded") if f[0] == p), None)

    def comments(self, p):
        return [(m, f) for m, f in self.entries_of("commented") if f[0] == p]

    def own_papers(self, u):
        return len([1 for m, f in self.entries_of("submitted") if m == u])

    def own_comments(self, u):
        return len([1 for m, f in self.entries_of("commented") if m == u])

    def tags(self, u, p):
        """The tags that are on and for this reader."""
        on = {}
        for m, (q, tag, is_on) in self.entries_of("tagged"):
            private = tag.startswith("~") and not tag.startswith("~~")
            if q == p and (m == u or not private):
                on[tag] = is_on
        chair = self.role_of(u) == "chair"
        return sorted(tag for tag in on if on[tag] and (chair or not tag.startswith("~~")))

    def decision(self, p):
        """The last decision on a paper, `none` where there is none."""
        told = [f[1] for m, f in self.entries_of("decided") if f[0] == p]
        return told[-1] if told else "none"

    def accepted(self, p):
        return self.decision(p) == "accept" and not self.withdrawn(p) and self.is_from("notification")

    def published(self, p):
        return self.accepted(p) and self.phase == "closed"

    # ---- one request
    def ask(self, who, method, path, body=None, fields=()):
        """The answer's code and content, the whole one to HEAD too; `who` is as in `caller`, `fields` are the values of
        the fields Command-Number."""
        u = self.caller(who)
        path, _, query = path.partition("?")
        parts = path.strip("/").split("/")
        method = "GET" if method == "HEAD" else method
        if path == "/register":
            return self.register(body)
        if path == "/accounts":
            return 200, dump({"accounts": [{"name": n, "role": self.role_of(v), "user": v} for v, n in self.users()]})
        if path == "/phase" and method == "GET":
            return 200, dump({"mode": self.mode, "papers": len(self.papers()), "phase": self.phase})
        if path == "/deadlines" and method == "GET":
            told = [(phase, self.deadline(phase)) for phase in PHASES]
            return 200, dump({"deadlines": [{"phase": phase, "until": spelled(until)}
                                            for phase, until in told if until]})
        if path == "/accepted":
            return self.accepted_papers()
        if u is None and not (method == "GET" and self.is_public(parts)):
            return err(401, "unauthorized")
        if method == "GET":
            return self.told_of(u, path, query)
        return self.command(u, method, path, body, fields) if fields else self.judge(u, method, path, body)

    def command(self, u, method, path, body, fields):
        """What a command with a number comes to: what it repeats is answered as it was, and isn't judged again."""
        number, mark = number_told(fields), mark_of(method, path, body)
        if number is None:
            return err(400, "bad_number")
        if (u, number) in self.answered:
            old, answer = self.answered[u, number]
            return answer if old == mark else err(409, "number_used")
        before = len(self.history)
        answer = self.judge(u, method, path, body)
        if len(self.history) > before:
            self.answered[u, number] = mark, answer
            self.numbers.update({place: number for place in range(before, len(self.history))})
        return answer

    def judge(self, u, method, path, body):
        """What a command comes to by the rules."""
        if path == "/phase":
            return self.set_phase(u, body["phase"])
        if path == "/deadlines":
            return self.set_deadline(u, body["phase"], body["until"])
        if path == "/mode":
            return self.set_mode(u, body["mode"])
        if path == "/members":
            return self.member(u, body)
        if path.startswith("/members/"):
            return self.dismiss(u, path.split("/")[2])
        if path == "/assign":
            return self.bulk(u, body)
        if path == "/papers":
            return self.submit(u, body)
        _, _, paper, *rest = path.split("/")
        p = self.paper_told(paper)
        if not rest:
            return self.withdraw(u, p) if method == "DELETE" else self.revise(u, p, body)
        if rest[0] == "reviewers" and method == "DELETE":
            return self.unassign(u, p, rest[1])
        if rest[0] == "externals" and method == "DELETE":
            return self.uninvite(u, p, rest[1])
        if rest[0] == "tags":
            return self.tag(u, p, rest[1], method == "PUT")
        told = {"content": self.upload, "conflicts": self.conflict, "bid": self.set_bid, "reviewers": self.assign,
                "review": self.review, "response": self.respond, "comments": self.comment, "decision": self.decide,
                "externals": self.invite}
        return told[rest[0]](u, p, body)

    def told_of(self, u, path, query):
        """What a question is answered."""
        parts = path.strip("/").split("/")
        if path == "/me":
            return self.me(u)
        if path == "/search":
            return self.search(u, query)
        if parts[0] == "reports":
            return self.report(u, parts[1:])
        if path == "/plan":
            return self.plan(u, dict(reversed(urllib.parse.parse_qsl(query))))  # the first pair of a name counts
        p, rest = self.paper_told(parts[1]), parts[2:]
        if not rest:
            return self.page(u, p)
        if rest == ["content"]:
            return self.content(u, p, None)
        if rest[0] == "content":
            return self.content(u, p, int(rest[1]) if re.match(r"^[1-9][0-9]*$", rest[1]) else 0)
        return {"reviews": self.reviews, "response": self.response_page, "comments": self.comments_page}[rest[0]](u, p)

    def paper_told(self, text):
        """The paper's number that a segment tells, where it tells one."""
        return int(text) if re.match(r"^[1-9][0-9]*$", text) and int(text) <= 9999 else None

    def is_public(self, parts):
        """Whether nobody is served at this path: it is the page of a published paper, or its content."""
        return (parts[0] == "papers" and len(parts) > 1 and parts[2:3] in ([], ["content"])
                and self.published(self.paper_told(parts[1])))

    def first(self, *rules):
        for broken, rule in rules:
            if broken:
                return err(CODE.get(rule, 409), rule)
        return None

    def register(self, body):
        if self.number_of(body["name"]):
            return err(409, "name_taken")
        u = len(self.users()) + 1
        self.history.append((u, "registered", (u, body["name"])))
        if u == 1:
            self.history.append((u, "named", (u, "chair")))
        return 201, dump({"user": u})

    def set_phase(self, u, to):
        r = self.first((self.role_of(u) != "chair", "not_chair"),
                       (not self.may_follow(to), "wrong_phase"))
        if r:
            return r
        self.history.append((u, "phase", to))
        return 200, dump({"phase": to})

    def set_deadline(self, u, phase, until):
        r = self.first((self.role_of(u) != "chair", "not_chair"),
                       (PHASES.index(phase) < PHASES.index(self.phase), "wrong_phase"))
        if r:
            return r
        until = 0 if until is None else round(
            datetime.datetime.fromisoformat(until.upper().replace("Z", "+00:00")).timestamp())
        self.history.append((u, "deadline", (phase, until)))
        return 200, dump({"phase": phase, "until": spelled(until) if until else None})

    def set_mode(self, u, to):
        r = self.first((self.role_of(u) != "chair", "not_chair"), (self.phase != "setup", "wrong_phase"))
        if r:
            return r
        self.history.append((u, "mode", to))
        return 200, dump({"mode": to})

    def member(self, u, body):
        t = self.number_of(body["name"])
        rank = {"account": 0, "member": 1, "chair": 2}
        r = self.first((t is None, "no_user"), (self.role_of(u) != "chair", "not_chair"),
                       (self.is_from("notification"), "wrong_phase"),
                       (t and rank[self.role_of(t)] >= rank[body["role"]], "already_named"))
        if r:
            return r
        self.history.append((u, "named", (t, body["role"])))
        return 200, dump({"name": body["name"], "role": body["role"]})

    def submit(self, u, body):
        co = [self.number_of(n) for n in body.get("authors", [])]
        r = self.first((None in co, "no_user"), (self.phase != "submission", "wrong_phase"), self.late(),
                       (self.own_papers(u) >= 20, "quota_papers"))
        if r:
            return r
        p = len(self.papers()) + 1
        self.history.append((u, "submitted", (p, body["title"], body["abstract"])))
        seen = [u]
        for v in co:
            if v not in seen:
                seen.append(v)
                self.history.append((u, "coauthor", (p, v)))
        return 201, dump({"paper": p})

    def is_there(self, p):
        return p in self.papers()

    def own(self, u, p):
        return ((not self.is_there(p), "no_paper"), (u not in self.authors(p), "not_author"),
                (self.phase != "submission", "wrong_phase"), self.late(), (self.withdrawn(p), "withdrawn"))

    def revise(self, u, p, body):
        r = self.first(*self.own(u, p))
        if r:
            return r
        self.history.append((u, "revised", (p, body["title"], body["abstract"])))
        return 200, dump({"paper": p})

    def withdraw(self, u, p):
        r = self.first(*self.own(u, p))
        if r:
            return r
        self.history.append((u, "withdrawn", p))
        return 200, dump({"paper": p})

    def upload(self, u, p, body):
        size = sum(len(content_of(f[2])) for m, f in self.entries_of("uploaded") if m == u) + len(content_of(body))
        r = self.first(*self.own(u, p), (size > 64 << 20, "quota_bytes"))
        if r:
            return r
        v = len(self.uploads(p)) + 1
        self.history.append((u, "uploaded", (p, v, body)))
        return 200, dump({"version": v})

    def content(self, u, p, v):
        author = u in self.authors(p)
        ups = self.uploads(p)
        told = ups if author else ups[-1:]
        got = told[-1:] if v is None else [x for x in told if x[1] == v]
        free = author or self.published(p)
        r = self.first((not self.is_there(p), "no_paper"), (not free and self.stranger(u, p), "not_member"),
                       (not free and self.conflicted(u, p), "conflict"),
                       (not free and not self.is_from("bidding"), "wrong_phase"), (not got, "no_content"))
        return r if r else (200, "bytes: " + got[0][2])

    def committee(self):
        return self.is_from("bidding") and not self.is_from("notification")

    def conflict(self, u, p, body):
        t, on = self.number_of(body["user"]), body["on"]
        rules = [(not self.is_there(p), "no_paper"), (t is None, "no_user")]
        r = self.first(*rules)
        if r:
            return r
        chair, wd = self.role_of(u) == "chair", (self.withdrawn(p), "withdrawn")
        nam = (self.stranger(t, p), "not_a_member")
        if on and not self.is_from("bidding"):
            rules = [(u not in self.authors(p), "not_author"), self.late(), wd,
                     (self.role_of(t) == "account", "not_a_member")]
        elif on and self.committee() and t == u:
            rules = [(self.role_of(u) == "account", "not_member"), wd]
        elif on and self.committee():
            rules = [(not chair, "not_chair"), (self.conflicted(u, p), "conflict"), wd, nam]
        elif on:
            rules = [(True, "wrong_phase")]
        else:
            rules = [(not chair, "not_chair"), (self.conflicted(u, p), "conflict"),
                     (not self.committee(), "wrong_phase"), wd, nam, (t in self.authors(p), "author_conflict")]
        r = self.first(*rules)
        if r:
            return r
        self.history.append((u, "conflict", (p, t, on)))
        return 200, dump({"paper": p})

    def set_bid(self, u, p, body):
        r = self.first((not self.is_there(p), "no_paper"), (self.role_of(u) == "account", "not_member"),
                       (self.conflicted(u, p), "conflict"), (self.phase != "bidding", "wrong_phase"), self.late(),
                       (self.withdrawn(p), "withdrawn"))
        if r:
            return r
        self.history.append((u, "bid", (p, body["bid"])))
        return 200, dump({"bid": body["bid"]})

    def chairs_rules(self, u, p, t):
        return [(not self.is_there(p), "no_paper"), (t is None, "no_user"), (self.role_of(u) != "chair", "not_chair"),
                (self.conflicted(u, p), "conflict"), (not self.committee(), "wrong_phase"),
                (self.withdrawn(p), "withdrawn")]

    def assign(self, u, p, body):
        t = self.number_of(body["user"])
        r = self.first(*self.chairs_rules(u, p, t))
        r = r or self.first((self.stranger(t, p), "not_a_member"), (self.conflicted(t, p), "target_conflict"),
                            (self.ordinal_of(t, p) is not None, "already_assigned"),
                            (self.labels(p) >= 26, "labels_spent"))
        if r:
            return r
        o = self.labels(p) + 1
        self.history.append((u, "assigned", (p, t, body["kind"], o)))
        return 201, dump({"label": chr(64 + o)})

    def unassign(self, u, p, name):
        t = self.number_of(name)
        r = self.first(*self.chairs_rules(u, p, t))
        r = r or self.first((self.ordinal_of(t, p) is None, "not_assigned"),
                            (self.forms(p, self.ordinal_of(t, p)), "has_review"))
        if r:
            return r
        self.history.append((u, "unassigned", (p, t, self.ordinal_of(t, p))))
        return 200, dump({"paper": p})

    def dismiss(self, u, name):
        t = self.number_of(name)
        r = self.first((t is None, "no_user"), (self.role_of(u) != "chair", "not_chair"),
                       (self.is_from("notification"), "wrong_phase"))
        r = r or self.first((self.role_of(t) == "account", "not_a_member"), (self.chairs() == [t], "last_chair"))
        if r:
            return r
        self.history.append((u, "dismissed", t))
        return 200, dump({"name": name, "role": "account"})

    def invite(self, u, p, body):
        t = self.number_of(body["user"])
        r = self.first(*self.chairs_rules(u, p, t))
        r = r or self.first((self.role_of(t) != "account", "is_member"), (self.conflicted(t, p), "target_conflict"),
                            (self.invited(t, p), "already_invited"))
        if r:
            return r
        self.history.append((u, "invited", (p, t)))
        return 200, dump({"paper": p})

    def uninvite(self, u, p, name):
        t = self.number_of(name)
        r = self.first(*self.chairs_rules(u, p, t))
        r = r or self.first((not self.invited(t, p), "not_invited"),
                            (self.ordinal_of(t, p) is not None, "still_assigned"))
        if r:
            return r
        self.history.append((u, "uninvited", (p, t)))
        return 200, dump({"paper": p})

    # ---- bulks
    def bulk(self, u, text):
        """Each row on the state behind those before it; a broken one takes all back."""
        r = self.first((self.role_of(u) != "chair", "not_chair"), (not self.committee(), "wrong_phase"))
        if r:
            return r
        before = list(self.history)
        rows = [row for row in csv.reader(io.StringIO(text.removeprefix("\ufeff"), newline="")) if row][1:]
        for number, row in enumerate(rows, 1):
            code, answer = self.row(u, *row)
            if code >= 400:
                self.history = before
                return 409, dump({"error": "bulk_row", "row": number, "rule": json.loads(answer)["error"]})
        return 200, dump({"rows": len(rows)})

    def row(self, u, paper, action, user, tag):
        kinds = {"primary": "primary", "secondary": "secondary", "pcreview": "pc"}
        if action not in [*kinds, "clearreview", "conflict", "clearconflict", "tag", "cleartag"]:
            return err(409, "bad_action")
        p = self.paper_told(paper)
        if action in ("tag", "cleartag"):
            return (self.tag(u, p, tag, action == "tag") if re.fullmatch(r"(~|~~)?[a-z0-9-]{1,32}", tag)
                    else err(409, "bad_tag"))
        if action in ("conflict", "clearconflict"):
            return (err(409, "bulk_self") if self.number_of(user) == u
                    else self.conflict(u, p, {"on": action == "conflict", "user": user}))
        return (self.unassign(u, p, user) if action == "clearreview"
                else self.assign(u, p, {"kind": kinds[action], "user": user}))

    # ---- plans
    def plan(self, u, told):
        """A plan's text; `told` is what its query tells, which is well formed."""
        per_paper, load = int(told["per_paper"]), int(told["load"])
        papers = [p for p in self.listed(u) if self.labels(p) + per_paper <= 26]
        members = [v for v, _ in self.users() if self.role_of(v) != "account"]
        r = self.first((self.role_of(u) != "chair", "not_chair"), (not self.committee(), "wrong_phase"),
                       (per_paper * len(papers) > 512 or len(papers) * len(members) > 4096, "plan_too_large"))
        if r:
            return r
        bids = {(p, v): self.bid_of(v, p) or 0 for p in papers for v in members
                if not self.conflicted(v, p) and self.ordinal_of(v, p) is None}
        plan = best_plan(bids, papers, per_paper, load)
        if plan is None:
            return err(409, "no_plan")
        return 200, "text: paper,action,user,tag\n" + "".join(f"{p},pcreview,{self.name_of(v)},\n" for p, v in plan)

    def members_rules(self, u, p):
        return ((not self.is_there(p), "no_paper"), (self.role_of(u) == "account", "not_member"),
                (self.conflicted(u, p), "conflict"))

    def review(self, u, p, body):
        r = self.first((not self.is_there(p), "no_paper"), (self.stranger(u, p), "not_member"),
                       (self.conflicted(u, p), "conflict"), (self.ordinal_of(u, p) is None, "not_reviewer"),
                       (self.phase not in ("reviewing", "discussion"), "wrong_phase"), self.late(),
                       (self.withdrawn(p), "withdrawn"))
        if r:
            return r
        o = self.ordinal_of(u, p)
        version = len(self.forms(p, o)) + 1
        self.history.append((u, "reviewed", (p, o, version, body)))
        return 200, dump({"version": version})

    def assigned_to(self, p, o):
        return next(f[1] for m, f in self.entries_of("assigned") if (f[0], f[3]) == (p, o))

    def reviews(self, u, p):
        author = self.is_there(p) and u in self.authors(p)
        ordinal, member = self.ordinal_of(u, p), self.role_of(u) != "account"
        own = ordinal is not None and (self.phase in ("reviewing", "response") if member else self.is_from("reviewing"))
        early = not self.is_from("notification") and self.opening("response") is None
        r = self.first((not self.is_there(p), "no_paper"), (author and early, "wrong_phase"),
                       (not author and self.stranger(u, p), "not_member"),
                       (not author and self.conflicted(u, p), "conflict"),
                       (not author and not (member and self.is_from("discussion")) and not own, "wrong_phase"))
        if r:
            return r
        out = []

        def add(o, forms, keys, named):
            for version, form in forms:
                whole = {**form, "label": chr(64 + o), "version": version}
                out.append({**{k: whole[k] for k in keys},
                            **({"user": self.name_of(self.assigned_to(p, o))} if named else {})})

        authors_keys = ["confidence", "label", "score", "to_authors"]
        all_keys = authors_keys + ["to_pc", "version"]
        for o in range(1, self.labels(p) + 1):
            if author:
                add(o, self.forms_for_authors(p, o), authors_keys, self.mode == "open" and self.is_from("notification"))
            elif member and self.is_from("discussion"):
                add(o, self.forms_discussed(p, o), all_keys, self.role_of(u) == "chair" or self.mode != "anonymous")
            elif o == ordinal:
                add(o, self.forms(p, o), all_keys, False)
        return 200, dump({"reviews": out})

    def respond(self, u, p, body):
        r = self.first((not self.is_there(p), "no_paper"), (u not in self.authors(p), "not_author"),
                       (self.phase != "response", "wrong_phase"), self.late(), (self.withdrawn(p), "withdrawn"),
                       (self.response(p) is not None, "already_responded"))
        if r:
            return r
        self.history.append((u, "responded", (p, body["text"])))
        return 201, dump({"paper": p})

    def response_page(self, u, p):
        author = self.is_there(p) and u in self.authors(p)
        r = self.first((not self.is_there(p), "no_paper"), (not author and self.role_of(u) == "account", "not_member"),
                       (not author and self.conflicted(u, p), "conflict"),
                       (not author and not self.is_from("discussion"), "wrong_phase"),
                       (self.response(p) is None, "no_response"))
        return r or (200, dump({"text": self.response(p)}))

    def comment(self, u, p, body):
        r = self.first(*self.members_rules(u, p), (self.phase != "discussion", "wrong_phase"), self.late(),
                       (self.withdrawn(p), "withdrawn"), (self.own_comments(u) >= 1000, "quota_comments"))
        if r:
            return r
        n = len(self.comments(p)) + 1
        self.history.append((u, "commented", (p, n, self.ordinal_of(u, p) or 0, body["text"])))
        return 201, dump({"comment": n})

    def comments_page(self, u, p):
        r = self.first(*self.members_rules(u, p), (not self.is_from("discussion"), "wrong_phase"))
        if r:
            return r
        named = self.role_of(u) == "chair" or self.mode != "anonymous"
        who = lambda m, o: {"user": self.name_of(m)} if named else ({"label": chr(64 + o)} if o else {})
        return 200, dump({"comments": [{"n": n, "text": text, **who(m, o)} for m, (q, n, o, text) in self.comments(p)]})

    def tag(self, u, p, tag, on):
        r = self.first((not self.is_there(p), "no_paper"),
                       (tag.startswith("~~") and self.role_of(u) != "chair", "not_chair"),
                       (self.role_of(u) == "account", "not_member"), (self.conflicted(u, p), "conflict"),
                       (not self.committee(), "wrong_phase"), (self.withdrawn(p), "withdrawn"))
        if r:
            return r
        self.history.append((u, "tagged", (p, tag, on)))
        return 200, dump({"paper": p})

    def decide(self, u, p, body):
        r = self.first((not self.is_there(p), "no_paper"), (self.role_of(u) != "chair", "not_chair"),
                       (self.conflicted(u, p), "conflict"), (self.phase != "discussion", "wrong_phase"),
                       (self.withdrawn(p), "withdrawn"))
        if r:
            return r
        self.history.append((u, "decided", (p, body["decision"])))
        return 200, dump({"paper": p})

    def accepted_papers(self):
        names = lambda p: [self.name_of(v) for v in self.authors(p)]
        told = [{"authors": names(p), "paper": p, "title": self.last_texts(p)[0]}
                for p in self.papers() if self.accepted(p)]
        return 200, dump({"papers": told})

    def me(self, u):
        ps = self.papers()
        return 200, dump({
            "assigned": [p for p in ps if self.ordinal_of(u, p) is not None],
            "bytes": sum(len(f[2]) for m, f in self.entries_of("uploaded") if m == u), "comments": self.own_comments(u),
            "conflicts": [p for p in ps if self.conflicted(u, p) and u not in self.authors(p)],
            "invited": [p for p in ps if self.external(u, p)], "name": self.name_of(u),
            "papers": [p for p in ps if u in self.authors(p)], "role": self.role_of(u), "user": u})

    def told(self, u, p):
        """What a user is told of a paper, as the terms of a search ask: by her page and by what she is answered of
        reviews, of a response and of comments."""

        def listed(answer, key):
            return json.loads(answer[1])[key] if answer[0] == 200 else []

        code, page = self.page(u, p)
        return {
            "page": json.loads(page) if code == 200 else {}, "accepted": self.accepted(p),
            "conflicted": self.conflicted(u, p),
            "reviews": listed(self.reviews(u, p), "reviews"), "comments": listed(self.comments_page(u, p), "comments"),
            "responded": self.response_page(u, p)[0] == 200}

    def search(self, u, query):
        pairs = urllib.parse.parse_qsl(query, keep_blank_values=True, errors="replace")
        text = next((value for name, value in pairs if name == "q"), None)
        tree = 0 if text is None else searches.read(text.encode())
        if isinstance(tree, int):
            return 400, dump({"error": "bad_query", "place": tree})
        told = {p: self.told(u, p) for p in self.papers()}
        found = [p for p in told if "title" in told[p]["page"] and searches.holds(tree, told[p])]
        if ("only", "count") in pairs:
            return 200, dump({"count": len(found)})
        return 200, dump({"count": len(found),
                          "papers": [{"paper": p, "title": told[p]["page"]["title"]} for p in found]})

    def page(self, u, p):
        author = p in self.papers() and u in self.authors(p)
        member, chair = self.role_of(u) != "account", self.role_of(u) == "chair"
        accepted, published = self.accepted(p), self.published(p)
        r = self.first((not self.is_there(p), "no_paper"),
                       (self.stranger(u, p) and not author and not accepted, "not_member"))
        if r:
            return r
        clear = not self.conflicted(u, p)
        cm, cc, ce = member and clear, chair and clear, self.external(u, p) and clear
        bidding, disc, notif = self.is_from("bidding"), self.is_from("discussion"), self.is_from("notification")
        anon = self.mode == "anonymous"
        out = {"paper": p}
        title, abstract = self.last_texts(p)
        if author or ((cm or ce) and bidding) or published:
            out["abstract"] = abstract
        if author or (cc and bidding) or ((cm or ce) and bidding and not anon) or accepted:
            out["authors"] = [self.name_of(v) for v in self.authors(p)]
        if cm and bidding:
            out["bid"] = self.bid_of(u, p) or 0
        if cc and bidding:
            out["bids"] = [{"bid": self.bid_of(v, p), "user": n}
                           for v, n in self.users() if self.bid_of(v, p) is not None]
        if member or author or self.external(u, p):
            out["conflict"] = self.conflicted(u, p)
        if cc and bidding:
            out["conflicts"] = [n for v, n in self.users() if self.declared_on(v, p)]
        if (cm and disc) or (author and notif) or accepted:
            out["decision"] = self.decision(p)
        if author:
            by = [f[1] for m, f in self.entries_of("conflict") if f[0] == p and m in self.authors(p)]
            out["declared"] = [n for v, n in self.users() if v in by]
        if (cm or ce) and self.ordinal_of(u, p) is not None:
            out["label"] = chr(64 + self.ordinal_of(u, p))
        lab = lambda f: chr(64 + f[3])
        if cc and bidding:
            out["reviewers"] = [{"done": bool(self.forms(p, f[3])), "kind": f[2], "label": lab(f),
                                 "user": self.name_of(f[1])} for f in self.reviewers(p)]
        elif cm and disc:
            out["reviewers"] = [{"kind": f[2], "label": lab(f), **({} if anon else {"user": self.name_of(f[1])})}
                                for f in self.reviewers(p)]
        elif author and notif and self.mode == "open":
            out["reviewers"] = [{"label": lab(f), "user": self.name_of(f[1])} for f in self.reviewers(p)]
        if cm and bidding:
            out["tags"] = self.tags(u, p)
        if author or ((member or ce) and bidding) or accepted:
            out["title"] = title
        ups = [f[1] for f in self.uploads(p)]
        if author:
            out["versions"] = ups
        elif ((cm or ce) and bidding) or published:
            out["versions"] = ups[-1:]
        if author or ((member or ce) and bidding):
            out["withdrawn"] = self.withdrawn(p)
        return 200, dump(out)
