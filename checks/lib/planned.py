# SPDX-License-Identifier: Apache-2.0 OR MIT
"""A conference that is made up to be planned, and what its chair asks and is told."""

import itertools

from .checking import expect
from .wire import answers, register, request, submit

HEADER = b"paper,action,user,tag\n"


class Planned:
    """What a plan is made of, kept as the requests are made up."""

    def __init__(self):
        self.text = register("alice")
        self.asked = 1
        self.members = ["alice"]  # by user number
        self.papers = {}  # by number: who wrote it, whether it is withdrawn, who is in conflict with it, who reviews it
        self.bids = {}

    def ask(self, *requests):
        for each in requests:
            self.text += each
            self.asked += 1

    def post(self, path, who, **body):
        self.ask(request("POST", path, who, body))

    def member(self, name, role="member"):
        self.ask(register(name))
        self.post("/members", "alice", name=name, role=role)
        self.members.append(name)

    def paper(self, author):
        self.ask(submit(author, f"Paper {len(self.papers) + 1}"))
        self.papers[len(self.papers) + 1] = {
            "author": author, "gone": False, "clash": {author}, "seats": [], "labels": 0}

    def withdraw(self, paper):
        self.ask(request("DELETE", f"/papers/{paper}", self.papers[paper]["author"]))
        self.papers[paper]["gone"] = True

    def bid(self, name, paper, value):
        self.ask(request("PUT", f"/papers/{paper}/bid", name, {"bid": value}))
        if name not in self.papers[paper]["clash"]:
            self.bids[paper, name] = value

    def conflict(self, paper, name):
        if self.papers[paper]["gone"]:
            return
        self.post(f"/papers/{paper}/conflicts", "alice", on=True, user=name)
        self.papers[paper]["clash"].add(name)

    def seat(self, paper, name, stays=True):
        if self.papers[paper]["gone"] or name in self.papers[paper]["clash"] or name in self.papers[paper]["seats"]:
            return
        self.post(f"/papers/{paper}/reviewers", "alice", kind="primary", user=name)
        self.papers[paper]["labels"] += 1
        if stays:
            self.papers[paper]["seats"].append(name)
        else:
            self.ask(request("DELETE", f"/papers/{paper}/reviewers/{name}", "alice"))

    def open_to(self, who, per_paper):
        """The papers that are planned for a chair."""
        return [number for number, paper in self.papers.items()
                if not paper["gone"] and who not in paper["clash"] and paper["labels"] + per_paper <= 26]

    def free(self, number):
        paper = self.papers[number]
        return [name for name in self.members if name not in paper["clash"] and name not in paper["seats"]]

    def worth(self, pairs):
        return sum(self.bids.get(pair, 0) for pair in pairs)

    def best(self, who, per_paper, load):
        """The best plan by trying them all, and None where there is none."""
        choices = [[[(paper, name) for name in some] for some in itertools.combinations(self.free(paper), per_paper)]
                   for paper in self.open_to(who, per_paper)]
        best = None
        for choice in itertools.product(*choices):  # in dictionary order
            pairs = [pair for some in choice for pair in some]
            names = [name for _, name in pairs]
            if (all(names.count(name) <= load for name in names)
                    and (best is None or self.worth(pairs) > self.worth(best))):
                best = pairs
        return best


def text_of(pairs):
    return HEADER + b"".join(b"%d,pcreview,%s,\n" % (paper, name.encode()) for paper, name in pairs)


def plan(who, per_paper, load):
    return request("GET", f"/plan?per_paper={per_paper}&load={load}", who)


def told(program, planned, *more):
    """The answers to some more requests behind those that were made up, of which none may have failed."""
    out, status, _ = program.run(["pipe"], planned.text + b"".join(more))
    found = answers(out)
    expect(status == 0 and len(found) == planned.asked + len(more), (status, len(found), planned.asked))
    return found[planned.asked :]
