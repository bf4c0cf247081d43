# SPDX-License-Identifier: Apache-2.0 OR MIT
"""A drill on the small model: the commands that `confd drill` makes up from a number, by docs/API.md."""

from .model import Conference, secret_of
from .model_views import view_lines


CAST = [f"u{number}" for number in range(1, 9)]
KINDS = ["registered", "named", "phase", "mode", "submitted", "coauthor", "revised", "uploaded", "withdrawn",
         "conflict", "bid", "assigned", "unassigned", "reviewed", "commented", "tagged", "decided", "deadline",
         "dismissed", "invited", "uninvited", "responded"]
# a drill skips the response
PATH = ["setup", "submission", "bidding", "reviewing", "discussion", "notification", "closed"]


class Dice:
    """The generator: each draw leaves out the lower 16 bits."""

    def __init__(self, seed):
        self.held = seed

    def draw(self):
        self.held = (1103515245 * self.held + 12345) % 2**31
        return self.held // 65536


class Drill:
    """One drill on the model."""

    def __init__(self, seed, steps):
        self.model, self.dice, self.steps = Conference(), Dice(seed), steps
        for name in CAST:
            self.ask("-", "POST", "/register", {"name": name, "secret": secret_of(name)})
        for name, role in [("u2", "chair"), ("u3", "member"), ("u4", "member"), ("u5", "member"), ("u6", "member")]:
            self.ask("u1", "POST", "/members", {"name": name, "role": role})
        self.move_to("submission")
        self.accepted = sum(self.step(number) for number in range(steps))
        self.move_to("closed")

    def ask(self, who, method, path, body=None):
        return self.model.ask(who, method, path, body)[0] in (200, 201)

    def move_to(self, phase):
        while self.model.phase != phase:
            self.ask("u1", "POST", "/phase", {"phase": PATH[PATH.index(self.model.phase) + 1]})

    def step(self, number):
        """Whether the step's command is accepted."""
        phase = PATH[1 + 4 * number // self.steps]
        self.move_to(phase)
        user = 1 + self.dice.draw() % 8
        action = self.dice.draw() % 4
        paper = f"/papers/{1 + self.dice.draw() % max(1, len(self.model.papers()))}"
        other = 1 + self.dice.draw() % 8
        chair, name = "u1" if user % 2 == 0 else "u2", f"u{other}"
        who = f"u{user}"

        def assign():
            return self.ask(chair, "POST", f"{paper}/reviewers", {"kind": "pc", "user": name})

        def unassign():
            return self.ask(chair, "DELETE", f"{paper}/reviewers/{name}")

        def conflict(by, on):
            return self.ask(by, "POST", f"{paper}/conflicts", {"on": on, "user": name})

        def review():
            form = {"confidence": 3, "score": 1 + other % 5, "to_authors": "a", "to_pc": "b"}
            return self.ask(who, "POST", f"{paper}/review", form)

        def submit():
            return self.ask(who, "POST", "/papers", {"abstract": "", "title": f"T{number}"})

        def upload():
            return self.ask(who, "PUT", f"{paper}/content", "x")

        def bid():
            return self.ask(who, "POST", f"{paper}/bid", {"bid": other - 4})

        def tag():
            return self.ask(who, "PUT", f"{paper}/tags/hot")

        def comment():
            return self.ask(who, "POST", f"{paper}/comments", {"text": "c"})

        def decide():
            return self.ask(chair, "POST", f"{paper}/decision", {"decision": "accept" if other % 2 == 0 else "reject"})

        actions = {
            "submission": [lambda: conflict(who, True), upload, submit, submit],
            "bidding": [bid, tag, assign, assign],
            "reviewing": [assign, unassign, review, review],
            "discussion": [comment, review, decide, lambda: conflict(chair, False)],
        }
        return actions[phase][action]()

    def summary(self):
        history = self.model.history
        counts = [len([1 for _, told, _ in history if told == kind]) for kind in KINDS]
        views = [len(list(view_lines(self.model, name))) for name in CAST]
        return "".join([
            f"steps {self.steps}, accepted {self.accepted}, refused {self.steps - self.accepted}\n",
            f"entries {len(history)}\n",
            f"kinds {' '.join(map(str, counts))}\n",
            f"views {' '.join(map(str, views))}\n",
        ])
