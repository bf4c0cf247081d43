# SPDX-License-Identifier: Apache-2.0 OR MIT
"""The reports of the small model: what docs/API.md says of them, read off the list of entries anew."""


class Reports:
    def report(self, u, parts):
        """A report's text; the lines are those of docs/API.md."""
        chair, member = self.role_of(u) == "chair", self.role_of(u) != "account"
        if parts[0] == "letter":
            p = self.paper_told(parts[1])
            author = self.is_there(p) and u in self.authors(p)
            r = self.first((not self.is_there(p), "no_paper"), (not author, "not_author"),
                           (not self.is_from("notification"), "wrong_phase"))
            return r or (200, "text: " + self.letter(p))
        first = "discussion" if parts[0] in ("scores", "decisions") else "bidding"
        who = (not chair, "not_chair") if parts[0] == "load" else (not member, "not_member")
        r = self.first(who, (not self.is_from(first), "wrong_phase"))
        return r or (200, "text: " + getattr(self, f"{parts[0]}_report")(u))

    def title(self, p):
        return self.last_texts(p)[0]

    def papers_report(self, u):
        mark = lambda p: "W" if self.withdrawn(p) else "C" if self.conflicted(u, p) else "-"
        return "".join(f"{p:4} {mark(p)} {self.title(p)}\n" for p in self.papers()) + f"{len(self.papers())} papers\n"

    def listed(self, u):
        """The papers that a report of scores or of decisions lists."""
        return [p for p in self.papers() if not self.conflicted(u, p) and not self.withdrawn(p)]

    def last_forms(self, p):
        """The last form of each label that has one, with its label's number."""
        return [(o, self.forms(p, o)[-1][1]) for o in range(1, self.labels(p) + 1) if self.forms(p, o)]

    def scores_report(self, u):
        lines = []
        for p in self.listed(u):
            scores = [form["score"] for o, form in self.last_forms(p)]
            if scores:
                h = (200 * sum(scores) + len(scores)) // (2 * len(scores))
                lines.append(f"{p:4} {len(scores):2} {h // 100}.{h % 100:02} {self.title(p)}\n")
        return "".join(lines)

    def load_report(self, u):
        seats = [(seat[1], seat[2], bool(self.forms(p, seat[3])))
                 for p in self.papers() if not self.conflicted(u, p) for seat in self.reviewers(p)]
        lines = []
        for v, name in self.users():
            if self.role_of(v) != "account":
                counts = [len([1 for w, k, _ in seats if (w, k) == (v, kind)])
                          for kind in ("primary", "secondary", "pc")]
                counts.append(len([1 for w, _, done in seats if w == v and done]))
                lines.append(f"{name:32}" + "".join(f" {count:4}" for count in counts) + "\n")
        return "".join(lines)

    def decisions_report(self, u):
        listed = [(p, self.decision(p)) for p in self.listed(u)]
        count = lambda word: len([1 for p, told in listed if told == word])
        lines = "".join(f"{p:4} {told:6} {self.title(p)}\n" for p, told in listed)
        return lines + f"accept {count('accept')}, reject {count('reject')}, none {count('none')}\n"

    def letter(self, p):
        text = f"Paper {p}: {self.title(p)}\nDecision: {self.decision(p)}\n"
        for o, form in self.last_forms(p):
            by = f" by {self.name_of(self.assigned_to(p, o))}" if self.mode == "open" else ""
            text += (f"\nReview {chr(64 + o)}{by}\n"
                     f"Score {form['score']}, confidence {form['confidence']}\n{form['to_authors']}\n")
        return text
