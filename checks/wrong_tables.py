#!/usr/bin/env python3
# SPDX-License-Identifier: Apache-2.0 OR MIT
"""Plants wrong trigger tables, the rows in checks/planted/tables, and looks which clauses of the laws refuse each.

    checks/wrong_tables.py [WORD..]          computes, with no prover, the clauses that each row names:
                                             all have to be false
    checks/wrong_tables.py --check [WORD..]  only whether each text that is to be changed is there, once,
                                             and each clause too
    checks/wrong_tables.py --all WORD..      computes every clause, and prints those that are false
    checks/wrong_tables.py --try NAME..      plants each in a copy of the repository
                                             and runs `rt check` of the law there, which proves
                                             what is below its crate first

WORD picks the rows that have it in their name, or a topic. Clauses are computed for nobody and every user of the small
conference, in each mode and phase, and of made-up histories that aren't legal. Those by part are computed only on the
values shown, that of looks with other values made up for each place. The right table is computed first, and every
clause has to hold of it. Ends with status 0 if all were as due.
"""
import concurrent.futures
import functools
import os
import random
import re
import shutil
import subprocess
import sys
import tempfile

from planted.rows import TOP, lost, picked_of, read
from planted.specs import BUILT_IN, MEMO, PAPERS, History, Specs, applied, arity

# which crate has a law
CRATES = {"law_view_suffices": "cr_policy", "law_bounds": "cr_bounds", "law_response_bound": "cr_bounds",
          "law_views": "cr_conference", "law_undeducible": "cr_undeduced", "law_may_have_been": "cr_undeduced",
          "law_makers": "cr_undeduced", "law_twins": "cr_undeduced"}
CUTS = {}


def cut(n, xs):
    """The first n of the entries, the same value each time for a whole history."""
    if not isinstance(xs, History):
        return xs[:n]
    if n >= len(xs):
        return xs
    if (id(xs), n) not in CUTS:
        CUTS[id(xs), n] = (xs, History(xs[:n]))
    return CUTS[id(xs), n][1]


NOBODY, USERS = ("None",), [("Some", n) for n in range(1, 10)]
PHASES = ["Submission", "Bidding", "Reviewing", "Response", "Discussion", "Notification", "Closed"]
SKIPPING = [phase for phase in PHASES if phase != "Response"]
MODES = [("Overt",), ("Blind",), ("Anonymous",)]
BUILT_IN.update({"take": cut, "suc": lambda n: n + 1})
BUILT_IN["values"] = lambda xs: tuple(x for x in xs if x is not False and x != NOBODY)


def clauses(law):
    """The clauses of a law: the definition of each by its name."""
    with open(f"{TOP}/crates/{CRATES[law]}/src/lib.rt", encoding="utf-8") as file:
        text = file.read().split(f"pub fn {law}()")[1].split("{}")[0]
    return dict(re.findall(r"ensures (\w+) \{ (\w+) \}", text))


LAWS = {law: clauses(law) for law in ("law_bounds", "law_response_bound", "law_views", "law_undeducible", "law_twins")}
# what rests on judgement and isn't computed; and a clause that is one of looks at the end
UNCOMPUTED = {"legal", "shorter", "group"}


def named(row):
    """The law and the clauses that a row says are false."""
    laws = (("clauses", "law_bounds"), ("response", "law_response_bound"), ("views", "law_views"),
            ("undeduced", "law_undeducible"), ("twins", "law_twins"))
    return [(law, clause) for word, law in laws for clause in row.words(word)]


# ---- histories

def words(text):
    return tuple(text.encode())


def made_up(seed):
    """A history that needn't be legal: any of eight users does anything in any phase,
    and a paper may be submitted twice."""
    dice = random.Random(seed)
    paper, user = lambda: dice.randint(1, 3), lambda: dice.randint(1, 8)
    text = lambda: words(f"text {dice.randint(0, 999)}")
    form = lambda: {"score": dice.randint(1, 5), "confidence": dice.randint(1, 5),
                    "to_authors": text(), "to_pc": text()}
    kinds = [
        lambda: ("Submitted", paper(), text(), text()), lambda: ("Coauthor", paper(), user()),
        lambda: ("Revised", paper(), text(), text()), lambda: ("Uploaded", paper(), dice.randint(1, 3), text()),
        lambda: ("Withdrawn", 3), lambda: ("Conflict", paper(), user(), dice.random() < 0.7),
        lambda: ("Bid", paper(), dice.randint(0, 40)),
        lambda: ("Assigned", paper(), user(), (dice.choice(["Primary", "Secondary", "Pc"]),), dice.randint(1, 3)),
        lambda: ("Unassigned", paper(), user(), dice.randint(1, 3)),
        lambda: ("Reviewed", paper(), dice.randint(1, 2), dice.randint(1, 4), form()),
        lambda: ("Commented", paper(), dice.randint(1, 9), dice.choice([NOBODY, ("Some", 1), ("Some", 2)]), text()),
        lambda: ("Tagged", paper(), words(dice.choice(["hot", "~own", "~~odd"])), dice.random() < 0.7),
        lambda: ("Decided", paper(), (dice.choice(["Accept", "Reject"]),)), lambda: ("Dismissed", user()),
        lambda: ("Invited", paper(), user()), lambda: ("Invited", paper(), dice.randint(6, 8)),
        lambda: ("Uninvited", paper(), dice.randint(6, 8)),
        lambda: ("DeadlineSet", (dice.choice(PHASES[:5]),), dice.choice([NOBODY, ("Some", dice.randint(1, 2_000))])),
        lambda: ("Responded", paper(), text()),
        lambda: ("Reviewed", paper(), dice.randint(1, 2), dice.randint(1, 4), form())]
    entries = [(1, ("Registered", n, text(), text())) for n in (1, 2)] + [
        (1, ("Named", n, (role,)))
        for n, role in ((1, "Chair"), (2, "Chair"), (3, "Member"), (4, "Member"), (5, "Member"))]
    entries += [(1, ("ModeSet", dice.choice(MODES))), (6, ("Submitted", 1, text(), text())),
                (7, ("Submitted", 2, text(), text()))]
    phases = dice.choice([PHASES, PHASES, SKIPPING])
    for phase in phases[:dice.randint(0, len(phases))]:
        entries += [(1, ("PhaseSet", (phase,)))] + [(user(), dice.choice(kinds)()) for _ in range(dice.randint(2, 9))]
    return stamped(entries)


def stamped(entries):
    """The history of these entries, each with its maker, and with a moment of its own;
    two of three with a number and a mark."""
    key = lambda at: ("Some", {"number": at, "mark": words(f"mark {at}")}) if at % 3 else NOBODY
    return History({"stamp": {"maker": maker, "at": 1_000 + at, "key": key(at)}, "more": False, "entry": entry}
                   for at, (maker, entry) in enumerate(entries))


def by_hand():
    """What is rarely made up: a paper that is accepted though it was withdrawn, once the conference is closed; tags in
    the submission, one of them the chairs'; an external of a withdrawn paper in it; one in the bidding who is in
    conflict with it; and a form that is written in the response."""
    closed = [("Submitted", 3, words("a"), words("b")), ("Uploaded", 3, 1, words("c")), ("Withdrawn", 3),
              ("Decided", 3, ("Accept",)), ("PhaseSet", ("Closed",))]
    early = [("Named", 2, ("Chair",)), ("Named", 4, ("Member",)), ("PhaseSet", ("Submission",)),
             ("Submitted", 1, words("a"), words("b")), ("Tagged", 1, words("hot"), True),
             ("Tagged", 1, words("~~odd"), True)]
    invited = [("PhaseSet", ("Submission",)), ("Submitted", 3, words("a"), words("b")), ("Withdrawn", 3),
               ("Invited", 3, 5)]
    barred = [*invited, ("Conflict", 3, 5, True), ("PhaseSet", ("Bidding",))]
    form = lambda score: {"score": score, "confidence": 3,
                          "to_authors": words(f"a {score}"), "to_pc": words(f"p {score}")}
    answered = [("Submitted", 1, words("a"), words("b")), ("Coauthor", 1, 7), ("Assigned", 1, 3, ("Pc",), 1),
                ("PhaseSet", ("Reviewing",)), ("Reviewed", 1, 1, 1, form(1)), ("PhaseSet", ("Response",)),
                ("Reviewed", 1, 1, 2, form(2)), ("Responded", 1, words("c"))]
    return [stamped([(6, entry) for entry in entries]) for entries in (closed, early, invited, barred, answered)]


def outside(mode, phases, ending):
    """A conference with users 7 and 8 from outside, in these phases up to one: 8 reviews paper 1, is in conflict with
    2, and is invited to 3, which is withdrawn; 4 is dismissed behind a bid, and invited to paper 1; 7 is invited to it
    no longer; and of the members 5 is invited."""
    form = lambda score: {"score": score, "confidence": 3,
                          "to_authors": words(f"for authors {score}"), "to_pc": words(f"for us {score}")}
    roles = [(1, ("Named", n, (role,)))
             for n, role in ((1, "Chair"), (2, "Chair"), (3, "Member"), (4, "Member"), (5, "Member"))]
    parts = {
        "Submission": [(6, ("Submitted", 1, words("a"), words("b"))), (6, ("Coauthor", 1, 7)),
                       (6, ("Uploaded", 1, 1, words("c"))), (6, ("Revised", 1, words("d"), words("e"))),
                       (6, ("Revised", 1, words("f"), words("g"))), (6, ("Uploaded", 1, 2, words("h"))),
                       (7, ("Submitted", 2, words("i"), words("j"))), (7, ("Uploaded", 2, 1, words("k"))),
                       (6, ("Submitted", 3, words("l"), words("m"))), (6, ("Withdrawn", 3)),
                       (6, ("Conflict", 1, 2, True)), (1, ("Invited", 1, 8)), (1, ("Invited", 3, 8)),
                       (1, ("Invited", 2, 8)), (1, ("Uninvited", 2, 8))],
        "Bidding": [(1, ("Invited", 2, 8)), (1, ("Conflict", 2, 8, True)), (3, ("Bid", 1, 25)), (4, ("Bid", 1, 0)),
                    (1, ("Dismissed", 4)), (1, ("Invited", 1, 4)), (1, ("Invited", 1, 5)), (1, ("Invited", 3, 7)),
                    (1, ("Uninvited", 3, 7)), (1, ("Assigned", 1, 3, ("Primary",), 1)),
                    (1, ("Assigned", 1, 8, ("Pc",), 2)), (3, ("Tagged", 1, words("hot"), True)),
                    (1, ("Tagged", 1, words("~~odd"), True)), (1, ("Assigned", 1, 5, ("Pc",), 3)),
                    (1, ("Unassigned", 1, 5, 3))],
        "Reviewing": [(3, ("Reviewed", 1, 1, 1, form(1))), (8, ("Reviewed", 1, 2, 1, form(2))),
                      (3, ("Reviewed", 1, 1, 2, form(3)))],
        "Response": [(6, ("Responded", 1, words("p"))), (7, ("Responded", 2, words("q")))],
        "Discussion": [(3, ("Commented", 1, 1, ("Some", 1), words("n"))), (5, ("Commented", 1, 2, NOBODY, words("o"))),
                       (8, ("Reviewed", 1, 2, 2, form(4))), (1, ("Decided", 1, ("Reject",))),
                       (1, ("Decided", 1, ("Accept",))), (1, ("Decided", 2, ("Reject",)))],
        "Notification": [], "Closed": []}
    entries = roles + [(1, ("ModeSet", mode))]
    for phase in phases[:phases.index(ending) + 1]:
        entries += [(1, ("PhaseSet", (phase,)))] + parts[phase]
    return stamped(entries)


@functools.cache
def other_payload(seed, place):
    """Other values for what stands at a place of a history, whatever its kind."""
    dice = random.Random(1000 * seed + place)
    text = lambda: words(f"other {dice.randint(1000, 9999)}")
    form = {"score": dice.randint(1, 5), "confidence": dice.randint(1, 5), "to_authors": text(), "to_pc": text()}
    return {"digest": text(), "title": text(), "abstract_": text(), "content": text(), "value": dice.randint(0, 40),
            "kind": (dice.choice(["Primary", "Secondary", "Pc"]),), "form": form, "text": text(),
            "tag": words(f"{dice.choice(['', '~', '~~'])}t{dice.randint(10, 99)}"), "on": dice.random() < 0.5,
            "decision": (dice.choice(["Accept", "Reject"]),), "at": dice.randint(3_000, 4_000),
            "key": dice.choice([NOBODY, ("Some", {"number": dice.randint(5_000, 9_000), "mark": text()})])}


def looks_at(seed, history):
    """Looks to try at a history: some users', each at the end; and those of two who look at two moments."""
    n, users = len(history), [NOBODY, *USERS]
    yield from ([{"who": users[(seed + step) % len(users)], "upto": n}] for step in (0, 3, 6))
    yield [{"who": users[(seed + step) % len(users)], "upto": n * part // 4} for step in (1, 5) for part in (3, 4)]


def small_conference(specs):
    """What the small conference is made of, and its histories in each mode and phase."""
    of = lambda name: specs.get("cr_conference.specs.Conference", name)
    digests = {name: tuple([n] * 32) for n, name in enumerate("alice bob carol dave erin fay gus hal ivy".split())}
    asides = [{"tag": words(t), "to_pc": words("New."), "comment": words(c)}
              for t, c in (("a", "Take it."), ("b", "Leave it."))]
    some = [NOBODY, ("Some", ("Accept",)), ("Some", ("Reject",))]
    verdicts = [of("verdicts"), of("reversed")] + [
        {"other": some[a], "first": some[b], "last": some[c]} for a, b, c in ((2, 0, 1), (0, 1, 1), (1, 2, 1))]
    histories = []
    for mode in MODES:
        histories += [of("before_bidding")(digests, mode), of("in_bidding")(digests, mode, asides[0], 4),
                      of("in_reviewing")(digests, mode, asides[0], 4)]
        histories += [of(name)(digests, mode, asides[0], 4, v)
                      for v in verdicts[:2] for name in ("in_discussion", "at_notification", "at_close")]
    return digests, asides, verdicts, [History(history) for history in histories]


# ---- computing

class Computed:
    """The specs with a row's changes, and which of the laws' clauses are false of them."""

    def __init__(self, plain=None, changed=None):
        self.specs = Specs(TOP, changed, plain and plain.specs)
        if plain:
            self.digests, self.asides, self.verdicts, self.histories = (
                plain.digests, plain.asides, plain.verdicts, plain.histories)
        else:
            file = "crates/cr_bounds/specs/ViewBounds.antt"
            with open(f"{TOP}/{file}", encoding="utf-8") as opened:
                text = opened.read()
            told = "map seen (view u H) ≡ each_told u H (part u H) [] H"
            assert told in text, "how ViewBounds says that a part is shown"
            self.specs.changed[file] = text.replace(
                told, "values (map seen (view u H)) ≡ values (each_told u H (part u H) [] H)")
            self.digests, self.asides, self.verdicts, conference = small_conference(self.specs)
            self.histories = by_hand() + [made_up(seed) for seed in range(40)] + conference
            self.histories += [outside(mode, SKIPPING, ending) for mode in MODES for ending in SKIPPING]
            self.histories += [outside(mode, PHASES, ending) for mode in MODES for ending in PHASES[3:]]

    def holds_of(self, clause, history):
        if arity(clause) == 1:
            return clause(history)
        if arity(clause) == 2:
            return all(clause(u, history) for u in [NOBODY, *USERS])
        return all(clause(u, p, history) for u in [NOBODY, *USERS] for p in PAPERS)

    def twins(self):
        """Histories in which a form that is unheard has other grades and texts, and such without one that was written
        when the response had been opened; each with a user to whom they are to look the same."""
        is_author = self.specs.get("cr_base.specs.HistoryFacts", "is_author")
        is_heard = self.specs.get("cr_bounds.specs.ShownTo", "is_responded_to")
        begins = self.specs.get("cr_bounds.specs.ShownTo", "begins_response")
        over = self.specs.get("cr_bounds.specs.ShownTo", "is_past_discussion")
        phase_of = self.specs.get("cr_base.specs.HistoryFacts", "phase_of")
        other = {"score": 5, "confidence": 1, "to_authors": words("other"), "to_pc": words("another")}
        for history in self.histories:
            for at, e in enumerate(() if over(phase_of(history)) else history):
                if e["entry"][0] != "Reviewed":
                    continue
                _, paper, ordinal, version, _ = e["entry"]
                before, after = History(history[:at]), History(history[at + 1:])
                for u in USERS:
                    if (not is_author(u, paper, history) or u[1] == e["stamp"]["maker"]
                            or is_heard(paper, ordinal, before, after)):
                        continue
                    changed = {**e, "entry": ("Reviewed", paper, ordinal, version, other)}
                    yield "unheard", u, history, History([*before, changed, *after])
                    if any(begins(s["entry"]) for s in before):
                        yield "later", u, history, History([*before, *after])

    def holds_of_twins(self, name):
        view = self.specs.get("cr_policy.specs.View", "view")
        return all(view(u, history) == view(u, twin) for clause, u, history, twin in self.twins() if clause == name)

    def holds_of_looks(self):
        """Whether at each look the same is seen of a history and of the other one."""
        otherwise = self.specs.get("cr_undeduced.specs.Undeducible", "otherwise")
        view = self.specs.get("cr_policy.specs.View", "view")
        for seed, history in enumerate(self.histories[::2]):
            for looks in looks_at(seed, history):
                other = otherwise(looks, lambda n: other_payload(seed, n), history)
                for look in looks:
                    seen, same = cut(look["upto"], history), History(other[:look["upto"]])
                    if view(look["who"], seen) != view(look["who"], same):
                        return False
        return True

    def holds_of_places(self):
        """Whether who isn't told which of two users it was, by the bounds, sees the same where these have each
        other's place at a paper."""
        of = functools.partial(self.specs.get, "cr_undeduced.specs.Twins")
        moves, renames, twinned = of("moves"), of("renames"), of("twinned")
        was_told = self.specs.get("cr_undeduced.specs.Undeducible", "was_told")
        makers, named = (self.specs.get("cr_bounds.specs.ShownTo", part) for part in ("maker_for", "user_for"))
        is_author = self.specs.get("cr_base.specs.HistoryFacts", "is_author")
        view = self.specs.get("cr_policy.specs.View", "view")
        for history in self.histories[::7] + self.histories[-30::2]:
            for paper, pair in ((1, (3, 8)), (2, (2, 4))):
                if any(is_author(("Some", user), paper, history) for user in pair):
                    continue
                twins = {"paper": paper, "one": pair[0], "other": pair[1]}
                other = History(applied(twinned, twins, history))
                changed = [(at, part) for at, e in enumerate(history)
                           for part, does in ((makers, moves(twins, e)), (named, renames(twins, e["entry"]))) if does]
                for u in [NOBODY, *USERS]:
                    if u[1:] in [(user,) for user in pair] or view(u, history) == view(u, other):
                        continue
                    if not any(applied(was_told, part, History(history[:at]), history[at], u, history, history[at:])
                               for at, part in changed):
                        return False
        return True

    def holds(self, law, name):
        """Whether the clause holds wherever it is computed."""
        if law == "law_undeducible":
            return self.holds_of_looks()
        if law == "law_twins":
            return self.holds_of_places()
        if law == "law_response_bound":
            if name in ("unheard", "later"):
                return self.holds_of_twins(name)
            clause = self.specs.get("cr_bounds.specs.ResponseBounds", LAWS[law][name])
            if name == "one":
                return all(clause(u, p, o, history)
                           for history in self.histories for u in [NOBODY, *USERS] for p in PAPERS for o in (1, 2, 3))
            return all(self.holds_of(clause, history) for history in self.histories)
        if law == "law_bounds":
            clause = self.specs.get("cr_bounds.specs.ViewBounds", LAWS[law][name])
            return all(self.holds_of(clause, history) for history in self.histories)
        clause = self.specs.get("cr_conference.specs.ConferenceLaws", LAWS[law][name])
        a, b = self.asides
        if name == "asides":
            return all(applied(clause, self.digests, mode, a, b) for mode in MODES)
        if name == "verdicts":
            return all(applied(clause, self.digests, mode, a, v, w)
                       for mode in MODES for v in self.verdicts for w in self.verdicts)
        return all(applied(clause, self.digests, mode, a) for mode in MODES)


PLAIN = []


def plain():
    """The specs as they stand, computed once a process."""
    if not PLAIN:
        PLAIN.append(Computed())
    return PLAIN[0]


def computed(row, every):
    """The clauses that are false of a row, of all or of those that it names, and those that it names and that hold."""
    kept = set(MEMO)
    planted = Computed(plain(), {**plain().specs.changed, **row.changed(TOP)})
    asked = [(law, clause) for law in LAWS for clause in LAWS[law] if clause not in UNCOMPUTED] if every else named(row)
    false = [pair for pair in asked if pair[1] not in UNCOMPUTED and not planted.holds(*pair)]
    for function in set(MEMO) - kept:
        del MEMO[function]
    return false, [clause for law, clause in named(row) if clause not in UNCOMPUTED and (law, clause) not in false]


def by_computing(rows, every):
    """Prints what came of each row; the count of those of which a clause holds that should be false."""
    held = [clause for law in LAWS for clause in LAWS[law]
            if clause not in UNCOMPUTED and not plain().holds(law, clause)]
    if held:
        print(f"the table as it stands: false {' '.join(held)}")
        return len(rows)
    through = 0
    with concurrent.futures.ProcessPoolExecutor(int(os.environ.get("JOBS", os.cpu_count() or 1))) as pool:
        for row, (false, wrong) in zip(rows, pool.map(computed, rows, [every] * len(rows), chunksize=4)):
            through += bool(wrong or not false)
            said = f"false {' '.join(clause for _, clause in false)}" + (f"; HOLDS {' '.join(wrong)}" if wrong else "")
            print(f"{row.name}: {said}", flush=True)
    return through


# ---- checking

def what_is_lost(row):
    """Why the row can't be planted, or names a clause that isn't there; else None."""
    unknown = [clause for law, clause in named(row) if clause not in LAWS[law]]
    if unknown:
        return f"no clause {unknown[0]}"
    return lost(row) if row.edits else "no change is written down"


def by_check(row):
    """Plants a row in a copy and checks the laws that it names there:
    of each, whether it is refused, and what was said."""
    with tempfile.TemporaryDirectory(prefix="wrong-table-") as room:
        shutil.copytree(f"{TOP}/crates", f"{room}/crates", ignore=shutil.ignore_patterns("out"))
        for name in ("crates.txt", "HANDLES"):
            shutil.copy(f"{TOP}/{name}", room)
        row.plant(room)
        refused = []
        for law in sorted({law for law, _ in named(row)} | set(row.words("law"))):
            run = subprocess.run(["rt", "check", "--only", law], cwd=f"{room}/crates/{CRATES[law]}",
                                 capture_output=True, text=True)
            said = (run.stdout + run.stderr).strip()
            refused.append((law, run.returncode != 0, said))
    return refused


def main():
    options = {word for word in sys.argv[1:] if word.startswith("--")}
    picked = [word for word in sys.argv[1:] if not word.startswith("--")]
    rows = picked_of(read("tables"), picked)
    written = [row for row in rows if row.edits and (named(row) or "--try" in options and row.words("law"))]
    if "--check" in options:
        missing = [f"{row.name}: {said}" for row in rows for said in [what_is_lost(row)] if said]
        print("\n".join([*missing, f"{len(rows) - len(missing)} can be planted, {len(missing)} not"]))
        sys.exit(len(missing) > 0)
    if "--try" in options:
        through = 0
        for row in written:
            for law, is_refused, said in by_check(row):
                through += not is_refused
                print(f"{row.name}: {law} {'refuses' if is_refused else 'PASSES'}\n{said[-3000:]}", flush=True)
        sys.exit(through > 0)
    through = by_computing(written, "--all" in options)
    print(f"{len(written) - through} refused, {through} not")
    sys.exit(through > 0)


if __name__ == "__main__":
    main()
