#!/usr/bin/env python3
# SPDX-License-Identifier: Apache-2.0 OR MIT
"""Plants wrong rules, the rows in checks/planted/laws, into definition and code alike,
and looks which laws are false of each.

    checks/wrong_laws.py [WORD..]          computes, with no prover, which laws are false:
                                           those that each row names have to be
    checks/wrong_laws.py --check [WORD..]  only whether each text that is to be changed is there, once
    checks/wrong_laws.py --try NAME..      plants each in a copy of cr_base, cr_history, cr_policy and the crates
                                           of these laws, and runs `rt check` there, of one behind the other

A rule that definition, view and tables share is the same on both sides of the law that views suffice. A second
statement of rules refuses it. That is the invariants of cr_history, and that the small conference is legal; and the
clauses of `law_permissions` and `law_goes_on` of cr_permissions, and of `law_first_told` of cr_conference. `legal` of
`law_undeducible` and `law_twins` of cr_undeduced says that no rule reads a text or a grade, or which of two members it
is. They are computed of histories that the planted rules let come about: the small conference phase by phase, and twins
of it. The callers are nobody and nine users, with each command, query and bulk of checks/planted/asked.py. The last two
are computed of the conference with other values in its commands, and with two members in each other's place at a paper.
Of the right rules all have to hold. WORD picks rows by a word of their name, or a topic. Ends with status 0 if all were
as due.
"""
import concurrent.futures
import functools
import os
import re
import shutil
import subprocess
import sys
import tempfile
import traceback

from planted import asked
from planted.rows import TOP, lost, picked_of, read
from planted.specs import BUILT_IN, ENDS, History, Specs, applied, arity, home

sys.setrecursionlimit(50000)
LEAVES = ("cr_permissions", "cr_conference")
CRATES = ("cr_base", "cr_history", "cr_policy", *LEAVES)
NONE, some = asked.NONE, asked.some
CALLERS = [NONE] + [some(n) for n in range(1, 10)]
DIGESTS = {name: (n,) * 32 for n, name in enumerate(asked.NAMES)}
ASIDES = {"tag": asked.words("a"), "to_pc": asked.words("New."), "comment": asked.words("Take it.")}
CASES = ("OfTheConference", "OfPapers", "OfConflicts", "OfReviewers", "OfExternals", "OfTheDiscussion",
         "OfTheResponse", "OfQueries", "OfBulks")
# what is computed of the rows of a topic
ASKS = {"commands": ("commands", "adds"), "queries": ("queries",), "added": ("commands", "adds"), "bulks": ("bulks",)}
EVERY = ("commands", "adds", "queries", "bulks")

ENDS.add("breaks")
BUILT_IN.update({
    "is_none": lambda o: o[0] == "None",
    "is_ok": lambda r: r[0] == "Ok",
    "option_map": lambda f, o: some(applied(f, o[1])) if o[0] == "Some" else NONE,
    "option_and_then": lambda f, o: applied(f, o[1]) if o[0] == "Some" else NONE,
    "option_map_or": lambda f, o, a: applied(f, o[1]) if o[0] == "Some" else a,
    "find": lambda f, xs: next((some(x) for x in xs if applied(f, x)), NONE),
    "bytes_eq": lambda a, b: a == b,
    "fold": lambda f, a, xs: functools.reduce(lambda x, y: applied(f, x, y), xs, a),
    "slice_get": lambda xs, n: some(xs[n]) if n < len(xs) else NONE,
})


# ---- the rules, computed

def once(f):
    """A function of numbers and options with its answers kept."""
    answers, names = {}, ", ".join(f"a{i}" for i in range(arity(f)))

    def look(*args):
        if args not in answers:
            answers[args] = f(*args)
        return answers[args]

    return eval(f"lambda {names}: look({names})", {"look": look})  # pylint: disable=eval-used


def parse_paper(text):
    """The number that a paper's decimal digits tell, without a leading zero."""
    digits = bytes(text).decode("latin1")
    return some(int(digits)) if re.fullmatch(r"[1-9]\d{0,3}", digits) else NONE


class Rules:
    """The definitions with a row's changes, as functions."""

    def __init__(self, changed):
        self.specs, self.seen, self.kept = Specs(TOP, changed), {}, {}
        self.stand_in("cr_base.specs.Texts", is_name_byte=lambda b: 97 <= b <= 122 or 48 <= b <= 57 or b == 45)
        self.stand_in("cr_base.specs.Parse", parse_paper=parse_paper,
                      parse_name=lambda text: some(text) if 1 <= len(text) <= 32 else NONE)
        for name in ("facts_in_view", "shown_in_view"):
            self.stand_in("cr_policy.specs.ViewFacts", **{name: self.facts_kept(self.get("ViewFacts", name), name)})
        checks, judged = self.get("Answering", "query_checks", "cr_base"), self.get("Checks", "judged", "cr_base")

        def answer_by(facts, shown, _, query):
            verdict = applied(judged, applied(checks, facts, shown, query), ())
            return ("Refused", verdict[1]) if verdict[0] == "Err" else ("Told",)

        # an answer that isn't a rule is told, whatever it is
        self.stand_in("cr_base.specs.Answering", answer_by=answer_by)

    def get(self, module, name, crate=None):
        return self.specs.get(f"{crate or home(TOP, f'specs/{module}.antt')}.specs.{module}", name)

    def stand_in(self, module, **made):
        self.specs.module(module).made.update(made)

    def facts_kept(self, f, name):
        """The facts of a view, each computed once for its arguments."""
        def facts(u, V):
            key = (name, u, id(V))
            if key not in self.kept:
                self.kept[key] = (V, {field: once(value) if callable(value) else value
                                      for field, value in applied(f, u, V).items()})
            return self.kept[key][1]

        return eval("lambda u, V: facts(u, V)", {"facts": facts})  # pylint: disable=eval-used

    def call(self, module, name, *args):
        return applied(self.get(module, name), *args)

    def view(self, u, H):
        if (u, id(H)) not in self.seen:
            self.seen[u, id(H)] = self.call("View", "view", u, H)
        return self.seen[u, id(H)]

    def called(self, u, command):
        return applied(self.get("Calls", "call_of", "cr_base"), u, asked.MORNING, NONE, command)

    def bulk(self, u, rows):
        return applied(self.get("Calls", "bulk_by", "cr_base"), u, asked.MORNING, NONE, rows)

    def judge(self, u, H, command):
        return self.call("Judge", "judge", self.view(u, H), self.called(u, command))

    def accepts(self, u, H, command):
        wanted = applied(self.get("Logins", "command_wants_login", "cr_base"), command)
        return self.judge(u, H, command) if u != NONE or not wanted else ("Err", "login")

    def answers(self, u, H, query):
        if u == NONE and self.call("Judge", "needs_login", self.view(NONE, H), query):
            return False
        return self.call("Judge", "answer", u, self.view(u, H), query)[0] != "Refused"

    def accepts_bulk(self, u, H, rows):
        return self.call("Judge", "judge_bulk", self.view(some(u), H), self.bulk(u, rows))

    def behind(self, H, steps):
        """The history behind these commands, and those that are refused."""
        refused = []
        for u, command in steps:
            verdict = self.judge(u, H, command)
            if verdict[0] == "Ok":
                H = History((*H, *verdict[1]["group"]))
            else:
                refused.append((command, verdict[1]))
        return H, refused

    def stages(self):
        """Histories by name, which these rules let come about, and which steps of the conference they refuse."""
        found, H, refused = {}, History(()), []
        for step in asked.conference():
            if isinstance(step, str):
                found[step] = H
            else:
                H, no = self.behind(H, [step])
                refused += no
        for name, (stage, steps) in asked.TWINS.items():
            found[name] = self.behind(found[stage], steps)[0]
        for name, (stage, entries) in asked.FULL.items():
            found[name] = History((*found[stage], *entries))
        return found, refused


# ---- the laws

class Laws:
    """Which of them are false of these rules, each with the first place at which it is."""

    def __init__(self, rules, topic=None):
        self.rules, self.false, self.asks = rules, {}, ASKS.get(topic, EVERY)
        stages, refused = rules.stages()
        if refused:
            self.note("legal", refused[0])
        else:
            self.of_others()
            self.of_places()
        for name, H in stages.items():
            self.at(name, H, asked.ALONE.get(name))
        self.of_rows()
        self.of_cases()

    def note(self, law, place):
        self.false.setdefault(law, place)

    def at(self, name, H, alone):
        for u in CALLERS if not alone else [some(n) for n in (1, 4, 7, 8)]:
            for command in asked.commands() if "commands" in self.asks else []:
                if not alone or command[0] in alone:
                    self.of_command(name, u, H, command)
            for query in asked.queries() if "queries" in self.asks and not alone else []:
                if self.rules.answers(u, H, query) != self.rules.call("MayRead", "may_read", u, H, query):
                    self.note("reading", (name, u, query))
            for rows in asked.BULKS if "bulks" in self.asks and not alone and u != NONE else []:
                if ((self.rules.accepts_bulk(u[1], H, rows)[0] == "Ok")
                        != self.rules.call("MayBulk", "may_bulk", H, self.rules.bulk(u[1], rows))):
                    self.note("bulks", (name, u, rows))
        if not alone and name not in ("closed",):
            if not any(self.rules.judge(some(1), H, ("SetPhase", (phase,)))[0] == "Ok" for phase in asked.PHASES):
                self.note("goes_on", name)

    def of_command(self, name, u, H, command):
        if {"commands", "adds", "invariants"} <= set(self.false):
            return
        verdict = self.rules.accepts(u, H, command)
        if (verdict[0] == "Ok") != self.rules.call("MayDo", "may_do", u, asked.MORNING, H, command):
            self.note("commands", (name, u, command, verdict[0]))
        if verdict[0] != "Ok":
            return
        drawn, said = verdict[1], lambda word: self.rules.call("Added", word, u, H, command)
        entries, stamp = said("added"), self.rules.call("Added", "stamp_added", H, self.rules.called(u, command))
        group = [{"stamp": stamp, "more": more, "entry": e}
                 for e, more in zip(entries, self.rules.call("Added", "marks", entries))]
        if (list(drawn["group"]), (drawn["receipt"],)) != (group, tuple(said("answered"))):
            self.note("adds", (name, u, command))
        before = tuple(H)
        for e in drawn["group"]:
            if not applied(self.rules.get("Invariants", "IsInOrder", "cr_history"), History(before), e):
                self.note("invariants", (name, u, command))
            before += (e,)

    def of_others(self):
        """The conference with other values in its commands: what was accepted is (the clause `legal` of
        `law_undeducible`, where nobody looks)."""
        steps = [step for step in asked.conference() if not isinstance(step, str)]
        responds = asked.TWINS["responses are discussed"][1]
        for seed in range(8):
            for chosen in (steps, steps[:-9] + responds):
                others = [(u, asked.with_others(seed, place, command)) for place, (u, command) in enumerate(chosen)]
                refused = self.rules.behind(History(()), others)[1]
                if refused:
                    self.note("undeduced", refused[0])
                    return

    def of_places(self):
        """The conference in which two members have each other's place at a paper: what was accepted is (the clause
        `legal` of `law_twins`)."""
        steps = [step for step in asked.conference() if not isinstance(step, str)]
        for paper, pair in ((1, (4, 8)), (2, (3, 4))):
            refused = self.rules.behind(History(()), [asked.in_place(step, paper, pair) for step in steps])[1]
            if refused:
                self.note("twins", refused[0])
                return

    def of_rows(self):
        for action, command in asked.ROWS.items():
            row = asked.row("7", action, "bob", "t")
            if applied(self.rules.get("Bulk", "row_command", "cr_base"), row) != ("Ok", command):
                self.note("rows", action)
        H = History(self.rules.call("Witness", "bidding_opened", *[(n,) * 32 for n in range(4)]))
        witness = lambda name: self.rules.get("Witness", name)
        if (self.rules.accepts_bulk(1, H, witness("four_rows"))
                != ("Ok", {"group": witness("rows_added"), "receipt": ("Rows", 4)})):
            self.note("witness", "four_rows")
        if self.rules.accepts_bulk(1, H, witness("twice_assigned")) != ("Err", ("Row", 3, ("AlreadyAssigned",))):
            self.note("witness", "twice_assigned")

    def of_cases(self):
        for case in CASES:
            if not self.rules.call("FirstTold", case, DIGESTS, ASIDES):
                self.note("first_told", case)


# ---- rows

def computed(row):
    """The laws that are false of a row, with a place each; or what broke it off."""
    try:
        return Laws(Rules(row.changed(TOP) if row else {}), row.topic if row else None).false
    except Exception:  # pylint: disable=broad-exception-caught
        return {"broken off": traceback.format_exc().strip().split("\n")[-1]}


def due(row):
    """The laws that a row says are false: the new ones, those of old, and that nothing hidden can be ruled out."""
    others = {key for key in ("undeduced", "twins") if row.words(key)}
    return set(row.words("clauses")) | set(row.words("of old")) | others


def by_computing(rows):
    """Prints what came of each; how many weren't as due."""
    plain, wrong = computed(None), 0
    if plain:
        print(f"the rules as they stand: {plain}")
        return len(rows)
    with concurrent.futures.ProcessPoolExecutor(int(os.environ.get("JOBS", os.cpu_count() or 1))) as pool:
        for row, false in zip(rows, pool.map(computed, rows)):
            as_due = set(false) == due(row) if due(row) or row.told.get("refused by") else bool(false)
            wrong += not as_due
            print(f"{row.name}: {'' if as_due else 'NOT AS DUE: '}false {' '.join(sorted(false)) or 'none'}; {false}",
                  flush=True)
    return wrong


def by_check(row):
    """Plants a row in a copy and checks the crates of laws there, up to the first that is refused:
    what was said, and whether one was."""
    with tempfile.TemporaryDirectory(prefix="wrong-law-") as room:
        for crate in CRATES:
            shutil.copytree(f"{TOP}/crates/{crate}", f"{room}/crates/{crate}", ignore=shutil.ignore_patterns("out"))
        with open(f"{TOP}/crates.txt", encoding="utf-8") as file:
            listed = [line for line in file if line.split(":")[0].strip() in CRATES]
        with open(f"{room}/crates.txt", "w", encoding="utf-8") as file:
            file.write("".join(listed))
        shutil.copy(f"{TOP}/HANDLES", room)
        row.plant(room)
        for crate in LEAVES:
            run = subprocess.run(["rt", "check", "--jobs", "1"], cwd=f"{room}/crates/{crate}",
                                 capture_output=True, text=True)
            if run.returncode:
                break
    said = run.stdout + run.stderr
    places = sorted(set(re.findall(r"(\w+)\.antt:\d+:\d+: error: `([\w-]+)`", said)))
    return run.returncode != 0, " ".join(f"{file}.{name}" for file, name in places) or said.strip()[-300:]


def main():
    options = {word for word in sys.argv[1:] if word.startswith("--")}
    rows = picked_of(read("laws"), [word for word in sys.argv[1:] if not word.startswith("--")])
    if not rows or options - {"--check", "--try"}:
        sys.exit(__doc__)
    gone = [(row.name, why) for row, why in ((row, lost(row)) for row in rows) if why]
    for name, why in gone:
        print(f"{name}: {why}")
    if gone or "--check" in options:
        print(f"{len(rows)} rows, {len(gone)} that can't be planted")
        sys.exit(bool(gone))
    if "--try" in options:
        wrong = 0
        for row in rows:
            refused, said = by_check(row)
            wrong += not refused
            print(f"{row.name}: {'refused' if refused else 'PASSED'}: {said}", flush=True)
    else:
        wrong = by_computing(rows)
    print(f"{len(rows)} rows, {wrong} not as due")
    sys.exit(wrong > 0)


if __name__ == "__main__":
    main()
