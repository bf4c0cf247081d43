#!/usr/bin/env python3
# SPDX-License-Identifier: Apache-2.0 OR MIT
"""Plants wrong rules in copies of the repository and runs the cases of conformance on each, unproved.

A rule of a command is on both sides of the law that views suffice. So a wrong one that code and definition share meets
that law as well. The cases refuse it, and the second statement of rules (wrong_laws.py). This changes only the code,
since nothing is proved here, and wants at least one case of the files named not to come out as due. The rules are the
rows in checks/planted/rules.

    checks/wrong_rules.py              all of them, as many topics at a time as there are processors
    checks/wrong_rules.py WORD..       those with one of these words in their name, or of a topic so named
    checks/wrong_rules.py --check ..   only whether each text that is to be changed is there, once

Ends with status 0 if every one is refused. A build takes three processor minutes and more. So those of a topic are
planted side by side in one copy, which is built once and run for each (checks/planted/switch.py). The few that can't be
have one of their own, and those with cases that spend a quota, which run for a minute, have another. The whole takes
some two hours and a half of processors. JOBS=n has n at a time.
"""
import concurrent.futures
import contextlib
import os
import re
import shutil
import subprocess
import sys
import tempfile

from planted.rows import TOP, Lost, lost, read
from planted.switch import CRATE, Switched, Unswitched

ENDED = re.compile(r"case=(\d+) ")
REFUSED = re.compile(r"/(crates/[^:]*):(\d+):\d+: (error.*)")


def what_is_lost(rule):
    """Why the rule can't be planted where its texts or its cases are no longer there; else None."""
    cases = rule.words("cases")
    missing = [case for case in cases if not os.path.exists(f"{TOP}/crates/conformance/data/{case}.case")]
    if missing or not cases:
        return f"no {missing[0]}.case" if missing else "no case is named"
    return lost(rule) if rule.edits else "no change is written down"


@contextlib.contextmanager
def copy():
    """A folder with the crates, which goes behind."""
    with tempfile.TemporaryDirectory(prefix="wrong-rules-") as room:
        shutil.copytree(f"{TOP}/crates", f"{room}/crates", ignore=shutil.ignore_patterns("out", "must-fail"))
        for name in ("crates.txt", "HANDLES"):
            shutil.copy(f"{TOP}/{name}", room)
        yield room


def run(room, rules, *words):
    """What a run of the cases of these rules says, on one output. Each is run once, with its bytes whole."""
    data = []
    for case in sorted({case for rule in rules for case in rule.words("cases")}):
        with open(f"{TOP}/crates/conformance/data/{case}.case", encoding="utf-8") as file:
            text = file.read()
        with open(f"{room}/{case}.case", "w", encoding="utf-8") as file:
            file.write(f"!whole\n{text}")
        data += ["--data", f"{case}.case={room}/{case}.case"]
    return subprocess.run(["rt", "try", "--steps", "100000", "--seconds", "900", *words, *data], text=True,
                          cwd=f"{room}/crates/conformance", env={**os.environ, "RT_ALLOW_C": CRATE},
                          stdout=subprocess.PIPE, stderr=subprocess.STDOUT).stdout


def verdict(rule, said):
    """Whether the cases that the rule names refuse it, by what its run said, and a word on it."""
    if "run=fault" in said:
        return True, "the run breaks off"
    if not any(line.endswith("cases not as due") for line in said.splitlines()):
        return False, "no verdict: " + said.strip()[-300:]
    own = tuple(f"{case}.case, " for case in rule.words("cases"))
    failed = [line for line in said.splitlines() if line.startswith(own) and ": ok" not in line]
    return bool(failed), f"{len(failed)} cases, first {failed[0].split(':')[0]}" if failed else "PASSES"


def tried_alone(rule):
    """The rule with what came of it, in a copy of its own."""
    with copy() as room:
        try:
            rule.plant(room)
        except Lost as error:
            return rule, (False, f"not planted: {error}")
        return rule, verdict(rule, run(room, [rule]))


def tried_together(rules):
    """Each rule with what came of it, all in one copy. Run number 0 has none planted, and has to be as due."""
    with copy() as room, tempfile.TemporaryDirectory(prefix="wrong-rules-") as numbers:
        switched = Switched(room)
        for rule in rules:
            switched.add(rule)
        switched.write()
        for number in range(len(rules) + 1):
            with open(f"{numbers}/{number}", "w", encoding="utf-8") as file:
                file.write(str(number))
        said = run(room, rules, "--cases", numbers)
        errors = {id(switched.row_at(path, int(line))): error for path, line, error in REFUSED.findall(said)}
    if errors:
        return [(rule, (False, errors.get(id(rule), "not run, since others don't compile"))) for rule in rules]
    runs, lines = {}, []
    for line in said.splitlines():
        lines.append(line)
        ended = ENDED.match(line)
        if ended:
            runs[int(ended[1])], lines = "\n".join(lines), []
    if not any(line.endswith(", 0 cases not as due") for line in runs.get(0, "").splitlines()):
        return [(rule, (False, "with no plant it isn't as due: " + said.strip()[-300:])) for rule in rules]
    return [(rule, verdict(rule, runs.get(number, "no run"))) for number, rule in enumerate(rules, 1)]


def is_slow(rule):
    """Whether a case of the rule spends a quota, of 64 MiB or of a thousand comments."""
    return any(case.startswith("quota_") or case.endswith("_spent") for case in rule.words("cases"))


def tasks(rules):
    """What is to be run: the rules of each topic that can be planted side by side, and the others one by one."""
    topics, alone = {}, []
    switched = Switched(TOP)
    for rule in rules:
        try:
            switched.add(rule)
            topics.setdefault((rule.topic, is_slow(rule)), []).append(rule)
        except (Unswitched, Lost):
            alone.append(rule)
    return [*topics.values()], alone


def main():
    words = [word for word in sys.argv[1:] if word != "--check"]
    rules = [rule for rule in read("rules")
             if not words or rule.topic in words or any(word in rule.name for word in words)]
    if "--check" in sys.argv:
        missing = [f"{rule.name}: {said}" for rule in rules for said in [what_is_lost(rule)] if said]
        print("\n".join([*missing, f"{len(rules) - len(missing)} can be planted, {len(missing)} not"]))
        sys.exit(len(missing) > 0)
    through = 0
    together, alone = tasks(rules)
    with concurrent.futures.ThreadPoolExecutor(int(os.environ.get("JOBS", os.cpu_count() or 1))) as pool:
        waited = [pool.submit(tried_together, rules) for rules in together]
        waited += [pool.submit(lambda rule=rule: [tried_alone(rule)]) for rule in alone]
        for done in concurrent.futures.as_completed(waited):
            for rule, (is_refused, said) in done.result():
                through += not is_refused
                print(f"{rule.name}: {said}", flush=True)
    print(f"{len(rules) - through} refused, {through} not")
    sys.exit(through > 0)


if __name__ == "__main__":
    main()
