#!/usr/bin/env python3
# SPDX-License-Identifier: Apache-2.0 OR MIT
"""Tells what has to be read to believe the main theorems: the definitions that their contracts rest on.

    python3 checks/closure.py            compares the marked block of docs/TRUST.md with the sources
    python3 checks/closure.py --write    writes that block
    python3 checks/closure.py --idle     lists what the files of the block define that no theorem of it names

The specs are read as text (lib/specs.py). Lines are counted without imports, comments and blank lines. Ends with status
0 if the block is as due. Needs only Python 3. Takes a few seconds.
"""

import re
import sys
import textwrap

from lib.places import TOP
from lib.specs import by_imports, by_names, lines_of, module, roots

PAGE = TOP / "docs/TRUST.md"
BEGIN, END = "<!-- written by checks/closure.py --write -->\n", "<!-- end -->"
# The steps of the page: what each is about, its status, and the functions and traits whose contracts say it, by
# their file.
STEPS = (
    ("what a user may see", "Proved", {"crates/cr_bounds/src/lib.rt": ("law_bounds", "law_response_bound")}),
    (
        "which commands the rules accept",
        "Proved",
        {"crates/cr_permissions/src/lib.rt": ("law_permissions", "law_bulk")},
    ),
    ("every answer from the caller's view", "Proved", {"crates/cr_session/src/laws.rt": ("law_two_runs",)}),
    ("whole runs, from bytes to bytes", "Proved", {"crates/cr_top/src/run.rt": ("top",)}),
    (
        "what can't be ruled out",
        "Proved",
        {
            "crates/cr_undeduced/src/lib.rt": ("law_undeducible", "law_makers", "law_twins"),
            "crates/cr_laws/src/lib.rt": ("law_undeducible_bytes", "law_twins_bytes"),
        },
    ),
    ("what a crash leaves", "Proved", {"crates/cr_journal/src/keeper.rt": ("law_stops",)}),
    (
        "what a disk does",
        "Assumed of files",
        {"crates/cr_disks/src/disk.rt": ("Disk",), "crates/cr_disks/src/disks.rt": ("Disks",)},
    ),
)
# Code whose effects outside the program no contract sees.
OUTSIDE = ("cr_net", "cr_files", "cr_sqlite", "cr_notices", "cr_stores", "cr_process", "confd")
COLUMNS = 96


def lines_in(crate, kind):
    """The lines of a crate's sources of a kind, `src` or `proofs`."""
    sign, uses = ("//", r"(?:pub |ghost )*(?:use|mod) ") if kind == "src" else ("--", r"(?:pub )?(?:use|mod) ")
    found = 0
    for path in (TOP / "crates" / crate / kind).rglob("*.rt" if kind == "src" else "*.antt"):
        for line in map(str.strip, path.read_text().split("\n")):
            found += bool(line) and not line.startswith(sign) and not re.match(uses, line)
    return found


def over(crates, kind, step):
    """The lines of these crates, in so round a number that not every change of code changes the page."""
    return f"over {sum(lines_in(crate, kind) for crate in crates) // step * step:,}"


def listed(new):
    """The files of a step, by crate: of each the lines that are new in it, and all that it has where these are more."""
    files = {}
    for crate, name, word in new:
        files.setdefault(crate, {}).setdefault(name, []).append((crate, name, word))
    for crate in sorted(files):
        told = []
        for name, definitions in sorted(files[crate].items()):
            count, whole = lines_of(definitions), module(crate, name).lines()
            told.append(f"{name} {count}" + (f"/{whole}" if count < whole else ""))
        yield from textwrap.wrap(f"{crate}: {', '.join(told)}", COLUMNS, subsequent_indent="    ")


def cited_by(files):
    """What the contracts of these functions and traits cite, which stand by the file that has them."""
    return set().union(*(roots(file, names) for file, names in files.items()))


def block():
    """The marked block: a table of the steps, and the files of each."""
    table = ["|step|contracts|status|files|lines|new lines|whole files|their lines|", "|---" * 8 + "|"]
    lists, seen, imported = [], set(), set()
    for number, (title, status, contracts) in enumerate(STEPS, 1):
        cited = cited_by(contracts)
        named, files = by_names(cited), by_imports(cited)
        counts = (len({one[:2] for one in named}), lines_of(named), lines_of(named - seen), len(files),
                  sum(module(*one).lines() for one in files))
        names = ", ".join(f"`{name}`" for functions in contracts.values() for name in functions)
        table.append(f"|{number}. {title}|{names}|{status}|" + "|".join(f"{count:,}" for count in counts) + "|")
        lists += [f"{number}. {title}", *("    " + line for line in listed(named - seen)), ""]
        seen |= named
        imported |= files
    crates = {path.name for path in (TOP / "crates").iterdir()}
    rest = [
        f"|definitions that the steps name|{len({one[:2] for one in seen})}|{lines_of(seen):,}|",
        f"|the whole files, with all that they import|{len(imported)}|"
        f"{sum(module(*one).lines() for one in imported):,}|",
        f"|code whose effects no contract sees ({', '.join(OUTSIDE)})||{over(OUTSIDE, 'src', 100)}|",
        f"|need not be read: proofs||{over(crates, 'proofs', 1_000)}|",
        f"|need not be read: proved code||{over(crates - set(OUTSIDE), 'src', 1_000)}|",
    ]
    return "\n".join([*table, "", "|in all|files|lines|", "|---|---|---|", *rest, "", "```", *lists[:-1], "```", ""])


def idle():
    """Prints, of each file that the theorems import, what none of them names."""
    named, files = set(), set()
    for _, _, contracts in STEPS:
        cited = cited_by(contracts)
        named |= by_names(cited)
        files |= by_imports(cited)
    for crate, name in sorted(files):
        unnamed = [word for word in module(crate, name).definitions if (crate, name, word) not in named]
        if unnamed:
            count = lines_of((crate, name, word) for word in unnamed)
            print(f"{crate} {name}: {count} of {module(crate, name).lines()} lines: {' '.join(unnamed)}")


def main():
    if sys.argv[1:] == ["--idle"]:
        idle()
        return 0
    text = PAGE.read_text()
    before, begin, rest = text.partition(BEGIN)
    old, end, after = rest.partition(END)
    if not begin or not end:
        sys.exit(f"{PAGE.name} has no block between {BEGIN.strip()} and {END}")
    due = block()
    if sys.argv[1:] == ["--write"]:
        PAGE.write_text(before + begin + due + end + after)
    elif old != due:
        print("\n".join(line for line in due.split("\n") if line not in old.split("\n")))
        print(f"docs/{PAGE.name} says other files or lines: python3 checks/closure.py --write, and read what came")
        return 1
    print("docs/TRUST.md has the definitions of the main theorems")
    return 0


if __name__ == "__main__":
    sys.exit(main())
