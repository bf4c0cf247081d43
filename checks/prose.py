#!/usr/bin/env python3
# SPDX-License-Identifier: Apache-2.0 OR MIT
"""Tries how the pages are written: short sentences, no words that this project avoids, a status on each claim.

    python3 checks/prose.py [PAGE..]              these pages, such as docs/API.md; all where none is named
    python3 checks/prose.py --numbers [COMMIT]    the words of each page, and the average length of a sentence; of the
                                                  pages of a commit, where one is named

The page of a crate is the front of its src/lib.rt. A sentence has at most 30 words. What is in code, in headings and in
tables' heads isn't counted, and a cell of a table is a text of its own. The words of BANNED have a plainer one, which
is printed. A block or a row that cites a theorem (`law_..`) as a claim says that it is Proved, Tested or Assumed; on a
crate's page the heading above it does. The descriptions of docs/openapi.json and the heads of scripts are tried too.
Prints a line for each thing that isn't so, and last how many sentences were read; ends with status 0 if none is wrong.
Needs only Python 3.
"""

import ast
import json
import re
import subprocess
import sys

from lib.pages import CRATE_PAGES, PAGES, blocks, crate_page, plain, read, sentences, words
from lib.places import TOP

SCRIPTS = ("bench/*.py", "checks/*.py", "checks/lib/*.py", "checks/planted/*.py", "deploy/*.py")
MOST_WORDS = 30
# Pages on which citing a theorem is claiming it.
CLAIMING = ("README.md", "docs/TRUST.md", "docs/CLAIMS.md")
STATUS = re.compile(r"\b(Proved|Tested|Assumed)\b")
# What isn't written, as an expression over a plain text, and what is.
BANNED = (
    (r"\b[Ss]he\b|\b[Hh]ers?(?:elf)?\b", "the author, a chair, the caller; or they"),
    (r"\b[Ww]hoever\b|\b[Ww]hom\b|(?:^|[.;:] )Who\b(?![^.?!]*\?)", "a user who, the caller"),
    (r"\bstands?\b|\bstood\b", "is"),
    (r"\balone\b", "only"),
    (r"\bbut for\b", "except"),
    (r"\bas it is\b", "unchanged"),
    (r"\b(?:is|are) (?:asked|said)\b", "name who asks or says it"),
    (r"\bcomes where\b|\bcome where\b", "if"),
    (r"\bbehind\b(?! (?:nginx|a proxy|the proxy|another))", "after"),
    (r"\b(?:see|said|told|listed|named|is) below\b|\bsaid there\b", "a link, by the section's title"),
    (r"\bwant of memory\b", "lack of memory"),
    (r"\bwants a login\b", "requires authentication"),
    (r"\bsightings?\b", "what an entry shows"),
    (r"(?:^|[.!?] )(?:Neither|Nor|So is|So are)\b", "a sentence that says who does what"),
    (r"[.!?:;] - (?=[A-Z])", "each item of a list on a line of its own"),
)


def wrong_in(name, text):
    """The sentences of a page, those of its tables apart, counted by their words, and what is wrong with it."""
    counts, in_tables, wrong = [], [], []
    heading = ""
    for block in blocks(text):
        heading = block.text if block.kind == "heading" else heading
        where = f"{name}:{block.line}"
        if block.torn:
            wrong.append(f"{where}: a list begins in a paragraph's next line: was it a number that a line began with?")
        for text in map(plain, block.cells or (block.text,)):
            for sentence in sentences(text) if block.kind in ("paragraph", "item", "row") else ():
                count = len(words(sentence))
                (in_tables if block.kind == "row" else counts).append(count)
                if count > MOST_WORDS:
                    wrong.append(f"{where}: {count} words: {sentence[:60]}..")
            for expression, better in BANNED:
                found = re.search(expression, text)
                if found:
                    wrong.append(f"{where}: \"{found.group().strip('.;:!? ')}\": write: {better}")
        is_claim = (name in CLAIMING or name.endswith(".rt")) and block.kind != "heading" and "`law_" in block.text
        if is_claim and not STATUS.search(heading if name.endswith(".rt") else block.text):
            wrong.append(f"{where}: a claim without a status (Proved, Tested or Assumed)")
    return counts, in_tables, wrong


def described(text):
    """The descriptions of openapi.json, as items of a list in their lines; the other lines are empty."""
    said = re.compile(r'"(?:description|summary)": ("(?:[^"\\]|\\.)*")')
    lines = [". ".join(json.loads(found) for found in said.findall(line)) for line in text.split("\n")]
    return "\n".join(line and f"- {line}" for line in lines)


def head(script):
    """What the head of a script says, in its lines, without examples of how to call it."""
    lines = (ast.get_docstring(ast.parse(script.read_text()), clean=False) or "").split("\n")
    return "\n" * 2 + "\n".join("" if line.startswith("    ") else line for line in lines)


def pages_of(commit):
    """The pages of a commit, by their names, with their texts."""
    git = lambda *words: subprocess.run(["git", *words], cwd=TOP, capture_output=True, check=True).stdout.decode()
    names = git("ls-tree", "-r", "--name-only", commit).split("\n")
    pages = [name for name in names if re.fullmatch(r"[A-Z]+\.md|docs/\w+\.md|checks/planted/README\.md", name)]
    crates = [name for name in names if re.fullmatch(r"crates/\w+/src/lib\.rt", name)]
    return {name: git("show", f"{commit}:{name}") for name in pages} | {
        name: crate_page(git("show", f"{commit}:{name}")) for name in crates
    }


def numbers(pages):
    """Prints the words of each page, and the average length of its sentences."""
    total = 0
    for name, text in pages.items():
        counts, in_tables, _ = wrong_in(name, text)
        total += sum(counts) + sum(in_tables)
        print(f"{name}: {sum(counts):,} words, {sum(counts) / max(1, len(counts)):.1f} a sentence, "
              f"{max(counts, default=0)} at most; in tables {sum(in_tables):,}")
    print(f"{total:,} words in all")


def main():
    named = sys.argv[1:]
    here = {page.relative_to(TOP).as_posix(): read(page) for page in PAGES + CRATE_PAGES}
    if named[:1] == ["--numbers"]:
        numbers(pages_of(named[1]) if named[1:] else here)
        return 0
    if not set(named) <= set(here):
        sys.exit(f"no page of these names: {' '.join(sorted(set(named) - set(here)))}")
    seen, wrong = 0, []
    for name in named or here:
        counts, in_tables, more = wrong_in(name, here[name])
        seen += len(counts) + len(in_tables)
        wrong += more
    if not named:
        wrong += wrong_in("docs/openapi.json", described((TOP / "docs/openapi.json").read_text()))[2]
        for script in sorted(path for place in SCRIPTS for path in TOP.glob(place)):
            wrong += wrong_in(script.relative_to(TOP).as_posix(), head(script))[2]
    print("\n".join([*wrong, f"{len(named or here)} pages, {seen} sentences, {len(wrong)} wrong"]))
    return 1 if wrong else 0


if __name__ == "__main__":
    sys.exit(main())
