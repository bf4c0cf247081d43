#!/usr/bin/env python3
# SPDX-License-Identifier: Apache-2.0 OR MIT
"""Tries the pages: README.md, docs/*.md and the front of each crate's src/lib.rt cite nothing that isn't there.

    python3 checks/links.py

Each link leads to a file and a heading that are there. Each path in backticks is in the repository. Each crate named is
there, and the table in docs/ARCHITECTURE.md has each of crates.txt. Each name of code in backticks is in a source file;
on a crate's page in one of that crate, or of one that the page names. There each clause in parentheses is one of the
function before it, or in what its contract cites. The table of errors in docs/API.md has exactly the names that
cr_print prints. Each decision that is cited is there. Prose stays under 100 columns, in a source under 120, and all
pages together under so many words (`WORDS`), without what programs print. Needs only Python 3. Prints a line for each
thing that isn't so, and last `N cited, M wrong`; ends with status 0 if none is wrong. Takes some ten seconds.
"""

import fnmatch
import functools
import re
import sys

from lib.contracts import is_clause
from lib.pages import CRATE_PAGES, PAGES, prose, read, words
from lib.places import TOP

KINDS = (".rt", ".antt", ".py", ".sh", ".md", ".case", ".edit", ".txt", ".http", ".conf", ".service")
# Pages on which every name in backticks is one of code; on the others those with `_` or `::` are, and small ones with a
# dash, as lemmas have.
CLAIMS = ("CLAIMS.md", "lib.rt")
COLUMNS, WORDS = {".md": 100, ".rt": 120}, 38_000
# What stands for a name of the reader's own, or is made when something runs.
MADE = re.compile(r"FILE|NAME|PATH|BACKUP|COPY|/var/|/etc/|\bout/|assignments\.csv|[<>$]|^NO")
# Names in backticks that no source has: an edit that can't be written, a part of a goal's name, and what `rt try` says.
OTHERS = {"turn_on_opening_copy", "in_err-x", "no-answer"}


def skipped(path):
    return any(part in (".git", "out", "node_modules") for part in path.parts)


FILES = [p.relative_to(TOP) for p in TOP.rglob("*") if p.is_file() and not skipped(p.relative_to(TOP))]
NAMES = {p.name for p in FILES}
TEXTS = {str(p) for p in FILES}
FOLDERS = {str(q) for p in FILES for q in p.parents}
CRATES = {p.name for p in (TOP / "crates").iterdir() if p.is_dir()}


@functools.cache
def words_in(path):
    """Each word of a source without its page, names with a dash whole and in parts; none of what is no source."""
    if path.suffix not in (".rt", ".antt", ".py", ".sh", ".edit"):
        return frozenset()
    text = re.sub(r"^//!.*", "", (TOP / path).read_text(), flags=re.M)
    return frozenset(re.findall(r"[\w-]+", text)) | frozenset(re.findall(r"\w+", text))


def words_of_code(crates=None):
    """The words of the sources, and the names of files; where crates are named, the words of those alone."""
    chosen = [p for p in FILES if crates is None or (p.parts[0] == "crates" and p.parts[1] in crates)]
    return OTHERS.union((p.stem for p in FILES), *(words_in(p) for p in chosen))


def slug(heading):
    """The anchor of a heading, as forges make it."""
    plain = re.sub(r"[`*]|\[([^\]]*)\]\([^)]*\)", lambda m: m.group(1) or "", heading).lower()
    return re.sub(r"[^\w\- ]", "", plain).strip().replace(" ", "-")


def anchors(page):
    return {slug(line.lstrip("#")) for _, line in prose(read(page)) if line.startswith("#")}


def is_there(path):
    """A path as pages write it: from the top, from crates/, from a page's own folder, or a file's name alone."""
    path = path.rstrip("/")
    if "/" not in path and "*" not in path:
        return path in NAMES or path in FOLDERS
    tries = [path, "crates/" + path, "docs/" + path]
    if any(t in TEXTS or t in FOLDERS for t in tries):
        return True
    if "*" in path:
        return any(fnmatch.fnmatch(t, pattern) for t in TEXTS | FOLDERS for pattern in tries + ["*/" + path])
    return any(t.endswith("/" + path) for t in TEXTS)


def looks_like_path(text):
    """A file's name by its kind, or what begins with a folder of the top;
    no name of a code's field or of somebody's machine."""
    ours = ("crates/", "checks/", "bench/", "docs/", "deploy/")
    return not text.startswith(("/", "http", ".case", "..")) and (text.endswith(KINDS) or text.startswith(ours))


def names_in(text, all_of_them):
    """The names of code in a text between backticks."""
    if not re.fullmatch(r"&?[\w:{},. \-()]+", text):
        return []
    names = [n for n in re.split(r"::|[.,{}() ]+", text) if re.fullmatch(r"[A-Za-z]\w*(-\w+)*", n)]
    return [n for n in names if all_of_them or "_" in n or ("-" in n and n.islower()) or "::" in text]


def begins_names(name, code):
    """A beginning of names, such as `judge_`."""
    return name.endswith("_") and any(word.startswith(name) for word in code)


def told_crates(page):
    """The crate of a page, and those that the page names."""
    return {page.parts[-3], *(c for c in CRATES if re.search(rf"\b{c}\b", read(page)))}


@functools.cache
def words_of_checks():
    """The words of the scripts of checks/."""
    return frozenset().union(*(words_in(p) for p in FILES if p.parts[0] == "checks"))


def names_elsewhere(page):
    """Names on a crate's page that are in no crate which it names, nor in its own."""
    code = words_of_code(told_crates(page)) | words_of_checks()
    for span in re.findall(r"`([^`\n]+)`", read(page)):
        for name in names_in(span, True):
            if name not in code and name not in words_of_libraries() and not is_there(span):
                yield name


def clauses_elsewhere(page):
    """On a crate's page, clauses that follow a function in parentheses and are none of it."""
    text, crates = " ".join(read(page).split()), told_crates(page)
    for function, clauses in re.findall(r"`(?:\w+::)?(\w+)` \(((?:`\w+`(?:, )?)+)\)", text):
        for clause in re.findall(r"`(\w+)`", clauses):
            if not is_clause(crates, function, clause):
                yield f"{function} has no clause {clause}"


@functools.cache
def words_of_libraries():
    """The kit's crates, which crates.txt lists after ours."""
    return set(re.findall(r"[\w-]+", (TOP / "crates.txt").read_text()))


def error_names():
    """The names of errors that cr_print prints."""
    source = (TOP / "crates/cr_print/src/refused.rt").read_text()
    return set(re.findall(r'=> "([a-z_]+)"', source))


def main():
    wrong, cited = [], 0
    code = words_of_code()
    decisions = set(re.findall(r"^(?:- \*\*|\| ?)D(\d+)\b", (TOP / "docs/DECISIONS.md").read_text(), re.M))
    total = 0
    for page in PAGES + CRATE_PAGES:
        for number, line in prose(read(page)):
            total += len(words(line))
            where = f"{page.relative_to(TOP)}:{number}"
            if len(line) >= COLUMNS[page.suffix] and not line.startswith(("|", "#")):
                wrong.append(f"{where}: {len(line)} columns")
            for target in re.findall(r"\]\(([^)]+)\)", line):
                cited += 1
                name, _, anchor = target.partition("#")
                if name.startswith("http") or re.fullmatch(r"\w+::\w+", name):
                    continue
                to = (page.parent / name).resolve() if name else page
                if not to.exists():
                    wrong.append(f"{where}: no file {target}")
                elif anchor and anchor not in anchors(to):
                    wrong.append(f"{where}: no heading {target}")
            for span in re.findall(r"`([^`]+)`", line):
                cited += 1
                first = span.split()[0]
                if MADE.search(span):
                    continue
                if looks_like_path(first):
                    if not is_there(first):
                        wrong.append(f"{where}: no path {first}")
                    continue
                for name in () if span == version() else names_in(span, page.name in CLAIMS):
                    if name not in code and not is_there(name) and not begins_names(name, code):
                        wrong.append(f"{where}: no name {name} in the sources")
            for number in re.findall(r"\bD(\d+)\b", line):
                if number not in decisions:
                    wrong.append(f"{where}: no decision D{number}")
            for crate in re.findall(r"\bcr_[a-z_]+\b", line):
                if crate.rstrip("_") not in CRATES and crate not in code:
                    wrong.append(f"{where}: no crate {crate}")
    for page in CRATE_PAGES:
        wrong += [f"{page.relative_to(TOP)}: no name {name} in its crates" for name in names_elsewhere(page)]
        wrong += [f"{page.relative_to(TOP)}: {why}" for why in clauses_elsewhere(page)]
    listed = [name for row in re.findall(r"^\|((?:cr|tests_of)_[\w, ]+|confd|conformance)\|",
                                         (TOP / "docs/ARCHITECTURE.md").read_text(), re.M) for name in row.split(", ")]
    due = re.findall(r"^(\w+):", (TOP / "crates.txt").read_text(), re.M)
    for name in sorted(set(due) ^ set(listed)):
        wrong.append(f"docs/ARCHITECTURE.md: its table or crates.txt has {name}, and not the other")
    table = set(re.findall(r"^\| ?`([a-z_]+)` ?\| ?\d{3} ?\|", (TOP / "docs/API.md").read_text(), re.M))
    for name in sorted(error_names() ^ table):
        wrong.append(f"docs/API.md: the error {name} is printed and not in the table, or the other way round")
    if total >= WORDS:
        wrong.append(f"{total} words of prose in all")
    print("\n".join(wrong + [f"{cited} cited, {len(wrong)} wrong"]))
    return 1 if wrong else 0


def version():
    """The toolchain's line, which README cites."""
    found = re.search(r"`(rattle-kit-[^`]+)`", (TOP / "README.md").read_text())
    return found.group(1) if found else ""


if __name__ == "__main__":
    sys.exit(main())
