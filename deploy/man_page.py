#!/usr/bin/env python3
# SPDX-License-Identifier: Apache-2.0 OR MIT
"""Prints confd(1): deploy/confd.1.in with the tables of docs/RUNNING.md, which are written once.

    deploy/man_page.py DATE VERSION

DATE is the page's. Needs only Python 3; ends with status 1 if a page has no such table.
"""

import pathlib
import re
import sys

TOP = pathlib.Path(__file__).resolve().parent.parent
# Of each line to be filled in: the page, the head of its table, and which column is the item, and which tell of it.
TABLES = {
    "@COMMANDS@": ("docs/RUNNING.md", "|words|what it does|", 0, (1,)),
    "@OPTIONS@": ("docs/RUNNING.md", "|option|what it says|", 0, (1,)),
    "@STATUSES@": ("docs/RUNNING.md", "|status|meaning|standard error|what to do|", 0, (1, 3)),
    "@MESSAGES@": ("docs/RUNNING.md", "|standard error|what to do|", 0, (1,)),
}
SENTENCE = re.compile(r"(?<=[.;:])\s+")


def rows(page, head):
    """The rows of the one table of a page that has this head, each a list of its cells."""
    lines = (TOP / page).read_text(encoding="utf-8").splitlines()
    if lines.count(head) != 1:
        sys.exit(f"{page} has {lines.count(head)} tables {head}")
    for line in lines[lines.index(head) + 2 :]:
        if not line.startswith("|"):
            return
        yield [cell.strip() for cell in line[1:-1].split("|")]


def escaped(text):
    return text.replace("\\", "\\e").replace("-", "\\-").replace("'", "\\(aq").replace("`", "\\(ga")


def roff(text):
    """A text of a page as lines of roff: code is bold, and of a link its words are left."""
    text = re.sub(r"\[([^\]]*)\]\([^)]*\)", r"\1", text).replace("**", "")
    spans = re.split(r"`([^`]+)`", text)
    text = "".join(f"\\fB{escaped(span)}\\fR" if at % 2 else plain(span) for at, span in enumerate(spans))
    lines = SENTENCE.split(text)
    return "\n".join("\\&" + line if line.startswith((".", "'")) else line for line in lines)


def plain(text):
    return text.replace("\\", "\\e").replace("'", "\\(aq")


def items(page, head, item, told):
    """The table as tagged paragraphs."""
    for cells in rows(page, head):
        text = ". ".join(cell[0].upper() + cell[1:].rstrip(".") for cell in (cells[at] for at in told) if cell)
        tag = roff(cells[item]).replace("\n", " ")
        yield f".TP\n{tag}\n{roff(text)}."


def main():
    date, version = sys.argv[1:]
    for line in (TOP / "deploy/confd.1.in").read_text(encoding="utf-8").splitlines():
        if line in TABLES:
            print("\n".join(items(*TABLES[line])))
        else:
            print(line.replace("@DATE@", date).replace("@VERSION@", version))


if __name__ == "__main__":
    main()
