# SPDX-License-Identifier: Apache-2.0 OR MIT
"""README.md, the pages of docs/ and that of checks/planted, and what src/lib.rt of each crate says of the crate, as
checks read them: their lines outside code, and their blocks."""

import re
from dataclasses import dataclass

from .places import TOP

PAGES = [
    *(TOP / name for name in ("README.md", "CHANGELOG.md")),
    *sorted((TOP / "docs").glob("*.md")),
    TOP / "checks/planted/README.md",
]
CRATE_PAGES = sorted((TOP / "crates").glob("*/src/lib.rt"))
ITEM = re.compile(r"\s*(?:[-*+]|\d+\.)\s+")


def crate_page(source):
    """What the lines `//!` at the front of a source say, each in its line."""
    lines = []
    for line in source.split("\n"):
        if line.startswith("// SPDX-"):
            continue
        if not line.startswith("//!"):
            break
        lines.append(line.removeprefix("//!").removeprefix(" "))
    return "\n".join(lines)


def read(page):
    """The text of a page; of a crate's source what it says of the crate."""
    text = page.read_text()
    return crate_page(text) if page.suffix == ".rt" else text


def prose(text):
    """The lines outside blocks of code, each with its number."""
    inside = False
    for number, line in enumerate(text.split("\n"), 1):
        if line.lstrip().startswith("```"):
            inside = not inside
        elif not inside:
            yield number, line


@dataclass
class Block:
    """A paragraph, an item of a list, a heading, or a row of a table: where it begins, what it is, and its text, of a
    row its cells. A row knows the cells of its table's head; an item whether a paragraph ends in the line before it."""

    line: int
    kind: str
    text: str = ""
    cells: tuple = ()
    head: tuple = ()
    torn: bool = False


def cells_of(line):
    """The cells of a row; a bar in code, or behind a backslash, ends none."""
    kept = re.sub(r"`[^`]*`", lambda span: span.group().replace("|", "\0"), line.replace("\\|", "\0"))
    return tuple(cell.strip().replace("\0", "|") for cell in kept.strip().strip("|").split("|"))


def blocks(text):
    """The blocks of a page, without its code, its comments, and the lines that part a table's head from its rows."""
    text = re.sub(r"<!--.*?-->", lambda note: "\n" * note.group().count("\n"), text, flags=re.S)
    found, head = [], ()
    open_block = None
    for number, line in prose(text):
        is_row = line.startswith("|")
        if not is_row:
            head = ()
        if not line.strip():
            open_block = None
        elif line.startswith("#"):
            found.append(Block(number, "heading", line.lstrip("# ")))
            open_block = None
        elif is_row:
            cells = cells_of(line)
            if all(re.fullmatch(r":?-+:?", cell) for cell in cells):
                continue
            found.append(Block(number, "row" if head else "head", line, cells, head))
            head = head or cells
            open_block = None
        elif open_block is None or ITEM.match(line):
            mark = ITEM.match(line)
            torn = bool(mark and open_block and open_block.kind == "paragraph")
            kind, rest = ("item", line[mark.end() :]) if mark else ("paragraph", line)
            open_block = Block(number, kind, rest, torn=torn)
            found.append(open_block)
        else:
            open_block.text += " " + line.strip().removeprefix("> ")
    return found


def plain(text):
    """A text without its marks: code is one word, a link what it shows."""
    text = re.sub(r"`[^`]*`", "code", text)
    text = re.sub(r"!?\[([^\]]*)\]\([^)]*\)", r"\1", text)
    return text.replace("*", "").removeprefix("> ")


def sentences(text):
    """The sentences of a text without marks: each ends at a stop with a space behind it, but for an abbreviation's."""
    return [part for part in re.split(r"(?<!\be\.g)(?<!\bi\.e)(?<!\bvs)(?<=[.!?])[)\"']*\s+", text) if part.strip()]


def words(text):
    return [word for word in text.split() if any(sign.isalnum() for sign in word)]
