#!/usr/bin/env python3
# SPDX-License-Identifier: Apache-2.0 OR MIT
"""Searches, by docs/API.md and by brute force: what a text is, and whether a search holds of a paper.

    checks/lib/searches.py TEXT..        the tree of each text, or the place of a bad one

A text is read by trying the grammar at every place, and its place is found by trying its cuts, each with every number
of closing parentheses. So it is slow, and shares nothing with the program; `random_runs.py` and the case files' tables
go by it.
"""
import re
import sys

MOST_BYTES, MOST_DEEP, MOST_TERMS = 1024, 64, 128
VALUES = {
    b"dec": {b"accept", b"reject", b"none"},
    b"status": {b"active", b"withdrawn", b"accepted"},
    b"has": {b"content", b"review", b"comment", b"response", b"decision", b"conflict", b"mine"},
}
TAG = re.compile(rb"^~{0,2}[a-z0-9-]{1,32}$")


def is_character(byte):
    """Whether this may stand between quotation marks: no control, and no quotation mark."""
    return byte >= 0x20 and byte not in b'\x7f"'


class Reading:
    """All ways in which the grammar reads a text. `added` is the place of a parenthesis that doesn't count, nor does
    the term behind it."""

    def __init__(self, text, added=None):
        self.text, self.added, self.known = text, added, {}

    def spaces(self, i):
        while self.text[i : i + 1] == b" ":
            i += 1
        return i

    def gaps(self, i):
        """Where a gap that begins here ends, if it may be one."""
        j = self.spaces(i)
        beside = self.text[max(i - 1, 0) : i] + self.text[i : i + 1]
        return [j] if j > i or b"(" in beside or b")" in beside else []

    def word_end(self, i):
        while i < len(self.text) and is_character(self.text[i]) and self.text[i] not in b" ()":
            i += 1
        return i

    def quoted_end(self, i):
        """Where the quoted text that begins here ends, if one does: what follows is a space, a parenthesis or the
        end."""
        if self.text[i : i + 1] != b'"':
            return None
        j = i + 1
        while j < len(self.text) and is_character(self.text[j]):
            j += 1
        closed = self.text[j : j + 1] == b'"' and self.text[j + 1 : j + 2] in (b"", b" ", b"(", b")")
        return j + 1 if closed else None

    def term(self, i):
        end = self.quoted_end(i)
        if end is not None:
            return [(end, ("plain", self.text[i + 1 : end - 1], i))]
        end = self.word_end(i)
        word = self.text[i:end]
        if word[:1] == b"#":
            return [(end, ("tag", word[1:], i))] if TAG.match(word[1:]) else []
        key, colon, value = word.partition(b":")
        if not colon:
            return ([(end, ("plain", word, i))]
                    if word and word[:1] != b"-" and word not in (b"AND", b"OR", b"NOT") else [])
        if key in VALUES:
            return [(end, (key.decode(), value, i))] if value in VALUES[key] else []
        if key not in (b"ti", b"ab", b"au", b"re"):
            return []
        if value:
            return [(end, (key.decode(), value, i))]
        end = self.quoted_end(end)
        return [] if end is None else [(end, (key.decode(), self.text[i + 4 : end - 1], i))]

    def item(self, i, depth):
        if depth > MOST_DEEP:
            return []
        if self.text[i : i + 1] == b"-":
            return [(end, ("not", tree)) for end, tree in self.item(i + 1, depth + 1)]
        if self.text[i : i + 1] == b"(":
            inside = self.any(self.spaces(i + 1), depth if i == self.added else depth + 1)
            ends = [(self.spaces(end), tree) for end, tree in inside]
            return [(end + 1, tree) for end, tree in ends if self.text[end : end + 1] == b")"]
        if self.text[i : self.word_end(i)] == b"NOT":
            return [(end, ("not", tree)) for j in self.gaps(i + 3) for end, tree in self.item(j, depth + 1)]
        return self.term(i)

    def star(self, first, rest):
        """What begins with one of `first`, and goes on with any number of `rest`, each a function from an end to what
        may follow."""
        found, waiting = [], list(first)
        while waiting:
            end, tree = waiting.pop()
            found.append((end, tree))
            waiting += rest(end, tree)
        return found

    def all(self, i, depth):
        if ("all", i, depth) not in self.known:

            def rest(end, tree):
                begins = self.gaps(end)
                begins = begins + [k for j in begins if self.text[j : self.word_end(j)] == b"AND"
                                   for k in self.gaps(j + 3)]
                return [(behind, ("and", tree, item)) for j in begins for behind, item in self.item(j, depth)]

            self.known["all", i, depth] = self.star(self.item(i, depth), rest)
        return self.known["all", i, depth]

    def any(self, i, depth):
        if ("any", i, depth) not in self.known:

            def rest(end, tree):
                begins = [k for j in self.gaps(end) if self.text[j : self.word_end(j)] == b"OR"
                          for k in self.gaps(j + 2)]
                return [(behind, ("or", tree, one)) for j in begins for behind, one in self.all(j, depth)]

            self.known["any", i, depth] = self.star(self.all(i, depth), rest)
        return self.known["any", i, depth]

    def trees(self):
        """The trees of the whole text, None for the empty query."""
        if self.spaces(0) == len(self.text):
            return [None]
        whole = [tree for end, tree in self.any(self.spaces(0), 0) if self.spaces(end) == len(self.text)]
        extra = None if self.added is None else self.added + 1
        return [tree for tree in whole if sum(place != extra for place in places_of(tree)) <= MOST_TERMS]


def places_of(tree):
    """Where the terms of a tree stand."""
    if tree[0] in ("not", "and", "or"):
        return [place for part in tree[1:] for place in places_of(part)]
    return [tree[2]]


def cuts(text):
    """Both ends of a text, and the places before and behind each chunk and each parenthesis outside chunks."""
    found, i = {0, len(text)}, 0
    while i < len(text):
        j = i
        while j < len(text) and text[j] not in b" ()":
            if text[j] == 0x22:
                closing = text.find(b'"', j + 1)
                j = len(text) - 1 if closing < 0 else closing
            j += 1
        if j > i:
            found |= {i, j}
            i = j
        else:
            if text[i] in b"()":
                found |= {i, i + 1}
            i += 1
    return sorted(found)


def is_good(front):
    """Whether this can be completed."""
    return any(Reading(front + b"(a" + b")" * n, len(front)).trees() for n in range(1, front.count(b"(") + 2))


def read(text):
    """The one tree of a text, None of an empty one; or its place, an int, where it spells no search."""
    if len(text) > MOST_BYTES:
        return MOST_BYTES
    trees = Reading(text).trees()
    if len(trees) > 1:
        raise ValueError(f"{text!r} has {len(trees)} trees")
    if trees:
        return trees[0]
    last = 0
    for cut in cuts(text):
        if not is_good(text[:cut]):
            return last
        last = cut
    return len(text)


def has(value, text):
    """Whether the value stands in the text, letters of ASCII without regard to case."""
    return text is not None and value.lower() in text.encode().lower()


def holds(tree, told):
    """Whether a search holds of a paper, by what its asker is told: a record of `page`, `reviews`, `comments`,
    `responded`, `accepted`, `conflicted`."""
    if tree is None:
        return True
    kind, page = tree[0], told["page"]
    if kind == "not":
        return not holds(tree[1], told)
    if kind == "and":
        return holds(tree[1], told) and holds(tree[2], told)
    if kind == "or":
        return holds(tree[1], told) or holds(tree[2], told)
    value = tree[1]
    if kind == "plain":
        return has(value, page.get("title")) or has(value, page.get("abstract"))
    if kind == "ti":
        return has(value, page.get("title"))
    if kind == "ab":
        return has(value, page.get("abstract"))
    if kind == "au":
        return any(has(value, name) for name in page.get("authors", []))
    if kind == "re":
        return any(has(value, reviewer.get("user")) for reviewer in page.get("reviewers", []))
    if kind == "tag":
        return value.decode() in page.get("tags", [])
    if kind == "dec":
        return page.get("decision") == value.decode()
    if kind == "status":
        return told["accepted"] if value == b"accepted" else page.get("withdrawn") == (value == b"withdrawn")
    return {
        b"content": bool(page.get("versions")),
        b"review": bool(told["reviews"]),
        b"comment": bool(told["comments"]),
        b"response": told["responded"],
        b"decision": page.get("decision", "none") != "none",
        b"conflict": told["conflicted"],
        b"mine": "label" in page,
    }[value]


def spelled(tree):
    """A tree in words."""
    if tree is None:
        return "everything"
    if tree[0] in ("not", "and", "or"):
        return f"({tree[0]} {' '.join(spelled(part) for part in tree[1:])})"
    return f"{tree[0]}:{tree[1].decode(errors='replace')}"


if __name__ == "__main__":
    for told in sys.argv[1:]:
        got = read(told.encode())
        print(f"{told}: {f'place {got}' if isinstance(got, int) else spelled(got)}")
