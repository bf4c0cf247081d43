# SPDX-License-Identifier: Apache-2.0 OR MIT
"""Plants many rows in one copy of the crates, of which a number that the run is given chooses one.

To build a program costs far more than to run it. So beside each function that a row changes is a twin with the row's
body, under a name of its own. The function itself first looks whether that row's number is the one that was given, and
calls the twin if it is. The number is the first word of the file `case` in the folder that the program runs in, as `rt
try --cases` gives it. So there is one build, and a run for each file of a folder.

A row that changes more than bodies, or a function of a trait, can't be planted so.
"""
import os
import re
from dataclasses import dataclass

CRATE = "planted_switch"
LIB = """//! Whether a plant is the one that this run was given.
#![tactic(auto)]

unsafe extern "C" {
    safe fn planted_number() -> u32;
}

/// Whether the run was given this number.
pub fn is(number: u32) -> bool {
    planted_number() == number
}
"""
NUMBER = """#include <stdio.h>

unsigned planted_number(void) {
    static int is_read;
    static unsigned number;
    if (!is_read) {
        FILE *file = fopen("case", "r");
        if (file) {
            if (fscanf(file, "%u", &number) != 1) number = 0;
            fclose(file);
        }
        is_read = 1;
    }
    return number;
}
"""
BLOCK = re.compile(r"(?:pub )?(?:unsafe )?(?:impl|trait|mod)\b.*\{$")
HEAD = re.compile(r"( *)(?:pub(?:\([a-z]+\))? )?(?:const )?fn (\w+)")
CLAUSE = re.compile(r" +(?:requires|ensures|decreases|where)\b")
TWIN = re.compile(r"fn \w+_planted_(\d+)\b")


class Unswitched(Exception):
    """Why a row can't be chosen at a run."""


@dataclass
class Function:
    """A function in a file's lines: its name, the first line of its block, its signature, where it and its body are."""
    name: str
    block: str
    indent: str
    signature: str
    first: int
    body: int
    last: int

    def call(self, number):
        """What has the function call the twin of this number."""
        path = "Self::" if self.block else ""
        return [f"{self.indent}    if {CRATE}::is({number}) {{",
                f"{self.indent}        return {path}{self.twin(number)}({', '.join(parameters(self.signature))});",
                f"{self.indent}    }}"]

    def twin(self, number):
        return f"{self.name}_planted_{number}"


def function_at(lines, first, block):
    """The function whose first line that is. Clauses stand between a signature and a body, which ends at its indent."""
    indent, name = HEAD.match(lines[first]).groups()
    is_one_line = lines[first].endswith("}")
    last = first if is_one_line else next((at for at in range(first, len(lines)) if lines[at] == f"{indent}}}"), None)
    if last is None:
        raise Unswitched(f"{name} has no body")
    opening = next((at for at in range(first, last) if lines[at] == f"{indent}{{"), None)
    if opening is None:
        opening = next((at for at in range(first, last) if lines[at].endswith(" {")), last)
    end = next((at for at in range(first, opening) if CLAUSE.match(lines[at])), opening)
    signature = lines[first:end] if lines[end] == f"{indent}{{" or end < opening else lines[first:end + 1]
    return Function(name, block, indent, "\n".join(signature).removesuffix(" {"), first, opening + 1, last)


def functions(lines):
    """The functions of a file by block and name."""
    found, block, at = {}, "", 0
    while at < len(lines):
        if BLOCK.match(lines[at]):
            block = lines[at]
        elif lines[at] == "}":
            block = ""
        elif HEAD.match(lines[at]):
            one = function_at(lines, at, block)
            if (block, one.name) in found:
                raise Unswitched(f"{one.name} stands there twice")
            found[block, one.name] = one
            at = one.last
        at += 1
    return found


def in_brackets(text):
    """The parts, at its commas, of the list in brackets that the text begins with, and the text behind the list."""
    depth, parts = 0, [""]
    for at, sign in enumerate(text):
        depth -= sign in ")]}" or sign == ">" and text[at - 1] != "-"
        if not depth and at:
            return [part.strip() for part in parts if part.strip()], text[at + 1:]
        if depth == 1 and sign == ",":
            parts.append("")
        elif depth:
            parts[-1] += sign
        depth += sign in "([{<"
    raise Unswitched(f"brackets stay open: {text}")


def parameters(signature):
    """The names of a function's parameters."""
    text = signature[HEAD.match(signature).end():]
    if text.startswith("<"):
        text = in_brackets(text)[1]
    names = []
    for part in in_brackets(text)[0]:
        name = re.match(r"(?:&(?:'\w+ )?)?(?:mut )?(self)$|(?:mut )?(\w+):", part)
        if not name:
            raise Unswitched(f"a parameter is a pattern: {part}")
        names.append(name[1] or name[2])
    return names


def rest(lines, found):
    """A file without the bodies of its functions, and what they promise."""
    kept, at = [], 0
    for one in found.values():
        kept += [*lines[at:one.first], one.signature]
        at = one.last + 1
    return kept + lines[at:]


def changed_bodies(before, after):
    """The bodies that differ, by the block and the name of their function; fails where anything else does."""
    were, are = functions(before), functions(after)
    if rest(before, were) != rest(after, are):
        raise Unswitched("it changes more than bodies")
    bodies = {key: after[are[key].body:are[key].last] for key in were
              if before[were[key].first:were[key].last] != after[are[key].first:are[key].last]}
    for block, name in bodies:
        if " for " in block or "trait " in block:
            raise Unswitched(f"{name} is a trait's")
    return bodies


class Switched:
    """The crates of a copy with the rows that were taken in so far."""

    def __init__(self, top):
        self.top = top
        self.texts = {}
        self.twins = {}
        self.rows = []

    def lines(self, path):
        if path not in self.texts:
            with open(f"{self.top}/{path}", encoding="utf-8") as file:
                self.texts[path] = file.read().split("\n")
        return self.texts[path]

    def add(self, row):
        """Takes a row in, whose number is how many there are then; fails with Unswitched where it can't be."""
        changed = {path: changed_bodies(self.lines(path), text.split("\n"))
                   for path, text in row.changed(self.top).items()}
        for path, bodies in changed.items():
            for key in bodies:
                parameters(functions(self.lines(path))[key].signature)
        self.rows.append(row)
        for path, bodies in changed.items():
            for key, body in bodies.items():
                self.twins.setdefault(path, {}).setdefault(key, []).append((len(self.rows), body))

    def write(self):
        """Writes the files with their twins, and the crate that knows the number."""
        for path, twins in self.twins.items():
            self.put(path, with_twins(self.lines(path), twins))
        self.put(f"crates/{CRATE}/src/lib.rt", LIB.split("\n"))
        self.put(f"crates/{CRATE}/c/number.c", NUMBER.split("\n"))
        crates = {path.split("/")[1] for path in self.twins}
        listed = [f"{line} {CRATE}" if line.split(":")[0] in crates else line for line in self.lines("crates.txt")]
        self.put("crates.txt", [f"{CRATE}:", *listed])

    def put(self, path, lines):
        os.makedirs(os.path.dirname(f"{self.top}/{path}"), exist_ok=True)
        with open(f"{self.top}/{path}", "w", encoding="utf-8") as file:
            file.write("\n".join(lines))

    def row_at(self, path, line):
        """The row whose twin has that line, from 1, of a file that was written; None where no twin has it."""
        with open(f"{self.top}/{path}", encoding="utf-8") as file:
            above = file.read().split("\n")[:line]
        heads = [at for at in range(len(above)) if HEAD.match(above[at])]
        twin = TWIN.search(above[heads[-1]]) if heads else None
        return self.rows[int(twin[1]) - 1] if twin else None


def with_twins(lines, twins):
    """The lines of a file with the twins of its functions, each ahead of its own, which calls it."""
    lines, found = list(lines), functions(lines)
    for key in sorted(twins, key=lambda key: -found[key].first):
        one = found[key]
        copies = []
        for number, body in twins[key]:
            signature = one.signature.replace(f"fn {one.name}", f"fn {one.twin(number)}", 1)
            copies += [*f"{signature} {{".split("\n"), *body, f"{one.indent}}}", ""]
        lines[one.body:one.body] = [line for number, _ in twins[key] for line in one.call(number)]
        first = one.first
        while first and re.match(r" *(?:///|#\[)", lines[first - 1]):
            first -= 1
        lines[first:first] = copies
    return lines
