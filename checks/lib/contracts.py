# SPDX-License-Identifier: Apache-2.0 OR MIT
"""The contracts of functions as text, and whether a name is one of their clauses, or of a definition that they cite."""

import functools
import re

from .places import TOP
from .specs import DEFINITION

FUNCTION = re.compile(r"^\s*(?:pub(?:\(crate\))? )?fn (\w+)", re.M)
# A contract ends where a body begins, or at the end of a trait's or an implementation's call.
END = re.compile(r"\n\s*\{(?:\})?\s*\n|\};\n|;\n\n")


@functools.cache
def contracts(crate):
    """The contracts of a crate's functions, by their names; one for each of a name."""
    found = {}
    for path in (TOP / "crates" / crate / "src").rglob("*.rt"):
        text = path.read_text()
        for begin in FUNCTION.finditer(text):
            end = END.search(text, begin.end())
            found.setdefault(begin[1], []).append(text[begin.start() : end.end() if end else len(text)])
    return found


@functools.cache
def definitions():
    """The texts of all definitions of specs, by their names; of those of one name together."""
    found = {}
    for path in (TOP / "crates").glob("*/specs/**/*.antt"):
        name = None
        for line in path.read_text().split("\n"):
            begins = DEFINITION.match(line)
            name = begins[1] if begins else name
            if name and not line.startswith("--"):
                found[name] = found.get(name, "") + line + "\n"
    return found


def words(text):
    return set(re.findall(r"\w+", text))


def cites(text, name, depth=2):
    """Whether a text has a name, or a definition that it names has it, and so on."""
    named = words(text)
    if name in named:
        return True
    return depth > 0 and any(cites(definitions()[word], name, depth - 1) for word in named & set(definitions()))


def is_clause(crates, function, name):
    """Whether the name is a clause of a function of these crates, or of ports and disks, whose traits they implement;
    or stands in a definition that the contract cites, or in one that is named in place of the function."""
    if function in definitions() and cites(definitions()[function], name, 1):
        return True
    texts = [text for crate in {*crates, "cr_ports", "cr_disks"} for text in contracts(crate).get(function, ())]
    return any(cites(text, name) for text in texts)
