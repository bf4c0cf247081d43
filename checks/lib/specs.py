# SPDX-License-Identifier: Apache-2.0 OR MIT
"""The specs of crates/, read as text: what each module imports and defines, and what a contract rests on.

A module is a pair of a crate and a name. What a contract cites is what the `ghost use` lines of its file import and its
clauses name. Two closures are taken from there. By imports: each module that a module reached imports. By names: each
definition that a definition reached names, which is what has to be read.
"""

import functools
import re
import sys
from dataclasses import dataclass

from .places import TOP

USE = re.compile(r"^(?:pub )?use Rattle\.(\w+)\.specs\.([\w.]*\w)(?:\.\{([^}]*)\})?(?: as (\w+))?", re.M)
GHOST = re.compile(r"^ghost use Rattle\.(\w+)\.specs\.([\w.]*\w)\.\{([^}]*)\};", re.M)
# A definition begins a line; those that need each other stand further in, under the word `mutual`.
DEFINITION = re.compile(r"(?:(?:abbrev|unfoldable|pub|record|data|infixl? \d+|\s+pub data) )+([^\s:]+)")
WORD = re.compile(r"[^\s(){},;.:]+")
ALL = "*"


def is_read(line):
    """Whether a line says something: it is no comment, no import and not blank."""
    text = line.strip()
    return bool(text) and not text.startswith("--") and not re.match(r"(?:pub )?(?:use|mod) ", text)


def imported(names, crate, module):
    """The names of a list in braces, as they are called here, each with what it is there."""
    pairs = (name.strip().partition(" as ") for name in names.split(","))
    return {(here or there).strip(): (crate, module, there.strip()) for there, _, here in pairs if there}


@dataclass
class Module:
    """What a file defines, each with its lines; what it imports, by the name here; and the modules that it imports."""

    definitions: dict
    names: dict
    imports: set

    def lines(self):
        return sum(map(len, self.definitions.values()))

    def words(self):
        """What may be written for each name; an operator stands without its holes between what it takes."""
        return {word: name for name in [*self.names, *self.definitions] for word in (name, name.replace("◌", ""))}


@functools.cache
def module(crate, name):
    """A module of the repository; None where the name is one of the kit's, or of a type that code declares."""
    path = TOP / "crates" / crate / "specs" / (name.replace(".", "/") + ".antt")
    if not path.exists():
        return None
    text, definitions, last = path.read_text(), {}, None
    for line in filter(is_read, text.split("\n")):
        found = DEFINITION.match(line)
        if found:
            last = found[1]
        elif not line.startswith(" ") and line.split()[0].strip("(") in definitions:
            last = line.split()[0].strip("(")
        definitions.setdefault(last or line.split()[0], []).append(line)
    names, imports = {}, set()
    for other, there, braces, alias in USE.findall(text):
        imports.add((other, there))
        names |= imported(braces, other, there) if braces else {alias: (other, there, ALL)} if alias else {}
    return Module(definitions, names, imports)


def contract_of(file, text, name):
    """The contract of a public function: all that precedes its body; of a trait, all of it, with its functions'."""
    begin = re.search(rf"^pub (fn|trait) {name}\b", text, re.M)
    if begin is None:
        sys.exit(f"{file} has no function or trait {name}")
    end = r"^\{" if begin[1] == "fn" else r"^\}"
    return re.split(end, text[begin.start() :], maxsplit=1, flags=re.M)[0]


def roots(file, names):
    """What the contracts of these functions and traits of a source file cite: modules with names."""
    text, found = (TOP / file).read_text(), set()
    cited = {}
    for crate, name, braces in GHOST.findall(text):
        cited |= imported(braces, crate, name)
    for name in names:
        contract = contract_of(file, text, name)
        found |= {target for word, target in cited.items()
                  if re.search(rf"(?<![\w.]){re.escape(word)}(?![\w'])", contract)}
    return found


def by_imports(cited):
    """The modules of the repository that these reach by imports."""
    seen, todo = set(), [(crate, name) for crate, name, _ in cited]
    while todo:
        one = todo.pop()
        if one not in seen and module(*one) is not None:
            seen.add(one)
            todo += module(*one).imports
    return seen


def targets(crate, name, word):
    """What a word of a module leads to: its own definitions of that name, or what it is imported from."""
    here = module(crate, name)
    if here is None:
        return []
    if word == ALL:
        return [(crate, name, each) for each in here.definitions]
    if word in here.definitions:
        return [(crate, name, word)]
    if word in here.names:
        return targets(*here.names[word])
    # A constructor or a field, which stands in the definition of its type.
    sign = re.compile(rf"(?<![\w']){re.escape(word)}(?![\w'])")
    return [(crate, name, each) for each, lines in here.definitions.items() if sign.search("\n".join(lines))][:1]


@functools.cache
def named_by(crate, name, word):
    """What a definition names."""
    here, found = module(crate, name), []
    words = here.words()
    for each in set(WORD.findall("\n".join(here.definitions[word]))) & set(words):
        found += targets(crate, name, words[each])
    return found


def by_names(cited):
    """The definitions of the repository that these reach by names."""
    seen, todo = set(), [target for one in cited for target in targets(*one)]
    while todo:
        one = todo.pop()
        if one not in seen:
            seen.add(one)
            todo += named_by(*one)
    return seen


def lines_of(definitions):
    return sum(len(module(crate, name).definitions[word]) for crate, name, word in definitions)
