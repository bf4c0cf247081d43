# SPDX-License-Identifier: Apache-2.0 OR MIT
"""Reads the rows of plants that are beside this, and plants one. README.md here says the form.

    python3 checks/planted/rows.py    prints how many there are of each kind and topic, and what that is about
"""
import glob
import itertools
import os
import re
from dataclasses import dataclass, field

HERE = os.path.dirname(os.path.abspath(__file__))
TOP = os.path.dirname(os.path.dirname(HERE))
KEY = re.compile(r"([a-z][a-z ]*): (.*)")


class Unreadable(Exception):
    """A line that is none of the forms."""


class Lost(Exception):
    """A plant whose text isn't there to be changed, once."""


@dataclass
class Edit:
    """A change of one file: the text that has to stand there once, and what takes its place."""
    path: str
    lines: list = field(default_factory=list)

    def text(self, sides):
        """The lines of the two sides alone: ` -` is the text before, ` +` the text after."""
        return "\n".join(line[2:] for line in self.lines if line[0] in sides)

    def planted(self, text):
        before, after = self.text(" -"), self.text(" +")
        if not any(line[0] in " +" for line in self.lines):
            before += "\n"
        if not before.strip() or text.count(before) != 1:
            raise Lost(f"{self.path} has the text {text.count(before) if before.strip() else 0} times")
        return text.replace(before, after)


@dataclass
class Row:
    """One plant: its name, what is told of it by key, and its edits; none where only words tell of it."""
    topic: str
    name: str
    told: dict
    edits: list = field(default_factory=list)

    def words(self, key):
        return self.told.get(key, "").split()

    def changed(self, top):
        """The texts of the files that the edits change, by their paths, with the changes."""
        texts = {}
        for edit in self.edits:
            if edit.path not in texts:
                if not os.path.exists(f"{top}/{edit.path}"):
                    raise Lost(f"there is no {edit.path}")
                with open(f"{top}/{edit.path}", encoding="utf-8") as file:
                    texts[edit.path] = file.read()
            texts[edit.path] = edit.planted(texts[edit.path])
        return texts

    def plant(self, top):
        """Makes the changes in the files under `top`."""
        for path, text in self.changed(top).items():
            with open(f"{top}/{path}", "w", encoding="utf-8") as file:
                file.write(text)


def read_file(path):
    """The rows of one file, in order."""
    topic = os.path.splitext(os.path.basename(path))[0]
    rows, head, edit = [], {}, None
    with open(path, encoding="utf-8") as file:
        for number, line in enumerate(file.read().split("\n"), 1):
            key = KEY.fullmatch(line)
            if line.startswith("== "):
                rows.append(Row(topic, line[3:], dict(head)))
                edit, own = None, set()
            elif edit and (line in ("-", "+") or line[:2] in ("- ", "+ ", "  ")):
                edit.lines.append(line.ljust(2))
            elif key and key[1] == "file" and rows:
                edit = Edit(key[2])
                rows[-1].edits.append(edit)
            elif key and rows:
                told = rows[-1].told
                told[key[1]] = f"{told[key[1]]} {key[2]}" if key[1] in own else key[2]
                own.add(key[1])
            elif key:
                head[key[1]] = f"{head[key[1]]} {key[2]}" if key[1] in head else key[2]
            elif line.startswith("#") or not line:
                edit = None
            else:
                raise Unreadable(f"{path}:{number}: {line}")
    return rows


def read(kind):
    """The rows of all topics of a kind, which is a folder here, by the names of the files."""
    rows = [row for path in sorted(glob.glob(f"{HERE}/{kind}/*.rows")) for row in read_file(path)]
    names = [row.name for row in rows]
    twice = {name for name in names if names.count(name) > 1}
    if twice:
        raise Unreadable(f"named twice in {kind}: {', '.join(sorted(twice))}")
    return rows


def lost(row):
    """Why the row can't be planted; None where it can."""
    try:
        row.changed(TOP)
    except Lost as error:
        return str(error)
    return None


def picked_of(rows, picked):
    """The rows of these names; else of these topics, or with one of these words in their name;
    all where none is given."""
    exact = [row for row in rows if row.name in picked]
    return exact or [row for row in rows
                     if not picked or row.topic in picked or any(word in row.name for word in picked)]


def about(kind, topic):
    """What a topic is about: the first sentence of its file."""
    with open(f"{HERE}/{kind}/{topic}.rows", encoding="utf-8") as file:
        head = " ".join(line.lstrip("# ").strip() for line in itertools.takewhile(lambda at: at.startswith("#"), file))
    return head.partition(". ")[0].rstrip(".:").removeprefix(f"{topic.capitalize()}: ")


def counts():
    """How many are planted, by kind, and of the kinds with rows by topic."""
    of = lambda pattern: len(glob.glob(f"{TOP}/{pattern}", recursive=True))
    for kind, script in (("tables", "wrong_tables.py"), ("rules", "wrong_rules.py"), ("laws", "wrong_laws.py")):
        rows = read(kind)
        print(f"{kind}, by checks/{script}: {len(rows)}")
        for topic in sorted({row.topic for row in rows}):
            print(f"    {sum(row.topic == topic for row in rows):4} {topic}: {about(kind, topic)}")
    print(f"bodies, by the gate (crates/*/must-fail): {of('crates/*/must-fail/*.edit')}")
    print(f"bodies, by checks/wrong_bodies.sh: {of('checks/wrong_bodies/**/*.edit')}")
    print(f"edges, by checks/wrong_edges.sh: {of('checks/wrong_edges/*.edit')}")


if __name__ == "__main__":
    counts()
