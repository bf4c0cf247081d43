#!/usr/bin/env python3
# SPDX-License-Identifier: Apache-2.0 OR MIT
"""Makes the pictures of docs/pictures, and tries whether they are up to date.

    python3 checks/pictures.py            compares each with what it is made of
    python3 checks/pictures.py --write    makes them anew

    crates.svg        the crates by layer, of crates.txt
    descriptions.svg  the two descriptions of confd, and the theorems at which they meet
    request.svg       a request's way
    phases.svg        which reader sees what, and when: computed of the small conference, whose views are proved

The first is a graph, laid out by graphviz's `dot` (Debian's package graphviz), which only --write needs. A digest of
the graph's text is in its first line, and is what is compared. To compare needs only Python 3, and takes a few seconds.
Ends with status 0 if all are up to date.
"""

import hashlib
import re
import subprocess
import sys

from lib.places import TOP
from lib.svg import Picture
from planted.specs import History, Specs

FOLDER = TOP / "docs/pictures"
NODES = ('node [shape=box, style="filled,rounded", fontname="DejaVu Sans", fontsize=11, height=0.28, '
         'margin="0.09,0.04", penwidth=0.6, fillcolor="#d5e5f5"];')
EDGES = 'edge [fontname="DejaVu Sans", fontsize=10, color="#666666", fontcolor="#222222", penwidth=0.8, arrowsize=0.6];'

# ---- the crates

# What only states theorems, what only defines, and what calls the system.
THEOREMS = {"cr_bounds", "cr_told", "cr_conference", "cr_permissions", "cr_undeduced", "cr_laws"}
DEFINITIONS = {"cr_history", "cr_policy", "cr_beginnings", "cr_rooms"}
SYSTEM = {"cr_net", "cr_files", "cr_sqlite", "cr_notices", "cr_stores", "cr_process", "confd"}
COLOURS = ((THEOREMS, "#f6e3c5"), (DEFINITIONS, "#dfe8d0"), (SYSTEM, "#e4e4e4"))


def crates():
    """What each crate needs of the others, tests left out, without what it needs by way of another."""
    lines = [line.partition(":") for line in (TOP / "crates.txt").read_text().split("\n") if line[:1].isalpha()]
    left_out = {name for name, _, _ in lines if name.startswith("tests_of_") or name == "conformance"}
    ours = {name for name, _, _ in lines} - left_out
    needs = {name: [other for other in rest.split() if other in ours] for name, _, rest in lines if name in ours}
    below = {}
    for name, others in needs.items():
        below[name] = set(others).union(*(below[other] for other in others))
    return {name: [other for other in others if not any(other in below[another] for another in others)]
            for name, others in needs.items()}


def crates_graph():
    needs = crates()
    lines = ["digraph crates {", "rankdir=TB; ranksep=0.35; nodesep=0.12;", NODES, EDGES, "edge [arrowhead=none];"]
    for name in needs:
        colour = next((colour for names, colour in COLOURS if name in names), "#d5e5f5")
        lines.append(f'{name} [label="{name.removeprefix("cr_")}", fillcolor="{colour}"];')
    lines += [f"{name} -> {other};" for name, others in needs.items() for other in others]
    legend = (("runs", "#d5e5f5"), ("definitions", "#dfe8d0"), ("theorems", "#f6e3c5"), ("calls the system", "#e4e4e4"))
    lines.append("subgraph cluster_legend { style=invis; rank=same;")
    lines += [f'legend_{place} [label="{word}", fillcolor="{colour}", style="filled"];'
              for place, (word, colour) in enumerate(legend)]
    return "\n".join([*lines, "}", "}", ""])


# ---- the two descriptions

RUNS, DEFINES, STATES, OUTSIDE = "#d5e5f5", "#dfe8d0", "#f6e3c5", "#e4e4e4"
BROWN = "#b06a1f"


def descriptions_picture():
    picture = Picture(1080, 372, "The two descriptions of confd, and the theorems at which they meet")
    picture.box(262, 10, 246, 282, "none", "#8aa36a", 8)
    picture.box(822, 10, 246, 282, "none", "#6a8fb3", 8)
    picture.text(385, 28, "the definition: specs/, never runs", 12, "middle", bold=True)
    picture.text(945, 28, "the program: src/", 12, "middle", bold=True)
    rows = (
        (42, ("the history",), ("the same entries", "the invariant of Book"), ("the log of entries",)),
        (130, ("the caller's view",), ("the same facts", "law_standing, law_tables"), ("the tables",)),
        (218, ("the judgement, the answer", "as defined on the view"), ("the same results", "law_view_suffices"),
         ("the judgement, the answer", "by checks and look-ups")),
    )  # fmt: skip
    for y, defined, theorem, found in rows:
        picture.arrow([(496, y + 28), (575, y + 28)], BROWN, 1.2, "4,3", True)
        picture.arrow([(755, y + 28), (834, y + 28)], BROWN, 1.2, "4,3", True)
        picture.node(275, y, 220, 56, defined, DEFINES)
        picture.node(576, y, 178, 56, theorem, STATES)
        picture.node(835, y, 220, 56, found, RUNS)
    for y, before, after in ((98, "the policy selects", "each entry is applied"), (186, "rules", "rules")):
        for x, words in ((385, before), (945, after)):
            picture.arrow([(x, y), (x, y + 31)])
            picture.text(x + 8, y + 19, words, 10)
    again = (
        (130, 158, ("who may see each part,", "said again: law_bounds")),
        (200, 236, ("what each user may do,", "said again: law_permissions")),
        (250, 258, ("what answers hold,", "said again: law_told")),
    )
    for y, to, words in again:
        picture.node(10, y, 190, 44, words, STATES)
        picture.arrow([(201, y + 22), (274, to)], BROWN, 1.2, "4,3", True)
    picture.node(555, 318, 220, 44, ("the bytes of the answer", "serve_connection"), "#ffffff")
    picture.arrow([(385, 275), (385, 340), (554, 340)])
    picture.arrow([(945, 275), (945, 340), (776, 340)])
    picture.text(395, 334, "told", 10)
    picture.text(905, 334, "print", 10)
    return picture.bytes()


# ---- a request's way

def request_picture():
    picture = Picture(1130, 330, "A request's way, from the source through one turn to the sink")
    picture.box(330, 62, 790, 168, "#f7fafd", "#6a8fb3", 8)
    picture.text(725, 80, "one turn on the book (cr_lock, cr_book)", 12, "middle", bold=True)
    steps = ((350, ("who calls?", "cr_accounts")), (510, ("sent before?", "cr_log")), (670, ("judge", "cr_judge")),
             (830, ("keep",)), (990, ("apply", "cr_view")))  # fmt: skip
    for (x, _), (other, _), words in zip(steps, steps[1:], ("command", "no", "accepted", "kept")):
        picture.arrow([(x + 110, 114), (other, 114)])
        picture.text((x + 110 + other) / 2, 108, words, 9, "middle")
    for x, words in steps:
        picture.node(x, 94, 110, 40, words, RUNS)
    picture.node(350, 172, 140, 46, ("answer", "cr_view, cr_search_eval,", "cr_reports, cr_plans"), RUNS)
    picture.arrow([(420, 134), (420, 172)])
    picture.text(426, 157, "query", 9)
    picture.node(830, 8, 110, 40, ("keeper", "cr_sqlite, cr_journal"), OUTSIDE)
    picture.arrow([(885, 48), (885, 94)], both=True)
    picture.node(10, 94, 80, 40, ("source", "cr_ports"), OUTSIDE)
    picture.node(120, 94, 80, 40, ("request", "cr_http"), RUNS)
    picture.node(230, 94, 80, 40, ("wish", "cr_wire"), RUNS)
    picture.node(230, 8, 80, 40, ("clock", "cr_ports"), OUTSIDE)
    picture.arrow([(90, 114), (120, 114)])
    picture.arrow([(200, 114), (230, 114)])
    picture.arrow([(270, 48), (270, 94)])
    picture.arrow([(310, 114), (350, 114)])
    picture.node(330, 276, 790, 40, ("reply", "cr_print"), RUNS)
    picture.node(10, 276, 80, 40, ("sink", "cr_ports"), OUTSIDE)
    picture.arrow([(330, 296), (91, 296)])
    ends = ((341, 134, "nobody: 401"), (470, 218, ""), (565, 134, "yes: its receipt"), (725, 134, "a broken rule"),
            (885, 134, "not kept: 503"), (1045, 134, "the receipt"))  # fmt: skip
    for x, y, words in ends:
        start = [(351, 128), (341, 134)] if x == 341 else [(x, y)]
        picture.arrow([*start, (x, 276)])
        picture.text(x + 6, 252, words, 9)
    return picture.bytes()


# ---- the phases

# The readers by their users in the small conference: a letter or two, who it is, whose paper is looked at, a colour.
READERS = (
    ("Ch", "an unconflicted chair", 1, 1, "#1f4e79"), ("Re", "a reviewer, a member", 4, 1, "#2e75b6"),
    ("Me", "another unconflicted member", 8, 1, "#6fa8dc"), ("Ex", "an external, of a rejected paper", 9, 2, "#38761d"),
    ("Au", "an author", 2, 1, "#c55a11"), ("cC", "a chair in conflict", 6, 1, "#7f7f7f"),
    ("cM", "a member in conflict", 3, 1, "#a6a6a6"), ("Ac", "an account, none of these", 5, 1, "#bf9000"),
    ("U", "an unauthenticated caller", None, 1, "#d0a0d0"),
)  # fmt: skip
PHASES = ("submission", "bidding", "reviewing", "response", "discussion", "notification", "closed")
MODES = ("Overt", "Blind", "Anonymous")
SHOWN = (
    ("a title", lambda s, u: shows(s, "title")),
    ("the content", lambda s, u: shows(s, "content")),
    ("who wrote it", lambda s, u: kind(s, "Submitted") and shows(s, "by") or kind(s, "Coauthor")),
    ("others' conflicts", lambda s, u: kind(s, "Conflict") and s["user"] != u),
    ("others' bids, and whose", lambda s, u: others(s, "Bid") and shows(s, "by")),
    ("that another reviews", lambda s, u: kind(s, "Assigned") and s["user"] != u),
    ("who that is", lambda s, u: kind(s, "Assigned") and shows(s, "user") and s["user"] != u),
    ("others' reviews: the text to authors", lambda s, u: others(s, "Reviewed") and shows(s, "to_authors")),
    ("others' reviews: the text to the committee", lambda s, u: others(s, "Reviewed") and shows(s, "to_pc")),
    ("others' comments", lambda s, u: others(s, "Commented")),
    ("the response", lambda s, u: kind(s, "Responded")),
    ("the decision", lambda s, u: kind(s, "Decided") and shows(s, "decision")),
    ("that it is accepted", lambda s, u: shows(s, "accepted")),
)


def shows(sighting, part):
    return sighting[part] != ("None",)


def kind(sighting, name):
    return sighting["kind"] == (name,)


def others(sighting, name):
    return kind(sighting, name) and not sighting["mine"]


def codes(text):
    return tuple(text.encode())


def histories(specs, mode):
    """The small conference's histories in a mode: of each phase the one without a response, and the one with it."""
    plain = lambda name: specs.get("cr_conference.specs.Conference", name)
    responded = lambda name: specs.get("cr_conference.specs.ConferenceResponse", name)
    names = "alice bob carol dave erin fay gus hal ivy".split()
    digests = {name: tuple([place] * 32) for place, name in enumerate(names)}
    asides = {"tag": codes("a"), "to_pc": codes("New."), "comment": codes("Take it.")}
    dave, verdicts = 4, plain("verdicts")
    both = lambda history: (history, history)
    made = (
        both(plain("before_bidding")(digests, mode)),
        both(plain("in_bidding")(digests, mode, asides, dave)),
        both(plain("in_reviewing")(digests, mode, asides, dave)),
        (None, responded("in_response")(digests, mode, asides, dave)),
        (plain("in_discussion")(digests, mode, asides, dave, verdicts),
         responded("behind_response")(digests, mode, asides, dave)),
        (plain("at_notification")(digests, mode, asides, dave, verdicts),
         responded("told_behind_response")(digests, mode, asides, dave)),
        (plain("at_close")(digests, mode, asides, dave, verdicts), None),
    )
    return [[history and History(history) for history in pair] for pair in made]


def seen():
    """By what is shown, phase and reader: in which modes it is shown, and whether that takes a response."""
    specs, found = Specs(TOP), {}
    view = specs.get("cr_policy.specs.View", "view")
    for mode in MODES:
        for phase, pair in zip(PHASES, histories(specs, (mode,))):
            for letters, _, number, paper, _ in READERS:
                user = ("None",) if number is None else ("Some", number)
                views = [history and [sighting for sighting in view(user, history)
                                      if sighting["paper"] == ("Some", paper)] for history in pair]
                for what, test in SHOWN:
                    without, with_one = (bool(one) and any(test(s, user) for s in one) for one in views)
                    if without or with_one:
                        modes, needs = found.setdefault((what, phase, letters), (set(), set()))
                        modes.add(mode)
                        needs.add(not without and views[0] is not None)
    return found


def chip(picture, x, y, reader, modes, after_response):
    """A reader to whom it is shown: filled in all modes, in its upper half unless anonymous, a ring in the open one."""
    letters, who, _, _, colour = reader
    size = 15
    note = f"{who}: {', '.join(mode.replace('Overt', 'open').lower() for mode in MODES if mode in modes)}"
    if len(modes) == len(MODES):
        picture.box(x, y, size, size, colour, colour, 3, note)
        ink = "#ffffff"
    else:
        picture.box(x, y, size, size, "#ffffff", colour, 3, note)
        if len(modes) == 2:
            picture.box(x, y, size, size / 2, colour, "none", 3, note)
        ink = "#222222"
    picture.text(x + size / 2, y + 11, letters, 8, "middle", ink, True)
    if after_response:
        picture.line([(x, y + size + 2), (x + size, y + size + 2)], colour, 1.5, "2,2")


def phases_picture():
    found, left, top, wide, high = seen(), 240, 74, 17 * len(READERS) + 10, 24
    width, height = left + wide * len(PHASES) + 10, top + high * len(SHOWN) + 96
    picture = Picture(width, height, "Which reader of the small conference sees what of paper 1, and when")
    picture.text(10, 24, "Who sees what of a paper, and when", 15, bold=True)
    for place, phase in enumerate(PHASES):
        x = left + place * wide
        picture.box(x, top - 30, wide - 4, 22, "#e8eef5", round_by=4)
        picture.text(x + (wide - 4) / 2, top - 15, phase, 12, "middle", bold=True)
    for row, (what, _) in enumerate(SHOWN):
        y = top + row * high
        if row % 2 == 0:
            picture.box(4, y - 3, width - 8, high, "#f6f6f6")
        picture.text(10, y + 12, what, 11)
        for place, phase in enumerate(PHASES):
            for slot, reader in enumerate(READERS):
                shown = found.get((what, phase, reader[0]))
                if shown:
                    chip(picture, left + place * wide + slot * 17, y, reader, shown[0], all(shown[1]))
    y = top + high * len(SHOWN) + 14
    for place, reader in enumerate(READERS):
        x = 10 + place % 5 * 245
        chip(picture, x, y + place // 5 * 22, reader, MODES, False)
        picture.text(x + 22, y + 11 + place // 5 * 22, reader[1], 10)
    marks = (("filled: in every mode", MODES), ("half: not in anonymous mode", MODES[:2]),
             ("ring: only in open mode", MODES[:1]))
    for place, (words, modes) in enumerate(marks):
        x = 10 + place * 245
        chip(picture, x, y + 48, ("", words, None, 1, "#444444"), modes, False)
        picture.text(x + 22, y + 59, words, 10)
    chip(picture, 745, y + 48, ("", "", None, 1, "#444444"), MODES, True)
    picture.text(767, y + 59, "underlined: only if there was a response; in the closed conference there was none", 10)
    return picture.bytes()


# ---- all of them

GRAPHS = {"crates": crates_graph}
DRAWN = {"descriptions": descriptions_picture, "request": request_picture, "phases": phases_picture}


def digest(text):
    return hashlib.sha256(text.encode()).hexdigest()


def laid_out(name, text):
    """The graph as dot lays it out, with its digest in place of dot's own comments."""
    made = subprocess.run(["dot", "-Tsvg"], input=text.encode(), capture_output=True, check=True).stdout.decode()
    plain = re.sub(r"<!--.*?-->\n?", "", made[made.index("<svg"):], flags=re.S)
    return f"<!-- {name}, by checks/pictures.py of a graph with SHA-256 {digest(text)} -->\n{plain}".encode()


def main():
    writes, wrong = sys.argv[1:] == ["--write"], []
    FOLDER.mkdir(exist_ok=True)
    for name, graph in GRAPHS.items():
        file, text = FOLDER / f"{name}.svg", graph()
        if writes:
            file.write_bytes(laid_out(name, text))
        elif not file.exists() or digest(text) not in file.read_text().split("\n")[0]:
            wrong.append(file.name)
    for name, picture in DRAWN.items():
        file, due = FOLDER / f"{name}.svg", picture()
        if writes:
            file.write_bytes(due)
        elif not file.exists() or file.read_bytes() != due:
            wrong.append(file.name)
    for name in wrong:
        print(f"docs/pictures/{name} is of something else: python3 checks/pictures.py --write")
    print(f"{len(GRAPHS) + len(DRAWN)} pictures, {len(wrong)} out of date")
    return 1 if wrong else 0


if __name__ == "__main__":
    sys.exit(main())
