# SPDX-License-Identifier: Apache-2.0 OR MIT
"""What wrong_laws.py asks: the small conference as commands, twins of it,
and commands, queries and bulks to try on each.

Values are those that specs.py computes with: a variant is its name with its parts, a text its bytes, a paper or a name
that may be missing an option.
"""
import random

NONE = ("None",)
# When all is asked: the moment of the small conference (`morning` in Witness.antt of cr_policy).
MORNING = 1_772_442_000
NAMES = ("alice", "bob", "carol", "dave", "erin", "fay", "gus", "hal", "ivy")
PHASES = ("Setup", "Submission", "Bidding", "Reviewing", "Response", "Discussion", "Notification", "Closed")


def some(value):
    return ("Some", value)


def words(text):
    return tuple(text.encode())


def named(name):
    return some(words(name))


class Bytes:
    """A content of so many bytes."""

    def __init__(self, count):
        self.count = count

    def __len__(self):
        return self.count

    def __eq__(self, other):
        return isinstance(other, Bytes) and other.count == self.count

    def __hash__(self):
        return self.count


def form(score):
    return {"score": score, "confidence": 3, "to_authors": words(f"a{score}"), "to_pc": words(f"p{score}")}


def conference():
    """Who gives which command, and between them the names of stages."""
    alice, bob, carol, dave, _, fay, gus, hal, ivy = [some(n) for n in range(1, 10)]
    steps = [(NONE, ("Register", words(name), (n,) * 32)) for n, name in enumerate(NAMES)]
    steps += [(alice, ("Name", named(name), (role,))) for name, role in
              (("carol", "Member"), ("dave", "Member"), ("fay", "Chair"), ("hal", "Member"), ("ivy", "Member"))]
    steps += [(alice, ("Dismiss", named("ivy"))), "setup", (alice, ("SetMode", ("Blind",))),
              (alice, ("SetPhase", ("Submission",)))]
    steps += [(bob, ("Submit", words("Proofs"), words("We prove."), (named("gus"),))),
              (gus, ("Submit", words("Types"), words("We type."), ())),
              (gus, ("Submit", words("Drafts"), words("We draft."), ())), "submitted"]
    steps += [(bob, ("Upload", some(1), words("Let x be."))), (gus, ("Upload", some(2), words("x : A"))),
              (bob, ("Upload", some(1), words("Let x be, and y."))),
              (bob, ("Revise", some(1), words("Fewer proofs"), words("We prove less."))),
              (gus, ("Revise", some(1), words("More proofs"), words("We prove more."))), (gus, ("Withdraw", some(3))),
              (bob, ("SetConflict", some(1), named("carol"), True)),
              (gus, ("SetConflict", some(1), named("fay"), True)), "submission"]
    steps += [(alice, ("SetPhase", ("Bidding",))), (alice, ("SetConflict", some(1), named("fay"), False)),
              (fay, ("SetConflict", some(1), named("fay"), True)),
              (dave, ("SetConflict", some(2), named("dave"), True)),
              (alice, ("SetConflict", some(2), named("dave"), False)), (dave, ("Bid", some(1), 25)),
              (carol, ("Bid", some(2), 17)), (alice, ("Bid", some(1), 0)), (dave, ("Bid", some(1), 40))]
    steps += [(user, ("Tag", some(paper), words(tag), on)) for user, paper, tag, on in
              ((dave, 1, "hot", True), (dave, 1, "~xa", True), (alice, 1, "~~x", True),
               (hal, 1, "hot", False), (fay, 2, "~~x", True))]
    steps += [(alice, ("Assign", some(paper), named(name), (kind,))) for paper, name, kind in
              ((1, "dave", "Primary"), (1, "alice", "Secondary"), (2, "fay", "Pc"))]
    steps += [(alice, (command, some(paper), named("ivy"))) for command, paper in
              (("Invite", 1), ("Uninvite", 1), ("Invite", 2))]
    steps += [(alice, ("Assign", some(2), named("ivy"), ("Secondary",))), "bidding"]
    steps += [(alice, ("SetPhase", ("Reviewing",))), (alice, ("Unassign", some(1), named("dave"))),
              (alice, ("Assign", some(1), named("dave"), ("Pc",)))]
    steps += [(user, ("Review", some(1), form(score))) for user, score in ((dave, 2), (alice, 4), (dave, 3))]
    steps += [(ivy, ("Review", some(2), form(1))), "reviewing"]
    steps += [(alice, ("SetPhase", ("Discussion",))), (dave, ("Review", some(1), form(5))),
              (dave, ("Comment", some(1), words("Take it."))), (hal, ("Comment", some(1), words("Agreed."))),
              (fay, ("Decide", some(2), ("Reject",))), (alice, ("Decide", some(1), ("Reject",))),
              (alice, ("Decide", some(1), ("Accept",))), "discussion",
              (alice, ("SetPhase", ("Notification",))), "notification", (alice, ("SetPhase", ("Closed",))), "closed"]
    return steps


def for_same(tag, word):
    """The word as a tag for whom that one is: the committee, chairs or its setter."""
    return tag[:min(2, len(tag) - len(bytes(tag).lstrip(b"~")))] + words(word)


def with_others(seed, place, command):
    """The command with other values of all that no rule should read, made up for its place."""
    dice = random.Random(1000 * seed + place)
    text = lambda: words(f"other {dice.randint(1000, 9999)}")
    kind, *parts = command
    grades = {"score": dice.randint(1, 5), "confidence": dice.randint(1, 5)}
    filled = {
        "Register": lambda: [parts[0], tuple(dice.randbytes(32))],
        "Submit": lambda: [text(), dice.choice([(), text()]), parts[2]],
        "Revise": lambda: [parts[0], text(), dice.choice([(), text()])],
        "Upload": lambda: [parts[0], dice.choice([(), text()])],
        "Bid": lambda: [parts[0], dice.randint(0, 40)],
        "Assign": lambda: [parts[0], parts[1], (dice.choice(["Primary", "Secondary", "Pc"]),)],
        "Review": lambda: [parts[0], {**grades, "to_authors": dice.choice([(), text()]), "to_pc": text()}],
        "Respond": lambda: [parts[0], text()],
        "Comment": lambda: [parts[0], text()],
        "Tag": lambda: [parts[0], for_same(parts[1], f"t{dice.randint(10, 99)}"), dice.random() < 0.5],
        "Decide": lambda: [parts[0], (dice.choice(["Accept", "Reject"]),)],
    }.get(kind, lambda: parts)()
    return (kind, *filled)


# what may be done at a paper by who isn't its author; of some of these a user is named
AT_PAPERS = ("SetConflict", "Bid", "Assign", "Unassign", "Review", "Comment", "Tag", "Decide", "Invite", "Uninvite")


def in_place(step, paper, pair):
    """The step with the two users in each other's place, as who does it and whom it names, where it is at the paper."""
    user, (kind, *parts) = step
    if kind not in AT_PAPERS or parts[0] != some(paper):
        return step
    one, other = pair
    users = {some(one): some(other), some(other): some(one)}
    names = {named(NAMES[one - 1]): named(NAMES[other - 1]), named(NAMES[other - 1]): named(NAMES[one - 1])}
    named_one = kind in ("SetConflict", "Assign", "Unassign", "Invite", "Uninvite")
    return users.get(user, user), (kind, parts[0], *(names.get(x, x) if named_one else x for x in parts[1:]))


# twins: behind which stage, and what else is done there
TWINS = {
    "gus is a chair": ("bidding", [(some(1), ("Name", named("gus"), ("Chair",)))]),
    "dave is in conflict": ("bidding", [(some(4), ("SetConflict", some(1), named("dave"), True))]),
    "authors are named late": ("discussion", [(some(1), ("Name", named("bob"), ("Member",))),
                                              (some(1), ("Name", named("gus"), ("Chair",)))]),
    "an author is a member": ("submission", [(some(1), ("Name", named("bob"), ("Member",)))]),
    "dave is dismissed": ("bidding", [(some(1), ("Dismiss", named("dave")))]),
    "fay is dismissed": ("reviewing", [(some(1), ("Dismiss", named("fay")))]),
    "erin is invited": ("bidding", [(some(1), ("Invite", some(1), named("erin"))),
                                    (some(1), ("Assign", some(1), named("erin"), ("Pc",)))]),
    "erin is in conflict": ("bidding", [(some(1), ("Invite", some(1), named("erin"))),
                                        (some(1), ("SetConflict", some(1), named("erin"), True))]),
    "erin reviews": ("reviewing", [(some(1), ("Invite", some(1), named("erin"))),
                                   (some(1), ("Assign", some(1), named("erin"), ("Pc",))),
                                   (some(5), ("Review", some(1), form(4))),
                                   (some(1), ("Invite", some(2), named("erin")))]),
    "erin has reviewed": ("reviewing", [(some(1), ("Invite", some(1), named("erin"))),
                                        (some(1), ("Assign", some(1), named("erin"), ("Pc",))),
                                        (some(5), ("Review", some(1), form(4))),
                                        (some(1), ("SetPhase", ("Discussion",))),
                                        (some(1), ("SetPhase", ("Notification",)))]),
    "authors respond": ("reviewing", [(some(1), ("SetPhase", ("Response",))),
                                      (some(7), ("Respond", some(2), words("We do.")))]),
    "responses are discussed": ("reviewing", [(some(1), ("SetPhase", ("Response",))),
                                              (some(2), ("Respond", some(1), words("Thanks."))),
                                              (some(1), ("SetPhase", ("Discussion",))),
                                              (some(4), ("Review", some(1), form(2)))]),
    "responses are read at the end": ("reviewing", [(some(1), ("SetPhase", ("Response",))),
                                                    (some(2), ("Respond", some(1), words("Thanks.")))]
                                      + [(some(1), ("SetPhase", (phase,))) for phase in PHASES[5:7]]),
    "some papers": ("submitted", [(some(5), ("Submit", words("P"), (), ()))] * 2),
    "many papers": ("submitted", [(some(7), ("Submit", words("P"), (), ()))] * 17),
    "many bytes": ("submitted", [(some(7), ("Upload", some(2), Bytes(33554432))),
                                 (some(7), ("Upload", some(1), Bytes(33554000)))]),
    "half of the bytes": ("submitted", [(some(7), ("Upload", some(2), Bytes(33554000)))]),
    "the submission is due": ("submission", [(some(1), ("SetDeadline", ("Submission",), some(MORNING - 1)))]),
    "the submission ends now": ("submission", [(some(1), ("SetDeadline", ("Submission",), some(MORNING)))]),
    "the bidding is due": ("bidding", [(some(1), ("SetDeadline", ("Bidding",), some(MORNING - 1)))]),
    "the bidding has no deadline any more": ("bidding", [(some(1), ("SetDeadline", ("Bidding",), until))
                                                         for until in (some(MORNING - 1), NONE)]),
    "the reviewing is due": ("reviewing", [(some(1), ("SetDeadline", ("Reviewing",), some(MORNING - 1)))]),
    "the response is due": ("reviewing", [(some(1), ("SetPhase", ("Response",))),
                                          (some(1), ("SetDeadline", ("Response",), some(MORNING - 1)))]),
    "the discussion is due, in the reviewing": (
        "reviewing", [(some(1), ("SetDeadline", ("Discussion",), some(MORNING - 1)))]),
    "the discussion is due": ("discussion", [(some(1), ("SetDeadline", ("Discussion",), some(MORNING - 1)))]),
}


def entry(maker, made):
    return {"stamp": {"maker": maker, "at": MORNING, "key": NONE}, "more": False, "entry": made}


def labels_spent():
    """Entries behind which paper 2 has 26 labels."""
    given = [entry(1, ("Assigned", 2, 8, ("Pc",), o)) for o in range(3, 27)]
    left = [entry(1, ("Unassigned", 2, 8, o)) for o in range(3, 26)]
    return tuple(made for pair in zip(given, left) for made in pair) + (given[-1],)


def many_comments():
    """500 comments of dave's."""
    return tuple(entry(4, ("Commented", 2, n, NONE, words("c"))) for n in range(1, 501))


# built of entries: behind which stage, and which
FULL = {"labels are spent": ("bidding", labels_spent()), "many comments": ("discussion", many_comments())}

# of large histories, what alone is tried there
ALONE = {"many papers": ("Submit",), "many bytes": ("Upload",), "half of the bytes": ("Upload",),
         "labels are spent": ("Assign", "Unassign"), "many comments": ("Comment",)}


def commands():
    papers = [NONE] + [some(n) for n in (1, 2, 3, 9)]
    users = [named(name) for name in ("alice", "bob", "carol", "dave", "erin", "hal", "zoe")]
    given = [("Register", words("zoe"), (9,) * 32), ("Register", words("bob"), (9,) * 32)]
    given += [("Name", user, (role,)) for user in users for role in ("Member", "Chair")]
    given += [("Dismiss", user) for user in users]
    given += [("SetMode", (mode,)) for mode in ("Overt", "Anonymous")] + [("SetPhase", (phase,)) for phase in PHASES]
    given += [("SetDeadline", (phase,), until) for phase in PHASES[1:6] for until in (NONE, some(MORNING + 60))]
    told = ((), (named("erin"), named("erin"), named("bob"), named("erin"), named("hal")),
            (named("gus"), named("dave")), (named("zoe"),))
    given += [("Submit", words("T"), words("a"), authors) for authors in told]
    for p in papers:
        given += [("Revise", p, words("T"), words("a")), ("Upload", p, words("xyz")), ("Upload", p, Bytes(4194304)),
                  ("Withdraw", p), ("Bid", p, 23), ("Review", p, form(1)), ("Respond", p, words("r")),
                  ("Comment", p, words("c"))]
        given += [("Tag", p, words(tag), on) for tag in ("hot", "~x", "~~x") for on in (True, False)]
        given += [("Decide", p, (decision,)) for decision in ("Accept", "Reject")]
        for user in users if p in (some(1), some(3)) else [named(name) for name in ("dave", "hal", "zoe")]:
            given += [("SetConflict", p, user, True), ("SetConflict", p, user, False),
                      ("Assign", p, user, ("Secondary",)), ("Unassign", p, user),
                      ("Invite", p, user), ("Uninvite", p, user)]
    return given


def queries():
    asked = [("Accounts",), ("Phase",), ("Deadlines",), ("AcceptedPapers",), ("Me",),
             ("Search", (), True), ("Search", (), False)]
    for p in [NONE] + [some(n) for n in (1, 2, 3, 9)]:
        asked += [(kind, p) for kind in ("Page", "Content", "Reviews", "Response", "Comments")]
        asked += [("Report", ("Letter", p))] + [("Version", p, version) for version in range(4)]
    return asked + [("Report", (report,)) for report in ("Papers", "Scores", "Load", "Decisions")]


def row(paper, action, user="", tag=""):
    return {"paper": words(paper), "action": words(action), "user": words(user), "tag": words(tag)}


BULKS = [
    (), (row("1", "primary", "hal"),),
    (row("1", "pcreview", "hal"), row("1", "clearreview", "hal"), row("1", "secondary", "hal"),
     row("2", "tag", "", "hot")),
    (row("2", "primary", "hal"), row("2", "pcreview", "hal")),
    (row("2", "conflict", "hal"), row("2", "primary", "hal")),
    (row("2", "conflict", "alice"),), (row("2", "clearconflict", "alice"),), (row("2", "clearconflict", "dave"),),
    (row("1", "fly"),), (row("1", "tag", "", "A B"),), (row("9", "tag", "", "hot"),),
    (row("1", "cleartag", "", "hot"),), (row("2", "primary", "alice"),),
    (row("1", "conflict", "hal"), row("1", "clearconflict", "hal"), row("1", "primary", "hal")),
]

# which command each word of a bulk's row asks for, of paper 7, the user bob and the tag t
ROWS = {
    "primary": ("Assign", some(7), named("bob"), ("Primary",)),
    "secondary": ("Assign", some(7), named("bob"), ("Secondary",)),
    "pcreview": ("Assign", some(7), named("bob"), ("Pc",)), "clearreview": ("Unassign", some(7), named("bob")),
    "conflict": ("SetConflict", some(7), named("bob"), True),
    "clearconflict": ("SetConflict", some(7), named("bob"), False),
    "tag": ("Tag", some(7), words("t"), True), "cleartag": ("Tag", some(7), words("t"), False),
}
