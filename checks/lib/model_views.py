# SPDX-License-Identifier: Apache-2.0 OR MIT
"""What `confd view` prints, by the small model of `model.py`, written from docs/VIEWS.md and from nothing else.

Below, `c` is a conference, `u` the reader's number, `p` a paper's; of an entry, `i` is its place, `m` its maker, `k`
its kind, and `f` are its fields.
"""
import hashlib

from .model import dump, secret_of


def view_lines(c, who):
    """What `confd view` prints for a user, line by line, by the table of who sees what."""
    u = c.number_of(who)
    role = c.role_of(u)
    member, chair = role != "account", role == "chair"
    bidding, disc, notif = c.is_from("bidding"), c.is_from("discussion"), c.is_from("notification")
    anon, overt = c.mode == "anonymous", c.mode == "open"
    out = []

    def last_text(i, p):
        return not any(k in ("submitted", "revised") and f[0] == p for m, k, f in c.history[i + 1:])

    def first_form(i, p, o):
        return not c.forms(p, o, c.history[:i])

    def last_form(i, p, o):
        return not c.forms(p, o, c.history[i + 1:])

    discussed, responded = c.opening("discussion"), c.opening("response")

    def discussed_form(i, p, o):
        return discussed is not None and i > discussed or not c.forms(p, o, c.history[i + 1:discussed])

    def early_form(i, p, o):
        return responded is not None and i < responded and not c.forms(p, o, c.history[i + 1:responded])

    def last_upload(i, p):
        return not any(k == "uploaded" and f[0] == p for m, k, f in c.history[i + 1:])

    def last_decision(i, p):
        return not any(k == "decided" and f[0] == p for m, k, f in c.history[i + 1:])

    for i, (m, k, f) in enumerate(c.history):
        mine = m == u
        shown = {}
        seen = mine

        def row(test, parts):
            nonlocal seen
            if test:
                seen = True
                shown.update(parts)

        if k == "registered":
            digest = hashlib.sha256(secret_of(f[1]).encode()).hexdigest()
            row(True, {"user": f[0], "name": f[1]})
            row(mine, {"user": f[0], "name": f[1], "digest": digest})
            kind = "registered"
        elif k == "named":
            row(True, {"user": f[0], "role": f[1]})
            kind = "named"
        elif k in ("phase", "mode"):
            row(True, {k: f})
            kind = f"{k}set"
        elif k == "deadline":
            row(True, {"phase": f[0], "until": f[1]})
            kind = "deadlineset"
        elif k == "dismissed":
            row(True, {"user": f})
            kind = k
        else:
            p = f if k == "withdrawn" else f[0]
            author, clear = u in c.authors(p), not c.conflicted(u, p)
            cm, cc, ce = member and clear, chair and clear, c.external(u, p) and clear
            accepted, published = c.accepted(p), c.published(p)
            kind = k
            if k in ("submitted", "revised"):
                row(author or mine, {"paper": p, "title": f[1], "abstract": f[2]})
                row(last_text(i, p) and (((member or ce) and bidding) or accepted), {"paper": p, "title": f[1]})
                row(last_text(i, p) and (((cm or ce) and bidding) or published), {"paper": p, "abstract": f[2]})
            if k == "submitted":
                row(True, {"paper": p})
                row(author or accepted or ((cc or ((cm or ce) and not anon)) and bidding), {"by": m})
            if k == "coauthor":
                whole = {"paper": p, "user": f[1]}
                row(author or mine or ((cc or ((cm or ce) and not anon)) and bidding) or accepted, whole)
            if k == "uploaded":
                whole = {"paper": p, "version": f[1], "bytes": len(f[2])}
                row(author or mine or (last_upload(i, p) and (((cm or ce) and bidding) or published)), whole)
            if k == "withdrawn":
                row(author or mine or ((member or ce) and bidding), {"paper": p})
            if k == "conflict":
                whole = {"paper": p, "user": f[1], "on": f[2]}
                row(f[1] == u or mine or (m in c.authors(p) and author) or (cc and bidding), whole)
            if k == "bid":
                row(mine, {"paper": p, "value": f[1]})
                row(cc and bidding, {"paper": p, "value": f[1], "user": m})
            if k in ("invited", "uninvited"):
                row(mine or f[1] == u or cc, {"paper": p, "user": f[1]})
            if k in ("assigned", "unassigned"):
                whole = {"paper": p, "user": f[1], "ordinal": f[-1]}
                if k == "assigned":
                    whole["seat"] = f[2]
                row(mine or f[1] == u or cc, whole)
                row(cm and disc, {x: y for x, y in whole.items() if x != "user"})
                row(cm and disc and not anon, {"paper": p, "user": f[1]})
                row(author and overt and notif, {"paper": p, "user": f[1], "ordinal": f[-1]})
            if k == "reviewed":
                form = {"paper": p, "ordinal": f[1], "version": f[2], **f[3]}
                row(mine or (discussed_form(i, p, f[1]) and cm and disc), form)
                row(first_form(i, p, f[1]) and cc, {"paper": p, "ordinal": f[1], "done": True})
                told = author and (last_form(i, p, f[1]) and notif or early_form(i, p, f[1]) and c.is_from("response"))
                row(told, {x: form[x] for x in ("paper", "ordinal", "score", "confidence", "to_authors")})
            if k == "responded":
                row(mine or author or (cm and disc), {"paper": p, "text": f[1]})
            if k == "commented":
                row(mine, {"paper": p, "n": f[1], "ordinal": f[2], "text": f[3]})
                row(cm and disc, {"paper": p, "n": f[1], "text": f[3],
                                  **({"writer": m} if chair or not anon else {"ordinal": f[2]})})
            if k == "tagged":
                whole = {"paper": p, "tag": f[1], "on": f[2]}
                row(mine or (not f[1].startswith("~") and cm and bidding)
                    or (f[1].startswith("~~") and cc and bidding), whole)
            if k == "decided":
                row(mine or (cm and disc), {"paper": p, "decision": f[1]})
                row(last_decision(i, p) and author and notif, {"paper": p, "outcome": True, "decision": f[1]})
                row(last_decision(i, p) and accepted, {"paper": p, "accepted": True})
        if seen:
            own = ({"mine": True, "at": c.moments.get(i, 0), **({"num": c.numbers[i]} if i in c.numbers else {})}
                   if mine else {})
            out.append(dump({"kind": kind, **own, **shown}))
    return out
