#!/usr/bin/env python3
# SPDX-License-Identifier: Apache-2.0 OR MIT
"""All short searches, against a brute force over their grammar.

    checks/search_texts.py [TOKENS] [PROGRAM]

Asks `confd pipe` each text of up to so many tokens (4 if none are named; 5 take a minute or two) of a small alphabet.
The papers have each set of three words in their titles, so what is found tells the tree. Each answer has to be what
`searches.py` gives: the papers, or the place. PROGRAM is `confd` as `rt run` builds it (crates/confd/out/confd if none
is named). Ends with status 0 if all are.
"""
import itertools
import json
import subprocess
import sys
import urllib.parse

from lib import searches
from lib.places import CONFD
from lib.wire import answers, move_to, register, request, submit

TOKENS = ["kale", "ti:lime", "mint", "-", "NOT", "AND", "OR", "(", ")", " ", '"', "x:"]
TITLES = ["None", "Kale", "Lime", "Kale, lime", "Mint", "Kale, mint", "Lime, mint", "Kale, lime, mint"]


def due(text):
    """The code and the content that are due."""
    tree = searches.read(text.encode())
    if isinstance(tree, int):
        return 400, {"error": "bad_query", "place": tree}
    told = [{"page": {"title": title, "abstract": ""}, "reviews": [], "comments": [], "responded": False,
             "accepted": False, "conflicted": True}
            for title in TITLES]
    found = [{"paper": number + 1, "title": title}
             for number, title in enumerate(TITLES) if searches.holds(tree, told[number])]
    return 200, {"count": len(found), "papers": found}


def main():
    most = int(sys.argv[1]) if len(sys.argv) > 1 else 4
    program = sys.argv[2] if len(sys.argv) > 2 else CONFD
    texts = sorted({"".join(row) for count in range(most + 1) for row in itertools.product(TOKENS, repeat=count)})
    begun = [register("alice"), move_to("submission"), *(submit("alice", title) for title in TITLES)]
    asked = [request("GET", f"/search?q={urllib.parse.quote_plus(text)}", "alice") for text in texts]
    told = subprocess.run([program, "pipe"], input=b"".join(begun + asked), stdout=subprocess.PIPE, check=True).stdout
    got = [(code, json.loads(content)) for code, content in answers(told)[len(begun) :]]
    wrong = [(text, answer) for text, answer in zip(texts, got) if answer != due(text)]
    for text, answer in wrong[:20]:
        print(f"{text!r}: came {answer}, due {due(text)}")
    print(f"{len(got) - len(wrong)} of {len(texts)} texts as due, {len(wrong) + len(texts) - len(got)} not")
    sys.exit(bool(wrong) or len(got) != len(texts))


if __name__ == "__main__":
    main()
