# SPDX-License-Identifier: Apache-2.0 OR MIT
"""The best plan of assignments, found otherwise than the program finds it, and only from whole numbers.

All plans have as many pairs. So an earlier pair is made to weigh more than all later ones together, and a bid more than
all pairs. The plan that then weighs most is the first of those whose bids have the greatest sum. Places are filled one
by one, each along the way of exchanges that gains most (Bellman's and Ford's search). That keeps what is chosen the
heaviest for its places.
"""


def best_plan(bids, papers, per_paper, load):
    """The pairs of the plan, where `bids` has those that may be chosen, each with its bid, in order; None where there
    is no plan."""
    order = list(bids)
    weights = {pair: (bids[pair] << len(order)) + (1 << (len(order) - 1 - place)) for place, pair in enumerate(order)}
    chosen = set()
    for paper in papers * per_paper:
        more = exchanged(weights, chosen, paper, load)
        if more is None:
            return None
        chosen ^= more
    return [pair for pair in order if pair in chosen]


def exchanged(weights, chosen, paper, load):
    """The pairs to choose or to give up so that the paper has one member more; None where there is no way."""
    reached = {("paper", paper): (0, None, None)}  # what is gained, the last pair exchanged, and where that came from
    moved = True
    while moved:
        moved = False
        for (p, member), weight in weights.items():
            ends = [("paper", p), ("member", member)]
            gain = weight
            if (p, member) in chosen:
                ends.reverse()
                gain = -weight
            if ends[0] in reached and (ends[1] not in reached or reached[ends[0]][0] + gain > reached[ends[1]][0]):
                reached[ends[1]] = (reached[ends[0]][0] + gain, (p, member), ends[0])
                moved = True
    free = [end for end in reached
            if end[0] == "member" and len([1 for _, member in chosen if member == end[1]]) < load]
    if not free:
        return None
    at, pairs = max(free, key=lambda end: reached[end][0]), set()
    while reached[at][1] is not None:
        _, pair, at = reached[at]
        pairs ^= {pair}
    return pairs
