# SPDX-License-Identifier: Apache-2.0 OR MIT
"""Plans of assignments of any size: the pairs of a paper and a member whose bids have the greatest sum."""

from __future__ import annotations

from collections import Counter
from collections.abc import Collection, Mapping
from dataclasses import dataclass

import numpy
from scipy.optimize import Bounds, LinearConstraint, milp
from scipy.sparse import coo_matrix

from confd_client.answers import Page
from confd_client.bulks import Row
from confd_client.errors import NoPlan

LABELS = 26
"""How many reviewers a paper may have in all, those among them who were taken off it."""

Pair = tuple[int, str]


@dataclass(frozen=True)
class Wanted:
    """What a plan is to give: to each paper so many more members, and to each member at most so many papers.

    Where `counts_assigned` is set, a member's papers are counted with those of the pages that they review already.
    """

    per_paper: int
    load: int
    counts_assigned: bool = False


def allowed(pages: Collection[Page], members: Collection[str]) -> dict[Pair, int]:
    """The pairs that may be assigned, each with its bid, 0 where none was given: a member reviews no paper twice, and
    none with which they are in conflict."""
    pairs: dict[Pair, int] = {}
    for page in pages:
        bids = {each.user: each.bid for each in page.bids or ()}
        out = {*(page.authors or ()), *(page.conflicts or ())} | {each.user for each in page.reviewers or ()}
        pairs |= {(page.paper, name): bids.get(name, 0) for name in members if name not in out}
    return pairs


def labels_left(page: Page) -> int:
    """How many labels a paper still has at most: of reviewers who were taken off it only those before another show."""
    return LABELS - max((ord(each.label) - ord("A") + 1 for each in page.reviewers or ()), default=0)


def room_of(pages: Collection[Page], members: Collection[str], wanted: Wanted) -> dict[str, int]:
    """How many papers each member may get."""
    room = dict.fromkeys(members, wanted.load)
    if wanted.counts_assigned:
        for page in pages:
            for each in page.reviewers or ():
                if each.user in room:
                    room[each.user] = max(0, room[each.user] - 1)
    return room


def best_pairs(pairs: Mapping[Pair, int], papers: Collection[int], per_paper: int,
               room: Mapping[str, int]) -> list[Pair]:
    """Of all ways to give each paper so many of its pairs, and each member as many as there is room for, one whose bids
    have the greatest sum; in the order of `pairs`.

    It is the maximum of a linear function over a transportation polytope (Schrijver, Combinatorial Optimization,
    section 21.6), found by scipy's HiGHS as whole numbers. Raises `NoPlan` where there is none.
    """
    free = Counter(paper for paper, _ in pairs)
    few = [str(paper) for paper in papers if free[paper] < per_paper]
    if few:
        raise NoPlan(409, what=f"fewer than {per_paper} members may review the papers {', '.join(few)}")
    if not pairs:
        return []
    order = list(pairs)
    paper_rows = {paper: place for place, paper in enumerate(papers)}
    member_rows = {name: place for place, name in enumerate(room, start=len(paper_rows))}
    columns = numpy.arange(len(order))
    rows = numpy.array([[paper_rows[paper] for paper, _ in order], [member_rows[name] for _, name in order]])
    places = coo_matrix((numpy.ones(2 * len(order)), (rows.ravel(), numpy.tile(columns, 2))),
                        shape=(len(paper_rows) + len(member_rows), len(order)))
    least = [per_paper] * len(paper_rows) + [0] * len(member_rows)
    most = [per_paper] * len(paper_rows) + list(room.values())
    found = milp(-numpy.array([pairs[pair] for pair in order], dtype=float), integrality=numpy.ones(len(order)),
                 bounds=Bounds(0, 1), constraints=LinearConstraint(places.tocsr(), least, most))
    if found.x is None:
        raise NoPlan(409, what=f"{per_paper} places of each of {len(paper_rows)} papers")
    return [pair for pair, chosen in zip(order, found.x, strict=True) if chosen > 0.5]


def own_plan(pages: Mapping[int, Page], papers: Collection[int], members: Collection[str],
             wanted: Wanted) -> tuple[list[Row], int]:
    """A plan for these papers and members, as rows of a bulk, and the sum of its bids.

    Papers without enough labels are left out, as the server's plan leaves them out. Raises `NoPlan`.
    """
    open_pages = [pages[paper] for paper in papers if labels_left(pages[paper]) >= wanted.per_paper]
    pairs = allowed(open_pages, members)
    chosen = best_pairs(pairs, [page.paper for page in open_pages], wanted.per_paper,
                        room_of(list(pages.values()), members, wanted))
    rows = [Row(str(paper), "pcreview", name) for paper, name in chosen]
    return rows, sum(pairs[pair] for pair in chosen)
