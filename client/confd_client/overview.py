# SPDX-License-Identifier: Apache-2.0 OR MIT
"""The overview of an export: one page of HTML with tables that sort and plots, which needs no network.

Whatever others wrote is text on it: the template escapes each value, and the page's Content-Security-Policy allows its
own script and style, by their digests, and nothing else.
"""

from __future__ import annotations

import base64
import hashlib
import statistics
from collections import Counter
from collections.abc import Iterable, Sequence
from dataclasses import dataclass

import jinja2

from confd_client.answers import Decision, Role
from confd_client.export import Export, Paper
from confd_client.letters import to_authors

SCORES, BIDS = range(1, 6), range(-20, 21)
"""The scores and the bids that there are (docs/openapi.json, `Grade` and `Bid`)."""


# ---- what a page shows


@dataclass(frozen=True)
class Cell:
    """A cell of a table; `order` is what its column sorts by, empty where nothing is known, and `link` a file."""

    text: str
    order: str = ""
    link: str | None = None


@dataclass(frozen=True)
class Table:
    """A table that sorts by any of its columns, each a heading and whether it has numbers."""

    name: str
    caption: str
    columns: tuple[tuple[str, bool], ...]
    rows: tuple[tuple[Cell, ...], ...]


@dataclass(frozen=True)
class Bar:
    """A bar of a plot, with what stands at its foot, and what it is, in words."""

    label: str
    parts: tuple[int, ...]
    words: str


@dataclass(frozen=True)
class Range:
    """The scores of one paper: the least, the greatest and the mean."""

    paper: int
    least: int
    greatest: int
    mean: float
    words: str


@dataclass(frozen=True)
class Plot:
    """A plot: `kind` is `columns` (upright bars), `rows` (lying bars, in parts) or `ranges`.

    `most` is the greatest sum of a bar's parts, at least 1, and `parts` what the parts are called.
    """

    name: str
    kind: str
    caption: str
    axis: str
    bars: tuple[Bar, ...] = ()
    ranges: tuple[Range, ...] = ()
    parts: tuple[str, ...] = ()

    @property
    def most(self) -> int:
        return max([sum(bar.parts) for bar in self.bars], default=0) or 1


@dataclass(frozen=True)
class Page:
    """All that the template reads."""

    title: str
    about: tuple[tuple[str, str], ...]
    figures: tuple[tuple[str, str], ...]
    plots: tuple[Plot, ...]
    tables: tuple[Table, ...]
    missing: tuple[str, ...]


# ---- from an export


def text_cell(text: str | None, link: str | None = None) -> Cell:
    return Cell("" if text is None else text, (text or "").casefold(), link)


def number_cell(number: float | None, digits: int = 0) -> Cell:
    return Cell("" if number is None else f"{number:.{digits}f}", "" if number is None else repr(number))


def scores_of(paper: Paper) -> list[int]:
    """The scores of a paper that the caller is shown: of each label the last."""
    return [each.score for each in to_authors(paper.reviews or ())]


def _standing(paper: Paper) -> str:
    """What became of a paper, in a word."""
    if paper.page.withdrawn:
        return "withdrawn"
    if paper.page.conflict:
        return "conflict" if paper.page.decision is None else f"conflict, {paper.page.decision.value}"
    if paper.page.decision is None:
        return ""
    return "undecided" if paper.page.decision is Decision.NONE else paper.page.decision.value


def papers_table(export: Export) -> Table:
    """A line for each paper, with the columns that the caller is shown of any."""
    papers = export.papers
    columns: list[tuple[str, bool]] = [("Paper", True), ("Title", False)]
    lines: list[list[Cell]] = []
    for paper in papers:
        link = paper.contents[-1] if paper.contents else None
        lines.append([number_cell(paper.page.paper), text_cell(paper.page.title, link)])

    def column(heading: str, is_number: bool, cells: Iterable[Cell], there: bool) -> None:
        if there:
            columns.append((heading, is_number))
            for line, cell in zip(lines, cells, strict=True):
                line.append(cell)

    column("Authors", False, (text_cell(", ".join(p.page.authors or ())) for p in papers),
           any(p.page.authors is not None for p in papers))
    column("Standing", False, (text_cell(_standing(p)) for p in papers), any(_standing(p) for p in papers))
    scored = [scores_of(paper) for paper in papers]
    column("Mean score", True, (number_cell(statistics.fmean(s) if s else None, 2) for s in scored), any(scored))
    column("Scores", False, (text_cell(" ".join(map(str, s))) for s in scored), any(scored))
    reviewers = [p.page.reviewers for p in papers]
    known = [each for each in reviewers if each is not None]
    column("Reviewers", True, (number_cell(None if r is None else len(r)) for r in reviewers), bool(known))
    column("Missing", True, (number_cell(None if r is None else sum(each.done is False for each in r))
                             for r in reviewers), any(each.done is not None for r in known for each in r))
    bids = [p.page.bids for p in papers]
    column("Bids", True, (number_cell(None if b is None else len(b)) for b in bids), any(b is not None for b in bids))
    column("Sum of bids", True, (number_cell(None if b is None else sum(each.bid for each in b)) for b in bids),
           any(b is not None for b in bids))
    column("Your bid", True, (number_cell(p.page.bid) for p in papers), any(p.page.bid for p in papers))
    column("Comments", True, (number_cell(None if p.comments is None else len(p.comments)) for p in papers),
           any(p.comments is not None for p in papers))
    column("Tags", False, (text_cell(" ".join(p.page.tags or ())) for p in papers), any(p.page.tags for p in papers))
    return Table("papers", "Papers", tuple(columns), tuple(map(tuple, lines)))


def members_table(export: Export) -> Table | None:
    """A line for each member, where the caller is shown how many papers each reviews."""
    if export.reports.load is None:
        return None
    roles = {each.name: each.role.value for each in export.accounts}
    bids: dict[str, list[int]] = {}
    for paper in export.papers:
        for each in paper.page.bids or ():
            bids.setdefault(each.user, []).append(each.bid)
    columns = (("Member", False), ("Role", False), ("Primary", True), ("Secondary", True), ("Other", True),
               ("Assigned", True), ("Done", True), ("Missing", True), ("Bids", True), ("Mean bid", True))
    rows = []
    for line in export.reports.load:
        given = bids.get(line.name, [])
        missing = line.assigned - line.done
        counts = (line.primary, line.secondary, line.pc, line.assigned, line.done, missing, len(given))
        rows.append((text_cell(line.name), text_cell(roles.get(line.name)), *map(number_cell, counts),
                     number_cell(statistics.fmean(given) if given else None, 2)))
    return Table("members", "Members", columns, tuple(rows))


def reviews_table(export: Export) -> Table | None:
    """A line for each form that the caller reads."""
    if not any(paper.reviews for paper in export.papers):
        return None
    columns = (("Paper", True), ("Title", False), ("Label", False), ("By", False), ("Version", True), ("Score", True),
               ("Confidence", True), ("Bytes to authors", True), ("Bytes to committee", True))
    rows = tuple(
        (number_cell(paper.page.paper), text_cell(paper.page.title), text_cell(each.label), text_cell(each.user),
         number_cell(each.version), number_cell(each.score), number_cell(each.confidence),
         number_cell(len(each.to_authors.encode())),
         number_cell(None if each.to_pc is None else len(each.to_pc.encode())))
        for paper in export.papers for each in paper.reviews or ())
    return Table("reviews", "Reviews", columns, rows)


def _counted(name: str, caption: str, axis: str, values: Sequence[int], places: range, what: str) -> Plot:
    counts = Counter(values)
    bars = tuple(Bar(str(place), (counts[place],), f"{axis} {place}: {counts[place]} {what}") for place in places)
    return Plot(name, "columns", caption, axis, bars=bars)


def score_plots(papers: Sequence[Paper]) -> list[Plot]:
    """How often each score was given, and the scores of each paper, the best mean first."""
    scored = [(paper, scores_of(paper)) for paper in papers]
    scored = [(paper, scores) for paper, scores in scored if scores]
    if not scored:
        return []
    ranges = [Range(paper.page.paper, min(scores), max(scores), statistics.fmean(scores),
                    f"paper {paper.page.paper}: mean {statistics.fmean(scores):.2f}, scores {scores}")
              for paper, scores in scored]
    ranges.sort(key=lambda each: (-each.mean, each.paper))
    every = [score for _, scores in scored for score in scores]
    return [
        _counted("scores", "How often each score was given", "score", every, SCORES, "reviews"),
        Plot("papers-by-score", "ranges", "Scores of each paper: least, mean and greatest, the best mean first",
             "score", ranges=tuple(ranges)),
    ]


def bid_plots(export: Export) -> list[Plot]:
    """How often each bid was given, by the committee where the caller is shown that, else by the caller."""
    bids = [each.bid for paper in export.papers for each in paper.page.bids or ()]
    if bids:
        return [_counted("bids", "How often each bid was given", "bid", bids, BIDS, "bids")]
    own = [paper.page.bid for paper in export.papers if paper.page.bid]
    return [_counted("bids", "How often you gave each bid", "bid", own, BIDS, "bids")] if own else []


def load_plots(export: Export) -> list[Plot]:
    """How many reviews each member has written and has still to write, where the caller is shown that."""
    if not export.reports.load:
        return []
    bars = tuple(Bar(line.name, (line.done, line.assigned - line.done),
                     f"{line.name}: {line.done} of {line.assigned} reviews done") for line in export.reports.load)
    return [Plot("load", "rows", "Reviews of each member", "reviews", bars=bars, parts=("done", "missing"))]


def _figures(export: Export) -> tuple[tuple[str, str], ...]:
    """The numbers at the top of the page, those that are known."""
    pages = [paper.page for paper in export.papers]
    found = [("papers", str(export.conference.papers))]
    if any(page.withdrawn is not None for page in pages):
        found.append(("withdrawn", str(sum(page.withdrawn is True for page in pages))))
    done = [each.done for page in pages for each in page.reviewers or () if each.done is not None]
    if done:
        found.append(("reviews done", f"{sum(done)} of {len(done)}"))
    decided = [page.decision for page in pages if page.decision is not None and not page.withdrawn]
    if decided:
        found += [(f"{which.value}ed", str(decided.count(which))) for which in (Decision.ACCEPT, Decision.REJECT)]
        found.append(("undecided", str(decided.count(Decision.NONE))))
    found.append(("members", str(sum(each.role is not Role.ACCOUNT for each in export.accounts))))
    return tuple(found)


def page_of(export: Export) -> Page:
    """What the overview of an export shows."""
    # The wide one in a line of its own, so that the narrow ones stand beside one another.
    plots = sorted([*score_plots(export.papers), *bid_plots(export), *load_plots(export)],
                   key=lambda plot: ("columns", "ranges", "rows").index(plot.kind))
    tables = [papers_table(export), members_table(export), reviews_table(export)]
    here = {plot.name for plot in plots}
    missing = tuple(what for what in ("scores", "bids", "load") if what not in here)
    about = (
        ("shown to", f"{export.me.name} ({export.me.role.value})"),
        ("phase", export.conference.phase.value),
        ("mode", export.conference.mode.value),
        ("read", f"{export.begun:%Y-%m-%d %H:%M:%S} to {export.ended:%H:%M:%S} UTC"),
    )
    return Page("Conference overview", about, _figures(export), tuple(plots),
                tuple(each for each in tables if each is not None), missing)


def _digest(text: str) -> str:
    """A text's source expression in a Content-Security-Policy (CSP Level 3, section 2.3.1)."""
    return f"'sha256-{base64.b64encode(hashlib.sha256(text.encode()).digest()).decode()}'"


def render(export: Export) -> str:
    """The overview's HTML."""
    loader = jinja2.PackageLoader("confd_client", "templates")
    environment = jinja2.Environment(loader=loader, autoescape=True, undefined=jinja2.StrictUndefined,
                                     trim_blocks=True, lstrip_blocks=True, keep_trailing_newline=True)
    script, _, _ = loader.get_source(environment, "overview.js")
    style, _, _ = loader.get_source(environment, "overview.css")
    template = environment.get_template("overview.html")
    return template.render(page=page_of(export), script=script, style=style,
                           policy=f"default-src 'none'; script-src {_digest(script)}; style-src {_digest(style)}")
