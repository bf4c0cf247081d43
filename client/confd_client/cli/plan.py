# SPDX-License-Identifier: Apache-2.0 OR MIT
"""`confd-client plan`: further assignments that meet the bids best."""

from __future__ import annotations

import re
from collections.abc import Sequence
from pathlib import Path
from typing import TYPE_CHECKING

import click

from confd_client.answers import Page, Role
from confd_client.bulks import HEADER, Row
from confd_client.cli.app import App, Command, pass_app
from confd_client.errors import PlanTooLarge
from confd_client.survey import clear_papers, pages_of
from confd_client.tables import write_table

if TYPE_CHECKING:
    from confd_client.planning import Wanted


def paper_numbers(text: str) -> list[int]:
    """The numbers of `1-20,25`, each once, in order. Raises ValueError for another form."""
    papers: set[int] = set()
    for part in text.split(","):
        found = re.fullmatch(r"\s*([1-9]\d{0,3})(?:\s*-\s*([1-9]\d{0,3}))?\s*", part)
        if found is None:
            raise ValueError(f"{part!r} is neither a number of a paper nor a range of them")
        papers |= set(range(int(found[1]), int(found[2] or found[1]) + 1))
    return sorted(papers)


def papers_chosen(_: click.Context, __: click.Parameter, text: str | None) -> list[int] | None:
    """The value of an option `--papers`; None where it isn't there."""
    try:
        return None if text is None else paper_numbers(text)
    except ValueError as error:
        raise click.BadParameter(str(error)) from error


@click.command(cls=Command)
@click.option("--per-paper", type=click.IntRange(1, 26), required=True, help="How many more members each paper gets.")
@click.option("--load", type=click.IntRange(1, 9999), required=True, help="How many papers a member gets at most.")
@click.option("--count-assigned", is_flag=True, help="Count among these the papers that a member reviews already.")
@click.option("--leave-out", metavar="NAME", multiple=True, help="A member who gets none; may be said again.")
@click.option("--papers", metavar="1-20,25", callback=papers_chosen, help="Only these papers.")
@click.option("--query", metavar="SEARCH", help="Only the papers that this search finds.")
@click.option("--own", is_flag=True, help="Don't ask the server for its plan.")
@click.option("--output", "-o", type=click.Path(path_type=Path), default=Path("-"), help="The file to write.")
@pass_app
def command(app: App, per_paper: int, load: int, count_assigned: bool, leave_out: Sequence[str],
            papers: list[int] | None, query: str | None, own: bool, output: Path) -> None:
    """Plans further assignments, so that the bids of the members assigned have the greatest sum.

    Nobody gets a paper that they review already or are in conflict with; papers with which you are in conflict, and
    withdrawn ones, are left out. The plan is the server's. It is made here if the server can't: past its size, or with
    any option except --per-paper, --load and --output. Both have the same sum.

    \b
    Examples:
      confd-client plan --per-paper 3 --load 10 -o plan.csv
      confd-client plan --per-paper 1 --load 12 --count-assigned --query '#hot' --leave-out alice > more.csv
    """
    from confd_client.planning import Wanted

    wanted = Wanted(per_paper, load, count_assigned)
    rows, told = None, "the server"
    total = None
    if not (own or count_assigned or leave_out or papers is not None or query is not None or load > 512):
        try:
            rows = list(app.client.plan(per_paper, load))
        except PlanTooLarge:
            app.note("The server doesn't plan as much at once: planning here")
    if rows is None:
        rows, total = _own(app, wanted, leave_out, _subset(app, papers, query))
        told = "this program"
    if app.as_json:
        app.emit({"by": told, "sum": total, "rows": [_told(row) for row in rows]})
    if not app.as_json or str(output) != "-":
        write_table(output, HEADER, [(row.paper, row.action, row.user, row.tag) for row in rows])
    app.note(f"{len(rows)} rows, by {told}" + (f"; the bids' sum is {total}" if total is not None else ""))


def _told(row: Row) -> dict[str, object]:
    return {"paper": int(row.paper), "action": row.action, "user": row.user}


def _subset(app: App, papers: list[int] | None, query: str | None) -> set[int] | None:
    """The papers that are asked for; None for all."""
    if query is None:
        return None if papers is None else set(papers)
    found = {paper.paper for paper in app.client.search(query).papers or ()}
    return found if papers is None else found & set(papers)


def _own(app: App, wanted: Wanted, leave_out: Sequence[str], subset: set[int] | None) -> tuple[list[Row], int]:
    """A plan that is made here."""
    from confd_client.planning import own_plan

    members = [account.name for account in app.client.accounts() if account.role != Role.ACCOUNT]
    strangers = [name for name in leave_out if name not in members]
    if strangers:
        raise click.BadParameter(f"not on the committee: {', '.join(strangers)}", param_hint="--leave-out")
    clear = clear_papers(app.client.papers_report())
    planned = [paper for paper in clear if subset is None or paper in subset]
    pages: dict[int, Page] = pages_of(app.client, clear if wanted.counts_assigned else planned, app.track)
    return own_plan(pages, planned, [name for name in members if name not in leave_out], wanted)
