# SPDX-License-Identifier: Apache-2.0 OR MIT
"""`confd-client bids`: a member's bids, as a file."""

from __future__ import annotations

import csv
import sys
from dataclasses import dataclass
from pathlib import Path

import click

from confd_client.cli.app import App, Command, Partly, pass_app
from confd_client.cli.status import count_of
from confd_client.cli.texts import FILE
from confd_client.client import Client
from confd_client.errors import Conflict, NoPaper, Refusal, Withdrawn
from confd_client.export import NOT_SHOWN
from confd_client.forms import LAST_PAPER
from confd_client.overview import BIDS
from confd_client.tables import read_table


@dataclass(frozen=True)
class Bid:
    """A member's bid for a paper, and the line of the file where it stands, 0 where there is none."""

    paper: int
    bid: int
    title: str | None = None
    line: int = 0


@dataclass(frozen=True)
class Refused:
    """A bid that the server refused, by the error's name."""

    line: int
    paper: int
    error: str


@click.command(cls=Command)
@click.argument("path", metavar="[FILE.csv]", required=False, type=FILE)
@click.option("--mine", is_flag=True, help="Print the papers for which you may bid, with your bids, as such a file.")
@pass_app
def command(app: App, path: Path | None, mine: bool) -> None:
    """Gives the bids that FILE.csv has, or prints yours.

    The first line of the file names its columns, among them paper and bid; a bid is a whole number from -20 to 20. The
    whole file is checked before anything is sent, and only bids that differ from yours are. So fill in what --mine
    prints, and send it as often as you like.

    \b
    Examples:
      confd-client bids --mine > bids.csv
      confd-client bids bids.csv
      confd-client --json bids --mine
    """
    if mine == (path is not None):
        raise click.UsageError("name a file, or say --mine")
    if path is None:
        show(app)
    else:
        give(app, path)


def show(app: App) -> None:
    """Prints the caller's bid for each paper for which they may bid."""
    found = []
    for number in app.track(range(1, app.client.phase().papers + 1), "Bids"):
        page = app.client.page(number)
        if page.bid is not None and not page.withdrawn:
            found.append(Bid(number, page.bid, page.title))
    if app.as_json:
        app.emit([{"paper": each.paper, "bid": each.bid, "title": each.title} for each in found])
        return
    written = csv.writer(sys.stdout, lineterminator="\n")
    written.writerow(("paper", "bid", "title"))
    written.writerows((each.paper, each.bid, app.printable(each.title or "")) for each in found)


def read_bids(path: Path) -> list[Bid]:
    """The bids of a file. Raises `BadFile` for the first line that has none, or a paper for the second time."""
    found: dict[int, Bid] = {}
    for line in read_table(path, ["paper", "bid"]):
        bid = Bid(line.whole("paper", 1, LAST_PAPER), line.whole("bid", BIDS[0], BIDS[-1]), line=line.number)
        before = found.setdefault(bid.paper, bid)
        if before is not bid:
            raise line.wrong(f"paper {bid.paper} has a bid in line {before.line} already")
    return list(found.values())


def give(app: App, path: Path) -> None:
    """Gives the bids of a file that differ from those of the caller."""
    given: list[Bid] = []
    same: list[Bid] = []
    refused: list[Refused] = []
    for bid in app.track(read_bids(path), "Bids"):
        try:
            (given if changed(app.client, bid) else same).append(bid)
        except (Conflict, NoPaper, Withdrawn) as refusal:
            refused.append(Refused(bid.line, bid.paper, refusal.name))
            app.note(f"{path}, line {bid.line}: paper {bid.paper}: {refusal.name}: {refusal.meaning()}")
    told = {"given": [bid.paper for bid in given], "same": [bid.paper for bid in same], "refused": refused}
    app.emit(told, f"{count_of(len(given), 'bid')} given, {len(same)} as they were, {len(refused)} refused")
    if refused:
        raise Partly(f"{count_of(len(refused), 'bid')} refused")


def changed(client: Client, bid: Bid) -> bool:
    """Gives a bid where the caller's is another, and tells whether it was. Raises what the server refuses."""
    try:
        if client.page(bid.paper).bid == bid.bid:
            return False
    except Refusal as refusal:
        if not isinstance(refusal, NOT_SHOWN):
            raise
    client.bid(bid.paper, bid.bid)
    return True
