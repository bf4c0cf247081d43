# SPDX-License-Identifier: Apache-2.0 OR MIT
"""`confd-client letters`: letters to all authors, for a mailer."""

from __future__ import annotations

import time
from collections.abc import Iterable, Mapping
from pathlib import Path

import click

from confd_client import files
from confd_client.answers import Decision, Phase, Role
from confd_client.cli.app import App, Command, Partly, pass_app
from confd_client.cli.plan import papers_chosen
from confd_client.cli.status import count_of, numbers
from confd_client.cli.texts import FILE, read_text
from confd_client.client import Client
from confd_client.errors import BadFile, NotChair, WrongPhase
from confd_client.letters import (
    NOWHERE, Letter, Mail, compose, is_address, read_addresses, without_address, write_mbox)

OPENING_BYTES = 20_000
"""The most bytes of a text in front of letters."""

LEFT_OUT = {
    "conflict": "You are in conflict with them: another chair has to write to their authors",
    "undecided": "They have no decision",
    "withdrawn": "They are withdrawn",
}
"""Why a paper gets no letter."""


@click.command(cls=Command)
@click.argument("folder", metavar="OUT", type=click.Path(path_type=Path))
@click.option("--addresses", type=FILE, help="A file of comma-separated values with the columns name and email. "
              f"Without it each author's address is NAME@{NOWHERE}, which no mailer delivers.")
@click.option("--from", "sender", metavar="ADDRESS", help="The sender; needed with --addresses.")
@click.option("--papers", metavar="1-20,25", callback=papers_chosen, help="Only letters about these papers.")
@click.option("--conference", default="confd", show_default=True, help="What the subjects begin with.")
@click.option("--accepted", type=FILE, help="A text to put in front of letters about accepted papers.")
@click.option("--rejected", type=FILE, help="A text to put in front of letters about rejected papers.")
@pass_app
def command(app: App, folder: Path, addresses: Path | None, sender: str | None, papers: list[int] | None,
            conference: str, accepted: Path | None, rejected: Path | None) -> None:
    """Writes the letters to the authors into the new folder OUT, from the notification on. For chairs.

    Of each paper there is a file paper-N.txt, and letters.mbox has all of them as messages, for a mailer; nothing is
    sent. A letter has what the server itself tells the authors: title, decision, and the last version of each review
    without what is for the committee and without the reviewers' names. Papers with which you are in conflict are named
    and left out, and so are withdrawn and undecided ones.

    \b
    Examples:
      confd-client letters letters --conference 'Conf 2027'
      confd-client letters letters --addresses addresses.csv --from chairs@example.org --accepted accepted.txt
      confd-client letters more --papers 7,31
    """
    if addresses is not None and sender is None:
        raise click.UsageError("--addresses needs --from")
    if sender is not None and not is_address(sender):
        raise click.UsageError(f"--from: {sender!r} is no address")
    openings = {decision: read_text(path, OPENING_BYTES)
                for decision, path in ((Decision.ACCEPT, accepted), (Decision.REJECT, rejected)) if path is not None}
    known = None if addresses is None else read_addresses(addresses)
    client = app.client
    me, now = client.me(), client.phase()
    if me.role is not Role.CHAIR:
        raise NotChair(403, what="letters")
    if now.phase.place < Phase.NOTIFICATION.place:
        raise WrongPhase(409, what="letters")
    with files.new_folder(folder) as room:
        letters, left = composed(app, client, papers or range(1, now.papers + 1))
        if known is not None and addresses is not None:
            check_addresses(addresses, letters, known)
        mail = Mail(sender or f"{me.name}@{NOWHERE}", conference, openings, known)
        for letter in letters:
            files.create(room / f"paper-{letter.paper}.txt", letter.text.encode())
        write_mbox(room / "letters.mbox", letters, mail, time.time())
    report(app, folder, letters, left)


def composed(app: App, client: Client, papers: Iterable[int]) -> tuple[list[Letter], dict[str, list[int]]]:
    """The letters about these papers, and those papers that get none, by the reason."""
    letters: list[Letter] = []
    left: dict[str, list[int]] = {reason: [] for reason in LEFT_OUT}
    for number in app.track(papers, "Letters"):
        page = client.page(number)
        if page.conflict:
            left["conflict"].append(number)
        elif page.withdrawn:
            left["withdrawn"].append(number)
        elif page.decision is Decision.NONE:
            left["undecided"].append(number)
        else:
            letters.append(compose(page, client.reviews(number)))
    return letters, left


def check_addresses(path: Path, letters: list[Letter], known: Mapping[str, str]) -> None:
    """Raises `BadFile` where the addresses lack an author of a letter."""
    missing = without_address(letters, known)
    if missing:
        raise BadFile(path, f"has no address of {', '.join(missing)}")


def report(app: App, folder: Path, letters: list[Letter], left: Mapping[str, list[int]]) -> None:
    """Says what was written and what wasn't. Raises `Partly` where authors who want a letter have none."""
    for reason, papers in left.items():
        if papers:
            app.note(f"No letter: {numbers(papers)}. {LEFT_OUT[reason]}")
    accepted = sum(each.decision is Decision.ACCEPT for each in letters)
    told = {"folder": str(folder), "letters": [each.paper for each in letters], "left": left}
    rejected = len(letters) - accepted
    app.emit(told, f"{count_of(len(letters), 'letter')} in {folder}: {accepted} accept, {rejected} reject")
    missing = len(left["conflict"]) + len(left["undecided"])
    if missing:
        raise Partly(f"{count_of(missing, 'paper')} without a letter yet")
