# SPDX-License-Identifier: Apache-2.0 OR MIT
"""`confd-client decide`: decides on papers from a file."""

from __future__ import annotations

from pathlib import Path

import click

from confd_client.answers import Decision
from confd_client.cli.app import App, Command, Partly, pass_app
from confd_client.cli.status import count_of
from confd_client.errors import Refusal
from confd_client.tables import read_table


@click.command(cls=Command)
@click.argument("file", type=click.Path(path_type=Path))
@pass_app
def command(app: App, file: Path) -> None:
    """Decides on papers from FILE, which has the columns paper and decision: accept or reject.

    Papers that have the decision already are left unchanged, so the file may be sent again. If one is refused, the
    others are still decided.

    \b
    Example:
      confd-client decide decisions.csv
    """
    wanted: dict[int, Decision] = {}
    for line in read_table(file, ("paper", "decision")):
        paper = line.whole("paper", 1, 9999)
        if paper in wanted:
            raise line.wrong(f"paper {paper} is there twice")
        wanted[paper] = Decision(line.one_of("decision", [Decision.ACCEPT, Decision.REJECT]))
    now = {line.paper: line.decision for line in app.client.decisions_report()}
    changes = [(paper, decision) for paper, decision in wanted.items() if now.get(paper) is not decision]
    decided: list[int] = []
    refused: list[dict[str, object]] = []
    for paper, decision in app.track(changes, "Deciding"):
        try:
            decided.append(app.client.decide(paper, decision))
        except Refusal as error:
            refused.append({"paper": paper, "error": error.name})
            app.note(f"paper {paper}: {error.name}: {error.meaning()}")
    unchanged = len(wanted) - len(changes)
    left = sorted(paper for paper, decision in now.items() if decision is Decision.NONE and paper not in decided)
    app.emit({"decided": decided, "unchanged": unchanged, "refused": refused, "undecided": left},
             f"{len(decided)} decided, {unchanged} left as they are, {count_of(len(left), 'paper')} undecided")
    if refused:
        raise Partly(f"{count_of(len(refused), 'decision')} refused")
