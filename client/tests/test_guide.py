# SPDX-License-Identifier: Apache-2.0 OR MIT
"""docs/CLIENT.md: each command prints what the page says."""

from __future__ import annotations

from pathlib import Path

from tests.conftest import Server
from tests.guide import ACCOUNTS, MEANWHILE, MEMBERS, PAGE, PAPERS, Conference, agrees, run, steps


def test_the_guide_prints_what_it_says(server: Server, tmp_path: Path) -> None:
    page = PAGE.read_text(encoding="utf-8")
    assert {step.command for step in steps(page) if not step.user} == set(MEANWHILE)
    wrong = [f"{PAGE}:{step.line}: {step.user}$ {step.command}\n{told}"
             for step, told in run(Conference(server, tmp_path), page) if not agrees(step.expected, told)]
    assert not wrong, "\n".join(wrong)
    accounts = server.client("someone").accounts()
    assert len(accounts) == ACCOUNTS + 1 and sum(each.role != "account" for each in accounts) == MEMBERS
    assert server.client("someone").phase().papers == PAPERS
