# SPDX-License-Identifier: Apache-2.0 OR MIT
"""`confd-client review`: sends review forms."""

from __future__ import annotations

from collections.abc import Sequence
from dataclasses import dataclass
from pathlib import Path

import click

from confd_client.cli.app import App, Command, Partly, pass_app
from confd_client.cli.form import own_review
from confd_client.cli.status import count_of
from confd_client.cli.texts import FILE, read_file
from confd_client.client import Client
from confd_client.errors import BadFile, Conflict, NoPaper, NotMember, NotReviewer, Withdrawn
from confd_client.export import asked
from confd_client.forms import FormError, ReviewForm, parse, tidied
from confd_client.transport import LARGEST_BODY


@dataclass(frozen=True)
class Sent:
    """What became of one form: the version that it is now, none where it was the last one already; or the error."""

    path: str
    paper: int
    version: int | None = None
    error: str | None = None


@click.command(cls=Command)
@click.argument("paths", metavar="FILE...", nargs=-1, required=True, type=FILE)
@click.option("--check", "only_check", is_flag=True, help="Only say what is wrong with the forms; send nothing.")
@pass_app
def command(app: App, paths: tuple[Path, ...], only_check: bool) -> None:
    """Sends the reviews that the forms FILE.. hold.

    All of them are checked before the first is sent, and whatever is wrong is said by its line. A form that says what
    your last review of the paper says isn't sent again. `confd-client form` makes forms.

    \b
    Examples:
      confd-client review --check forms/*.txt
      confd-client review forms/review-7.txt
    """
    found = read_forms(paths)
    for path, form in found:
        if not form.to_authors:
            app.note(f"{path}: the text to the authors of paper {form.paper} is empty")
    if only_check:
        told = [{"path": str(path), "paper": form.paper} for path, form in found]
        app.emit(told, f"{count_of(len(found), 'form')} can be sent")
        return
    done = [send(app.client, path, form) for path, form in app.track(found, "Reviews")]
    for each in done:
        what = each.error or (f"version {each.version}" if each.version else "as it was, and not sent")
        app.note(f"{each.path}: paper {each.paper}: {what}")
    sent = sum(each.version is not None for each in done)
    refused = sum(each.error is not None for each in done)
    app.emit(done, f"{count_of(sent, 'review')} sent")
    if refused:
        raise Partly(f"{count_of(refused, 'review')} refused")


def read_forms(paths: Sequence[Path]) -> list[tuple[Path, ReviewForm]]:
    """The forms of all files. Raises `FormError` with what is wrong with the first bad one, and names the others, and
    `BadFile` where two are of one paper."""
    found: dict[int, tuple[Path, ReviewForm]] = {}
    wrong: list[FormError] = []
    for path in paths:
        try:
            form = parse(read_file(path, LARGEST_BODY), path)
        except FormError as error:
            wrong.append(error)
            continue
        if form.paper in found:
            raise BadFile(path, f"is of paper {form.paper}, as {found[form.paper][0]} is")
        found[form.paper] = (path, form)
    if wrong:
        raise wrong[0] if len(wrong) == 1 else FormErrors(wrong)
    return list(found.values())


class FormErrors(BadFile):
    """Several forms that can't be sent."""

    def __init__(self, errors: Sequence[FormError]) -> None:
        more = "\n".join(str(error) for error in errors[1:])
        super().__init__(errors[0].path, f"{errors[0].what}\n{more}", errors[0].line)
        self.errors = errors

    def details(self) -> dict[str, object]:
        """With each problem of each form."""
        return super().details() | {"problems": [each for error in self.errors for each in error.listed()]}


def send(client: Client, path: Path, form: ReviewForm) -> Sent:
    """Sends a form, unless the caller's last review says the same. Raises what isn't about this one paper."""
    try:
        if is_last(client, form):
            return Sent(str(path), form.paper)
        version = client.review(form.paper, form.score, form.confidence, form.to_authors, form.to_pc)
    except (Conflict, NoPaper, NotMember, NotReviewer, Withdrawn) as refusal:
        return Sent(str(path), form.paper, error=refusal.name)
    return Sent(str(path), form.paper, version)


def is_last(client: Client, form: ReviewForm) -> bool:
    """Whether the caller's last review of the paper says what the form says."""
    page = asked(lambda: client.page(form.paper), "page", {})
    last = None if page is None or page.label is None else own_review(client, page)
    return last is not None and form == ReviewForm(form.paper, last.score, last.confidence, tidied(last.to_authors),
                                                   tidied(last.to_pc or ""))
