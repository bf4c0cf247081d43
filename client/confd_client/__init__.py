# SPDX-License-Identifier: Apache-2.0 OR MIT
"""A client for confd, the conference review server: a library, and the command `confd-client`.

    from confd_client import Client, Credentials

    with Client("http://127.0.0.1:8080", Credentials("alice", secret)) as client:
        paper = client.submit("Proofs", "We prove.", ["bob"])
        client.upload(paper, content)

It shows its caller what the server answers that caller, and nothing more; nothing of it is proved.
"""

from confd_client.answers import (
    AcceptedPaper, Account, BidOf, Comment, Conference, Deadline, Decision, DecisionLine, Found, FoundPaper, Head, Kind,
    LoadLine, Mark, Me, Membership, Mode, Page, PaperLine, Phase, Review, Reviewer, Role, ScoreLine, as_json)
from confd_client.bulks import Row
from confd_client.client import Client
from confd_client.credentials import Credentials, read_secret_file
from confd_client.errors import BadFile, ClientError, Refusal, Unanswered, Unexpected
from confd_client.transport import FOR_EVER

__all__ = [
    "AcceptedPaper", "Account", "BadFile", "BidOf", "Client", "ClientError", "Comment", "Conference", "Credentials",
    "Deadline", "Decision", "DecisionLine", "FOR_EVER", "Found", "FoundPaper", "Head", "Kind", "LoadLine", "Mark", "Me",
    "Membership", "Mode", "Page", "PaperLine", "Phase", "Refusal", "Review", "Reviewer", "Role", "Row", "ScoreLine",
    "Unanswered", "Unexpected", "as_json", "read_secret_file",
]
__version__ = "0.1.0"
