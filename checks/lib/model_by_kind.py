# SPDX-License-Identifier: Apache-2.0 OR MIT
"""The small model of `model.py` with its entries by kind, for histories of thousands."""

import collections

from .model import Conference


class ByKind(Conference):
    """The model, with the entries of each kind together, so that ten thousand commands are asked in time. No bulk is
    refused here."""

    def __init__(self):
        super().__init__()
        self.found, self.looked_at = collections.defaultdict(list), 0

    def entries_of(self, kind):
        for maker, of, fields in self.history[self.looked_at :]:
            self.found[of].append((maker, fields))
        self.looked_at = len(self.history)
        return self.found[kind]
