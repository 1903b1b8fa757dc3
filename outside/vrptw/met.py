"""The plans that a run meets, by the file that it writes each to at once."""
from __future__ import annotations

import re
from typing import Iterator

from .answers import Answer
from .plans import ROUTE
from .running import Memory

# A plan that stands there whole; what is behind the last one is still being written, or was when the run ended.
MET = re.compile(rb"(?:Route #[0-9]+: [0-9 ]+\n)+Cost ([0-9]+)\.([0-9])\n")


def routes_in(plan: bytes) -> list[list[int]]:
    """The customers of each route of a plan's text."""
    return [[int(word) for word in found.split()] for found in ROUTE.findall(plan)]


def plans_in(text: bytes) -> Iterator[tuple[int, bytes]]:
    """The cost in tenths and the text of each plan that a file of plans has whole, in their order."""
    for found in MET.finditer(text):
        yield int(found[1] + found[2]), found[0]


class Met:
    """A file in memory for the plans of a run."""

    def __init__(self, memory: Memory) -> None:
        self.memory, self.path, self.count = memory, memory.put(b""), 0

    def next_ones(self) -> Iterator[Answer]:
        """The plans that weren't asked for yet, with a bound of 0 and no certificate."""
        told, self.count = self.count, 0
        for cost, plan in plans_in(self.memory.held(self.path)):
            self.count += 1
            if self.count > told:
                yield Answer("GAP", routes_in(plan), cost, 0, plan)
