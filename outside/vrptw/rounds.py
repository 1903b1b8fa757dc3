"""Rounds of a work: how many turns each has, with how many neighbours, and which tree it goes on from."""
from __future__ import annotations

import re
from math import hypot
from typing import Optional, Sequence

from .instances import CAPACITY, rows_of

NEIGHBOURS_LINE = re.compile(rb"^NEIGHBOURS ([0-9]{1,2})$", re.M)
# How much more turns each pair of rounds has, what part of the time left a round may be thought to take, and the most
# turns that the program makes.
GROWTH, PART, MOST_TURNS = 4, 0.85, 1_000_000
# How many sets of customers may have prices in a tree, unless a caller says otherwise.
SETS = 200
# The counts of neighbours that rounds take in turn, and from how many customers a day on the larger one comes first.
NEIGHBOURS, LONG_DAY = (8, 12), 20
# Of so many customers at most the ways to the nearest are measured.
MEASURED = 200


class Schedule:
    """How many turns each round has, so that the last one ends in time. Rounds come in pairs of equal turns, each with
    its count of neighbours; the one that fills the time has that whose bound was higher."""

    def __init__(self, neighbours: Sequence[Optional[int]]) -> None:
        self.neighbours, self.turns, self.place = list(neighbours), 1, 0
        self.seconds: dict[Optional[int], float] = {}
        self.bounds: dict[Optional[int], int] = {}
        self.longest = 0

    def next(self, left: float) -> Optional[tuple[int, Optional[int]]]:
        """Turns and neighbours of the next round in the time that is left; None where none would end in time."""
        if not self.seconds:
            return 1, self.neighbours[0]
        chosen, turns = self.neighbours[self.place], self.turns
        if 2 * turns * self.per_turn(chosen) > PART * left:
            chosen = max(self.neighbours, key=lambda one: self.bounds.get(one, -1))
            turns = min(int(PART * left / self.per_turn(chosen)), MOST_TURNS)
            return (turns, chosen) if turns >= max(1, self.longest // GROWTH) else None
        return min(turns, MOST_TURNS), chosen

    def per_turn(self, neighbours: Optional[int]) -> float:
        """The seconds of a turn, by the last round with so many neighbours, else by any."""
        return self.seconds.get(neighbours) or 1.5 * max(self.seconds.values())

    def note(self, turns: int, neighbours: Optional[int], seconds: float, bound: int) -> None:
        """Takes in what a round took and came to; the first one has no pair."""
        is_first = not self.seconds
        self.seconds[neighbours] = max(seconds, 0.001) / turns
        self.bounds[neighbours] = bound
        self.longest = max(self.longest, turns)
        self.place = 0 if is_first else (self.place + 1) % len(self.neighbours)
        if self.place == 0:
            self.turns = min(GROWTH * self.turns, MOST_TURNS)

    def drop(self, neighbours: Optional[int]) -> bool:
        """Leaves out a count of neighbours by which the program ended in a fault; answers whether one is left."""
        self.neighbours = [one for one in self.neighbours if one != neighbours]
        self.place = 0
        return bool(self.neighbours)


def held_in_a_day(instance: bytes) -> float:
    """How many customers a vehicle holds in a day: as many as its load has room for, or as there is time for service
    and the way to the nearest one, whatever is less, in the mean."""
    words = [[int(word) for word in row] for row in rows_of(instance)]
    capacity, (depot, *customers) = int(instance.split()[CAPACITY]), words
    some = customers[::-(-len(customers) // MEASURED)]
    ways = [min(hypot(row[1] - other[1], row[2] - other[2]) for other in words if other is not row) for row in some]
    demand = sum(row[3] for row in customers) / len(customers)
    time_each = sum(row[6] for row in customers) / len(customers) + sum(ways) / len(ways)
    return min(capacity / max(demand, 1e-9), (depot[5] - depot[4]) / max(time_each, 1e-9))


def has_long_days(instance: bytes) -> bool:
    """Whether a vehicle holds many customers in a day; what is wrong with a text the program tells."""
    try:
        return held_in_a_day(instance) >= LONG_DAY
    except (ValueError, IndexError, ZeroDivisionError, OverflowError):
        return False


def neighbours_for(instance: bytes) -> tuple[int, ...]:
    """The counts of neighbours that rounds at an instance take in turn: where days are long, the larger one first."""
    return NEIGHBOURS[::-1] if has_long_days(instance) else NEIGHBOURS


def serves(certificate: bytes, instance: bytes) -> bool:
    """Whether the next round goes on from a tree: one that was split, since where days aren't long a root is raised
    sooner from nothing than from its prices without the routes met."""
    return b"\nTREE\nS " in certificate or has_long_days(instance)


def neighbours_of(certificate: bytes) -> Optional[int]:
    """The number of neighbours of a certificate; None where its text has none."""
    found = NEIGHBOURS_LINE.search(certificate)
    return None if found is None else int(found[1])

