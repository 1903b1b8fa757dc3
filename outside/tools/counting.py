"""Loads of a table that no power of ten makes whole within the limits: how they are counted instead."""
from fractions import Fraction
from functools import reduce
from math import ceil, floor, gcd

from tools.layouts import MOST_CAPACITY
from tools.loads import DIGITS
from tools.noting import ROUNDED, Note
from tools.tool import Cell
from tools.units import at_most, decimal


class Counted:
    """Demands, the depot's first, and a capacity, as whole numbers within the limits. A route fits exactly where it
    does in the table, or where that can't be, where it fits by demands that are rounded up to parts of the capacity;
    `lost` is by how much one of them counts more at most."""

    def __init__(self, loads, capacity):
        self.loads, self.whole, self.lost = loads, capacity, Fraction(0)
        self.visits = sum(not load for load in loads[1:])
        self.most = (MOST_CAPACITY - self.visits) // (self.visits + 1)
        self.capacity, self.counts = self.exact() or self.rounded() or (None, None)

    def exact(self):
        """By the greatest measure that is in all demands whole times; more than all of them needs no room."""
        found = [load for load in self.loads if load]
        measure = reduce(lambda one, other: Fraction(
            gcd(one.numerator * other.denominator, other.numerator * one.denominator),
            one.denominator * other.denominator), found, Fraction(0)) or 1
        capacity = floor(min(self.whole, sum(found)) / measure) if found else 1
        counts = [int(load / measure) for load in self.loads]
        return (capacity, counts) if 1 <= capacity and max(capacity, *counts) <= self.most else None

    def rounded(self):
        """By the finest parts of the capacity that the limits hold."""
        capacity = floor(self.most * self.whole / max(self.whole, *self.loads))
        if capacity < 1:
            return None
        counts = [ceil(load * capacity / self.whole) for load in self.loads]
        self.lost = max(count * self.whole / capacity - load for count, load in zip(counts, self.loads))
        return capacity, counts

    def digits(self):
        """How many digits behind the point loads and capacity have, or None where these are many."""
        return next((digits for digits in range(DIGITS + 1) if all(
            (load * 10 ** digits).denominator == 1 for load in [self.whole, *self.loads])), None)

    def refuses(self, fleet):
        """Whether so many vehicles hold all demands, and don't once these are rounded. Where none is rounded, each fits
        where it did."""
        return self.lost > 0 and sum(self.loads) <= fleet * self.whole and sum(self.counts) > fleet * self.capacity

    def words(self):
        """The demands in words, for a table of names."""
        return [decimal(load, self.digits()) for load in self.loads]

    def noted(self):
        if not self.lost:
            return Note("loads are counted in other units, so they fit exactly where they did", ROUNDED)
        return Note("loads are counted in parts of the capacity, %d of it: each load counts up to %s more" % (
            self.capacity, at_most(self.lost)), ROUNDED)


def counted(values, capacity):
    """Counts the demands of a table's rows otherwise; None where that can't be either."""
    found = Counted([row["demand"].value for _, row in values.rows], Fraction(capacity))
    if found.counts is None or found.digits() is None:
        return None
    for (_, row), count in zip(values.rows, found.counts):
        row["demand"] = Cell(row["demand"], Fraction(count))
    return found
