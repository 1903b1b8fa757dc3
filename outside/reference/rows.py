"""Rows of three customers, and how often they charge a route: of any three customers at most one route of a plan serves
two, so a row charges a plan at most once, and a leaf's value is less by its price."""
from collections import namedtuple


class PricedRow(namedtuple("PricedRow", "number customers price")):
    """A row of three customers with its number in a list, and the price at a leaf for each time that it charges."""
    __slots__ = ()

    @property
    def worth(self):
        """What it brings to the value of a leaf, in grains."""
        return -self.price


def rows_in(priced):
    """Of what has a price at a leaf the rows."""
    return [one for one in priced if isinstance(one, PricedRow)]


def is_remembered(row, v, lists):
    """Whether a row is remembered at a customer: its neighbour list holds one of the three, as that of each of them
    does."""
    return not row.customers.isdisjoint(lists[v])


def bit_after(row, bit, v, lists):
    """A row's bit behind a stop: one of the three changes it, and where the row isn't remembered it is cleared."""
    if v in row.customers:
        return not bit
    return bit and is_remembered(row, v, lists)


def charges(row, route, lists):
    """How often a row charges a route: at each of the three that is met with the bit set, which isn't at first."""
    bit, times = False, 0
    for v in route:
        times += bit and v in row.customers
        bit = bit_after(row, bit, v, lists)
    return times
