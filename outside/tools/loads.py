"""Loads as the table has them, where an instance counts them otherwise than by a power of ten."""
import copy

from tools.tool import Refused, number, quoted
from tools.units import units_of

# The column of a table of names that has the demands of the table that came in.
DEMAND = "demand"
# So many digits behind the point loads may have.
DIGITS = 6


def as_there(instance, names):
    """An instance with demands and capacity of the table that came in, to be shown: where loads are counted otherwise,
    the table of names has them."""
    units = units_of(names)
    if units.capacity is None or DEMAND not in names.headings:
        return instance
    column, found = names.headings.index(DEMAND), copy.copy(instance)
    loads = [number(further[column]) for further in names.further]
    for i, load in enumerate(loads):
        if load is None or load < 0:
            raise Refused("the table of names: met %s in %s of %s, wanted a demand, a number" % (
                quoted(names.further[i][column]), quoted(DEMAND), names.called(i)))
    found.rows = [(*row[:2], int(load * units.demands) * units.visits or min(row[2], 1), *row[3:])
                  for row, load in zip(instance.rows, loads)]
    found.capacity = int(units.capacity * units.demands) * units.visits + units.visits - 1
    return found
