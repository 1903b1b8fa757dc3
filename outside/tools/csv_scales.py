"""The scales that make the numbers of a table whole, and what is rounded where none does."""
from fractions import Fraction
from math import ceil, floor

from tools.counting import counted
from tools.csv_values import PLACE, TIMES
from tools.layouts import HINT, MOST_CAPACITY, MOST_COORDINATE, MOST_TIME
from tools.noting import ROUNDED, Note
from tools.tool import Cell, quoted
from tools.units import at_most

# Powers of ten that are tried as scales of coordinates and times, and of demands.
POWERS = [10 ** power for power in range(5)]


def is_whole(cells, scale):
    return all((cell.value * scale).denominator == 1 for cell in cells)


def fits(values, scale):
    """Whether the limits hold all numbers multiplied by the scale, coordinates below 0 moved."""
    for axis in PLACE:
        found = [cell.value for cell in values.cells([axis])]
        if (max(found) - min(0, *found)) * scale > MOST_COORDINATE:
            return False
    return max(cell.value for cell in values.cells(TIMES)) * scale <= MOST_TIME


def fitting(values, quantities):
    """Chooses the scales where none is given: the least power of ten by which all numbers are whole, else the finest
    that the limits hold. Answers what is noted."""
    whole = values.cells([*PLACE, *TIMES])
    notes = demands(values, quantities)
    if quantities.is_scaled:
        return notes
    held = [scale for scale in POWERS if fits(values, scale)]
    exact = [scale for scale in POWERS if is_whole(whole, scale)]
    if held and exact and exact[0] in held:
        quantities.scale = exact[0]
        return notes + ([quantities.noted_scale("the least power of ten that makes all whole")]
                        if exact[0] > 1 else [])
    if held:
        quantities.scale = held[-1] if not quantities.is_projected else min(held[-1], 100)
        if quantities.scale > 1:
            notes.append(quantities.noted_scale(None if quantities.is_projected else "as finely as the limits allow"))
        notes += rounded(values, quantities.scale, "minutes" if quantities.is_projected else "units")
    return notes


def nearest(value):
    return floor(value + Fraction(1, 2))


# By how many times as much as a coordinate a way between two places is off at most: twice the root of 2, and more by
# less than a thousandth.
APART = Fraction(2829, 1000)
# The tenth of a unit to which a way is cut.
CUT = Fraction(1, 10)
# How what isn't whole is rounded: no service begins before its window or after it, or is cut short.
WAYS = {"x": nearest, "y": nearest, "ready": ceil, "due": floor, "service": ceil}


def rounded(values, scale, measure):
    """Rounds what isn't whole; a window in which nothing is whole then is a fault. Answers what is noted."""
    count, most, places = 0, Fraction(0), Fraction(0)
    for line, row in values.rows:
        for column, way in WAYS.items():
            value = row[column].value * scale
            if value.denominator > 1:
                off = abs(way(value) - value)
                count, most, places = count + 1, max(most, off), max(places, off if column in PLACE else 0)
                row[column] = Cell(row[column], Fraction(way(value), scale))
        if row["due"].value < row["ready"].value:
            values.faults.add(line, None, "a window from %s to %s, in which no moment times %d is whole" % (
                quoted(row["ready"]), quoted(row["due"]), scale), "one in which one is" + HINT)
    values.quantities.off = Fraction(ceil(1000 * (APART * places + CUT)), 1000)
    return [Note("%d numbers are rounded, by at most %s %s: places to the nearest, windows inwards, services up. What "
                 "is proved is proved of the rounded numbers" % (count, at_most(most / scale), measure), ROUNDED)]


def demands(values, quantities):
    """Chooses the power of ten that makes demands whole, as far as the capacity has room. Answers what is noted; a
    demand that isn't whole then, or too high, is a fault."""
    cells, given = values.cells(["demand"]), quantities.capacity_given
    exact = [scale for scale in POWERS if is_whole(cells, scale)]
    if given is None or exact and holds(values, given, exact[0]):
        quantities.demand_scale = exact[0] if exact and given is not None else 1
    else:
        quantities.counted = counted(values, given)
    judge_demands(values, quantities.demand_scale)
    if quantities.counted is not None:
        # Ways are no less exact than without.
        quantities.off = CUT if quantities.off is None and quantities.counted.lost else quantities.off
        return [quantities.counted.noted()]
    return [Note("demands and the capacity are multiplied by %d, so that all are whole" % exact[0], ROUNDED)
            ] if quantities.demand_scale > 1 else []


def holds(values, capacity, scale):
    """Whether the limits hold capacity and demands multiplied by a scale, with room for stops without demand."""
    found = [row["demand"].value for _, row in values.rows]
    visits = found[1:].count(0)
    most = max(capacity * (visits + 1) * scale + visits, max(found) * (visits + 1) * scale)
    return (capacity * scale) % 1 == 0 and most <= MOST_CAPACITY


def judge_demands(values, scale):
    for line, row in values.rows:
        cell = row["demand"]
        if (cell.value * scale).denominator > 1:
            values.faults.add(line, "demand", quoted(cell), "a demand, a whole number")
        elif cell.value * scale > MOST_CAPACITY:
            values.faults.add(line, "demand", quoted(cell), "a demand of 0 to %d" % (MOST_CAPACITY // scale))
