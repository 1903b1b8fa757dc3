"""Instances of other layouts as ours has them: what it can't hold is refused, with the line and the reason.

A problem is a name, a fleet, a capacity and rows of whole numbers: x, y, demand, ready, due, service. Row 0 is the
depot's. Each number of a row knows its line.
"""
import os
import re
from collections import namedtuple
from fractions import Fraction

from reference.instances import MOST_CUSTOMERS
from tools import unservable
from tools.names import Names
from tools.noting import OVER, ROUNDED, Note
from tools.tool import Found, Refused, bare, quoted
from tools.units import Units

# The limits of ours, and those of the numbers of places there and of the scale.
MOST_NAME, MOST_FLEET, MOST_CAPACITY = 32, 1000, 10_000
MOST_COORDINATE, MOST_DEMAND, MOST_TIME = 10_000, 10_000, 10 ** 6
MOST_NUMBER, MOST_SCALE = 10 ** 9, 10_000
FLEET, CAPACITY = ("a number of vehicles", MOST_FLEET), ("a capacity", MOST_CAPACITY)
# How much longer roads are than the straight line, where no option says it.
DETOUR = Fraction(13, 10)
HINT = " (--scale N multiplies coordinates and times)"

# Names are by number, from the depot's on: where the text has none, the numbers there; with them what more a table
# says, and the units of the numbers there.
Problem = namedtuple("Problem", "name fleet capacity rows names")
# What a layout says of an instance: the name may be None, and so may fleet, capacity and the places' names; rows by
# their numbers there; the units there, or None; whether a stop may be without demand; and what parts
# the fields of a table.
Read = namedtuple("Read", "name fleet capacity nodes depot notes names units has_visits separator",
                  defaults=(None, False, ","))


class Quantities:
    """The numbers of a text within the limits of ours, coordinates and times multiplied by the scale. A horizon is the
    day of a text without windows. Names are kept or not, and a table without any may be refused; renamed are its
    columns. Speed and detour make minutes of kilometres."""

    def __init__(self, text, given, keeps_names=False, needs_names=False):
        self.text, self.is_scaled, self.scale = text, given.scale is not None, given.scale or 1
        self.horizon, self.is_clock, self.capacity_given = given.horizon, False, given.capacity
        if given.horizon is not None:
            self.is_clock = given.horizon.is_clock
        self.keeps_names, self.needs_names, self.renamed = keeps_names, needs_names, given.columns
        self.as_numbers = given.times_as_numbers
        self.speed, self.detour, self.demand_scale = given.speed, given.detour or DETOUR, 1
        # By how much a way of rounded numbers is off at most, in units of the instance; None where none is rounded.
        self.is_projected, self.off = False, None
        # How loads are counted where no power of ten does.
        self.counted = None

    def noted_scale(self, why=None):
        """What is noted of a scale."""
        told = "coordinates and times are multiplied by %d%s: costs are %d times as high in the instance, and arcs are "
        return Note((told + "truncated at a tenth of the new unit") % (
            self.scale, ", " + why if why else "", self.scale), ROUNDED)

    def refuse_horizon(self, line):
        """A text with windows, which begin in this line, has no horizon by an option."""
        if self.horizon is not None:
            self.text.refuse(line, "windows, and --horizon", "one of both")

    def end_of_day(self, column):
        """What stands for a ready time or a due date that the text hasn't."""
        return str(self.horizon.last if column == "due" else self.horizon.first)

    def coordinate(self, line, word, axis):
        return self.text.whole(line, word, axis, -MOST_COORDINATE, MOST_COORDINATE, self.scale, HINT)

    def time(self, line, word, what):
        return self.text.whole(line, word, what, 0, MOST_TIME, self.scale, HINT)

    def demand(self, line, word):
        return self.text.whole(line, word, "a demand", 0, MOST_DEMAND, self.demand_scale)

    def row(self, cells):
        """A row of six words with their lines, in this order."""
        (x, y, demand, *times) = cells
        whats = ("a ready time", "a due date", "a service time")
        return (self.coordinate(*x, "x"), self.coordinate(*y, "y"), self.demand(*demand),
                *(self.time(*cell, what) for cell, what in zip(times, whats)))

    def node(self, line, word):
        return self.text.whole(line, word, "a number of a place", 0, MOST_NUMBER)

    def fleet(self, line, word):
        """The fleet, which an option may replace before its limit counts; and so the capacity."""
        return self.text.whole(line, word, FLEET[0], 0, MOST_NUMBER)

    def capacity(self, line, word):
        return self.text.whole(line, word, CAPACITY[0], 0, MOST_NUMBER)


def add(text, nodes, number, row):
    """Puts a row to its number, which has none yet."""
    if number in nodes:
        text.refuse(number.line, "number %d again" % number, "each number once")
    nodes[number] = row


def judge_count(text, lines):
    """Refuses more customers than ours has, by the lines of all."""
    if len(lines) > MOST_CUSTOMERS:
        text.refuse(sorted(lines)[MOST_CUSTOMERS], "customer %d" % (MOST_CUSTOMERS + 1),
                    "at most %d customers" % MOST_CUSTOMERS)


def in_order(text, read):
    """The depot's row and then the customers', in the order of their numbers; their names; and what is noted of it."""
    others = sorted(number for number in read.nodes if number != read.depot)
    if not others:
        text.at_end("a customer")
    judge_count(text, [number.line for number in others])
    rows = [read.nodes[read.depot]] + [read.nodes[number] for number in others]
    judge_rows(text, rows, read.has_visits)
    names = read.names or Names([str(number) for number in [read.depot] + others])
    if others == list(range(read.depot + 1, read.depot + 1 + len(others))):
        return rows, names, []
    return rows, names, [Note(
        "the depot's number %d becomes 0, and the other numbers, from %d to %d, become 1 to %d in their order"
        % (read.depot, others[0], others[-1], len(others)), OVER)]


def moved(text, rows):
    """The rows with coordinates of 0 and more: where some are below 0, all are moved, and that is noted."""
    shifts = [max(0, -min(row[axis] for row in rows)) for axis in (0, 1)]
    if not any(shifts):
        return rows, []
    found = []
    for row in rows:
        places = [Found(row[axis] + shifts[axis], row[axis].line) for axis in (0, 1)]
        for axis, place in zip("xy", places):
            if place > MOST_COORDINATE:
                text.refuse(place.line, "%s of %d above the least one" % (axis, place), "at most %d" % MOST_COORDINATE)
        found.append((*places, *row[2:]))
    told = " and ".join("%s by %d" % pair for pair in zip("xy", shifts) if pair[1])
    return found, [Note("some coordinates are below 0, so all are moved, %s: distances are the same" % told, ROUNDED)]


def judge_rows(text, rows, has_visits):
    """Refuses a depot with a demand or a service, a customer without a demand where there are no visits, and a window
    that is reversed."""
    for place, (_, _, demand, ready, due, service) in enumerate(rows):
        if place == 0 and demand:
            text.refuse(demand.line, "a demand of %d at the depot" % demand, "0")
        if place == 0 and service:
            text.refuse(service.line, "a service of %d at the depot" % service, "0")
        if place and not demand and not has_visits:
            text.refuse(demand.line, "a customer with a demand of 0", "a demand of 1 to %d" % MOST_DEMAND)
        if due < ready:
            text.refuse(due.line, "a due date of %d after a ready time of %d" % (due, ready),
                        "a due date that isn't before it")


def name_of(path, given, there, notes):
    """The name by the option, or that of the text, or that of the file; of at most 32 bytes and without blanks."""
    name = given or there
    if not name:
        name = os.path.splitext(os.path.basename(path))[0]
        notes.append(Note("no name of the instance stands there, so it is that of the file, %s" % quoted(name), OVER))
    fits = re.sub(r"[^\x21-\x7e]+", "_", name)[:MOST_NAME]
    if fits != name:
        notes.append(Note("the name %s becomes %s: ours has at most %d signs, all of ASCII, and no blank"
                          % (quoted(name), quoted(fits), MOST_NAME), OVER))
    return fits


def number_of(text, option, given, there, limit, notes):
    """A number by its option or that of the text; where both say different ones, that is noted."""
    what, most = limit
    if given is None and there is None:
        text.at_end("it there or by %s" % option, "the end without %s" % what)
    if given is None and not 1 <= there <= most:
        text.refuse(there.line, '"%d"' % there, "%s of 1 to %d" % (what, most))
    if given is not None and there is not None and given != there:
        notes.append("%s is %d by %s, and line %d has %d" % (what, given, option, there.line, there))
    return there if given is None else given


def with_visits(text, rows, capacity):
    """Rows and capacity where v stops have no demand: each of them has 1, the other demands are v + 1 times as high,
    and so is the capacity, with room for v more. A load of d with n such stops is (v + 1) d + n, and n is at most v: it
    is within (v + 1) C + v exactly where d is within C. Answers v + 1, too, and what is noted."""
    visits = [row for row in rows[1:] if not row[2]]
    if not visits:
        return rows, capacity, 1, []
    factor, line = len(visits) + 1, visits[0][2].line
    room = capacity * factor + len(visits)
    most = max([room, *(factor * row[2] for row in rows)])
    if most > MOST_CAPACITY:
        text.refuse(line, "%d stops without demand, which take capacity and demands %d times as high, up to %d" % (
            len(visits), factor, most), "at most %d, as with demands in coarser units" % MOST_CAPACITY)
    found = [(*row[:2], Found(factor * row[2] or int(place > 0), row[2].line), *row[3:])
             for place, row in enumerate(rows)]
    return found, room, factor, [
        "stops without demand: %d, the first in line %d. Each of them has 1, other demands are multiplied by %d, and a "
        "capacity of %d becomes %d, so loads fit exactly where they did" % (len(visits), line, factor, capacity, room)]


def capacity_of(text, quantities, read, given, fleet, notes):
    """What a vehicle holds, as loads are counted."""
    found = quantities.counted
    if found is not None:
        if found.refuses(fleet):
            holds = "1 vehicle holds" if fleet == 1 else "%d vehicles hold" % fleet
            text.at_end("less, or a vehicle more", "demands that %s, and don't fit once they are rounded to parts of "
                        "the capacity, %d of it" % (holds, found.capacity))
        return found.capacity
    capacity = number_of(text, "--capacity", given.capacity, read.capacity, CAPACITY, notes)
    capacity = capacity * (read.units.demands if read.units else 1)
    if capacity % 1 or capacity > MOST_CAPACITY:
        raise Refused("--capacity: met %s, wanted a whole number of 1 to %d here" % (
            bare(given.capacity), MOST_CAPACITY))
    return int(capacity)


def problem_of(text, quantities, read, given):
    """The problem of what was read, and what is noted; given are the options."""
    notes = list(read.notes)
    if quantities.horizon is not None:
        notes.append("there are no windows, so service may begin from %s to %s, and the depot is open as long"
                     % quantities.horizon.shown(quantities.scale))
    rows, names, renumbered = in_order(text, read)
    rows, is_moved = moved(text, rows)
    fleet = number_of(text, "--vehicles", given.vehicles, read.fleet, FLEET, notes)
    units = read.units or Units(quantities.scale, int(quantities.is_clock))
    capacity = capacity_of(text, quantities, read, given, fleet, notes)
    rows, capacity, visits, is_visited = with_visits(text, rows, capacity)
    names.units, names.separator = units.but(visits=visits), read.separator
    found = Problem(name_of(text.path, given.name, read.name, notes), fleet, capacity, rows, names)
    head = "by the rounded numbers " if quantities.off is not None else ""
    return found, [head + note for note in unservable.notes(found)] + renumbered + is_moved + notes + is_visited
