"""What changed from one day's plan to another's: who is new, gone, left out, on another vehicle, earlier or later."""
from collections import namedtuple

from reference.instances import route_cost
from tools.dialects import dialect_of, spelled
from tools.timing import stops, sums_shown

# A customer's change: what it is called, what changed, the vehicles and the moments of before and now, and its address.
Change = namedtuple("Change", "name change vehicle_before vehicle begin_before begin address")
NEW, GONE, OUT, AGAIN, OTHER = "new", "gone", "left out", "served again", "on another vehicle"
# Of whom name or place alone doesn't tell who of the other day it is.
PERHAPS = "perhaps "
# How many minutes, or units, earlier or later are told.
MINUTES = 10


class Served:
    """By customer the vehicle and the moment of service of routes."""

    def __init__(self, instance, routes, depart):
        self.at = {}
        for number, route in enumerate(routes, 1):
            self.at.update({stop.stop: (number, stop.begin) for stop in stops(instance, route, depart) if stop.stop})


class Changes:
    """The changes from a past day to a plan, whose routes are by the numbers of its own instance."""

    def __init__(self, past, instance, names, routes, depart):
        self.past, self.instance, self.names, self.routes, self.depart = past, instance, names, routes, depart
        self.before = Served(past.instance, past.routes, depart).at
        self.now = Served(instance, routes, depart).at
        self.knowing = past.carried(instance, names).knowing
        self.back = self.knowing.back

    def shift(self, before, now):
        """How much later a customer is served, in words, or nothing where that is little."""
        mine, other = (units.floor(at[i][1]) / (10 * units.scale) for units, at, i in (
            (self.names.units, self.now, now), (self.past.names.units, self.before, before)))
        far = mine - other
        if abs(far) <= MINUTES:
            return []
        return ["%g %s %s" % (round(abs(far), 1), "minutes" if self.names.units.clock else "units",
                              "later" if far > 0 else "earlier")]

    def of(self, i):
        """What changed for a customer of now."""
        before = self.back.get(i)
        if before is None:
            head = PERHAPS if i in self.knowing.perhaps_new else ""
            return [head + NEW] + ([OUT] if i not in self.now else [])
        if before not in self.before:
            return [AGAIN] if i in self.now else []
        if i not in self.now:
            return [OUT]
        is_same = self.now[i][0] == self.before[before][0]
        return ([] if is_same else [OTHER]) + self.shift(before, i)

    def cells(self, units, at, i):
        """The vehicle and the moment of a customer, as words."""
        return (str(at[i][0]), units.moment(units.floor(at[i][1]))) if i in at else ("", "")

    def rows(self):
        """The changes, those of customers of now first."""
        for i in range(1, self.instance.count + 1):
            told = self.of(i)
            if told:
                (was, begun), (vehicle, begin) = (self.cells(self.past.names.units, self.before, self.back.get(i)),
                                                  self.cells(self.names.units, self.now, i))
                yield Change(self.names.called(i), "; ".join(told), was, vehicle, begun, begin, self.names.address(i))
        names, perhaps = self.past.names, self.knowing.perhaps_gone
        for i in sorted(self.knowing.gone + perhaps):
            was, begun = self.cells(names.units, self.before, i)
            yield Change(names.called(i), (PERHAPS if i in perhaps else "") + GONE, was, "", begun, "",
                         names.address(i))

    def sums(self):
        """Rows of a word, and what it is before and now."""
        found = [sums_of(self.past.instance, self.past.routes, self.past.names.units, self.depart),
                 sums_of(self.instance, self.routes, self.names.units, self.depart)]
        return [[word, before, now] for word, before, now in zip(
            ("vehicles", "customers served", "distance, %s" % self.names.units.measure(), "duration of all"), *found)]

    def table(self):
        """The table for a spreadsheet."""
        parts = [([list(Change._fields), *map(list, self.rows())], 0), ([["", "before", "now"], *self.sums()], 3)]
        return spelled(parts, dialect_of(self.names))


def sums_of(instance, routes, units, depart):
    """How many vehicles drive, how many customers they serve, how far and how long, as words."""
    spans = [sums_shown(instance, route, units, depart).duration for route in routes]
    return [str(len(routes)), str(sum(map(len, routes))),
            units.distance(sum(route_cost(instance, route) for route in routes)), units.span(sum(spans))]
