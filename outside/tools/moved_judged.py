"""What is wrong with a plan that was moved by hand, and what it takes."""
from fractions import Fraction

from reference.instances import route_cost
from tools.apart import apart_of
from tools.loads import as_there
from tools.names import Names
from tools.timing import EARLY, leaving, walked
from tools.tool import listed
from tools.units import units_of

HEADING = ("vehicle", "stops", "load", "distance", "leaves", "back")


class Judged:
    """The routes of a moved plan, judged: each late stop by an earliest start, loads, who is missing or doubled."""

    def __init__(self, instance, names, moved, depart):
        self.instance, self.routes, self.depart, self.units = instance, moved.routes, depart, units_of(names)
        self.apart, self.there = apart_of(instance, names), as_there(instance, names)
        self.names = names or Names([str(i) for i in range(instance.count + 1)])
        self.vehicles = {}
        for called, route in self.routes:
            for i in route:
                self.vehicles.setdefault(i, []).append(called)

    def is_whole(self):
        """Whether each customer is served once."""
        return sorted(i for _, route in self.routes for i in route) == list(range(1, self.instance.count + 1))

    def is_plan(self):
        return not self.wrong()

    def cost(self):
        return sum(route_cost(self.instance, route) for _, route in self.routes)

    def wrong(self):
        """A line for each thing that is wrong."""
        found = [line for called, route in self.routes for line in self.wrong_of(called, route)]
        missing = [self.names.told(i) for i in range(1, self.instance.count + 1) if i not in self.vehicles]
        found += ["not served: %s" % listed(missing)] if missing else []
        found += ["%s is served %d times, by %s" % (self.names.told(i), len(called), listed(called))
                  for i, called in sorted(self.vehicles.items()) if len(called) > 1]
        more = len(self.routes) - self.instance.fleet
        return found + (["%d vehicles drive, and there are %d" % (len(self.routes), self.instance.fleet)]
                        if more > 0 else [])

    def wrong_of(self, called, route):
        """What is wrong with a vehicle: its load, and each stop that is late though it leaves when the depot opens."""
        instance, units = self.instance, self.units
        load, there = sum(map(self.there.demand, route)), self.there
        if sum(map(instance.demand, route)) > instance.capacity:
            by = "" if load > there.capacity else ", which its rounded loads fill"
            yield "vehicle %s carries %s, and holds %s%s" % (called, units.load(load), units.load(there.capacity), by)
        for stop in walked(instance, route, leaving(instance, route, EARLY)):
            if stop.slack < 0:
                begin, due = units.floor(stop.begin), units.floor(stop.begin + stop.slack)
                yield "vehicle %s is at %s at %s, %s after %s" % (
                    called, self.names.told(stop.stop) if stop.stop else "the depot", units.moment(begin),
                    units.span(begin - due), units.moment(due))

    def rows(self):
        """What each vehicle takes, and all."""
        instance, units, rows = self.instance, self.units, []
        for called, route in self.routes:
            leaves = leaving(instance, route, self.depart)
            rows.append([called, "%d" % len(route), units.load(sum(map(self.there.demand, route))),
                         units.distance(route_cost(instance, route)), units.moment(units.floor(leaves)),
                         units.moment(units.floor(walked(instance, route, leaves)[-1].end))])
        whole = [i for _, route in self.routes for i in route]
        return rows + [["plan", "%d" % len(whole), units.load(sum(map(self.there.demand, whole))),
                        units.distance(self.cost()), "", ""]]

    def compared(self, best, routes):
        """How much farther all drive than in the best plan, and by how much that is off at most."""
        cost, units = self.cost(), self.units
        offs = [self.apart.off(own) for own in (routes, [own for _, own in self.routes])] if self.apart else [None]
        # Both costs and their difference are rounded where they are shown, each by half of the last digit.
        off = "" if None in offs else ", at most %s %s off" % (
            self.apart.cut(sum(map(Fraction, offs)) + units.last() * 3 / 2, True), units.measure())
        if cost == best:
            return "as far as the best plan" + off
        return "%s %s %s than the best plan, which has %s (%.1f %%)%s" % (
            units.distance(abs(cost - best)), units.measure(), "more" if cost > best else "less",
            units.distance(best), 100 * abs(cost - best) / best if best else 0, off)

    def told(self, best, routes):
        """All of it: the verdict, a table of vehicles, and the comparison with cost and routes of the best plan, or
        None."""
        wrong = self.wrong()
        head = ["no plan: %d thing%s wrong" % (len(wrong), " is" if len(wrong) == 1 else "s are")] if wrong else ["a plan"]
        rows = [list(HEADING)] + self.rows()
        widths = [max(map(len, column)) + 2 for column in zip(*rows)]
        table = ["".join(word.rjust(width) for word, width in zip(row, widths)).rstrip() for row in rows]
        compared = [] if best is None else ["", self.compared(best, routes)]
        return "\n".join([*head, *wrong, "", *table, *compared, ""])
