"""How far an instance is from the table that it was made of, where ways were rounded: the error of a plan's cost, and
what a bound of the instance says of the table."""
from fractions import Fraction
from functools import cached_property
from heapq import nlargest
from itertools import accumulate

from reference.instances import plan_cost
from tools.globe import on_globe
from tools.units import units_of

# How often prices fall.
SWEEPS = 5
# So many kilometres more than the arithmetic of ways on the globe is off.
FINE = 1e-6
# The parts of their own length that ways may be too long by, whatever a plan's cost: one of them gives the best bound.
PARTS = (0.0, *(0.5 ** step for step in range(11, 4, -1)))
# A tenth of a unit, to which ways are cut.
CUT = Fraction(1, 10)


def apart_of(instance, names):
    """How far an instance is from its table; None where it has the table's numbers."""
    units = units_of(names)
    if units.speed is None:
        return Flat(instance, units) if units.off is not None else None
    places = [names.place(i) for i in range(instance.count + 1)]
    is_known = units.detour is not None and None not in places
    return Laid(instance, units, places) if is_known else Apart(instance, units, "map")


class Apart:
    """An instance of rounded numbers whose errors aren't known; what it is called."""

    def __init__(self, instance, units, called):
        self.instance, self.units, self.called = instance, units, "the rounded " + called

    def off(self, routes):
        """By how much the cost of routes, as it is shown, is off at most; None where that isn't known."""
        return None

    def least(self, bound):
        """What every plan that the instance allows drives at least by the table, or None."""
        return None

    def told_off(self, routes):
        """The error in words, as a part of a sentence, or nothing."""
        off = self.off(routes)
        return "" if off is None else "at most %s %s off" % (self.cut(off, True), self.units.measure())

    def cut(self, way, is_up):
        return self.units.cut(Fraction(way), is_up)

    def shown(self, tenths):
        return Fraction(self.units.distance(tenths))

    def told(self, routes, bound, whose=""):
        """What a bound says of the table, in a sentence, and of how much more routes drive; nothing where that isn't
        known. It may be of some plans, as those with few vehicles."""
        least = self.least(bound) if bound else None
        if least is None or least <= 0:
            return ""
        told = "By your table no plan%s that %s allow%s is shorter than %s %s" % (
            whose, self.called, "" if self.called.endswith("s") else "s", self.cut(least, False), self.units.measure())
        if routes is not None:
            more = self.shown(plan_cost(self.instance, routes)) + Fraction(self.off(routes)) - Fraction(least)
            told += ", so this one is at most %s %s longer than the best of them" % (
                self.cut(max(more, 0), True), self.units.measure())
        return told + "."


class Flat(Apart):
    """On a map of the table's own each way is off by as much at most, and no more too long than without the cut."""

    def __init__(self, instance, units):
        super().__init__(instance, units, "numbers")

    def off(self, routes):
        cost, ways = plan_cost(self.instance, routes), sum(len(route) + 1 for route in routes)
        return ways * self.units.off / self.units.scale + abs(self.shown(cost) - self.units.way(cost))

    def least(self, bound):
        instance = self.instance
        ways = instance.count + min(instance.fleet, instance.count)
        return self.units.way(bound) - ways * (self.units.off - CUT) / self.units.scale


class Laid(Apart):
    """Places of the globe, laid out flat: each way is known on both."""

    def __init__(self, instance, units, places):
        super().__init__(instance, units, "map")
        self.detour, self.way, self.places = float(units.detour), float(units.way(1)), places
        # By the part of its own length that a way may be too long by.
        self.found = {}

    def real(self, i, j):
        """The kilometres of a way by the table."""
        return self.detour * on_globe(self.places[i], self.places[j])

    def off(self, routes):
        real = sum(self.real(i, j) for route in routes for i, j in zip([0, *route], [*route, 0]))
        return abs(float(self.shown(plan_cost(self.instance, routes))) - real) + FINE

    def least(self, bound):
        whole, found = float(self.units.way(bound)), []
        for part in PARTS:
            if part not in self.found:
                self.found[part] = self.most(part)
            found.append((1 - part) * whole - self.found[part] - FINE)
            if found[-1] < max(found):
                break
        return max(found)

    @cached_property
    def homes(self):
        """Of the way between the depot and each customer its kilometres, and those by the table."""
        return [(self.way * self.instance.arc[0][i], self.real(0, i)) for i in range(1, self.instance.count + 1)]

    @cached_property
    def pairs(self):
        """The same of each two customers that may stand side by side in a route, by time and by what a vehicle holds:
        for each one the others with both."""
        rows, arc, found = self.instance.rows, self.instance.arc, [[] for _ in self.instance.rows]
        for i, (_, _, load, ready, due, service) in enumerate(rows):
            for j, (_, _, other, opens, shuts, takes) in enumerate(rows[:i]):
                way, free = arc[i][j], load + other <= self.instance.capacity
                if j and free and (ready + service + way <= shuts or opens + takes + way <= due):
                    pair = self.way * way, self.real(i, j)
                    found[i].append((j, *pair))
                    found[j].append((i, *pair))
        return found

    def most(self, part):
        """The most by which the ways of a plan are too long together, less a part of their own length. Each customer
        has a price, and no way between two of them is too long by more than both prices: so a plan is by each price
        twice, and by what the ways of the depot are too long by more than one price. From half of the most on, prices
        fall in turn."""
        more = [[(j, (1 - part) * way - real) for j, way, real in row] for row in self.pairs[1:]]
        homes, found = [(1 - part) * way - real for way, real in self.homes], []
        prices = [0.0, *(max([own for _, own in row], default=home) / 2 for row, home in zip(more, homes))]
        for _ in range(SWEEPS):
            own = [home - price for home, price in zip(homes, prices[1:])]
            sums = list(accumulate(nlargest(min(self.instance.fleet, len(own)), own)))
            found.append(2 * (sum(prices) + max(sums[min(self.instance.fewest_routes(), len(sums)) - 1:])))
            for i, row in enumerate(more, 1):
                if row:
                    prices[i] = (prices[i] + max([over - prices[j] for j, over in row])) / 2
        return min(found)
