"""Prices of customers and sets that raise the value of a root: the reference prices routes, a linear program weighs
those that were met, and its flow tells which sets are entered too seldom. Only values that the reference finds of whole
prices count."""
import random as randomness

from reference.bounding import PricedSet, Region, leaf_grains
from reference.instances import route_cost, walk
from reference.needs import entries
from reference.pricing import Pricing, TooMany
from reference.set_texts import MOST_SETS, ListedSet, SetCertificate
from reference.texts import MOST_PRICE
from tools.separating import Separating
from tools.simplex import Program

# How near the program's cost has to come to the value, in tenths; how many routes of a pricing are looked at and taken.
NEAR, MOST_LOOKED_AT, MOST_TAKEN = 0.002, 300, 30
# What part of the way from the program's prices to the best ones is tried, one after the other until a route is taken.
PARTS = (0.7, 0.3, 0.0)


class Prices:
    """Prices of the customers and of the sets by their place, in grains."""

    def __init__(self, customers, sets):
        self.customers, self.sets = customers, sets

    def mixed(self, best, part):
        """Prices part of the way to the best ones, which may be of fewer sets."""
        def mix(own, other):
            other = other + [0] * (len(own) - len(other))
            return [round((1 - part) * a + part * b) for a, b in zip(own, other)]
        return Prices(mix(self.customers, best.customers), mix(self.sets, best.sets))

    def are_in_range(self):
        """Whether a leaf may have them."""
        return sum(self.sets) + max(map(abs, self.customers)) <= MOST_PRICE


def stops_of(linked):
    """A route's stops in order, by those of its label."""
    stops = []
    while linked:
        stop, linked = linked
        stops.append(stop)
    return tuple(reversed(stops))


class Raising:
    """The work at the root of an instance. The rows of the program are the customers, the fleet's two sides and the
    sets. Raises TooMany where no prices have a value at all."""

    def __init__(self, instance, neighbours, seed, is_over):
        self.instance, self.neighbours, self.is_over = instance, neighbours, is_over
        self.pricing, self.region = Pricing(instance, neighbours, 2), Region(instance.count)
        self.separating = Separating(instance, randomness.Random(seed))
        # The sets with their needs, and the column of each route by its stops.
        self.sets, self.columns = [], {}
        self.program = Program(4 * max(map(max, instance.arc)) + 1000)
        for right, slack in instance.count * [(1, 0)] + [(instance.fleet, 1), (instance.fewest_routes(), -1)]:
            self.program.add_row(right, slack, [])
        self.best, self.grains = None, None
        self.find_value(Prices(instance.count * [0], []))
        for i in range(1, instance.count + 1):
            if walk(instance, [i]):
                self.add((i,))

    def priced(self, prices):
        """The sets that have a price, as a leaf has them."""
        return tuple(PricedSet(number, *self.sets[number - 1], price)
                     for number, price in enumerate(prices.sets, 1) if price > 0)

    def find_value(self, prices):
        """Finds the value of prices, and keeps them where it is the best one in range. Answers the routes that were met, the
        cheapest ones first."""
        priced = self.priced(prices)
        least, routes = self.pricing.cheapest(self.region, prices.customers, priced)
        grains = leaf_grains(self.instance, prices.customers, priced, 2, least)
        if self.grains is None or grains > self.grains and prices.are_in_range():
            self.best, self.grains = prices, grains
        return [stops_of(linked) for _, linked in sorted(routes)[:MOST_LOOKED_AT]]

    def rows(self, stops):
        """The coefficients of a route: its visits, itself on both sides of the fleet, and its entries."""
        count = self.instance.count
        found = {i - 1: stops.count(i) for i in stops}
        found.update({count: 1, count + 1: 1})
        for row, (customers, _) in enumerate(self.sets, count + 2):
            times = entries(customers, stops)
            if times:
                found[row] = times
        return found

    def add(self, stops):
        """Adds a route to the program where it is new and costs less than what the program's prices pay for it; answers
        whether it does."""
        cost, rows = route_cost(self.instance, list(stops)), self.rows(stops)
        paid = sum(times * self.program.prices[row] for row, times in rows.items())
        if stops in self.columns or cost > paid - NEAR / 2:
            return False
        self.columns[stops] = self.program.add_column(cost, rows)
        return True

    def of_program(self):
        """The program's prices in grains."""
        grains = [max(-MOST_PRICE, min(MOST_PRICE, round(1000 * price))) for price in self.program.prices]
        return Prices(grains[:self.instance.count], [max(0, price) for price in grains[self.instance.count + 2:]])

    def raise_value(self):
        """Raises the value with the sets that there are, until no route that is met lowers the program's cost."""
        while not self.is_over():
            cost = self.program.solve()
            if self.program.lacking() < NEAR and cost - self.grains / 1000 < NEAR:
                return
            own = self.of_program()
            if not any(self.take(own.mixed(self.best, part)) for part in PARTS):
                return

    def take(self, prices):
        """Finds the value of some prices, and takes routes that were met into the program; answers whether it took
        any."""
        try:
            found = self.find_value(prices)
        except TooMany:
            return False
        taken = 0
        for stops in found:
            taken += taken < MOST_TAKEN and self.add(stops)
        return taken > 0

    def add_sets(self):
        """Adds sets that the program's routes enter too seldom; answers whether there are any."""
        share = {id(column): value for column, value in zip(self.program.basis, self.program.values)}
        flow = [(share[id(column)], stops) for stops, column in self.columns.items() if share.get(id(column), 0) > NEAR]
        found = self.separating.sets(flow)[:MOST_SETS - len(self.sets)]
        for customers, needs in found:
            self.sets.append((customers, needs))
            self.program.add_row(needs, -1, [(column, entries(customers, stops))
                                             for stops, column in self.columns.items()])
        return bool(found)

    def rounds(self, most, cost, tell):
        """Raises the value, then adds sets and raises it again, so many times at most: until it is the cost of a plan,
        no set is found, or the work is over."""
        for number in range(most + 1):
            self.raise_value()
            tell(number)
            if self.bound() == cost or number == most or self.is_over() or not self.add_sets():
                return

    def bound(self):
        """The best value in tenths."""
        return min(self.instance.ceiling() + 1, max(0, -(-self.grains // 1000)))

    def certificate(self):
        """The best prices as a certificate, with the sets that have one."""
        kept = self.priced(self.best)
        priced = tuple(one._replace(number=number) for number, one in enumerate(kept, 1))
        sets = [ListedSet(one.need, tuple(sorted(one.customers))) for one in kept]
        return SetCertificate(self.instance.name, self.instance.count, self.neighbours, self.bound(), sets,
                              ("P", self.best.customers, priced))
