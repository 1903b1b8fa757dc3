"""Who is served where not all can be: those of greater priority first, as many as can be, with the most demand, on the
shortest way. Tours lose some customers that lie near each other, and get them and those that are left where they
fit."""
import random
from math import log

from tools.touring import Tables, Tour, place_in, put, with_one, without

# How many customers a turn takes out at most, and from how many of a tour's neighbours the next ones are taken.
MOST_OUT, LONGEST = 16, 10
# One of so many tours isn't tried for a customer, by chance.
SKIPPED = 50
# Longer ways are taken by chance: of so many parts of a mean way one is a usual step.
PARTS = 5
# After so many turns for each customer that came to nothing better it goes on from the best one, and at last ends.
STALE, TIRED = 20, 150
# In which orders those that are out are put back, by the numbers of a customer.
ORDERS = (lambda tables, i: 0, lambda tables, i: tables.demand[i], lambda tables, i: -tables.demand[i],
          lambda tables, i: tables.due[i], lambda tables, i: tables.due[i] - tables.ready[i],
          lambda tables, i: tables.arc[0][i], lambda tables, i: -tables.arc[0][i])


def ranks_of(priorities):
    """By customer how many of the priorities that there are lie below its own; a depot's place is first."""
    order = sorted(set(priorities[1:]))
    return [0] + [order.index(one) for one in priorities[1:]]


class Choice:
    """Tours and those that are left of an instance, from routes or none, by priorities or none; who is barred is never
    served. A customer of a greater priority counts more than all below it together; among as many the demand counts,
    and then the way."""

    def __init__(self, instance, routes=(), priorities=None, barred=(), seed=1):
        self.tables, self.random = Tables(instance), random.Random(seed)
        self.ranks = ranks_of(priorities) if priorities else [0] * (instance.count + 1)
        self.many = 1 + sum(self.tables.demand)
        self.worth = [(instance.count + 1) ** rank * self.many + demand
                      for rank, demand in zip(self.ranks, self.tables.demand)]
        self.allowed = [i for i in range(1, instance.count + 1) if i not in set(barred)]
        self.near = {i: sorted(self.allowed, key=lambda j: self.tables.arc[i][j]) for i in self.allowed}
        self.mean = sum(self.tables.arc[0]) / (instance.count + 1)
        self.begin(routes)

    def begin(self, routes):
        """Takes up routes, whose customers may be few, and puts in who fits."""
        self.tours = [Tour(self.tables, list(route)) for route in routes]
        served = {i for route in routes for i in route}
        self.left = [i for i in self.allowed if i not in served]
        self.put_back()

    def order(self, customers, key):
        """Customers by rank, and then by a key."""
        return sorted(customers, key=lambda i: (-self.ranks[i], key(self.tables, i), self.random.random()))

    def put_back(self):
        """Puts in each one of those that are left that fits; answers whether one did."""
        before = len(self.left)
        self.left = [i for i in self.order(self.left, ORDERS[1]) if not put(self.tables, self.tours, i)]
        return len(self.left) < before

    def value(self, tours, left):
        """The less the better: the worth of who is left, and the way."""
        return sum(self.worth[i] for i in left), sum(tour.cost for tour in tours)

    def routes(self):
        return [tour.stops for tour in self.tours]

    def search(self, is_over):
        """Looks for better tours until it is over, nobody is left, or long nothing came."""
        best = now = self.value(self.tours, self.left)
        kept, count, stale = (list(self.tours), list(self.left)), max(1, len(self.allowed)), 0
        while self.left and stale < TIRED * count and not is_over():
            tours, left = self.turned()
            value = self.value(tours, left)
            stale += 1
            if self.takes(value, now):
                self.tours, self.left, now = tours, left, value
            if value < best:
                best, kept, stale = value, (list(tours), list(left)), 0
            elif stale % (STALE * count) == 0:
                self.tours, self.left, now = *map(list, kept), best
        self.tours, self.left = kept
        self.exchange(is_over)

    def takes(self, value, now):
        """Whether tours are gone on from: as many of the same worth do, and the way may be longer by chance."""
        mine, other = value[0] // self.many, now[0] // self.many
        return mine < other or mine == other and (
            value[1] <= now[1] - log(1 - self.random.random()) * self.mean / PARTS)

    def turned(self):
        """Tours and who is left after one turn."""
        tours, out = self.ruined(list(self.tours))
        key = self.random.choice(ORDERS)
        left = [i for i in self.order(self.left + out, key)
                if not put(self.tables, tours, i, lambda: self.random.randrange(SKIPPED) == 0)]
        return tours, left

    def ruined(self, tours):
        """Tours without some customers that lie near each other, and these; of each tour some in a row."""
        at, out, done = {i: k for k, tour in enumerate(tours) for i in tour.stops}, [], set()
        most = self.random.randint(1, max(1, min(MOST_OUT, len(at) // 2)))
        for i in self.near[self.random.choice(self.allowed)]:
            if len(out) >= most:
                break
            if i not in at or at[i] in done:
                continue
            done.add(at[i])
            stops = tours[at[i]].stops
            long = self.random.randint(1, min(LONGEST, len(stops), most - len(out)))
            first = max(0, min(stops.index(i) - self.random.randrange(long), len(stops) - long))
            out += stops[first:first + long]
            tours[at[i]] = Tour(self.tables, stops[:first] + stops[first + long:])
        return [tour for tour in tours if tour.stops], out

    def exchange(self, is_over):
        """Exchanges one that is served for one or two that are left as long as that is better."""
        while not is_over() and (self.put_back() or self.exchanged(is_over)):
            pass

    def exchanged(self, is_over):
        """Makes the first exchange that is better; answers whether there is one."""
        for k, gone in [(k, i) for k, tour in enumerate(self.tours) for i in tour.stops]:
            if is_over():
                return False
            rest = without(self.tables, self.tours[k], {gone})
            found = self.better(rest, gone, self.tours[k].cost)
            if found:
                self.tours[k], came = found
                self.left = [i for i in self.left if i not in came] + [gone]
                return True
        return False

    def better(self, rest, gone, cost):
        """A tour in which one or two of those that are left are in the place of one that is gone, and these; None where
        none is better."""
        fit = [(self.worth[i], i, place) for i in self.left for place in [place_in(self.tables, rest, i)] if place]
        for worth, i, (more, place) in sorted(fit, key=lambda one: (-one[0], one[2])):
            if (-worth, rest.cost + more) < (-self.worth[gone], cost):
                return with_one(self.tables, rest, i, place), {i}
        return self.two_better(rest, gone, [(i, place) for _, i, (_, place) in fit])

    def two_better(self, rest, gone, fit):
        """The same with two of those that fit alone."""
        for i, place in fit:
            tour = with_one(self.tables, rest, i, place)
            found = [(-self.worth[j], other, j) for j, _ in fit if j != i
                     and self.worth[i] + self.worth[j] > self.worth[gone]
                     for other in [place_in(self.tables, tour, j)] if other]
            if found:
                _, (_, place), j = min(found)
                return with_one(self.tables, tour, j, place), {i, j}
        return None
