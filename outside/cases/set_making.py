"""Sound certificates with sets of any instance, of as many sets and leaves as are asked for. Any sets and any prices
are sound, so all are drawn by a seed; the bound is that of the leaves' values, which the reference finds."""
import random as randomness

from cases.random_texts import arcs_of
from cases.set_cases import drawn_set, near
from reference.bounding import PricedSet, Region
from reference.needs import MOST_TIMED, need
from reference.pricing import Pricing, TooMany
from reference.set_texts import ListedSet, SetCertificate

# How many sets are drawn for one that needs two vehicles by time alone, and how many customers other sets have at most.
TRIES, MOST_CUSTOMERS = 30, 40
# How many labels a leaf may have before its prices are halved.
MOST_LABELS = 20_000


def made_certificate(instance, seed, sets, leaves, neighbours):
    """A certificate with so many sets, where there are two customers, and with so many leaves, which the arcs allow.

    Each third set needs two vehicles by time where one is found, each fourth is told to need less than it does where it
    can, each fifth has no price at any leaf, and so have all at each third leaf.
    """
    random = randomness.Random("%d sets" % seed)
    listed = [listed_set(random, instance, number) for number in range(sets if instance.count > 1 else 0)]
    making = Making(random, instance, listed, neighbours)
    tree = making.tree(Region(instance.count), arcs_of(instance.count), leaves)
    return SetCertificate(instance.name, instance.count, neighbours, min(making.values), listed, tree)


def most_leaves(count):
    """How many leaves the arcs of so many customers allow, or a million."""
    return 1 << min(count * (count + 1), 20)


def listed_set(random, instance, number):
    """The set of this number, counted from 0, with a need that is told."""
    customers = late_set(random, instance) if number % 3 == 0 else None
    if customers is None and random.randrange(2):
        customers = drawn_set(random, instance.count, MOST_CUSTOMERS)
    customers = customers or near_set(random, instance)
    needs = need(instance, customers)
    return ListedSet(random.randint(1, needs - 1) if number % 4 == 3 and needs > 1 else needs, customers)


def near_set(random, instance):
    """A customer and some of those that are next to it."""
    first, size = random.randint(1, instance.count), random.randint(2, min(instance.count, MOST_CUSTOMERS))
    others = sorted(range(1, instance.count + 1), key=lambda i: (i != first, instance.arc[first][i], i))
    return tuple(sorted(others[:size]))


def late_set(random, instance):
    """A set that fits into one vehicle, which hasn't time for all of it; None where none is found soon."""
    for _ in range(TRIES):
        size = random.randint(2, min(instance.count, MOST_TIMED - 2))
        customers = tuple(sorted(random.sample(range(1, instance.count + 1), size)))
        if sum(instance.demand(i) for i in customers) <= instance.capacity and need(instance, customers) == 2:
            return customers
    return None


class Making:
    """The tree of a certificate at work, with the values of the leaves that it has."""

    def __init__(self, random, instance, sets, neighbours):
        self.random, self.instance, self.sets = random, instance, sets
        self.pricing, self.values = Pricing(instance, neighbours, 2, MOST_LABELS), []

    def tree(self, region, arcs, leaves):
        """A tree of so many leaves below a region, split by arcs that aren't decided."""
        if leaves == 1:
            return self.leaf(region)
        arc = self.random.choice(arcs)
        rest, most = [other for other in arcs if other != arc], 1 << min(len(arcs) - 1, 20)
        used = self.random.randint(max(1, leaves - most), min(leaves - 1, most))
        return ("S", arc, self.tree(region.used(arc), rest, used), self.tree(region.unused(arc), rest, leaves - used))

    def leaf(self, region):
        """A leaf with drawn prices, which are halved until its value is found and above 0, or none is left."""
        prices, priced = self.drawn()
        value = self.pricing.value(region, prices, priced)
        while not value and (any(prices) or priced):
            prices = [int(price / 2) for price in prices]
            priced = tuple(one._replace(price=one.price // 2) for one in priced if one.price > 1)
            value = self.pricing.value(region, prices, priced)
        if value is None:
            raise TooMany
        self.values.append(value)
        return "P", prices, priced

    def drawn(self):
        """Prices of the customers by their ways, and of some sets by that of their furthest one."""
        random, instance = self.random, self.instance
        far = [1000 * (instance.arc[0][i] + instance.arc[i][0]) for i in range(1, instance.count + 1)]
        part = random.choice([1, 2, 4])
        prices = [near(random, grains // part) for grains in far]
        if len(self.values) % 3 == 1:
            return prices, ()
        return prices, tuple(
            PricedSet(number, frozenset(one.customers), one.need,
                      max(1, near(random, max(far[i - 1] for i in one.customers) // part)))
            for number, one in enumerate(self.sets, 1) if number % 5 and random.randrange(3))
